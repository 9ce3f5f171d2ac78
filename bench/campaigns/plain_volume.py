"""A reader and a writer of volumes of versions 1, 2 and 4, written from `docs/VOLUME.md` alone. They share no line with the program or the
tools.

    python3 bench/campaigns/plain_volume.py read VOLUME                          prints what `sandbox check` has to print
    python3 bench/campaigns/plain_volume.py format VOLUME VERSION SECTORS SLOTS  makes an empty volume
    python3 bench/campaigns/plain_volume.py worked VOLUME                        makes one of version 4 with a worked file of each level
"""
import collections
import hashlib
import mmap
import os
import struct
import sys

SECTOR, LOG, SLOTS = 512, 120, 122  # bytes of a sector, images of the log, the sector of the first slot
MAGIC, DIRECTORY, FILE = b"WASMVOLU", 3, 4
NUMBERS = 128  # of a pointer sector
Limits = collections.namedtuple("Limits", "sectors slots size")
LIMITS = {1: Limits(65_536, 8_192, 95_232), 2: Limits(65_536, 8_192, 8_483_840), 4: Limits(16_777_216, 1_048_576, 1_082_225_664)}
# of each pointer: how many pointer sectors lie between it and a block, and the first block that it leads to
LEVELS = [*((0, k) for k in range(58)), (1, 58), (2, 186), (3, 16_570)]
ZEROS = bytes(SECTOR)


def up(a, b):
    return -(-a // b)


def need(size):
    """The data sectors that a file of so many bytes needs ("Space")."""
    blocks = up(size, SECTOR)
    if blocks <= 58:
        return blocks
    if blocks <= 186:
        return blocks + 1
    double = up(blocks - 186, 16_384) if blocks > 16_570 else 0
    return blocks + 2 + up(blocks - 186, 128) + double


def path_of(block):
    """The pointer that leads to a block, and the number in each pointer sector on the way ("File")."""
    if block < 58:
        return (block,)
    for pointer in (58, 59, 60):
        level, first = LEVELS[pointer]
        rest = block - first
        if rest < NUMBERS**level:
            return (pointer, *(rest // NUMBERS**k % NUMBERS for k in reversed(range(level))))
    raise ValueError(f"block {block}")


def is_name(raw):
    """Whether these bytes may be an entry's name."""
    try:
        raw.decode()
    except UnicodeDecodeError:
        return False
    return 1 <= len(raw) <= 255 and raw not in (b".", b"..") and b"/" not in raw and b"\0" not in raw


class Entry:
    def __init__(self, serial, raw):
        self.serial, self.kind, self.raw = serial, raw[0], raw
        self.parent, self.size = struct.unpack_from("<II", raw, 4)
        self.name, self.pointers = raw[12 : 12 + raw[1]], struct.unpack_from("<61I", raw, 268)
        self.blocks = up(self.size, SECTOR) if raw[0] == FILE else 0

    @property
    def sector(self):
        return SLOTS + self.serial - 1


class Reading:
    """A volume's bytes, read by the page. `fault` is 0, 30, 31 or 32, and `broken` has each rule that is broken, with its sector or None."""

    def __init__(self, data):
        self.data, self.count, self.images = data, len(data) // SECTOR, {}
        self.broken, self.entries, self.fault = set(), {}, 0
        self.read()
        if self.broken:
            self.fault = 32

    def __getitem__(self, number):
        """The bytes of a sector, with the log's images put in place."""
        return self.images.get(number) or bytes(self.data[SECTOR * number : SECTOR * (number + 1)])

    def read(self):
        head = self[0] if self.count else b""
        if self.count < 137 or head[:8] != MAGIC:
            self.fault = 30
            return
        self.version, self.sectors, self.slots = struct.unpack_from("<III", head, 8)
        if self.version not in LIMITS:
            self.fault = 31
            return
        self.limits, self.first = LIMITS[self.version], SLOTS + self.slots
        if not (137 <= self.sectors <= self.limits.sectors and 1 <= self.slots <= self.limits.slots and self.first < self.sectors) or any(head[20:]):
            self.broken.add(("superblock", 0))
        if self.sectors > self.count:
            self.broken.add(("device", 0))
        if not self.broken:
            self.read_header()
        if not self.broken:
            self.read_slots()
            self.read_parents()
            self.read_files()

    def read_header(self):
        header = self[1]
        count = struct.unpack_from("<I", header)[0]
        numbers = struct.unpack_from(f"<{min(count, LOG)}I", header, 4)
        rest = header[4 + 4 * len(numbers) :]
        if count > LOG or any(rest) or len(set(numbers)) < len(numbers) or not all(SLOTS <= it < self.sectors for it in numbers):
            self.broken.add(("header", 1))
            return
        self.images = {number: bytes(self.data[SECTOR * (2 + k) : SECTOR * (3 + k)]) for k, number in enumerate(numbers)}

    def read_slots(self):
        for slot in range(self.slots):
            raw = self[SLOTS + slot]
            if raw != ZEROS:
                it = self.entries[slot + 1] = Entry(slot + 1, raw)
                self.broken.update((rule, it.sector) for rule in self.rules_of(it))
        if 1 not in self.entries:
            self.broken.update((("root", SLOTS), ("root serial", SLOTS)))

    def rules_of(self, it):
        """The rules on the bytes of an entry alone that are broken."""
        raw, length = it.raw, it.raw[1]
        if it.kind not in (DIRECTORY, FILE):
            yield "kind"
        if it.serial == 1:
            if it.kind != DIRECTORY or length:
                yield "root"
            if it.parent:
                yield "root serial"
            if length or it.parent:  # what has a parent needs a name, and what has none may have none
                yield "name"
        else:
            if not is_name(it.name):
                yield from ("name",) if length else ("name", "root", "root serial")
            if not it.parent:
                yield from ("root", "root serial", "parent")
        if any(raw[2:4]) or any(raw[12 + length : 268]):
            yield "zeros"
        if it.pointers[60] and self.version != 4:
            yield "zeros"
        if it.size > (0 if it.kind == DIRECTORY else self.limits.size):
            yield "size"
        if any(number for number, (_, first) in zip(it.pointers, LEVELS) if it.blocks <= first):
            yield "past"

    def read_parents(self):
        names = {}
        for it in self.entries.values():
            if it.serial == 1:
                continue
            above = self.entries.get(it.parent)
            if it.parent and (above is None or above.kind != DIRECTORY):
                self.broken.add(("parent", it.sector))
            other = names.setdefault((it.parent, it.name), it)
            if other is not it:
                self.broken.update((("same name", it.sector), ("same name", other.sector)))
        leads = {1}
        for it in self.entries.values():
            way, at = [], it.serial
            while at not in leads and at in self.entries and at not in way:
                way.append(at)
                at = self.entries[at].parent
            if at in leads:
                leads.update(way)
            elif at in way:
                self.broken.add(("ancestors", None))

    def read_files(self):
        self.named = bytearray(self.sectors)
        self.needs = 0
        for it in self.entries.values():  # by rising serial
            if it.kind == FILE:
                before, self.needs = self.needs, self.needs + need(it.size)
                if before <= self.sectors - self.first < self.needs:
                    self.broken.add(("space", it.sector))
                self.read_file(it)

    def read_file(self, it):
        for number, (level, first) in zip(it.pointers, LEVELS):
            if number and it.blocks > first:
                self.follow(it, number, level, first)

    def is_data_sector(self, it, number):
        """Whether a pointer or number that isn't 0 is that of a data sector, which it then names."""
        if not self.first <= number < self.sectors:
            self.broken.add(("pointer", it.sector))
            return False
        if self.named[number]:
            self.broken.add(("twice", number))
        self.named[number] = 1
        return True

    def follow(self, it, number, level, first):
        """Reads what a number names: the block `first`, or a pointer sector that leads to the blocks from there on."""
        if not self.is_data_sector(it, number):
            return
        if level == 0:
            if first == it.blocks - 1 and it.size % SECTOR and any(self[number][it.size % SECTOR :]):
                self.broken.add(("last", it.sector))
            return
        step = NUMBERS ** (level - 1)
        for k, inner in enumerate(struct.unpack("<128I", self[number])):
            if not inner:
                continue
            if it.blocks <= first + k * step:
                self.broken.add(("past", it.sector))
            else:
                self.follow(it, inner, level - 1, first + k * step)

    def blocks_of(self, it):
        """The blocks of a file that were written, in order, each with its sector."""
        def below(number, level, first):
            if level == 0:
                yield first, number
                return
            step = NUMBERS ** (level - 1)
            for k, inner in enumerate(struct.unpack("<128I", self[number])):
                if inner:
                    yield from below(inner, level - 1, first + k * step)

        for number, (level, first) in zip(it.pointers, LEVELS):
            if number:
                yield from below(number, level, first)

    def pieces(self, it):
        """The bytes of a file, a block or a run of blocks that were never written at a time."""
        at = 0
        for block, sector in self.blocks_of(it):
            while at < block:  # in pieces, for a hole may have a gigabyte
                count = min(block - at, 2_048)
                yield bytes(SECTOR * count)
                at += count
            yield self[sector][: it.size - SECTOR * block]
            at = block + 1
        while at < it.blocks:
            count = min(it.blocks - at, 2_048)
            yield bytes(min(SECTOR * count, it.size - SECTOR * at))
            at += count

    def content(self, it):
        return b"".join(self.pieces(it))

    def digest(self, it):
        found = hashlib.sha256()
        for piece in self.pieces(it):
            found.update(piece)
        return found.hexdigest()

    def paths(self):
        """Each entry but the root by its path, of a volume that is right."""
        found = {1: b""}

        def path(serial):
            way = []
            while serial not in found:
                way.append(serial)
                serial = self.entries[serial].parent
            for it in reversed(way):
                found[it] = found[serial] + b"/" + self.entries[it].name if serial != 1 else self.entries[it].name
                serial = it
            return found[serial]

        return {path(serial).decode(): it for serial, it in self.entries.items() if serial != 1}

    def tree(self):
        """Paths, each with None for a directory or its bytes."""
        return {path: None if it.kind == DIRECTORY else self.content(it) for path, it in self.paths().items()}

    def line(self):
        """What `sandbox check` prints."""
        return f"version {self.version}, entries {len(self.entries)} of {self.slots}, sectors {self.needs} of {self.sectors - self.first}"


class Writer:
    """A volume that is laid out, sector by sector: those that aren't zeros. `sectors` is what the superblock says."""

    def __init__(self, version, sectors, slots):
        self.sectors, self.slots, self.next, self.serial = sectors, slots, SLOTS + slots, 1
        self.written = {0: superblock(version, sectors, slots)}
        self.add(entry(DIRECTORY, b"", 0))

    def add(self, raw):
        """Puts an entry into the next slot, and gives its serial."""
        self.written[SLOTS + self.serial - 1] = raw
        self.serial += 1
        return self.serial - 1

    def take(self, content=ZEROS):
        number, self.next = self.next, self.next + 1
        self.written[number] = content.ljust(SECTOR, b"\0")
        return number

    def directory(self, name, parent=1):
        return self.add(entry(DIRECTORY, name, parent))

    def file(self, name, size, blocks, parent=1):
        """A file with some of its blocks, each 512 bytes or fewer; the others are never written. The sectors are taken in the order of the blocks,
        a pointer sector before what it names."""
        pointers, inner = [0] * 61, {}

        def put(way, number):
            """Puts a number where a way leads, by pointer sectors that are taken as they are needed."""
            if len(way) == 1:
                pointers[way[0]] = number
                return
            above = way[:-1]
            if above not in inner:
                inner[above] = [self.take(), [0] * NUMBERS]
                put(above, inner[above][0])
            inner[above][1][way[-1]] = number

        for block in sorted(blocks):
            way = path_of(block)
            if len(way) > 1:
                put(way, 0)
            put(way, self.take(blocks[block]))
        for sector, numbers in inner.values():
            self.written[sector] = struct.pack("<128I", *numbers)
        return self.add(entry(FILE, name, parent, size, pointers))

    def whole(self, name, content, parent=1):
        """A file with all of its blocks written."""
        blocks = {k: content[SECTOR * k : SECTOR * (k + 1)] for k in range(up(len(content), SECTOR))}
        return self.file(name, len(content), blocks, parent)

    def image(self, device=None):
        """All bytes, as a device of so many sectors."""
        it = bytearray(SECTOR * (device or self.sectors))
        for number, content in self.written.items():
            it[SECTOR * number : SECTOR * (number + 1)] = content
        return bytes(it)

    def save(self, path, device=None):
        """Writes the volume into a new file, with holes where nothing is written."""
        with open(path, "wb") as file:
            file.truncate(SECTOR * (device or self.sectors))
            for number in sorted(self.written):
                file.seek(SECTOR * number)
                file.write(self.written[number])
        return path


def superblock(version, sectors, slots):
    return MAGIC + struct.pack("<III", version, sectors, slots) + bytes(492)


def entry(kind=FILE, name=b"a", parent=1, size=0, pointers=()):
    """The 512 bytes of an entry."""
    head = bytes([kind, len(name), 0, 0]) + struct.pack("<II", parent, size)
    return head + name.ljust(256, b"\0") + struct.pack(f"<{len(pointers)}I", *pointers).ljust(244, b"\0")


def worked():
    """A volume of version 4 with a worked file of each level: direct and without bytes, indirect, double-indirect, triple-indirect. Each has a
    letter at the last byte of the level before, where it has one, at its own first byte and at its last one."""
    it = Writer(4, 60_000, 32)
    below = it.directory(b"levels")
    it.file(b"empty", 0, {}, below)
    for name, size in ((b"direct", 29_696), (b"indirect", 95_232), (b"double", 8_483_840), (b"triple", 8_483_840 + 16_384 * SECTOR + 700)):
        _, first = LEVELS[{b"direct": 0, b"indirect": 58, b"double": 59, b"triple": 60}[name]]
        blocks = {block: b"" for block in (first - 1, first, up(size, SECTOR) - 1) if block >= 0}
        for at, letter in ((SECTOR * first - 1, b"a"), (SECTOR * first, b"b"), (size - 1, b"z")):
            if at >= 0:
                old = blocks[at // SECTOR].ljust(at % SECTOR, b"\0")
                blocks[at // SECTOR] = old[: at % SECTOR] + letter + old[at % SECTOR + 1 :]
        it.file(name, size, blocks, below)
    return it


def read(path):
    """The reading of a file, whose bytes are looked at where they are needed."""
    with open(path, "rb") as file:
        size = os.fstat(file.fileno()).st_size
        return Reading(mmap.mmap(file.fileno(), 0, access=mmap.ACCESS_READ) if size else b"")


def main():
    if len(sys.argv) == 3 and sys.argv[1] == "read":
        it = read(sys.argv[2])
        for rule, sector in sorted(it.broken, key=str):
            print(f"{'' if sector is None else f'sector {sector}: '}{rule}", file=sys.stderr)
        print(f"fault {it.fault}" if it.fault else it.line())
        return it.fault > 0
    if len(sys.argv) == 6 and sys.argv[1] == "format":
        Writer(*map(int, sys.argv[3:])).save(sys.argv[2])
        return 0
    if len(sys.argv) == 3 and sys.argv[1] == "worked":
        worked().save(sys.argv[2])
        return 0
    print(__doc__, file=sys.stderr)
    return 2


if __name__ == "__main__":
    sys.exit(main())
