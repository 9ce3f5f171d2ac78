"""Volumes by their format alone (docs/VOLUME.md): a new one that holds a tree, a copy of one with a tree put into it, and what a run
left in one.

So one process of `sandbox` does a whole step, and none formats, fills or empties its volume. And what trees of paths and folders of one's own need besides.
"""
import errno
import fcntl
import os
import stat
import struct
try:
    from _blake2 import blake2b                # `hashlib` takes longer to import
except ImportError:
    from hashlib import blake2b

SECTOR, LOG = 512, 122
FEW_SECTORS, FEW_SLOTS, SMALL_FILE = 65_536, 8_192, 8_483_840                     # the most of version 2
MOST_SECTORS, MOST_SLOTS, MOST_FILE = 16_777_216, 1_048_576, 1_082_225_664        # and of version 4
ZEROS, MOST_PARTS = bytes(SECTOR), 1_000           # of a write: the kernel takes 1,024


def shown(name):
    """Bytes as a text that moves no cursor."""
    return "".join(it if it.isprintable() else f"\\x{ord(it):02x}" for it in name.decode("utf-8", "backslashreplace"))


def digest_of(*parts):
    """BLAKE2b of 256 bits. SHA-256 takes longer where the processor has no instructions for it, and in Python a library that takes as long to load as a
    megabyte to hash."""
    return blake2b(b"".join(parts), digest_size=32).hexdigest().encode()


def has_parents(tree):
    """Whether each entry's folder is an entry too, and is a folder."""
    return all(b"/" not in path or tree.get(path.rpartition(b"/")[0], b"") is None for path in tree)


def removed(path):
    """Removes a file, or a folder with all below it, however deep; what can't be removed stays."""
    folders, waiting = [], [path]
    while waiting:
        one = waiting.pop()
        try:
            if not stat.S_ISDIR(os.lstat(one).st_mode):
                os.unlink(one)
                continue
            folders.append(one)
            waiting += [it.path for it in os.scandir(one)]
        except OSError:
            continue
    for one in reversed(folders):
        try:
            os.rmdir(one)
        except OSError:
            continue


class Room:
    """A folder of one's own, which goes at the end. Those of steps that were killed go first: nobody holds their lock."""

    def __init__(self, parent):
        self.mark, self.parent = b"sandbox-step.%d." % os.getuid(), parent
        self.sweep_all(parent, self.mark)

    @classmethod
    def sweep_all(cls, parent, mark):
        for it in os.scandir(parent):
            if it.name.startswith(mark):
                cls.sweep(it.path)

    @staticmethod
    def sweep(path):
        try:
            held = os.open(path, os.O_RDONLY | os.O_DIRECTORY | os.O_NOFOLLOW | os.O_CLOEXEC)
        except OSError:
            return
        try:
            if os.fstat(held).st_uid == os.getuid():
                fcntl.flock(held, fcntl.LOCK_EX | fcntl.LOCK_NB)
                removed(path)
        except OSError:
            pass
        finally:
            os.close(held)

    def __enter__(self):
        while True:
            self.path = os.path.join(self.parent, self.mark + os.urandom(8).hex().encode())
            os.mkdir(self.path, 0o700)
            try:
                self.held = os.open(self.path, os.O_RDONLY | os.O_DIRECTORY | os.O_CLOEXEC)
            except FileNotFoundError:          # another one may have swept it before it was held
                continue
            fcntl.flock(self.held, fcntl.LOCK_EX)
            if os.path.exists(self.path):
                return self
            os.close(self.held)

    def __exit__(self, *_):
        removed(self.path)
        os.close(self.held)

    def __call__(self, name):
        return os.path.join(self.path, name)


def needs(size):
    blocks = -(-size // SECTOR)
    return blocks + (blocks > 58) + (1 + -(-(blocks - 186) // 128) if blocks > 186 else 0) + (-(-(blocks - 186) // 16_384) if blocks > 16_570 else 0)


def pointers(blocks, first):
    """The 61 pointers of a file whose blocks stand from `first` on, and the pointer sectors, which stand behind them."""
    numbers, behind = range(first, first + blocks), []
    def sector(some):
        behind.append(struct.pack(f"<{len(some)}I", *some).ljust(SECTOR, b"\0"))
        return first + blocks + len(behind) - 1
    indirect = sector(numbers[58:186]) if blocks > 58 else 0
    inner_blocks = [sector(numbers[at:at + 128]) for at in range(186, blocks, 128)]
    double, *others = [sector(inner_blocks[at:at + 128]) for at in range(0, len(inner_blocks), 128)] or [0]
    triple = sector(others) if others else 0
    return struct.pack("<61I", *numbers[:58], *[0] * (58 - min(blocks, 58)), indirect, double, triple), behind


def version_for(tree, sectors, slots):
    """Version 2 where such a volume has room for the tree, so that what fits there comes out as it always did; else version 4."""
    is_small = sectors <= FEW_SECTORS and slots <= FEW_SLOTS and all(len(it) <= SMALL_FILE for it in tree.values() if it)
    return 2 if is_small else 4


def sizes(tree, room, entries, roots):
    """Sectors and slots for the tree and so many folders above it, and for what the guest adds. A ValueError where no volume has them."""
    slots, data = len(tree) + roots + 1, sum(needs(len(inside)) for inside in tree.values() if inside)
    least = slots + (entries or 0)
    if least > MOST_SLOTS:
        raise ValueError(f"{least} entries: a volume has {MOST_SLOTS} at most")
    slots = min(2 * slots + 1_024, FEW_SLOTS if least <= FEW_SLOTS else MOST_SLOTS) if entries is None else least
    least = data + slots + LOG + -(-(room or 0) // SECTOR)
    if least > MOST_SECTORS:
        raise ValueError(f"{least * SECTOR} bytes: a volume has {MOST_SECTORS * SECTOR} at most")
    most = FEW_SECTORS if version_for(tree, least, slots) == 2 else MOST_SECTORS
    return max(137, min(least + data + (8 << 20) // SECTOR, most) if room is None else least), slots


def laid_out(tree, serial, free):
    """The entries of a tree, from this serial on, and the bytes of their sectors, from this one on. What stands in no folder is in the root."""
    serials, table, data = {b"": 1}, [], []
    for whole, inside in sorted(tree.items()):
        above, _, name = whole.rpartition(b"/")
        serials[whole] = serial + len(table)
        blocks = -(-len(inside or b"") // SECTOR)
        inner_pointers, behind = pointers(blocks, free) if blocks else (b"", [])
        table.append(struct.pack("<BB2xII256s244s", 3 if inside is None else 4, len(name), serials[above], len(inside or b""), name, inner_pointers))
        if blocks:
            data += [inside, ZEROS[:-len(inside) % SECTOR], *behind]
            free += blocks + len(behind)
    return table, data


def make_volume(path, tree, sectors, slots):
    """A volume that holds a tree, bytes or None by path: the same tree gives the same bytes."""
    table, data = laid_out(tree, 2, LOG + slots)
    table.insert(0, struct.pack("<B507x4x", 3))
    with open(path, "xb", buffering=0) as file:
        file.truncate(sectors * SECTOR)
        for at, parts in [(0, [struct.pack("<8sIII", b"WASMVOLU", version_for(tree, sectors, slots), sectors, slots)]), (LOG, [b"".join(table)]), (LOG + slots, data)]:
            put_all(file.fileno(), parts, at * SECTOR)


def put_all(fd, parts, at):
    for first in range(0, len(parts), MOST_PARTS):
        some = parts[first:first + MOST_PARTS]
        size, done = sum(map(len, some)), os.pwritev(fd, some, at)
        if done < size:
            put(fd, b"".join(some)[done:], at + done)
        at += size


def put(fd, inside, at):
    view = memoryview(inside)
    while view:
        done = os.pwrite(fd, view, at)
        view, at = view[done:], at + done


class Image:
    """A volume that steps begin with, of version 2 or 4. While one does, nobody writes it who asks for its lock. A ValueError where it is none."""

    def __init__(self, path):
        self.shown, self.fd = f"--image {shown(path)}: ", os.open(path, os.O_RDONLY | os.O_NONBLOCK | os.O_CLOEXEC)
        if not stat.S_ISREG(os.fstat(self.fd).st_mode):
            raise ValueError("it is no regular file")
        try:
            fcntl.flock(self.fd, fcntl.LOCK_SH | fcntl.LOCK_NB)
        except BlockingIOError:
            raise ValueError("it is being written") from None
        head = os.pread(self.fd, 2 * SECTOR, 0).ljust(2 * SECTOR, b"\0")
        mark, version, self.sectors, self.slots = struct.unpack_from("<8sIII", head)
        if mark != b"WASMVOLU" or version not in (2, 4) or os.fstat(self.fd).st_size < self.sectors * SECTOR:
            raise ValueError("it is no volume of version 2 or 4")
        if any(head[SECTOR:]):
            raise ValueError("its last run was stopped: `sandbox check` mends it")
        self.table = os.pread(self.fd, self.slots * SECTOR, LOG * SECTOR)

    def digest(self):
        """The digest of all its sectors. These are many bytes, and OpenSSL takes two thirds of the time, if it has this digest."""
        try:
            from _hashlib import new
            whole = new("blake2b512")
        except (ImportError, ValueError):
            whole = blake2b()
        at, end = 0, self.sectors * SECTOR
        while at < end and (part := os.pread(self.fd, min(1 << 22, end - at), at)):
            whole.update(part)
            at += len(part)
        return whole.hexdigest().encode()

    def last_used(self):
        """The last sector that a file has."""
        words, kinds = memoryview(self.table).cast("I"), self.table[::SECTOR]
        files = [words[at * 128 + 67:at * 128 + 128].tolist() for at, kind in enumerate(kinds) if kind == 4]
        last = max(map(max, files), default=0)
        over = {depth: [one[56 + depth] for one in files] for depth in (2, 3, 4)}
        for depth in (4, 3, 2):                # of each pointer sector its numbers; those of depth 2 name data
            for sector in filter(None, over[depth]):
                numbers = struct.unpack("<128I", os.pread(self.fd, SECTOR, sector * SECTOR))
                last = max(last, *numbers)
                over.setdefault(depth - 1, []).extend(numbers)
        return last

    def copy_with(self, path, tree):
        """A copy that holds a tree too, behind all that it has. A ValueError where there is no room, or a name stands there already."""
        kinds = self.table[::SECTOR]
        names = {self.table[at * SECTOR + 12:][:self.table[at * SECTOR + 1]] for at, kind in enumerate(kinds) if kind and self.table[at * SECTOR + 4:at * SECTOR + 8] == b"\1\0\0\0"}
        if taken := names & {path for path in tree if b"/" not in path}:
            raise ValueError(f"it has {sorted(taken)[0].decode()} already")
        serial, free = len(kinds.rstrip(b"\0")) + 1, max(self.last_used() + 1, LOG + self.slots)
        table, data = laid_out(tree, serial, free)
        if serial - 1 + len(table) > self.slots or free + sum(map(len, data)) // SECTOR > self.sectors:
            raise ValueError(f"it has no room for {len(table)} entries and {sum(map(len, data))} bytes")
        with open(path, "xb", buffering=0) as file:
            file.truncate(self.sectors * SECTOR)
            self.copy(file.fileno())
            for at, parts in (LOG + serial - 1, [b"".join(table)]), (free, data):
                put_all(file.fileno(), parts, at * SECTOR)

    def copy(self, out):
        """Its bytes, without the holes."""
        at, end = 0, self.sectors * SECTOR
        while at < end:
            try:
                at = os.lseek(self.fd, at, os.SEEK_DATA)
                hole = min(os.lseek(self.fd, at, os.SEEK_HOLE), end)
            except OSError as error:
                if error.errno == errno.ENXIO:  # nothing but a hole
                    return
                raise
            os.lseek(out, at, os.SEEK_SET)
            while at < hole and (done := os.sendfile(out, self.fd, at, hole - at)):
                at += done


class Left:
    """What a guest left in /out of a volume: slots by path; `read` gives a file's bytes, `is_folder` says what it is."""

    def __init__(self, path, sectors, slots):
        self.fd = os.open(path, os.O_RDONLY | os.O_CLOEXEC)
        head, table = os.pread(self.fd, 2 * SECTOR, 0), os.pread(self.fd, slots * SECTOR, LOG * SECTOR)
        known = [struct.pack("<8sIII", b"WASMVOLU", version, sectors, slots) for version in (2, 4)]
        if len(table) != slots * SECTOR or head[:20] not in known or any(head[SECTOR:]):
            raise ValueError("it isn't as a run leaves it")
        below, folders = {}, memoryview(table).cast("I")[1::SECTOR // 4].tolist()      # of each slot the folder that it is in
        for serial in [at + 1 for at, kind in enumerate(table[::SECTOR]) if kind]:
            start = (serial - 1) * SECTOR
            below.setdefault(folders[serial - 1], []).append((table[start + 12:start + 12 + table[start + 1]], serial, start))
        out = next(serial for name, serial, _ in below[1] if name == b"out")
        self.slots, waiting = {}, [(b"", out)]
        while waiting:
            above, folder = waiting.pop()
            for name, serial, start in below.get(folder, ()):
                self.slots[above + name] = table[start:start + SECTOR]
                waiting.append((above + name + b"/", serial))

    def close(self):
        os.close(self.fd)

    def is_folder(self, path):
        return self.slots[path][0] == 3

    def numbers_in(self, sector):
        return struct.unpack("<128I", os.pread(self.fd, SECTOR, sector * SECTOR)) if sector else (0,) * 128

    def read(self, path):
        slot = self.slots[path]
        size, = struct.unpack_from("<I", slot, 8)
        blocks, direct = -(-size // SECTOR), struct.unpack_from("<61I", slot, 268)
        numbers = [*direct[:58], *(self.numbers_in(direct[58]) if blocks > 58 else ())]
        doubles = [direct[59], *(self.numbers_in(direct[60]) if blocks > 16_570 else ())] if blocks > 186 else []
        for double in doubles[:-(-(blocks - 186) // 16_384)]:
            for inner_block in self.numbers_in(double):
                numbers += self.numbers_in(inner_block)
        parts, at = [], 0
        while at < blocks:
            first, count = numbers[at], 1
            while at + count < blocks and numbers[at + count] == (first + count if first else 0):
                count += 1
            parts.append(os.pread(self.fd, count * SECTOR, first * SECTOR) if first else bytes(count * SECTOR))
            at += count
        whole = b"".join(parts)[:size]
        if len(whole) != size:
            raise ValueError("it is shorter than it says")
        return whole
