"""Modules and volumes with changed bytes: each answer comes in time, stands in the table, and writes nothing to what is refused."""
import collections
import os
import random
import struct
import subprocess

from common import TOP, Wrong, answer, succeeded
from plain_volume import Writer

SMALL = ["examples/hi.wasm", "examples/c/three.wasm", "examples/c/outside.wasm", "bench/kernels/empty.small.wasm"]
LARGE = ["examples/c/wc.wasm", "bench/kernels/checksums.small.wasm", "examples/rust/words.wasm", "examples/c/keys.wasm"]


def own_path(setting, name):
    """A file of this process."""
    return f"{setting.room}/{name}-{os.getpid()}"


def content(name):
    with open(f"{TOP}/{name}", "rb") as it:
        return it.read()


def tried_module(setting, module):
    """The status of a run of these bytes, or of the fault."""
    path = own_path(setting, "module")
    with open(path, "wb") as it:
        it.write(module)
    try:
        status, _, said = answer(setting, ["run", "--fuel", "200000", "--pages", "64", path])
    except Wrong as wrong:
        raise Wrong(f"{wrong}; the module is kept as {setting.keep('module.wasm', module)}") from None
    return said.splitlines()[-1].split(" at ")[0].removeprefix("sandbox: ") if status == 124 else f"status {status}"


def told(found):
    """The answers by how often they came."""
    return ", ".join(f"{name} {count}" for name, count in found.most_common(6))


def cut_modules(setting):
    """Each module at each length."""
    names = SMALL[:2] if setting.is_quick else SMALL + LARGE[:2]
    modules = (it[:length] for it in map(content, names) for length in range(len(it)))
    found = collections.Counter(setting.each(lambda it: tried_module(setting, it), modules))
    return found.total(), told(found)


def changed_modules(setting):
    """Each byte of the first module to each value, and each one of some others to eight values."""
    chance = random.Random(setting.seed)

    def values(name, byte):
        few = {byte ^ 1, byte ^ 0x40, byte ^ 0x80, *chance.randbytes(5)}
        if setting.is_quick:
            return sorted(few)[:3]
        return range(256) if name == SMALL[0] else sorted(few)

    def changes():
        for name in SMALL[:1] if setting.is_quick else SMALL + LARGE[1:2]:
            module = content(name)
            for at, byte in enumerate(module):
                for value in values(name, byte):
                    yield module[:at] + bytes((value,)) + module[at + 1 :]

    found = collections.Counter(setting.each(lambda it: tried_module(setting, it), changes()))
    return found.total(), told(found)


def mutant(chance, module):
    """A module with some parts changed, doubled, moved or taken out."""
    it = bytearray(module)
    for _ in range(chance.choice((1, 1, 2, 4, 9))):
        at, length = chance.randrange(len(it) + 1), chance.choice((1, 1, 2, 5, 30))
        kind = chance.randrange(6)
        if kind == 0:
            it[at : at + 1] = bytes((chance.randrange(256),))
        elif kind == 1:
            it[at:at] = chance.choice((b"\xff\xff\xff\xff\x0f", b"\x80\x80\x80\x80\x00", b"\x0b", chance.randbytes(length)))
        elif kind == 2:
            del it[at : at + length]
        elif kind == 3:
            other = chance.randrange(len(it) + 1)
            it[at:at] = it[other : other + length]
        elif kind == 4 and at < len(it):
            it[at] ^= 1 << chance.randrange(8)
        else:
            it[at : at + 1] = bytes((chance.choice((0x0B, 0x02, 0x03, 0x0C, 0x10, 0x11, 0x20, 0x41, 0x6A, 0x7F, 0xFC)),))
        if not it:
            it.append(0)
    return bytes(it)


def mutants(setting):
    """Random changes of several kinds."""
    chance = random.Random(setting.seed)
    names = SMALL + (LARGE[1:2] if setting.is_quick else LARGE)
    all_modules = [content(it) for it in names]
    count = 2_000 if setting.is_quick else 100_000
    made = (mutant(chance, chance.choice(all_modules)) for _ in range(count))
    found = collections.Counter(setting.each(lambda it: tried_module(setting, it), made))
    return found.total(), told(found)


def damaged(chance, image):
    """A volume with some bytes, numbers or sectors changed, most of them where rules stand."""
    it = bytearray(image)
    sectors = len(image) // 512
    for _ in range(chance.choice((1, 1, 2, 5))):
        sector = chance.choice((0, 1, 2, 122, 123, 124, 125, 126, chance.randrange(sectors)))
        at = 512 * sector + chance.choice((0, 1, 4, 8, 12, 268, 500, chance.randrange(512)))
        kind = chance.randrange(4)
        if kind == 0:
            it[at] = chance.randrange(256)
        elif kind == 1:
            at -= at % 4
            it[at : at + 4] = struct.pack("<I", chance.choice((0, 1, 121, 122, 138, sectors - 1, sectors, 2**32 - 1)))
        elif kind == 2:
            it[at] ^= 1 << chance.randrange(8)
        else:
            other = chance.randrange(sectors)
            it[512 * sector : 512 * sector + 512] = it[512 * other : 512 * other + 512]
    return bytes(it)


def begun_volume(setting):
    """A small volume with a directory and two files."""
    path = f"{setting.room}/begun"
    if os.path.exists(path):
        os.remove(path)
    succeeded(setting, "format", path, "202", "16")
    keys = f"{TOP}/examples/c/keys.wasm"
    succeeded(setting, "run", "--volume", path, keys, "store", "put", "colour", "blue")
    succeeded(setting, "put", path, "/b", given=b"b" * 31_000)
    with open(path, "rb") as it:
        return it.read()


def huge_volume():
    """One of version 4 with the same paths, and a file that has a double-indirect block."""
    it = Writer(4, 700, 16)
    it.whole(b"store", b"colour=blue\n")
    it.whole(b"b", b"b" * 31_000)
    it.file(b"c", 160_000, dict.fromkeys((0, 57, 58, 186, 311), b"c" * 512), it.directory(b"d"))
    return it.image()


def installed(image):
    """The image with its log installed, where the log's header is right."""
    count = struct.unpack_from("<I", image, 512)[0]
    if not 0 < count <= 120:
        return image
    it = bytearray(image)
    for k, number in enumerate(struct.unpack_from(f"<{count}I", image, 516)):
        if 122 <= number < len(image) // 512:
            it[512 * number : 512 * number + 512] = image[512 * (2 + k) : 512 * (3 + k)]
    it[512:1024] = bytes(512)
    return bytes(it)


def tried_volume(setting, image):
    """What each command answers of a damaged volume: the same fault where `check` refuses it, and then nothing is written."""
    path = own_path(setting, "volume")
    keys = f"{TOP}/examples/c/keys.wasm"
    commands = [
        (["check", path], b""),
        (["ls", path, "/"], b""),
        (["get", path, "/b"], b""),
        (["put", path, "/c"], b"new"),
        (["upgrade", path], b""),
        (["run", "--volume", path, keys, "store", "put", "k", "v"], b""),
    ]
    faults = []
    try:
        for words, given in commands:
            with open(path, "wb") as it:
                it.write(image)
            status, _, said = answer(setting, words, given)
            # `check` says on a second line where a rule is broken
            faults.append(said.strip().split("\nsandbox: ")[0] if status == 124 and "fault" in said else "taken")
            with open(path, "rb") as it:
                after = it.read()
            if faults[0] != "taken" and after not in (image, installed(image)):
                raise Wrong(f"a refused volume was written: {' '.join(words)}")
            if faults[0] in ("sandbox: fault 30", "sandbox: fault 31") and after != image:
                raise Wrong(f"what is no volume was written: {' '.join(words)}")
        # where `check` accepts it, each command may still have a refusal of its own
        if faults[0] != "taken" and len(set(faults)) > 1:
            raise Wrong(f"faults differ: {faults}")
    except Wrong as wrong:
        raise Wrong(f"{wrong}; the volume is kept as {setting.keep('volume', image)}") from None
    return faults[0].removeprefix("sandbox: ")


def damaged_volumes(setting):
    """Random damage of a volume with files, and all commands on it."""
    chance = random.Random(setting.seed)
    images = begun_volume(setting), huge_volume()
    count = 200 if setting.is_quick else 10_000
    found = collections.Counter(setting.each(lambda it: tried_volume(setting, it), (damaged(chance, chance.choice(images)) for _ in range(count))))
    return found.total() * 6, told(found)


def other_script(setting, *words, is_good=lambda lines: False):
    """A script that stands beside, whose last line is its result; `is_good` is asked where it ends with another status than 0."""
    done = subprocess.run([f"{TOP}/bench/{words[0]}", *words[1:]], capture_output=True, text=True, cwd=setting.room)
    lines = (done.stdout + done.stderr).strip().splitlines()
    if done.returncode and not is_good(lines):
        raise Wrong(f"bench/{' '.join(words)}: " + " ".join(lines[-5:]))
    return lines


def bad_images(setting):
    words = "bad-images", setting.program, "300" if setting.is_quick else "10000", str(setting.seed)

    def is_late(lines):
        """It looks at the clock: what had no answer in time on a busy machine is asked once more."""
        wrong = [it for it in lines if it.startswith("WRONG")]
        return wrong and all("no answer" in it for it in wrong)

    last = other_script(setting, *words, is_good=is_late)[-1]
    if not last.endswith(" 0 wrong"):
        last = other_script(setting, *words)[-1]
    return int(last.split()[0]), last


def power_cut(setting):
    turns = 25 if setting.is_quick else 500

    def is_early(lines):
        """On a busy machine each guest may be killed before it has synced anything."""
        return lines and lines[-1].endswith("; 0 records were synced, and none is missing")

    return turns, other_script(setting, "power-cut", str(turns), "--program", setting.program, is_good=is_early)[-1]


def growths(setting):
    lines = other_script(setting, "growths", "--commands", setting.program)
    return sum(int(word) for line in lines[:-1] for word in line.replace(",", " ").split() if word.isdigit()), lines[-1]


def fuel(setting):
    words = ["fuel", setting.program, "--program", setting.program, "--first", "100" if setting.is_quick else "2000"]
    words += ["--more", "5", "empty", "recursion"] if setting.is_quick else ["--more", "20"]
    lines = other_script(setting, *words)
    return sum(int(it.split(" units, ")[1].split()[0].replace(",", "")) for it in lines), "each status and output agrees with the counted units"
