"""What the limits cost: the time and the memory of each at its limit and at a quarter of it, and the answer one past it.

A row holds the seconds of the processor and the mebibytes at a quarter of the limit and at the limit, so that one sees growth that
isn't linear. More than eight times the time at four times the size is wrong, and so are more than five times the memory; half a
second and 64 MiB are left for what doesn't grow. The quick form takes a sixteenth of each limit, and judges neither.
"""
import os
import struct

import wasm_binary
from common import Wrong, measured, succeeded
from wasm_binary import I32, I64, Body, Module, sized, u

LOOP, IF, END = (0x03, (-0x40,)), (0x04, (-0x40,)), (0x0B, ())
EMPTY = -0x40
GIB = 1 << 30


def module(body, types=(), functions=(), **parts):
    """A module that exports the first function as `_start`; the others come after it."""
    it = Module(wasm_binary.MAGIC)
    it.types = [([], []), *types]
    it.functions = [0, *(kind for kind, _ in functions)]
    it.bodies = [body, *(its for _, its in functions)]
    it.exports = [(b"_start", 0, 0)]
    for name, value in parts.items():
        setattr(it, name, value)
    return it.bytes()


def start(*code, local=()):
    return Body(list(local), [*code, END])


def frames(size):
    """So many frames at once, that of `_start` among them."""
    down = Body([], [(0x20, (0,)), (0x04, (EMPTY,)), (0x20, (0,)), (0x41, (-1,)), (0x6A, ()), (0x10, (1,)), END, END])
    return module(start((0x41, (size - 2,)), (0x10, (1,))), [([I32], [])], [(1, down)])


def wide_frames(size):
    """So many frames with 50,000 locals each."""
    down = Body([(49_999, 0x7E)], [(0x20, (0,)), (0x04, (EMPTY,)), (0x20, (0,)), (0x41, (-1,)), (0x6A, ()), (0x10, (1,)), END, END])
    return module(start((0x41, (size - 2,)), (0x10, (1,))), [([I32], [])], [(1, down)])


def locals_of(size):
    return module(start(local=[(size, 0x7F)]))


def pages(size):
    """Grows to so many pages, and writes to the last one; it traps where that fails."""
    code = [(0x41, (size - 1,)), (0x40, (0,)), (0x1A, ()), (0x41, (s32(min(size, 65_536) * 65_536 - 4),)), (0x41, (1,)), (0x36, (0, 0))]
    return module(start(*code), memories=[(1, None)])


def s32(value):
    return value - (1 << 32) if value >= 1 << 31 else value


def elements(size):
    return module(start(), tables=[(size, None)], elements=[([(0x41, (0,)), END], [0] * min(size, 1_000_000))])


def labels(size):
    """A `br_table` of so many labels, the last of which is taken."""
    return module(start((0x02, (EMPTY,)), (0x41, (size,)), (0x0E, ([0] * size, 0)), END))


def blocks(size):
    """So many blocks, one in the other, and a branch out of all of them."""
    content = b"\0" + b"\x02\x40" * size + b"\x0c" + u(size - 1) + b"\x0b" * (size + 1)
    head = b"\x01\x04\x01\x60\x00\x00" + b"\x03\x02\x01\x00" + b"\x07\x0a\x01\x06_start\x00\x00"
    return wasm_binary.MAGIC + head + b"\x0a" + sized(b"\x01" + sized(content))


def long_code(size):
    """A module of so many bytes, most of them a body of `nop` behind a return."""
    head = b"\x01\x04\x01\x60\x00\x00" + b"\x03\x02\x01\x00" + b"\x07\x0a\x01\x06_start\x00\x00"

    def whole(fill):
        return wasm_binary.MAGIC + head + b"\x0a" + sized(b"\x01" + sized(b"\0\x0f" + b"\x01" * fill + b"\x0b"))

    return whole(size - len(whole(size)) + size) if size > 100 else whole(0)


def long_data(size):
    it = module(start(), memories=[(1024, None)])
    rest = size - len(it)
    content = rest - len(b"\x0b" + u(rest)) - 5 - len(u(rest))
    data = b"\x0b" + sized(b"\x01\x00\x41\x00\x0b" + sized(b"x" * content))
    return it + data + b"\0" * 0


def many_functions(size):
    return module(start(), functions=[(0, start((0x41, (1,)), (0x1A, ()))) for _ in range(size)])


def constants(size):
    """So many values on the stack at once."""
    return module(start(*[(0x41, (k,)) for k in range(size)], *[(0x1A, ())] * size))


def calls_of(name, takes, code, datas):
    """A guest that calls one function of WASI, `fd_close` and `proc_exit`; its three locals are numbers."""
    kinds = [([], []), (takes, [I32]), ([I32], [I32]), ([I32], [])]
    it = Module(module(start()))
    it.types, it.functions, it.exports, it.memories = kinds, [0], [(b"_start", 0, 3)], [(1, None)]
    it.imports = [(b"wasi_snapshot_preview1", each, 0, kind) for each, kind in ((name, 1), (b"fd_close", 2), (b"proc_exit", 3))]
    it.bodies = [Body([(3, 0x7F)], [*code, END])]
    it.datas = [([(0x41, (at,)), END], content) for at, content in datas]
    return it.bytes()


def numbers(*values):
    return [(0x41, (it,)) for it in values]


# the errno of the call before ends the guest, where it isn't 0
ENDED = [(0x22, (0,)), IF, (0x20, (0,)), (0x10, (2,)), END]


def times(local, count, code):
    """The code so many times, counted in a local from 0."""
    turn = [(0x20, (local,)), *numbers(1), (0x6A, ()), (0x22, (local,)), *numbers(count), (0x49, ()), (0x0D, (0,))]
    return [*numbers(0), (0x21, (local,)), LOOP, *code, *turn, END]


# what a buffer takes of standard input
READ = 200 * 16


def buffers(name, descriptor):
    """Two hundred calls with so many buffers of 16 bytes."""
    def make(size):
        code = times(1, 200, [*numbers(descriptor, 1024, size, 16), (0x10, (0,)), *ENDED])
        return calls_of(name, [I32] * 4, code, [(1024, struct.pack("<II", 60_000, 16) * size)])

    make.__name__ = name.decode()
    return make


OPEN_TAKES = [I32, I32, I32, I32, I32, I64, I64, I32, I32]


def opened(length):
    """Opens the file of a name of this length, which is made where it isn't there."""
    return [*numbers(3, 0, 1024, length, 1), (0x42, (-1,)), (0x42, (0,)), *numbers(0, 16), (0x10, (0,)), *ENDED]


def closed(descriptor):
    return [*descriptor, (0x10, (1,)), *ENDED]


def opens(size):
    """So many descriptors at once beside the streams and `/`, two hundred times."""
    close = closed([(0x20, (2,)), *numbers(4), (0x6A, ())])
    code = times(1, 200, times(2, size, opened(1)) + times(2, size, close))
    return calls_of(b"path_open", OPEN_TAKES, code, [(1024, b"f")])


def names(size):
    """A file with a name of so many bytes, opened twenty thousand times."""
    return calls_of(b"path_open", OPEN_TAKES, times(1, 20_000, opened(size) + closed(numbers(4))), [(1024, b"n" * size)])


def entry(name, parent=1, kind=4):
    return bytes((kind, len(name), 0, 0)) + struct.pack("<II", parent, 0) + name.ljust(500, b"\0")


def full_volume(size):
    """A volume with so many slots, all used by the root and files with names of 255 bytes."""
    front = b"WASMVOLU" + struct.pack("<III", 1, 122 + size + 16, size) + bytes(492)
    names = (b"%08d" % k + b"n" * 247 for k in range(size - 1))
    return front + bytes(121 * 512) + entry(b"", 0, 3) + b"".join(map(entry, names)) + bytes(16 * 512)


def nested_volume(size):
    """A volume of so many slots whose directories stand one in the other."""
    front = b"WASMVOLU" + struct.pack("<III", 1, 122 + size + 16, size) + bytes(492)
    deep = b"".join(entry(b"d", k + 1, 3) for k in range(size - 1))
    return front + bytes(121 * 512) + entry(b"", 0, 3) + deep + bytes(16 * 512)


# name, how it is made, the limit, options of `run`, how it ends at the limit, how one past it, and the most memory
FUEL = ["--fuel", "100000000"]
EXHAUSTED, OVER = (120, "sandbox: trap: call stack exhausted"), "sandbox: fault 11"
MODULES = [
    ("frames", frames, 65_536, FUEL, (0, ""), EXHAUSTED, 2 * GIB),
    ("locals of a function", locals_of, 50_000, [], (0, ""), (124, OVER), GIB),
    ("frames of 50,000 locals", wide_frames, 1_000, FUEL, (0, ""), None, 2 * GIB),
    ("the same, out of memory", wide_frames, 60_000, FUEL, (122, "sandbox: out of memory"), None, GIB),
    ("the same, past --values", wide_frames, 1_000, [*FUEL, "--values", "10000000"], (122, "sandbox: out of memory"), None, 2 * GIB),
    ("elements of a table", elements, 1_000_000, [], (0, ""), (124, OVER), GIB),
    ("labels of a br_table", labels, 1_000_000, [], (0, ""), None, 2 * GIB),
    ("blocks one in the other", blocks, 500_000, [], (0, ""), None, 2 * GIB),
    ("values on the stack", constants, 1_000_000, FUEL, (0, ""), None, 2 * GIB),
    ("functions", many_functions, 500_000, [], (0, ""), None, 2 * GIB),
    ("bytes of module, data", long_data, 1 << 26, [], (0, ""), (124, OVER), 2 * GIB),
    ("bytes of module, code", long_code, 1 << 26, [], (0, ""), (124, OVER), 6 * GIB),
    ("buffers of a write", buffers(b"fd_write", 1), 1_024, FUEL, (0, ""), (28, ""), GIB),
    ("buffers of a read", buffers(b"fd_read", 0), 1_024, FUEL, (0, ""), (28, ""), GIB),
    ("opens", opens, 252, FUEL, (0, ""), (33, ""), GIB),
    ("bytes of a name", names, 255, FUEL, (0, ""), (37, ""), GIB),
    ("pages", pages, 65_536, ["--pages", "65536"], (0, ""), (120, "sandbox: trap: out of bounds memory access"), 6 * GIB),
]
VOLUMES = [
    ("names of 255 bytes, check", full_volume, 8_192, ["check"], [], (0, "")),
    ("names of 255 bytes, ls", full_volume, 8_192, ["ls"], ["/"], (0, "")),
    ("names of 255 bytes, put", full_volume, 8_192, ["put"], ["/one more"], (124, "sandbox: errno 51")),
    ("nested directories, check", nested_volume, 8_192, ["check"], [], (0, "")),
    ("nested directories, a path", nested_volume, 8_192, ["ls"], ["/" + "d/" * 8_191], (0, "")),
    ("a path of 65,536 bytes", nested_volume, 8_192, ["ls"], ["/" + "d/../" * 13_107], (0, "")),
]


def one(setting, make, size, words, after, wanted, memory):
    """The seconds and mebibytes of a call on what is made."""
    path = f"{setting.room}/limit"
    with open(path, "wb") as it:
        it.write(make(size))
    given = bytes(READ * size) if make.__name__ == "fd_read" else b""
    status, said, seconds, mebibytes = measured(setting, [*words, path, *after], given, memory)
    if wanted and ((status, said) if not said.startswith("sandbox: fault 11") else (status, said[:17])) != wanted:
        raise Wrong(f"{make.__name__} of {size}: {(status, said)}")
    return seconds, mebibytes


def row(setting, name, make, limit, words, after, wanted, past, memory):
    limit //= 16 if setting.is_quick else 1
    small = one(setting, make, limit // 4, words, after, None, memory)
    large = one(setting, make, limit, words, after, None if setting.is_quick else wanted, memory)
    tried = 2
    if past and not setting.is_quick:
        one(setting, make, limit + 1, words, after, past, memory)
        tried += 1
    judged(setting, name, limit, small, large)
    return tried


def judged(setting, name, limit, small, large):
    """Prints a row of the table; the quick form has none, and judges nothing that is measured."""
    if setting.is_quick:
        return
    print(f"  {name:28} {limit:11,} {small[0]:7.2f} {large[0]:7.2f} s {small[1]:7.0f} {large[1]:7.0f} MiB", flush=True)
    setting.limits.append((name, f"{limit:,}", f"{small[0]:.2f}", f"{large[0]:.2f}", f"{small[1]:,.0f}", f"{large[1]:,.0f}"))
    if large[0] > 8 * small[0] + 0.5 or large[1] > 5 * small[1] + 64:
        raise Wrong(f"{name}: {small[0]:.2f} seconds and {small[1]:.0f} MiB at {limit // 4:,}, {large[0]:.2f} and {large[1]:.0f} at {limit:,}")


def table_of_modules(setting):
    return sum(row(setting, name, make, limit, ["run", *words], [], *ends) for name, make, limit, words, *ends in MODULES)


def table_of_volumes(setting):
    return sum(row(setting, *it, None, GIB) for it in VOLUMES)


def table_of_words(setting):
    """Arguments and texts of the environment up to their limits."""
    path = f"{setting.room}/limit"
    with open(path, "wb") as it:
        it.write(module(start()))
    rows = [
        ([path, *["a"] * 1_023], 0),
        ([path, *["a"] * 1_024], 124),
        ([path, "a" * (65_536 - len(path) - 2)], 0),
        ([path, "a" * (65_536 - len(path) - 1)], 124),
        ([*[word for _ in range(1_024) for word in ("--env", "a=b")], path], 0),
        ([*[word for _ in range(1_025) for word in ("--env", "a=b")], path], 124),
        ([*[word for k in range(64) for word in ("--dir", f"{k}=/")], path], 0),
        ([*[word for k in range(65) for word in ("--dir", f"{k}=/")], path], 124),
    ]
    for words, wanted in rows:
        status, said, _, _ = measured(setting, ["run", *words], memory=GIB)
        if (status, said) != (wanted, "sandbox: fault 15" if wanted else ""):
            raise Wrong(f"{(status, said)} with {len(words)} words")
    return len(rows)


def table_of_files(setting):
    """The longest file of a volume of version 2, and the largest volume."""
    path, less, tried = f"{setting.room}/limit", 16 if setting.is_quick else 1, 0
    file, volume = 8_483_840 // less, 65_536 // less
    puts, gets, checks = [], [], []
    for size in (file // 4, file, *([file + 1] if less == 1 else [])):
        with open(path, "wb"):
            pass
        succeeded(setting, "format", path, "20000", "16")
        succeeded(setting, "upgrade", path)
        ends = (0, "") if size <= file else (124, "sandbox: errno 22")
        puts.append(wanted("put of a file", measured(setting, ["put", path, "/a"], bytes(size), GIB), ends))
        gets.append(wanted("get of it", measured(setting, ["get", path, "/a"], memory=GIB), (0, "")))
        tried += 2
    for size in (volume // 4, volume):
        os.remove(path)
        succeeded(setting, "format", path, str(size), "8192" if size > 8_400 else "16")
        checks.append(wanted("check of sectors", measured(setting, ["check", path], memory=GIB), (0, "")))
        tried += 1
    wanted("format of more", measured(setting, ["format", path, "65537", "16"]), (124, "sandbox: fault 36"))
    judged(setting, "bytes of a file, put", file, *puts[:2])
    judged(setting, "bytes of a file, get", file, *gets[:2])
    judged(setting, "sectors, check", volume, *checks)
    return tried + 1


def wanted(name, got, ends):
    if got[:2] != ends:
        raise Wrong(f"{name}: {got[:2]}")
    return got[2:]


def table(setting):
    """Each limit."""
    if not setting.is_quick:
        print(f"  {'limit':28} {'at':>11} quarter   whole   quarter   whole", flush=True)
    tables = table_of_modules, table_of_volumes, table_of_files, table_of_words
    return sum(it(setting) for it in tables), "at a quarter, at the limit and past it"
