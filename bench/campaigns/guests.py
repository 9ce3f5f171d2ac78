"""Small guests, written as bytes, for campaigns and `bench/units`."""
import wasm_binary
from wasm_binary import I32, I64, Body, Module

WASI = b"wasi_snapshot_preview1"
KINDS = {"i": I32, "l": I64}
LOOP, BLOCK, END, DROP = (0x03, (-0x40,)), (0x02, (-0x40,)), (0x0B, ()), (0x1A, ())


def const(value):
    return (0x41, (value - (1 << 32) if value >= 1 << 31 else value,))


def long_const(value):
    return (0x42, (value,))


def get(local):
    return (0x20, (local,))


def put(local):
    return (0x21, (local,))


def guest(calls, code, local=(), pages=1, datas=(), most=None, others=()):
    """A module whose `_start` has this code; a text in it is a call of that name. `calls` has each name with the letters of what it takes.

    Functions that take and give nothing come after it.
    """
    it = Module(wasm_binary.MAGIC)
    names = [*calls]
    it.types = [([], []), *(([KINDS[each] for each in calls[name]], [] if name == "proc_exit" else [I32]) for name in names)]
    it.imports = [(WASI, name.encode(), 0, 1 + at) for at, name in enumerate(names)]
    it.functions, it.memories = [0] * (1 + len(others)), [(pages, most)]
    it.exports = [(b"_start", 0, len(names)), (b"memory", 2, 0)]
    it.datas = [([const(at), END], content) for at, content in datas]
    it.bodies = [Body([(1, KINDS[each]) for each in local], [(0x10, (names.index(each),)) if isinstance(each, str) else each for each in code] + [END]), *others]
    return it.bytes()


def number(value):
    return value.to_bytes(4, "little")


def probe():
    """Makes a directory, reads standard input, writes OUT and ERR, and exits with a bit for each stream that answered 29.

    The bits are 1 for standard input, 2 and 4 for standard output and error; 64 is another errno.
    """
    code = [const(3), const(200), const(5), "path_create_directory", DROP]
    for stream, call, buffers in ((0, "fd_read", 0), (1, "fd_write", 16), (2, "fd_write", 24)):
        code += [const(stream), const(buffers), const(1), const(8), call, put(0)]
        failed = [get(0), const(29), (0x46, ()), const(1 << stream), (0x6C, ())]
        other = [get(0), const(29), (0x47, ()), get(0), const(0), (0x47, ()), (0x71, ()), const(6), (0x74, ())]
        code += [*failed, *other, (0x6A, ()), get(1), (0x72, ()), put(1)]
    calls = {"fd_read": "iiii", "fd_write": "iiii", "path_create_directory": "iii", "proc_exit": "i"}
    memory = number(64) + number(16) + number(0) * 2 + number(128) + number(4) + number(132) + number(4)
    datas = [(0, memory), (128, b"OUT\nERR\n"), (200, b"probe")]
    return guest(calls, [*code, get(1), "proc_exit"], "ii", datas=datas)
