"""Guests that take all that they can get, one that makes each call, and one with floats, for bench/embed: bytes of modules, made by
tools/wasm_binary.py.

Each of the greedy ones goes on with what it does for as long as it gets anything; memory has the pages that it is given.
"""
import os
import struct
import sys

sys.path.insert(0, os.path.join(os.path.dirname(os.path.abspath(__file__)), "..", "..", "tools"))
from wasm_binary import I32, I64, MAGIC, s, section, sized, u, vector  # noqa: E402

PREVIEW = b"wasi_snapshot_preview1"
PAGE = 65536
# of each call of WASI how many parameters it has, and which of them are i64, in the order of the numbers that hosts are told
CALLS = [
    ("args_sizes_get", 2, ()), ("args_get", 2, ()), ("environ_sizes_get", 2, ()), ("environ_get", 2, ()), ("clock_res_get", 2, ()),
    ("clock_time_get", 3, (1,)), ("random_get", 2, ()), ("proc_exit", 1, ()), ("fd_close", 1, ()), ("fd_fdstat_get", 2, ()),
    ("fd_filestat_get", 2, ()), ("fd_filestat_set_size", 2, (1,)), ("fd_prestat_get", 2, ()), ("fd_prestat_dir_name", 3, ()),
    ("fd_read", 4, ()), ("fd_pread", 5, (3,)), ("fd_write", 4, ()), ("fd_pwrite", 5, (3,)), ("fd_seek", 4, (1,)), ("fd_tell", 2, ()),
    ("fd_sync", 1, ()), ("fd_datasync", 1, ()), ("fd_readdir", 5, (3,)), ("path_create_directory", 3, ()), ("path_filestat_get", 5, ()),
    ("path_open", 9, (5, 6)), ("path_remove_directory", 3, ()), ("path_rename", 6, ()), ("path_unlink_file", 3, ()), ("sched_yield", 0, ()),
]  # fmt: skip
TYPES = {name: (tuple(I64 if n in wide else I32 for n in range(count)), () if name == "proc_exit" else (I32,)) for name, count, wide in CALLS}


def number(value):
    return b"\x41" + s(value)


def wide(value):
    return b"\x42" + s(value)


def get(local):
    return b"\x20" + u(local)


def put(local):
    return b"\x21" + u(local)


def call(function):
    return b"\x10" + u(function)


def loop(body):
    """Goes round as long as the body leaves a number that isn't 0."""
    return b"\x03\x40" + body + b"\x0d\0\x0b"


def when(body):
    """Takes a number, and does the body where it isn't 0."""
    return b"\x04\x40" + body + b"\x0b"


def module(calls, functions, data=b""):
    """A module that imports these calls and has these functions, the last of which is `_start`: each a type, counts of locals by
    their type, and instructions. Functions have the numbers behind those of the calls."""
    types = [TYPES[name] for name in calls] + [kind for kind, _, _ in functions]
    spelled = [b"\x60" + vector(bytes([it]) for it in takes) + vector(bytes([it]) for it in gives) for takes, gives in types]
    imports = [sized(PREVIEW) + sized(name.encode()) + b"\0" + u(n) for n, name in enumerate(calls)]
    bodies = [sized(vector(u(count) + bytes([kind]) for count, kind in places) + code + b"\x0b") for _, places, code in functions]
    exports = [sized(b"_start") + b"\0" + u(len(types) - 1), sized(b"memory") + b"\x02\0"]
    return (
        MAGIC + section(1, vector(spelled)) + (section(2, vector(imports)) if imports else b"")
        + section(3, vector(u(len(calls) + n) for n in range(len(functions)))) + section(5, vector([b"\0" + u(1)])) + section(7, vector(exports))
        + section(10, vector(bodies)) + (section(11, vector([b"\0" + number(0) + b"\x0b" + sized(data)])) if data else b"")
    )  # fmt: skip


def start(code, places=()):
    return ((), ()), places, code


BUFFERS = 1024  # of a call at most, 8 bytes each from 0 on; they all lead to the same bytes
EACH = 2**22 - 1  # bytes: all of them are just below 2^32


def grow():
    """All pages that can be had, one after the other, each filled."""
    return loop(number(1) + b"\x40\0" + number(-1) + b"\x47") + number(BUFFERS * 8) + number(7) + b"\x3f\0" + number(PAGE) + b"\x6c" + number(BUFFERS * 8) + b"\x6b\xfc\x0b\0"


def flood(write, descriptor, local):
    """1,024 buffers over the same bytes, again and again, as long as the call is answered 0; and once more where it isn't."""
    at = (number(0) + put(local)
          + loop(get(local) + number(PAGE) + b"\x36\x02\0" + get(local) + number(EACH) + b"\x36\x02\x04"
                 + get(local) + number(8) + b"\x6a\x22" + u(local) + number(BUFFERS * 8) + b"\x48"))  # fmt: skip
    one = number(descriptor) + number(0) + number(BUFFERS) + number(BUFFERS * 8) + call(write)
    return at + loop(one + b"\x45") + one + b"\x1a"


def fill(path_open, write, close, local):
    """As many files as there are slots, with names of 255 bytes and as many bytes as there are sectors; each stays open where it can."""
    name, size = 16384, 255
    made = (number(3) + number(0) + number(name) + number(size) + number(9) + wide(-1) + wide(-1) + number(0) + number(8200) + call(path_open))
    wrote = (number(8192) + number(PAGE // 2) + b"\x36\x02\0" + number(8192) + number(3000) + b"\x36\x02\x04"
             + number(8200) + b"\x28\x02\0" + number(8192) + number(1) + number(8204) + call(write) + b"\x1a")  # fmt: skip
    closed = get(local) + number(200) + b"\x4a" + when(number(8200) + b"\x28\x02\0" + call(close) + b"\x1a")
    # the name begins with the file's number in four letters
    letters = b"".join(number(name + at) + get(local) + number(5 * at) + b"\x76" + number(31) + b"\x71" + number(65) + b"\x6a\x3a\0\0" for at in range(4))
    return (number(PAGE // 2) + number(7) + number(3000) + b"\xfc\x0b\0"  # sectors of zeros take no memory
            + number(name) + number(ord("n")) + number(size) + b"\xfc\x0b\0" + number(0) + put(local)
            + loop(letters + made + b"\x45" + when(wrote + closed) + get(local) + number(1) + b"\x6a\x22" + u(local) + number(9000) + b"\x48"))  # fmt: skip


def deep(own, count):
    """A function that calls itself without end, with so many values of its own."""
    return ((), ()), ((count, I64),) if count else (), call(own)


def written(sync, write, path_open):
    """A file of which a byte is written and synced again and again."""
    opened = number(3) + number(0) + number(16384) + number(1) + number(9) + wide(-1) + wide(-1) + number(0) + number(8200) + call(path_open) + b"\x1a"
    at = number(8192) + number(PAGE - 1) + b"\x36\x02\0" + number(8192) + number(1) + b"\x36\x02\x04"
    one = number(4) + number(8192) + number(1) + number(8204) + call(write) + b"\x1a" + number(4) + call(sync)
    return number(16384) + number(ord("a")) + b"\x3a\0\0" + opened + at + loop(one + b"\x45")


def all_calls():
    """Each call once, with zeros, but that proc_exit comes last."""
    order = [n for n in range(len(CALLS)) if CALLS[n][0] != "proc_exit"] + [[it[0] for it in CALLS].index("proc_exit")]
    code = b"".join(b"".join(wide(0) if kind == I64 else number(0) for kind in TYPES[CALLS[n][0]][0]) + call(n)
                    + (b"\x1a" if TYPES[CALLS[n][0]][1] else b"") for n in order)  # fmt: skip
    return module([it[0] for it in CALLS], [start(code)])


def empty_functions(count):
    """So many functions without an instruction: of all modules known what takes the most memory for a byte."""
    return (MAGIC + section(1, vector([b"\x60\0\0"])) + section(3, u(count) + b"\0" * count) + section(7, vector([sized(b"_start") + b"\0\0"]))
            + section(10, u(count) + b"\x02\0\x0b" * count))  # fmt: skip


def large(count):
    """So many functions of some 80 bytes each, with branches, and a `_start` that does nothing."""
    step = get(0) + get(1) + b"\x6a" + put(1)
    body = b"\x02\x40\x03\x40" + step * 5 + get(0) + b"\x0d\x01" + step * 3 + get(1) + b"\x0d\0\x0b\x0b" + get(1) + put(0)
    return module([], [(((I32,), ()), ((1, I32),), body)] * count + [start(b"")])


def floating():
    """Writes the bits of floats that every other rounding, flushing of subnormal numbers or raised exception changes or ends: of each
    operator that rounds, over the quotients of small numbers, and near the least and the greatest of both types."""
    f64, i64 = 0x7C, I64
    # of x at local 0 and y at local 1: add sub mul div, and sqrt; then by f32
    binary, own = (0xA0, 0xA1, 0xA2, 0xA3), (0x92, 0x93, 0x94, 0x95)
    kept = lambda code: get(3) + code + b"\x37\x03\0" + get(3) + number(8) + b"\x6a" + put(3)  # noqa: E731
    bits, narrow = b"\xbd", b"\xb6"
    code = b"".join(kept(get(0) + get(1) + bytes([op]) + bits) for op in binary) + kept(get(0) + b"\x9f" + bits)
    code += b"".join(kept(get(0) + narrow + get(1) + narrow + bytes([op]) + b"\xbb" + bits) for op in own)
    code += kept(get(0) + narrow + b"\x91\xbb" + bits) + kept(get(2) + b"\xb9" + bits) + kept(get(2) + b"\xb4\xbb" + bits)
    of_numbers = b"\x44" + struct.pack("<d", 1.0) + get(2) + b"\xb9\xa3"  # 1 / n
    sizes = [1.0, 2.0**-1022, -(2.0**1023), 2.0**-126, 2.0**-149, 1e300, -3.0, 0.0]
    y = of_numbers + b"\x44" + struct.pack("<d", 3.0) + b"\xa0" + put(1)  # 1 / n + 3
    each = b"".join(of_numbers + b"\x44" + struct.pack("<d", it) + b"\xa2" + put(0) + y + code for it in sizes)
    step = get(2) + b"\x42\x07\x7c" + b"\x22" + u(2) + wide(7 * 60) + b"\x54"
    told = number(0) + number(16) + b"\x36\x02\0" + number(0) + get(3) + number(16) + b"\x6b\x36\x02\x04"
    written = told + number(1) + number(0) + number(1) + number(8) + call(0) + b"\x1a"
    body = number(16) + put(3) + wide(3) + put(2) + loop(each + step) + written
    return module(["fd_write"], [start(body, ((2, f64), (1, i64), (1, I32)))])


def guests():
    """By their names the modules."""
    write = ["fd_write"]
    files = ["path_open", "fd_write", "fd_close"]
    return {
        "grow": module([], [start(grow())]),
        "flood": module(write, [start(grow() + flood(0, 1, 0) + flood(0, 2, 0), ((1, I32),))]),
        "calls open": module([], [deep(0, 0), start(call(0))]),
        "values": module([], [deep(0, 1000), start(call(0))]),
        "few values": module([], [deep(0, 3), start(call(0))]),
        "files": module(files, [start(fill(0, 1, 2, 0), ((1, I32),))]),
        "syncs": module(["fd_sync", "fd_write", "path_open"], [start(written(0, 1, 2))]),
        "all": module(files, [deep(3, 100), start(grow() + fill(0, 1, 2, 0) + flood(1, 1, 0) + flood(1, 2, 0) + call(3), ((1, I32),))]),
        "empty functions": empty_functions(300_000),
        "large": large(11_700),
    }


if __name__ == "__main__":
    for name, spelled in [*guests().items(), ("each call", all_calls()), ("floating", floating())]:
        with open(os.path.join(sys.argv[1], f"{name}.wasm"), "wb") as it:
            it.write(spelled)
