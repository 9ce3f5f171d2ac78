"""WebAssembly guests with exact fuel, from Python: a class over include/sandbox.h, by ctypes.

    module = Module(bytes)
    with module.session(args=["wc"], input=b"a b\n") as session:
        told = session.run(fuel=10**6)
        print(told.kind, told.code, told.used, session.output())

A module is decoded and validated once and serves one session at a time; a `Prepared` one any number, also in several threads.
Bytes that a session reads are kept for it.

A number that doesn't fit is an error that names its argument: an OverflowError where it is too small or too large, a ValueError
where it is no whole number, as 1.0 or True.
"""
import ctypes as c
import fcntl
import operator
import os
import subprocess
import threading

HERE = os.path.dirname(os.path.abspath(__file__))
EXITED, TRAPPED, OUT_OF_FUEL, NO_MEMORY, CALLED, SPENT = range(6)
NO_FRAME = 101
MOST_32, MOST_64, MOST_SIZE = 2**32 - 1, 2**64 - 1, 2 ** (8 * c.sizeof(c.c_size_t)) - 1


class Refused(Exception):
    """A call that was refused, with the number of a fault as the program prints it."""

    def __init__(self, number, offset=0):
        super().__init__(f"fault {number} at {offset}: {text(number)}")
        self.number, self.offset = number, offset


class _Bytes(c.Structure):
    _fields_ = [("at", c.c_char_p), ("length", c.c_size_t)]

    @classmethod
    def of(cls, given):
        return cls(given, len(given))


class _Preopen(c.Structure):
    _fields_ = [("guest_name", _Bytes), ("path", _Bytes)]


class _Limits(c.Structure):
    _fields_ = [("pages", c.c_uint32), ("values", c.c_uint32), ("output", c.c_uint64), ("later", c.c_uint64 * 6)]


class _Supplies(c.Structure):
    _fields_ = [("args", c.POINTER(_Bytes)), ("args_count", c.c_size_t), ("env", c.POINTER(_Bytes)), ("env_count", c.c_size_t),
                ("preopens", c.POINTER(_Preopen)), ("preopens_count", c.c_size_t), ("moment", c.c_uint64), ("random", _Bytes),
                ("limits", _Limits), ("input", _Bytes)]


class _Volume(c.Structure):
    _fields_ = [("kind", c.c_uint32), ("sectors", c.c_char_p), ("sectors_count", c.c_size_t)]


class Told(c.Structure):
    """Why a session came back: the kind, its code, the call, and the units used since it began."""
    _fields_ = [("kind", c.c_uint32), ("code", c.c_uint32), ("call", c.c_uint32), ("used", c.c_uint64)]


class Frame(c.Structure):
    """A function at work: its index, the imported ones counted first, and where it stands in the module's bytes."""
    _fields_ = [("function", c.c_uint32), ("offset", c.c_uint32)]


class _Operation(c.Structure):
    _fields_ = [("kind", c.c_uint32), ("sector", c.c_uint32), ("bytes", c.c_uint8 * 512)]


class _Why(c.Structure):
    _fields_ = [("fault", c.c_uint32), ("offset", c.c_uint32)]


def _call(*words):
    """Runs a program, whose standard streams are open, also where ours are closed: else a file that it opens would have their place."""
    errors = None
    try:
        os.fstat(2)
    except OSError:
        errors = subprocess.DEVNULL
    subprocess.run(words, check=True, stdin=subprocess.DEVNULL, stdout=subprocess.DEVNULL, stderr=errors)


def _file():
    """The shared library: the one that a package put beside this file; in a checkout the one that the C compiler makes of the
    archive, where it isn't there or is older; else the one of the system."""
    packed, made, library = f"{HERE}/libsandbox.so.0", f"{HERE}/libsandbox.so", f"{HERE}/../library"
    if os.path.exists(packed):
        return packed
    if not os.path.exists(library):
        return "libsandbox.so.0"
    _call(library)
    archive = f"{HERE}/../../../out/libsandbox.a"
    if not os.path.exists(made) or os.path.getmtime(made) < os.path.getmtime(archive):
        _call("cc", "-shared", "-o", f"{made}.new", "-Wl,--whole-archive", archive, "-Wl,--no-whole-archive")
        os.rename(f"{made}.new", made)
    return made


def _library():
    library = c.CDLL(_file())
    for name in ("text", "output", "volume_out", "function_name"):
        getattr(library, f"sandbox_{name}").restype = c.c_size_t
    return library


_lib = _library()


def _check(number, offset=0):
    if number:
        raise Refused(number, offset)


def _number(name, value, most):
    """A whole number from 0 to `most`. ctypes would cut off what doesn't fit."""
    if isinstance(value, bool) or not hasattr(value, "__index__"):
        raise ValueError(f"{name} is a whole number, and not {value!r}")
    if not 0 <= operator.index(value) <= most:
        raise OverflowError(f"{name} is at least 0 and at most {most}, and not {value}")
    return operator.index(value)


def _bytes(given):
    """A copy of bytes, or of a text's in UTF-8; a number is neither."""
    return given.encode() if isinstance(given, str) else bytes(memoryview(given))


def version():
    """The library's version: 1,000,000 * major + 1,000 * minor + patch."""
    return _lib.sandbox_version()


def text(number, kind=0):
    """The text of a fault (kind 0), a trap (1) or an errno (2)."""
    room = c.create_string_buffer(80)
    numbers = c.c_uint32(_number("kind", kind, MOST_32)), c.c_uint32(_number("number", number, MOST_32))
    length = _lib.sandbox_text(*numbers, room, c.c_size_t(80))
    return room.raw[:min(length, 80)].decode()


def function_name(module, function):
    """What a function of a module is called: its name in the section `name`, else that of its first export, else `function[3]`.
    An empty name is none. What is no UTF-8 is told by backslashes."""
    module, function = bytes(memoryview(module)), c.c_uint32(_number("function", function, MOST_32))
    length = _lib.sandbox_function_name(module, c.c_size_t(len(module)), function, b"", c.c_size_t(0))
    room = c.create_string_buffer(max(1, length))
    _lib.sandbox_function_name(module, c.c_size_t(len(module)), function, room, c.c_size_t(length))
    return room.raw[:length].decode(errors="backslashreplace")


def empty_volume(sectors=1000, slots=16, huge=False):
    """The bytes of an empty volume, of 137 to 65,536 sectors and 1 to 8,192 slots for files and directories; of a huge one, of
    version 4, to 16,777,216 sectors and 1,048,576 slots."""
    sectors, slots = _number("sectors", sectors, MOST_SIZE), _number("slots", slots, MOST_32)
    most, make = (16777216, _lib.sandbox_format_huge) if huge else (65536, _lib.sandbox_format)
    room = c.create_string_buffer(512 * min(max(sectors, 1), most))
    _check(make(room, c.c_size_t(sectors), c.c_uint32(slots)) if sectors <= most else 36)
    return room.raw


def apart(descriptor):
    """The same open file under a number above 2; its first number is closed then. Where descriptor 0, 1 or 2 is closed, the system
    gives that number to the next file that is opened, and what the program prints would go into it: so pass what `os.open`
    answers through this."""
    if not 0 <= _number("descriptor", descriptor, 2**31 - 1) <= 2:
        return descriptor
    try:
        return fcntl.fcntl(descriptor, fcntl.F_DUPFD_CLOEXEC, 3)
    finally:
        os.close(descriptor)


class Module:
    """A valid module; with `floats` it may have floating point."""
    _raw = None  # where it wasn't made

    def __init__(self, given, floats=False):
        self._bytes, self._raw, why = bytes(memoryview(given)), c.c_void_p(), _Why()
        size, takes = c.c_size_t(len(self._bytes)), c.c_uint32(bool(floats))
        _check(_lib.sandbox_load_with(c.byref(self._raw), self._bytes, size, takes, c.byref(why)), why.offset)

    def session(self, **supplies):
        return Session(self, **supplies)

    def function_name(self, function):
        """What a function of it is called, by its index."""
        return function_name(self._bytes, function)

    def __del__(self):
        if self._raw:
            _lib.sandbox_unload(c.byref(self._raw))


class Prepared(Module):
    """A valid module of which all is made once that sessions look up: any number of them at once, also in several threads, and each
    opens as fast as one of a small module. They have these `pages`, 1,024 where it is 0; with `floats` it may have floating point."""

    def __init__(self, given, pages=0, floats=False):
        limits = _Limits(_number("pages", pages, MOST_32))
        self._bytes, self._raw, why = bytes(memoryview(given)), c.c_void_p(), _Why()
        self._pages, self._lock = limits.pages, threading.Lock()
        size, takes = c.c_size_t(len(self._bytes)), c.c_uint32(bool(floats))
        _check(_lib.sandbox_prepare_with(c.byref(self._raw), self._bytes, size, c.byref(limits), takes, c.byref(why)), why.offset)

    def share(self):
        """The same module again, for one session at a time."""
        other = Module.__new__(Module)
        other._bytes, other._raw = self._bytes, c.c_void_p()
        with self._lock:  # two threads may share it at once, and the library takes one call at a time
            _check(_lib.sandbox_module_share(c.byref(other._raw), c.byref(self._raw)))
        return other

    def session(self, **supplies):
        return Session(self.share(), **{"pages": self._pages, **supplies})


class Session:
    """A guest with what it is given; `with` closes it, and its module can be used again then.

    The most that it may have: `pages` of memory, of 65,536 bytes; `values` on its stack, of 8 bytes; `output` bytes that it writes
    to descriptor 1, and as many to 2. 0 is the library's default: 1,024 pages, 1,048,576 values, 16,777,216 bytes."""
    _raw = None  # where it wasn't made

    def __init__(self, module, args=(), env=(), preopens=(("/", "/"),), moment=0, random=b"", pages=0, input=b"", volume=None, recorded=False,
                 values=0, output=0, huge=False):
        def texts(given):
            if isinstance(given, (str, bytes, bytearray)):
                raise TypeError("a list of texts is wanted, and not one text")
            return [_bytes(it) for it in given]

        limits = _Limits(_number("pages", pages, MOST_32), _number("values", values, MOST_32), _number("output", output, MOST_64))
        moment = _number("moment", moment, MOST_64)
        random, input, volume = _bytes(random), _bytes(input), None if volume is None else bytes(memoryview(volume))
        args, env, names, paths = texts(args), texts(env), texts(it[0] for it in preopens), texts(it[1] for it in preopens)
        array = (_Bytes * max(1, len(args)))(*map(_Bytes.of, args)), (_Bytes * max(1, len(env)))(*map(_Bytes.of, env))
        opened = (_Preopen * max(1, len(names)))(*[_Preopen(_Bytes.of(name), _Bytes.of(path)) for name, path in zip(names, paths)])
        given = _Supplies(array[0], len(args), array[1], len(env), opened, len(names), moment, _Bytes.of(random), limits, _Bytes.of(input))
        over = _Volume(1 + bool(recorded) + 4 * bool(huge), volume, len(volume) // 512) if volume is not None else _Volume(0, b"", 0)
        self._kept, self._module, self._raw = (args, env, names, paths, array, opened, random, input, module), module, c.c_void_p()
        self._settled = 0  # operations that are on the descriptor
        self._used = 0  # units so far
        _check(self._open(module, c.byref(given), c.byref(over)))

    def _open(self, module, given, over):
        return _lib.sandbox_open_loaded(c.byref(self._raw), c.byref(module._raw), given, over)

    def resume(self, units):
        """Goes on for at most this many units, until one call is answered, the units are used, or the guest ends."""
        told = Told()
        _check(_lib.sandbox_resume(c.byref(self._raw), c.c_uint64(_number("units", units, MOST_64)), c.byref(told)))
        self._used = told.used
        return told

    def frames(self, most=MOST_SIZE):
        """The functions at work, the innermost first, `most` of them at most: while it runs, and of a trap or out of memory those
        that were at work then. Before the first `resume`, after an exit and once it is finished there are none."""
        found, most = [], _number("most", most, MOST_SIZE)
        while len(found) < most:
            frame = Frame()
            if _lib.sandbox_frame_at(c.byref(self._raw), c.c_size_t(len(found)), c.byref(frame)):
                break
            found.append(frame)
        return found

    def run(self, fuel):
        """Goes on until the guest ends, or this many units are used since the session began."""
        fuel = _number("fuel", fuel, MOST_64)
        while True:
            told = self.resume(max(0, fuel - self._used))
            if told.kind != CALLED:
                return told

    def output(self, descriptor=1, start=0):
        """What the guest has written so far to descriptor 1 or 2, from this byte on."""
        descriptor, start = _number("descriptor", descriptor, MOST_32), _number("start", start, MOST_SIZE)
        length = max(0, _lib.sandbox_output(c.byref(self._raw), c.c_uint32(descriptor), c.c_size_t(0), b"", c.c_size_t(0)) - start)
        room = c.create_string_buffer(max(1, length))
        _lib.sandbox_output(c.byref(self._raw), c.c_uint32(descriptor), c.c_size_t(start), room, c.c_size_t(length))
        return room.raw[:length]

    def full(self, descriptor=1):
        """Whether a write of the guest to descriptor 1 or 2 was refused since it has written as much there as it may."""
        return _lib.sandbox_full(c.byref(self._raw), c.c_uint32(_number("descriptor", descriptor, MOST_32))) == 1

    def finish(self):
        """Commits the guest's calls, and gives the bytes of its volume."""
        _check(_lib.sandbox_finish(c.byref(self._raw)))
        return self._volume()

    def _volume(self):
        count = _lib.sandbox_volume_out(c.byref(self._raw), b"", c.c_size_t(0))
        room = c.create_string_buffer(512 * max(1, count))
        _lib.sandbox_volume_out(c.byref(self._raw), room, c.c_size_t(count))
        return room.raw[:512 * count]

    def settle(self, descriptor):
        """Does on a descriptor what the session did to its volume since the last time, with `fdatasync` at each of its syncs.
        The session was opened with the descriptor's bytes as `volume`, and `recorded`. After a `resume` what the guest synced
        lasts from then on, before it goes on; after `finish` all that it did. A stop at any moment leaves the volume as it was
        at a moment of the session. Where this fails, it isn't called again. Descriptors 0, 1 and 2 are refused (see `apart`)."""
        if _number("descriptor", descriptor, 2**31 - 1) <= 2:
            raise ValueError(f"descriptor is above 2, and not {descriptor}, which is a standard stream's")
        operation, last = _Operation(), 2
        while True:
            _check(_lib.sandbox_operation_at(c.byref(self._raw), c.c_size_t(self._settled), c.byref(operation)))
            if operation.kind == 1:
                done = 0
                while done < 512:
                    done += os.pwrite(descriptor, bytes(operation.bytes)[done:], 512 * operation.sector + done)
            elif operation.kind == 2 or last == 1:
                os.fdatasync(descriptor)
            if operation.kind == 0:
                return
            self._settled, last = self._settled + 1, operation.kind

    def close(self):
        """Discards the session, finished where it wasn't. Its module can be used again."""
        if self._raw:
            _lib.sandbox_finish(c.byref(self._raw))
            _lib.sandbox_close_loaded(c.byref(self._raw), c.byref(self._module._raw))

    def __enter__(self):
        return self

    def __exit__(self, *_):
        self.close()

    def __del__(self):
        self.close()
