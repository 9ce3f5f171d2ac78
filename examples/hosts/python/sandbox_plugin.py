"""Instances of WebAssembly modules whose exported functions are called, from Python: over include/sandbox_plugin.h, by ctypes.

    plugin = Plugin(bytes)
    with plugin.instance(imports={("env", "log"): lambda caller, at, size: print(caller.read(at, size).decode())}) as instance:
        print(instance.call("add", 2, 3, fuel=10**6))

A function of the host gets the instance and its arguments, and gives a number or None. Arguments and results are numbers from 0 on, of
32 or 64 bits; a float's are its bits. What it raises goes on to who called the export, and the call is let go. While it is asked, the
instance can be read and written, and not called: that is `Busy`.

    plugin = Plugin(bytes, fed=True)
    with plugin.instance(feed=lambda wanted: socket.recv(wanted)) as instance:
        instance.call("serve")

Instances of a plugin that was loaded with `fed` have an input that goes on. A guest that reads more of it than is there waits; `feed` is told how
many bytes it asks for, and gives some, or none at the end, as a file's `read` does. However the input is cut, the guest does the same.
"""
import ctypes as c
import threading

import sandbox
from sandbox import CALLED, MOST_32, MOST_64, MOST_SIZE, Session, Told, _check, _lib, _Limits, _number, _Why

Refused = sandbox.Refused
RETURNED, ASKED, STARVED = 6, 7, 8
ENDED = 111
MOST_VALUES = MOST_FRAMES = 16

_lib.sandbox_plugin_name.restype = _lib.sandbox_values.restype = _lib.sandbox_memory_size.restype = c.c_size_t


class Busy(Exception):
    """A function of the host called an export of the instance that waits for its answer."""


class Ended(Exception):
    """A call that didn't return: by a trap, by `proc_exit`, without memory, without fuel, or for want of input where there is no `feed`. `told` says which, and `frames` has the
    functions that were at work then, the innermost first, 16 of them at most."""

    def __init__(self, told, frames):
        super().__init__(f"kind {told.kind}, code {told.code} after {told.used} units")
        self.told, self.frames = told, frames


class Plugin:
    """A valid module for any number of instances, in any threads, each with these `pages`; with `floats` it may have floating point, and
    with `fed` their input goes on."""
    _raw = None  # where it wasn't made

    def __init__(self, given, pages=0, floats=False, fed=False):
        limits = _Limits(_number("pages", pages, MOST_32))
        self._bytes, self._raw, why = bytes(memoryview(given)), c.c_void_p(), _Why()
        self._pages, self._lock = limits.pages, threading.Lock()
        size, takes = c.c_size_t(len(self._bytes)), c.c_uint32(bool(floats))
        load = _lib.sandbox_plugin_load_fed if fed else _lib.sandbox_plugin_load
        _check(load(c.byref(self._raw), self._bytes, size, c.byref(limits), takes, c.byref(why)), why.offset)

    def _name(self, part, index):
        length = _lib.sandbox_plugin_name(c.byref(self._raw), c.c_uint32(part), c.c_size_t(index), b"", c.c_size_t(0))
        if length == MOST_SIZE:
            return None
        room = c.create_string_buffer(max(1, length))
        _lib.sandbox_plugin_name(c.byref(self._raw), c.c_uint32(part), c.c_size_t(index), room, c.c_size_t(length))
        return room.raw[:length].decode()

    def imports(self):
        """The module name and the name of each import, in their order."""
        found = []
        with self._lock:
            while (module := self._name(0, len(found))) is not None:
                found.append((module, self._name(1, len(found))))
        return found

    def exports(self):
        """The name of each export, in their order."""
        found = []
        with self._lock:
            while (name := self._name(2, len(found))) is not None:
                found.append(name)
        return found

    def function_name(self, function):
        """What a function of this index is called, as `sandbox.function_name` has it."""
        return sandbox.function_name(self._bytes, function)

    def instance(self, imports=None, feed=None, **supplies):
        """An instance, which is given `imports` by module name and name, and the rest as a session is. Of a plugin that is `fed`, `input` is what
        is there at the opening, and `feed(wanted)` gives more."""
        return Instance(self, imports or {}, feed=feed, **{"pages": self._pages, **supplies})

    def __del__(self):
        if self._raw:
            _lib.sandbox_plugin_unload(c.byref(self._raw))


class Instance(Session):
    """An instance: its exported functions are called, one after another, over a volume that is kept over its life. Its start function
    and its `_initialize` have run when it is made, with at most `fuel` units."""

    def __init__(self, plugin, imports, fuel=10**9, feed=None, **supplies):
        self._imports, self._names, self._at_work = dict(imports), plugin.imports(), False
        self._more = feed
        super().__init__(plugin, **supplies)
        self._through(_number("fuel", fuel, MOST_64))

    def _open(self, module, given, over):
        with module._lock:  # two threads may open instances of it at once, and the library takes one call at a time
            return _lib.sandbox_instance_open(c.byref(self._raw), c.byref(module._raw), given, over)

    def _values(self):
        room = (c.c_uint64 * MOST_VALUES)()
        count = _lib.sandbox_values(c.byref(self._raw), room, c.c_size_t(MOST_VALUES))
        return room[:count]

    def _serve(self, import_index):
        name = self._names[import_index]
        function = self._imports.get(name)
        if function is None:
            raise KeyError(f"no function of the host for the import {name[0]}.{name[1]}")
        result = function(self, *self._values())
        _check(self._answer([] if result is None else [_number(f"the result of {name[0]}.{name[1]}", result, MOST_64)]))

    # What is told to the library, each as its function of the header: a recording (replay.py) adds to these.

    def _invoke(self, name, numbers):
        given = (c.c_uint64 * max(1, len(numbers)))(*numbers)
        return _lib.sandbox_invoke(c.byref(self._raw), name, c.c_size_t(len(name)), given, c.c_size_t(len(numbers)))

    def _go(self, units, told):
        return _lib.sandbox_go(c.byref(self._raw), c.c_uint64(units), c.byref(told))

    def _answer(self, results):
        given = (c.c_uint64 * max(1, len(results)))(*results)
        return _lib.sandbox_answer(c.byref(self._raw), given, c.c_size_t(len(results)))

    def _write(self, address, given):
        return _lib.sandbox_memory_write(c.byref(self._raw), c.c_uint32(address), given, c.c_size_t(len(given)))

    def _feed(self, given):
        return _lib.sandbox_feed(c.byref(self._raw), given, c.c_size_t(len(given)))

    def _feed_end(self):
        return _lib.sandbox_feed_end(c.byref(self._raw))

    def _let_go(self):
        return _lib.sandbox_abandon(c.byref(self._raw))

    def _finish(self):
        return _lib.sandbox_instance_finish(c.byref(self._raw))

    def _take_more(self, wanted):
        given = sandbox._bytes(self._more(wanted))
        if given:
            self.feed(given)
        else:
            self.end_input()

    def feed(self, given):
        """Hands over bytes of the input, at any time; behind its end they are refused (`ENDED`)."""
        _check(self._feed(sandbox._bytes(given)))

    def end_input(self):
        """Says that no more bytes of the input come."""
        _check(self._feed_end())

    def _through(self, fuel):
        """Goes on until what runs has returned, and gives its result."""
        end, told, self._at_work = self._used + fuel, Told(), True
        try:
            while True:
                _check(self._go(max(0, end - self._used), told))
                self._used = told.used
                if told.kind == ASKED:
                    self._serve(told.call)
                    self._used += 1
                elif told.kind == STARVED and self._more is not None:
                    self._take_more(told.code)
                elif told.kind == RETURNED:
                    return next(iter(self._values()), None)
                elif told.kind != CALLED:
                    raise Ended(told, self.frames(MOST_FRAMES))
        except BaseException:
            if told.kind != sandbox.EXITED:
                self.abandon()
            raise
        finally:
            self._at_work = False

    def call(self, name, *arguments, fuel=10**9):
        """Calls an exported function with at most `fuel` units, and gives its result, or None where it has none."""
        if self._at_work:
            raise Busy(f"{name} is called while a function of the host is asked")
        _check(self._invoke(name.encode(), [_number("an argument", it, MOST_64) for it in arguments]))
        return self._through(_number("fuel", fuel, MOST_64))

    def abandon(self):
        """Lets go what is at work."""
        return self._let_go() == 0

    def read(self, address, length):
        """Bytes of memory."""
        room = c.create_string_buffer(max(1, _number("length", length, MOST_32)))
        _check(_lib.sandbox_memory_read(c.byref(self._raw), c.c_uint32(_number("address", address, MOST_32)), room, c.c_size_t(length)))
        return room.raw[:length]

    def write(self, address, given):
        """Writes bytes into memory."""
        _check(self._write(_number("address", address, MOST_32), sandbox._bytes(given)))

    def memory_size(self):
        """How many bytes memory has."""
        return _lib.sandbox_memory_size(c.byref(self._raw))

    @property
    def used(self):
        """The units used so far."""
        return self._used

    def resume(self, units):
        raise TypeError("an instance is called")

    def run(self, fuel):
        raise TypeError("an instance is called")

    def finish(self):
        """Commits the guest's calls, and gives the bytes of its volume."""
        _check(self._finish())
        return self._volume()

    def close(self):
        """Discards the instance, also what isn't committed."""
        if self._raw:
            _lib.sandbox_close(c.byref(self._raw))
