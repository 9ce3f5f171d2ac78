"""What `bench/frames` tries: where the library says that functions stand, beside `plain_reader`, `wasm-objdump` and `wasm-interp`.

A drawn program is that of `programs.py`, its numbers written longer than they need be, with names that are drawn and damaged. At each drawn
pause, and at its trap, `wasm-interp` says exactly which instruction is next and which calls are open: before each plain instruction the
module that it runs counts, and where the count is one that was asked for it keeps the instruction's number and a hash of the open calls'.
"""
import bisect
import collections
import gzip
import hashlib
import os
import random
import re
import shutil
import subprocess
import sys

import plain_reader
import programs
import wasm_binary
from common import TOP, Wrong
from damage import own_path
from plain_reader import CALL, CALL_INDIRECT, ELSE, END
from wasm_binary import I64, Body, Module, sized, u

PAUSES = 24  # of a drawn program, beside its end
FACTOR = 6364136223846793005  # odd, so that there is an inverse
INVERSE = pow(FACTOR, -1, 1 << 64)
ODD_NAMES = [b"", b"plain", b"two words", b"line\nsandbox: exit 0", b"\x1b[31mred\x1b[0m", "mal\u202egnp.exe".encode(), b"\xff\xfe no text", b"a;b 7", b"\0", "äöü ☃".encode(),
             b"function[3]", b"\\n", "\u0085\u009b31m".encode()]


def signed(value):
    value %= 1 << 64
    return value - (1 << 64) if value >> 63 else value


# ---- writing modules otherwise than the tools do


def longer(shortest, chance, most, fill=0):
    """A number in LEB128 with more bytes than it needs, seldom."""
    if chance.random() < 0.8 or len(shortest) >= most:
        return shortest
    count = chance.randrange(len(shortest) + 1, most + 1)
    bits = [it & 0x7F for it in shortest] + [fill] * (count - len(shortest))
    return bytes(it | 0x80 for it in bits[:-1]) + bytes(bits[-1:])


def spelled(op, values, chance):
    """The bytes of an instruction, with numbers that may be longer than they need be."""
    kind = wasm_binary.IMMEDIATES.get(op, "")
    if op >= 0xFC00 or kind == "t" or op in (0x3F, 0x40):
        return wasm_binary.written(op, values)
    if kind == "s":
        return bytes((op,)) + longer(wasm_binary.s(values[0]), chance, 5 if op == 0x41 else 10, 0x7F if values[0] < 0 else 0)
    if op == CALL_INDIRECT:
        return bytes((op,)) + longer(u(values[0]), chance, 5) + b"\0"
    if kind == "table":
        return bytes((op,)) + b"".join(longer(u(it), chance, 5) for it in (len(values[0]), *values[0], values[1]))
    return bytes((op,)) + b"".join(longer(u(it), chance, 5) for it in values)


def entry(body, chance):
    """A body's entry of the code section, with the same locals in more groups."""
    groups = [(kind, part) for count, kind in body.locals for part in ([count] if chance.random() < 0.7 else [0, count, 0])]
    local = longer(u(len(groups)), chance, 5) + b"".join(longer(u(count), chance, 5) + bytes((kind,)) for kind, count in groups)
    content = local + b"".join(spelled(op, values, chance) for op, values in body.code)
    return longer(u(len(content)), chance, 5) + content


def module_bytes(module, chance, custom=()):
    """The module's bytes. `custom` are contents of custom sections, each with the id of the section that it stands behind."""
    bodies, module.bodies = module.bodies, []  # they are spelled here
    out, parts = bytearray(wasm_binary.MAGIC), module.parts()
    module.bodies = bodies
    parts[10] = longer(u(len(module.bodies)), chance, 5) + b"".join(entry(it, chance) for it in module.bodies)
    for before in (0, 1, 2, 3, 4, 5, 6, 7, 8, 9, 12, 10, 11):
        if before in parts:
            out += bytes((before,)) + longer(u(len(parts[before])), chance, 5) + parts[before]
        for _, content in (it for it in custom if it[0] == before):
            out += b"\0" + sized(content)
    return bytes(out)


def drawn_name(chance):
    kind = chance.random()
    if kind < 0.5:
        return chance.choice(ODD_NAMES)
    if kind < 0.51:
        return chance.choice((b"n", b"\n", b"\x1b[7m", "\u202e".encode(), b"\xc3")) * chance.choice((60_000, 65_536, 70_000))
    return bytes(chance.choice(b"abcdefghijklmnopqrstuvwxyz_.:$<>") for _ in range(chance.randrange(1, 40)))


def drawn_parts(functions, chance):
    """Parts of a section `name`, in any order and maybe twice."""
    def pairs():
        some = [it for it in range(functions + 2) if chance.random() < 0.8]
        chance.shuffle(some)
        return wasm_binary.vector(u(it) + sized(drawn_name(chance)) for it in sorted(some) if chance.random() < 0.95)

    parts = [(0, sized(drawn_name(chance))), (1, pairs()), (2, wasm_binary.vector(u(it) + u(0) for it in range(functions))), (chance.randrange(3, 256), os.urandom(0))]
    chosen = [it for it in parts if chance.random() < 0.8] + [(1, pairs())] * (chance.random() < 0.2)
    if chance.random() < 0.3:
        chance.shuffle(chosen)
    return chosen


def damaged(content, chance):
    """Bytes that were cut, changed or made longer, and sizes that say too much or too little."""
    content = bytearray(content)
    for _ in range(chance.randrange(1, 4)):
        at = chance.randrange(len(content)) if content else 0
        way = chance.randrange(6)
        if way == 0:
            del content[at:]
        elif way == 1 and content:
            content[at] = chance.randrange(256)
        elif way == 2 and content:
            content[at] ^= 1 << chance.randrange(8)
        elif way == 3:
            content[at:at] = bytes(chance.choice((0x80, 0xFF, 0, 1)) for _ in range(chance.randrange(1, 7)))
        elif way == 4 and content:
            content[at] = (content[at] + chance.choice((1, -1, 20))) % 256
        elif content:
            del content[at]
    return bytes(content)


def drawn_names(functions, chance):
    """Custom sections for a module, most of them `name`."""
    sections = []
    for _ in range(chance.choice((0, 1, 1, 1, 1, 2))):
        content = b"".join(bytes((kind,)) + longer(u(len(part)), chance, 5) + part for kind, part in drawn_parts(functions, chance))
        if chance.random() < 0.5:
            content = damaged(content, chance)
        title = sized(b"name") if chance.random() < 0.93 else sized(chance.choice((b"nam", b"names", b"Name", b"")))
        sections.append((chance.choice((0, 1, 3, 7, 11, 11, 11, 11)), title + content))
    return sections


# ---- what another interpreter says


class Marked:
    """The module that `wasm-interp` runs: it counts, and at each of some counts, by rising number, keeps the place and the open calls."""

    def __init__(self, module, stops):
        self.it, self.stops = Module(module.bytes()), stops
        self.first, self.imported = len(self.it.globals), len(self.it.imported_functions())
        self.helpers = self.imported + len(self.it.functions)
        self.places = [(self.imported + own, at) for own, body in enumerate(self.it.bodies) for at in range(len(body.code))]
        number = 0
        for body in self.it.bodies:
            code = []
            for op, values in body.code:
                code += self.around(op, values, number)
                number += 1
            body.code = code
        self.finish()

    def around(self, op, values, number):
        """An instruction with the count of its place before it, of a loop behind it, since a branch to it takes its unit again."""
        mark, opened, shut = ([(0x42, (number,)), (CALL, (helper,))] for helper in range(self.helpers, self.helpers + 3))
        if op in (ELSE, END):
            return [(op, values)]
        if op == programs.LOOP:
            return [(op, values), *mark]
        if op == CALL_INDIRECT or op == CALL and values[0] >= self.imported:
            # (a call isn't open yet at its own count: through a table it may trap before anything is called)
            return [*mark, *opened, (op, values), *shut]
        return [*mark, (op, values)]

    def finish(self):
        """The helpers: to count a place and keep it where its count is waited for, to open a call, to shut one; and the exports."""
        it, kept = self.it, self.first + 3
        count, stop, calls = range(self.first, kept)
        code = []
        for k in reversed(range(len(self.stops))):
            after = self.stops[k + 1] if k + 1 < len(self.stops) else -1
            code = [(0x23, (count,)), (0x42, (self.stops[k],)), (0x51, ()), (0x04, (-0x40,)), (0x20, (0,)), (0x24, (kept + 2 * k,)), (0x23, (calls,)), (0x24, (kept + 2 * k + 1,)),
                    (0x42, (after,)), (0x24, (stop,)), (0x05, ()), *code, (0x0B, ())]
        counted = [(0x23, (count,)), (0x42, (1,)), (0x7C, ()), (0x24, (count,)), (0x23, (count,)), (0x23, (stop,)), (0x51, ()), (0x04, (-0x40,)), *code, (0x0B, ()), (0x0B, ())]
        key = [(0x20, (0,)), (0x42, (1,)), (0x7C, ())]
        opened = [(0x23, (calls,)), (0x42, (signed(FACTOR),)), (0x7E, ()), *key, (0x7C, ()), (0x24, (calls,)), (0x0B, ())]
        shut = [(0x23, (calls,)), *key, (0x7D, ()), (0x42, (signed(INVERSE),)), (0x7E, ()), (0x24, (calls,)), (0x0B, ())]
        first = [0, self.stops[0] if self.stops else -1, 0] + [-1] * (2 * len(self.stops))
        it.globals += [(I64, 1, [(0x42, (value,)), (0x0B, ())]) for value in first]
        it.types += [([I64], []), ([], [I64])]
        it.functions += [len(it.types) - 2] * 3
        it.bodies += [Body([], code) for code in (counted, opened, shut)]
        it.exports = [export for export in it.exports if export[0] == b"_start"]  # all that are there are run
        for name, index in [(b"units", count)] + [(b"kept%d" % k, kept + k) for k in range(2 * len(self.stops))]:
            it.exports.append((name, 0, self.imported + len(it.functions)))
            it.functions.append(len(it.types) - 1)
            it.bodies.append(Body([], [(0x23, (index,)), (0x0B, ())]))

    def run(self, path):
        """How `_start` ended, how many plain instructions there were, and of each count its instruction and the open calls."""
        with open(path, "wb") as file:
            file.write(self.it.bytes())
        done = subprocess.run(["wasm-interp", "--run-all-exports", "--dummy-import-func", path], capture_output=True, text=True, timeout=600)
        end = re.search(r"_start\(\) =>(?: error: (.*))?", done.stdout + done.stderr)
        numbers = {name: int(value) for name, value in re.findall(r"^(\w+)\(\) => i64:(\d+)$", done.stdout, re.M)}
        if not end or "units" not in numbers:
            raise Wrong(f"wasm-interp: {(done.stdout + done.stderr)[:300]}")
        return end[1], numbers["units"], {stop: (numbers[f"kept{2 * k}"], numbers[f"kept{2 * k + 1}"]) for k, stop in enumerate(self.stops)}


def hashed(numbers):
    """The hash of open calls, the outermost first, each the number of its instruction."""
    value = 0
    for it in numbers:
        value = (value * FACTOR + it + 1) % (1 << 64)
    return value


# ---- what the library says


class Host:
    """The library, by the wrapper in Python of `examples/hosts`."""

    def __init__(self, sandbox, digest):
        self.sandbox, self.c, self.digest = sandbox, sandbox.c, digest

    def frames(self, session):
        found = [(it.function, it.offset) for it in session.frames()]
        past = self.sandbox.Frame()
        for number in (len(found), len(found) + 1, 2**32, 2**64 - 1):
            answer = self.sandbox._lib.sandbox_frame_at(self.c.byref(session._raw), self.c.c_size_t(number), self.c.byref(past))
            if answer != self.sandbox.NO_FRAME:
                raise Wrong(f"frame {number} of {len(found)} is answered {answer}")
        return found

    def name(self, data, function):
        """A function's name; what the library writes never passes the room that it was given."""
        c, called = self.c, self.sandbox._lib.sandbox_function_name
        length = called(data, c.c_size_t(len(data)), c.c_uint32(function), b"", c.c_size_t(0))
        room = c.create_string_buffer(b"\xa5" * (length + 8), length + 8)
        for given in {length, length // 2}:
            room.raw = b"\xa5" * (length + 8)
            if called(data, c.c_size_t(len(data)), c.c_uint32(function), room, c.c_size_t(given)) != length or room.raw[given:] != b"\xa5" * (length + 8 - given):
                raise Wrong(f"the name of function {function} with room for {given} of {length} bytes")
        room.raw = b"\xa5" * (length + 8)
        called(data, c.c_size_t(len(data)), c.c_uint32(function), room, c.c_size_t(length))
        return room.raw[:length]


def host_at(room, library=None):
    """The wrapper over a shared library, the released one where none is named; both are copied into this folder."""
    copy = f"{room}/libsandbox.so.0"
    if library:
        shutil.copyfile(library, copy)
    else:
        with gzip.open(f"{TOP}/release/libsandbox.so.gz") as packed, open(copy, "wb") as file:
            shutil.copyfileobj(packed, file)
    shutil.copyfile(f"{TOP}/examples/hosts/python/sandbox.py", f"{room}/sandbox.py")
    sys.path.insert(0, room)
    import sandbox
    with open(copy, "rb") as file:
        return Host(sandbox, hashlib.sha256(file.read()).hexdigest())


def objdump_places(path):
    """Each instruction's offset and function as Debian's `wasm-objdump` finds them."""
    said = subprocess.run(["wasm-objdump", "-d", path], capture_output=True, check=True).stdout.decode(errors="replace")
    function, found = None, {}
    for line in said.splitlines():
        head = re.match(r"\w+ func\[(\d+)\]", line)
        if head:
            function = int(head[1])
        place = re.match(r" (\w+): [^|]*\| *(\S.*)$", line)
        if place and function is not None and not place[2].startswith("local["):
            found[int(place[1], 16)] = function
    return found


def same_places(reading, path):
    """The reader's instructions beside those of `wasm-objdump`, which is given no section `name`: damaged ones it refuses."""
    data = bytearray(reading.data)
    for kind, content, first in plain_reader.sections(reading.data):
        if kind == 0 and content[:5] == b"\4name":
            data[first + 1 : first + 5] = b"none"
    with open(path, "wb") as file:
        file.write(data)
    first, found = len(reading.imports), {}
    for own in range(len(reading.bodies)):
        found.update(dict.fromkeys(reading.body(first + own), first + own))
    if found != objdump_places(path):
        raise Wrong("the reader and wasm-objdump find other instructions")
    return len(found)


def same_names(host, data, reading, functions=None):
    """The names of all functions or of these, and of numbers that are no function's; how many there are."""
    count = len(reading.imports) + len(reading.bodies)
    for function in [*(functions or range(count)), count, count + 1, 2**31, 2**32 - 1]:
        told, wanted = host.name(data, function), plain_reader.name_of(data, function)
        if told != wanted:
            raise Wrong(f"function {function} is called {told[:80]!r}, by the reader {wanted[:80]!r}")
    return count


# ---- drawn programs


def drawn_module(seed):
    """A program of `programs.py` with exports for some of its functions, as a module and as bytes with names."""
    chance, module = random.Random(seed + 7), programs.made(seed)
    count = 1 + len(module.functions)
    taken = {it[0] for it in module.exports}
    for function in range(count):
        name = chance.choice([it for it in ODD_NAMES if b"\xff" not in it])
        if chance.random() < 0.3 and name not in taken:
            taken.add(name)
            module.exports.insert(chance.randrange(len(module.exports) + 1), (name, 0, function))
    return module, module_bytes(module, chance, drawn_names(count, chance)), chance


def places_of(reading, imported):
    """Of each of the module's functions the offsets of its instructions, in order."""
    return {imported + own: list(reading.body(imported + own)) for own in range(len(reading.bodies))}


def resumed(session, sandbox, units, at_calls):
    """Goes on for so many units, over the calls that are answered, each of which is handed to `at_calls`."""
    begun = session._used
    while True:
        told = session.resume(begun + units - session._used)
        if told.kind != sandbox.CALLED:
            return told
        at_calls()


class Tried:
    """One drawn program: its frames at its pauses and at its end."""

    def __init__(self, setting, host, seed):
        self.host, self.seed, self.frames_count, self.calls = host, seed, 0, 0
        self.module, self.data, self.chance = drawn_module(seed)
        self.reading = plain_reader.Reading(self.data)
        self.other = own_path(setting, "marked.wasm")

    def at_call(self, session):
        frames = self.host.frames(session)
        self.calls, self.frames_count = self.calls + 1, self.frames_count + len(frames)
        why = self.reading.wrong(frames, is_call_answered=True)
        if why or not frames or not self.reading.called_just_now(*frames[0]):
            raise Wrong(f"behind a call that was answered: {why or frames}")

    def compared(self, frames, marked, place, calls):
        """Frames beside what the other interpreter kept."""
        why = self.reading.wrong(frames)
        if why:
            raise Wrong(why)
        numbers = [bisect.bisect_left(marked.places, (function, self.reading.body(function)[offset][2])) for function, offset in frames]
        if not numbers or numbers[0] != place:
            raise Wrong(f"the innermost is {frames[:1]}, and wasm-interp's instruction is {marked.places[place]}")
        if hashed(reversed(numbers[1:])) != calls:
            raise Wrong(f"the frames are {frames}, and wasm-interp has other calls open")
        self.frames_count += len(frames)

    def run(self, setting):
        sandbox = self.host.sandbox
        module = sandbox.Module(self.data)
        with module.session(pages=16) as session:
            whole = session.run(2**40)
        pauses = sorted(self.chance.sample(range(whole.used), min(PAUSES, whole.used)))
        # the instruction that comes next takes the next unit, and the one that traps takes the last one
        marked = Marked(self.module, sorted({whole.used, *(it + 1 for it in pauses)}))
        trap, units, kept = marked.run(self.other)
        if (whole.kind, whole.used) != (sandbox.TRAPPED if trap else sandbox.EXITED, units):
            raise Wrong(f"it ends with kind {whole.kind} and {whole.used} units, and wasm-interp by {trap} with {units}")
        with module.session(pages=16) as session:
            self.paused(session, marked, kept, pauses, whole)
        found = collections.Counter({"pauses": len(pauses), "frames": self.frames_count, "calls": self.calls, programs.trap_text(trap) or "ended": 1})
        found["names"] = same_names(self.host, self.data, self.reading)
        if self.seed % 10 == 0:  # half of the time would go into what it prints
            found["instructions"] = same_places(self.reading, self.other)
        return found

    def paused(self, session, marked, kept, pauses, whole):
        """The same run with pauses, and the frames at each and at the end."""
        sandbox = self.host.sandbox
        if self.host.frames(session):
            raise Wrong("frames before the first resume")
        for pause in pauses:
            told = resumed(session, sandbox, pause - session._used, lambda: self.at_call(session))
            if (told.kind, told.used) != (sandbox.SPENT, pause):
                raise Wrong(f"kind {told.kind} and {told.used} units in place of a pause at {pause}")
            self.compared(self.host.frames(session), marked, *kept[pause + 1])
        told = resumed(session, sandbox, 2**40, lambda: self.at_call(session))
        if (told.kind, told.code, told.used) != (whole.kind, whole.code, whole.used):
            raise Wrong(f"it ends otherwise with pauses: {told.kind} {told.code} {told.used}")
        frames = self.host.frames(session)
        if told.kind == sandbox.TRAPPED:
            self.compared(frames, marked, *kept[whole.used])
        elif frames:
            raise Wrong(f"frames after an exit: {frames}")


def tried(setting, host, seed):
    it = Tried(setting, host, seed)
    try:
        return it.run(setting)
    except Wrong as wrong:
        raise Wrong(f"program of seed {seed}: {wrong}; kept as {setting.keep('frames.wasm', it.data)}") from None


def drawn(setting, host, count):
    """Drawn programs beside two other readers and another interpreter."""
    found = collections.Counter()
    for counts in setting.each(lambda k: tried(setting, host, setting.seed * 1_000_000 + k), range(count)):
        found += counts
    return count, found
