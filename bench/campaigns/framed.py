"""Chosen modules and real programs of `bench/frames`: the deepest stacks, each trap, tables, start functions, imports, names of 60 KB; and
programs that weren't written for this, at drawn amounts of fuel."""
import collections
import os
import random

import plain_reader
import wasm_binary
from common import Wrong
from framing import module_bytes, resumed, same_names
from timed import TIMED
from wasm_binary import I32, I64, Body, Module, sized, u

NONE, ONE, FOUR = 0, 1, 2  # types: of nothing, of a number to a number, of four numbers to one
DEEPEST = 65_536
CALLS = {"SPENT": 5, "TRAPPED": 1, "NO_MEMORY": 3, "CALLED": 4, "EXITED": 0}
NOP, UNREACHABLE, DROP = (0x01, ()), (0x00, ()), (0x1A, ())


def i32(value):
    return 0x41, (value,)


def call(function):
    return 0x10, (function,)


def through(slot, kind=NONE):
    return [i32(slot), (0x11, (kind, 0))]


class Case:
    """A module, what it is given, and where its functions have to stand: the index of an instruction in each body, the innermost first."""

    def __init__(self, name, functions, wanted, end="TRAPPED", code=None, units=None, imports=0, table=(), start=None, first=None, **given):
        self.name, self.wanted, self.end, self.code, self.units, self.given = name, wanted, end, code, units, given
        self.module = module = Module(wasm_binary.MAGIC)
        module.types = [([], []), ([I32], [I32]), ([I32] * 4, [I32])]
        module.imports = [(b"wasi_snapshot_preview1", b"call%d" % k, 0, FOUR) for k in range(imports)]
        module.functions = [kind for kind, _, _ in functions]
        module.bodies = [Body([(count, I64)] if count else [], [*code, (0x0B, ())]) for _, count, code in functions]
        module.memories, module.tables = [(1, 2)], [(8, 8)]
        module.elements = [([i32(0), (0x0B, ())], list(table))] if table else []
        module.exports = [(b"_start", 0, imports + len(functions) - 1 if first is None else first)]
        module.start = start


def deep(imports):
    """Stacks of 65,536 frames, by calls, through a table, and by two functions in turn; a pause far down; and memory for values that ends."""
    f, g = imports, imports + 1
    begin = [(NONE, 0, [NOP, call(f)])]
    turn = [(NONE, 0, [NOP, NOP, call(g)]), (NONE, 0, [call(f)])]
    stand = [(f, 0)] * (DEEPEST - 1) + [(f + 1, 1)]
    pause = random.Random(imports).randrange(20_000, 60_000)
    yield Case("calls without end", [(NONE, 0, [call(f)]), *begin], stand, code=7, imports=imports)
    yield Case("through a table without end", [(NONE, 0, through(0)), *begin], [(f, 1)] * (DEEPEST - 1) + [(f + 1, 1)], code=7, imports=imports, table=[f])
    yield Case("two in turn", [*turn, (NONE, 0, [call(f)])], [(f, 2), (g, 0)] * (DEEPEST // 2 - 1) + [(f, 2), (g + 1, 0)], code=7, imports=imports)
    yield Case("a pause far down", [(NONE, 0, [call(f)]), *begin], [(f, 0)] * pause + [(f + 1, 1)], "SPENT", units=pause + 1, imports=imports)
    yield Case("out of values", [(NONE, 1_000, [call(f)]), *begin], [(f, 0)] * 4 + [(f + 1, 1)], "NO_MEMORY", imports=imports, values=4_097)
    yield Case("out of values at the first call", [(NONE, 5_000, [NOP]), (NONE, 0, [NOP, call(f)])], [(g, 1)], "NO_MEMORY", imports=imports, values=4_097)
    yield Case("out of values at the entry", [(NONE, 5_000, [NOP])], [], "NO_MEMORY", imports=imports, values=4_097)


def trapping(imports):
    """Each trap, some instructions into a function that another one calls from within blocks."""
    f = imports
    least, whole = -(1 << 31), 1 << 16
    traps = [("unreachable", [UNREACHABLE], 0), ("div_s by zero", [i32(1), i32(0), (0x6D, ())], 1), ("rem_u by zero", [i32(1), i32(0), (0x70, ())], 1),
             ("an overflow", [i32(least), i32(-1), (0x6D, ())], 2), ("a load", [i32(whole), (0x28, (2, 0))], 3), ("a load far away", [i32(-1), (0x2D, (0, (1 << 32) - 1))], 3),
             ("a store", [i32(whole - 1), i32(1), (0x36, (0, 0))], 3), ("memory.copy", [i32(0), i32(whole - 1), i32(2), (0xFC0A, (0, 0))], 3),
             ("memory.fill", [i32(1), i32(1), i32(whole), (0xFC0B, (0,))], 3), ("undefined element", through(8), 4), ("uninitialized element", through(3), 5),
             ("another type", through(1), 6)]
    for name, code, number in traps:
        body = [NOP, (0x02, (-0x40,)), (0x03, (-0x40,)), *code]
        at = len(body) - 1
        body += [DROP] * (code[-1][0] in (0x6D, 0x70, 0x28, 0x2D)) + [(0x0B, ()), (0x0B, ())]
        into = [i32(1), (0x04, (-0x40,)), (0x02, (-0x40,)), call(f), (0x0B, ()), (0x05, ()), NOP, (0x0B, ())]
        by_table = [i32(0), (0x04, (-0x40,)), NOP, (0x05, ()), *through(0), (0x0B, ())]
        one = (ONE, 0, [i32(7)])
        yield Case(name, [(NONE, 0, body), one, (NONE, 0, into)], [(f, at), (f + 2, 3)], code=number, imports=imports, table=[f, f + 1])
        yield Case(f"{name}, through a table", [(NONE, 0, body), one, (NONE, 0, by_table)], [(f, at), (f + 2, 5)], code=number, imports=imports, table=[f, f + 1])


def starting(imports):
    """Start functions, entries, and functions that are the same to the byte."""
    f = imports
    same = (NONE, 0, [NOP, UNREACHABLE])
    three = [same, same, same]
    yield Case("a start function traps", [(NONE, 0, [NOP, UNREACHABLE]), (NONE, 0, [NOP])], [(f, 1)], code=0, imports=imports, start=f)
    yield Case("what a start function calls traps", [(NONE, 0, [UNREACHABLE]), (NONE, 0, [NOP, NOP, call(f)]), (NONE, 0, [NOP])], [(f, 0), (f + 1, 2)], code=0, imports=imports, start=f + 1)
    yield Case("a pause in a start function", [(NONE, 0, [NOP, NOP, NOP]), (NONE, 0, [NOP])], [(f, 2)], "SPENT", units=2, imports=imports, start=f)
    yield Case("a pause behind a start function", [(NONE, 0, [NOP, NOP, NOP]), (NONE, 0, [NOP])], [(f + 1, 0)], "SPENT", units=3, imports=imports, start=f)
    yield Case("the entry is the start function, too", [(NONE, 0, [NOP, UNREACHABLE])], [(f, 1)], code=0, imports=imports, start=f)
    yield Case("the entry is the first one", [(NONE, 0, [call(f + 1)]), same], [(f + 1, 1), (f, 0)], code=0, imports=imports, first=f)
    yield Case("an end", [(NONE, 0, [NOP])], [], "EXITED", imports=imports)
    yield Case("no units", [(NONE, 0, [NOP])], [(f, 0)], "SPENT", units=0, imports=imports)
    for k in range(3):
        yield Case(f"the same body three times, {k}", [*three, (NONE, 0, [NOP] * k + [call(f + k)])], [(f + k, 1), (f + 3, k)], code=0, imports=imports)


def large(imports):
    """Offsets past 65,536 and a megabyte, many functions, and calls that the host answers."""
    f = imports
    long = [] if imports in (1, 60) else [it for k in range(150_000) for it in (i32((1 << 30) + k), DROP)]
    yield Case("a body of a megabyte", [(NONE, 0, [*long, UNREACHABLE]), (NONE, 0, [call(f)])], [(f, len(long)), (f + 1, 0)], code=0, imports=imports)
    yield Case("50,000 functions", [*[(NONE, 0, [NOP])] * 50_000, (NONE, 0, [UNREACHABLE]), (NONE, 0, [call(f + 50_000)])], [(f + 50_000, 0), (f + 50_001, 0)], code=0, imports=imports)
    labels = [i32(0), (0x0E, ([0] * 50_000, 0))]
    yield Case("behind a table of 50,000 labels", [(NONE, 0, [(0x02, (-0x40,)), *labels, (0x0B, ()), UNREACHABLE])], [(f, 4)], code=0, imports=imports)
    if imports:
        asked = [i32(0)] * 4 + [call(imports - 1)]
        yield Case("a call is answered", [(ONE, 0, [*asked]), (NONE, 0, [i32(1), call(f), DROP])], [(f, 5), (f + 1, 1)], "CALLED", imports=imports)
        yield Case("units end behind a call", [(ONE, 0, [*asked]), (NONE, 0, [i32(1), call(f), DROP])], [(f + 1, 2)], "SPENT", units=7, imports=imports)


KINDS = [("stacks", deep), ("traps", trapping), ("beginnings", starting), ("sizes and calls", large)]


def ran(host, case):
    """How many frames a case has, which have to be those that are wanted."""
    data = module_bytes(case.module, random.Random(len(case.name)))
    reading, sandbox = plain_reader.Reading(data), host.sandbox
    with sandbox.Module(data).session(**case.given) as session:
        units = 2**40 if case.units is None else case.units
        told = session.resume(units) if case.end == "CALLED" else resumed(session, sandbox, units, lambda: None)
        frames = host.frames(session)
    if told.kind != CALLS[case.end] or case.code is not None and told.code != case.code:
        raise Wrong(f"{case.name}: it ends with kind {told.kind} and code {told.code}")
    places = {function: list(reading.body(function)) for function, _ in case.wanted}
    wanted = [(function, places[function][index]) for function, index in case.wanted]
    if frames != wanted:
        raise Wrong(f"{case.name}: {len(frames)} frames {frames[:3]} .. {frames[-2:]}, wanted {len(wanted)} {wanted[:3]} .. {wanted[-2:]}")
    why = reading.wrong(frames, is_call_answered=case.end == "CALLED")
    if why:
        raise Wrong(f"{case.name}: {why}")
    return len(frames)


def chosen(setting, host, kind):
    """The cases of a kind, with no imports and with some."""
    found, deepest, count = collections.Counter(), 0, 0
    for imports in (0, 1, 60, 130):
        for case in kind(imports):
            frames = ran(host, case)
            found += collections.Counter({"frames": frames})
            deepest, count = max(deepest, frames), count + 1
            setting.done += 1
    return count, found + collections.Counter({"deepest": deepest})


# ---- names


def part(kind, content, size=None):
    return bytes((kind,)) + u(len(content) if size is None else size) + content


def pairs(*named, count=None):
    return u(len(named) if count is None else count) + b"".join(u(index) + sized(name) for index, name in named)


def named_modules():
    """What stands in a section `name`, and why: for a module of one import and three functions, of which the last two are exported."""
    plain = [(0, b"import"), (1, b"one"), (2, b"two"), (3, b"three")]
    kinds = [b"n", b"\n", b"sandbox: exit 0\n", b"\x1b[31m", "\u202e".encode(), b"\xff", b"\0", b" "]
    yield "all names", [part(1, pairs(*plain))]
    yield "no functions' names", [part(0, sized(b"module")), part(2, b"\0")]
    yield "nothing", []
    for kind in kinds:
        yield f"a name of 60 KB of {kind!r}", [part(1, pairs(*plain[:2], (2, kind * (60_000 // len(kind) + 1)), plain[3]))]
    yield "a size that runs into the next part", [part(1, pairs(*plain[:2]), len(pairs(*plain[:2])) + 4), part(2, b"\0"), part(9, b"x")]
    yield "a size that cuts a name", [part(1, pairs(*plain), len(pairs(*plain)) - 3)]
    yield "a size past the section", [part(1, pairs(*plain), 1000)]
    yield "a count that is too great", [part(1, pairs(*plain[:2], count=2**32 - 1))]
    yield "a count that is too small", [part(1, pairs(*plain, count=2))]
    yield "two names of a function", [part(1, pairs(plain[1], (1, b"other"), plain[2]))]
    yield "names that don't rise", [part(1, pairs(*plain[::-1]))]
    yield "functions' names twice", [part(1, pairs(*plain[:2])), part(1, pairs(*plain[2:]))]
    yield "parts that don't rise", [part(2, b"\0"), part(1, pairs(*plain)), part(0, sized(b"m"))]
    yield "names of functions that aren't there", [part(1, pairs((4, b"four"), (2**32 - 1, b"last")))]
    yield "a name of 4 GiB", [part(1, u(2) + u(0) + b"\xff\xff\xff\xff\x0f" + b"x")]
    yield "an index of 6 bytes", [part(1, u(2) + b"\x81\x80\x80\x80\x80\x00" + sized(b"one"))]
    yield "an index of 5 bytes", [part(1, u(1) + b"\x81\x80\x80\x80\x00" + sized(b"one"))]
    yield "an index with unused bits", [part(1, u(1) + b"\x81\x80\x80\x80\x70" + sized(b"one"))]
    yield "an empty part", [part(1, b"")]
    yield "an empty name", [part(1, pairs((1, b""), (2, b"")))]
    yield "a part that ends behind its id", [b"\1"]


def names(setting, host, _):
    """Names of the chosen sections, and that the module runs as it does without one; also by parts of modules that are none."""
    case = Case("names", [(NONE, 0, [UNREACHABLE]), (NONE, 0, [NOP, call(1)]), (NONE, 0, [NOP, call(2)])], [], imports=1)
    case.module.exports += [(b"first \n of two", 0, 2), (b"second", 0, 2)]
    found, count = collections.Counter(), 0
    for name, parts in named_modules():
        for sections in ([(11, sized(b"name") + b"".join(parts))], [(0, sized(b"name") + b"".join(parts)), (11, sized(b"name") + part(1, pairs((1, b"later"))))]):
            data = module_bytes(case.module, random.Random(1), sections)
            try:
                reading = plain_reader.Reading(data)
                found["names"] += same_names(host, data, reading)
                with host.sandbox.Module(data).session() as session:
                    told = session.run(2**40)
                    frames = host.frames(session)
                if (told.kind, told.code, told.used) != (1, 0, 5) or reading.wrong(frames) or [it for it, _ in frames] != [1, 2, 3]:
                    raise Wrong(f"the module runs otherwise: {told.kind} {told.used} {frames}")
            except Wrong as wrong:
                raise Wrong(f"{name}: {wrong}") from None
            cut = [data[:at] for at in range(0, len(data), max(1, len(data) // 60))]
            for it in cut:  # bytes of no module have names, too: nothing is asked of them here but to answer
                for function in (0, 1, 2**32 - 1):
                    host.name(it, function)
            found["cut modules"] += len(cut)
            count, setting.done = count + 1, setting.done + 1
    return count, found


# ---- real programs


def module_of(folder, it):
    return f"{folder}/{it.of}.wasm" if it.of else f"{folder}/rust-{it.name}.wasm"


class Paused:
    """A real program that is stopped at each of some amounts of units, and at calls of the host."""

    MOST_CALLS = 200  # of a program, whose frames are read

    def __init__(self, host, it, folder):
        self.host, self.name = host, it.name
        with open(module_of(folder, it), "rb") as file:
            self.data = file.read()
        self.given = {"args": [self.name, *it.words], "input": it.input(), "random": bytes(4096), "pages": 8192, "output": 1 << 28}
        self.reading, self.found, self.deepest, self.calls = plain_reader.Reading(self.data), collections.Counter(), 0, 0

    def checked(self, session, is_call_answered=False):
        frames = self.host.frames(session)
        why = self.reading.wrong(frames, is_call_answered) or ("" if frames else "no frame at all")
        if not why and is_call_answered and not self.reading.called_just_now(*frames[0]):
            why = "the innermost doesn't stand behind a call"
        if why:
            raise Wrong(f"{self.name}, {session._used} units: {why}")
        self.found["frames"] += len(frames)
        self.deepest = max(self.deepest, len(frames))
        return frames

    def at_call(self, session):
        self.calls += 1
        if self.calls <= self.MOST_CALLS:
            self.checked(session, is_call_answered=True)
            self.found["calls"] += 1

    def run(self, chance, count):
        sandbox = self.host.sandbox
        module = sandbox.Module(self.data)
        with module.session(**self.given) as session:
            whole = session.run(2**63)
            wanted = whole.kind, whole.code, whole.used, session.output()
        pauses = sorted(chance.sample(range(whole.used), count))
        stacks = set()
        with module.session(**self.given) as session:
            for pause in pauses:
                told = resumed(session, sandbox, pause - session._used, lambda: self.at_call(session))
                if (told.kind, told.used) != (sandbox.SPENT, pause):
                    raise Wrong(f"{self.name}: kind {told.kind} and {told.used} units in place of a pause at {pause}")
                stacks.add(tuple(self.checked(session)))
            told = session.run(2**63)
            if (told.kind, told.code, told.used, session.output()) != wanted:
                raise Wrong(f"{self.name} ends otherwise with pauses: {told.kind} {told.code} {told.used}")
        called = {function for stack in stacks for function, _ in stack}
        same_names(self.host, self.data, self.reading, called)
        return self.found + collections.Counter({"pauses": count, "stacks": len(stacks), "names": len(called), "units": whole.used})


def real(setting, host, given):
    """Real programs at drawn amounts of fuel, those of `bench/real` that the folder has."""
    folder, amounts = given
    found, deepest, count = collections.Counter(), 0, 0
    for k, it in enumerate(TIMED):
        if not os.path.exists(module_of(folder, it)):
            continue
        program = Paused(host, it, folder)
        found += program.run(random.Random(setting.seed * 1000 + k), amounts)
        deepest, count = max(deepest, program.deepest), count + 1
        setting.done += 1
    if not count:
        raise Wrong(f"{folder} has no program: bench/real {folder} --times 1 builds them")
    return count, found + collections.Counter({"deepest": deepest})
