"""Random typed programs beside Debian's `wasm-interp`, with exactly the units that an independent count gives, and with one less.

A program's functions are made of all instructions of integers; its loops are bounded by counters of their own. It writes the
last value, a mix of its globals and memory, to standard output. For the count each plain instruction gets an increment of a
global before it (a loop behind it, since a branch to it takes its unit again), and `wasm-interp` runs that.
"""
import collections
import random
import re
import subprocess

import wasm_binary
from common import Wrong, answer
from damage import own_path
from wasm_binary import F32, F64, I32, I64, Body, Module

BINARY = {I32: list(range(0x6A, 0x79)), I64: list(range(0x7C, 0x8B))}
COMPARE = {I32: list(range(0x46, 0x50)), I64: list(range(0x51, 0x5B))}
UNARY = {I32: [0x67, 0x68, 0x69, 0xC0, 0xC1], I64: [0x79, 0x7A, 0x7B, 0xC2, 0xC3, 0xC4]}
LOADS = {I32: [(0x28, 2), (0x2C, 0), (0x2D, 0), (0x2E, 1), (0x2F, 1)]}
LOADS[I64] = [(0x29, 3), (0x30, 0), (0x31, 0), (0x32, 1), (0x33, 1), (0x34, 2), (0x35, 2)]
STORES = {I32: [(0x36, 2), (0x3A, 0), (0x3B, 1)], I64: [(0x37, 3), (0x3C, 0), (0x3D, 1), (0x3E, 2)]}
CONST = {I32: 0x41, I64: 0x42, F32: 0x43, F64: 0x44}
EMPTY = -0x40
BLOCK, LOOP, IF, ELSE, END, BR, BR_IF, BR_TABLE, RETURN = 0x02, 0x03, 0x04, 0x05, 0x0B, 0x0C, 0x0D, 0x0E, 0x0F
EDGES = [0, 1, 2, 7, 31, 32, 63, 64, 255, 65_535, 65_536, 2**31 - 1, 2**31, 2**32 - 1, 2**63 - 1, 2**63, 2**64 - 1]
VALUES, GLOBALS = (I32, I64), [I32, I64, I64, I32]
# above what programs write by themselves: the buffer, the count written, and the value
OUT, VALUE = 60_000, 60_016


class Writer:
    """Writes one function: `chance` draws, `calls` are the functions it may call with their types."""

    # the types of its values and of the globals, and what the run needs
    kinds: tuple[int, ...]
    held: list[int]
    options: tuple[str, ...]
    kinds, held, options = VALUES, GLOBALS, ()

    def __init__(self, chance, types, takes, gives, calls, table):
        self.chance, self.types, self.gives, self.calls, self.table = chance, types, gives, calls, table
        self.locals = list(takes) + [chance.choice(self.kinds) for _ in range(chance.randrange(6))]
        self.takes, self.labels, self.counters, self.loops = len(takes), [], [], 0

    def constant(self, kind, _=0):
        width = 32 if kind == I32 else 64
        value = self.chance.choice((self.chance.choice(EDGES), self.chance.randrange(100), self.chance.getrandbits(width)))
        value %= 1 << width
        return [(CONST[kind], (value - (1 << width) if value >> (width - 1) else value,))]

    def address(self, depth):
        """Mostly inside of memory, and below what the program writes out at its end."""
        if self.chance.random() < 0.01:
            return self.value(I32, depth)
        return self.value(I32, depth) + [(0x41, (0x7FFF,)), (0x71, ())]

    def offset(self):
        return self.chance.choice((0, 0, 1, 5, 1000, 20_000) if self.chance.random() < 0.995 else (65_530, 2**32 - 1))

    def value(self, kind, depth):
        """Instructions that leave a value of the kind."""
        if depth <= 0:
            ways = [self.constant, self.constant, self.local, self.local, self.global_value]
            return self.chance.choice(ways)(kind)
        ways = [self.binary] * 5 + [self.unary, self.compared, self.loaded, self.select, self.local, self.constant, self.converted]
        ways += [self.called, self.if_value, self.block_value, self.indirect, self.grown, self.teed]
        return self.chance.choice(ways)(kind, depth - 1)

    def local(self, kind, _=0):
        fitting = [k for k, it in enumerate(self.locals) if it == kind]
        return [(0x20, (self.chance.choice(fitting),))] if fitting else self.constant(kind)

    def global_value(self, kind, _=0):
        return [(0x23, (self.chance.choice([k for k, it in enumerate(self.held) if it == kind]),))]

    def binary(self, kind, depth):
        op = self.chance.choice(BINARY[kind])
        second = self.value(kind, depth)
        # divisions trap often enough without it
        if op - BINARY[kind][0] in (3, 4, 5, 6) and self.chance.random() < 0.9:
            second += [(CONST[kind], (self.chance.choice((1, 3, 10)),)), (BINARY[kind][8], ())]
        return self.value(kind, depth) + second + [(op, ())]

    def unary(self, kind, depth):
        return self.value(kind, depth) + [(self.chance.choice(UNARY[kind]), ())]

    def compared(self, kind, depth):
        other = self.chance.choice(VALUES)
        if self.chance.random() < 0.2:
            code = self.value(other, depth) + [(0x45 if other == I32 else 0x50, ())]
        else:
            code = self.value(other, depth) + self.value(other, depth) + [(self.chance.choice(COMPARE[other]), ())]
        return code + ([(0xAD, ())] if kind == I64 else [])

    def converted(self, kind, depth):
        if kind == I32:
            return self.value(I64, depth) + [(0xA7, ())]
        return self.value(I32, depth) + [(self.chance.choice((0xAC, 0xAD)), ())]

    def loaded(self, kind, depth):
        op, most = self.chance.choice(LOADS[kind])
        return self.address(depth) + [(op, (self.chance.randrange(most + 1), self.offset()))]

    def select(self, kind, depth):
        return self.value(kind, depth) + self.value(kind, depth) + self.value(I32, depth) + [(0x1B, ())]

    def called(self, kind, depth):
        # in a loop the first function alone, once: all of them would take too long
        fitting = [it for it in (self.calls[:1] if self.loops else self.calls) if it[2] == [kind]]
        if not fitting or self.loops > 1:
            return self.binary(kind, depth)
        index, takes, _ = self.chance.choice(fitting)
        return [code for it in takes for code in self.value(it, depth - 1)] + [(0x10, (index,))]

    def indirect(self, kind, depth):
        fitting = [it for it in self.table if it[1][1] == [kind]]
        if not fitting or self.loops:
            return self.unary(kind, depth)
        slot, (takes, gives) = self.chance.choice(fitting)
        slot = self.chance.choice((slot,) * 40 + (0, 9, 10, -1))
        args = [code for it in takes for code in self.value(it, depth - 1)]
        return args + [(0x41, (slot,)), (0x11, (self.types.index((takes, gives)), 0))]

    def if_value(self, kind, depth):
        self.labels.append(kind)
        then, other = self.value(kind, depth), self.value(kind, depth)
        self.labels.pop()
        return self.value(I32, depth) + [(IF, (kind - 0x80,))] + then + [(ELSE, ())] + other + [(END, ())]

    def block_value(self, kind, depth):
        self.labels.append(kind)
        inner = self.statements(depth) + self.value(kind, depth)
        if self.chance.random() < 0.5:
            inner += self.value(I32, depth) + [(BR_IF, (0,))]
        self.labels.pop()
        return [(BLOCK, (kind - 0x80,))] + inner + [(END, ())]

    def grown(self, kind, depth):
        if kind == I64 or self.chance.random() < 0.7:
            return self.unary(kind, depth)
        return self.chance.choice(([(0x3F, (0,))], [(0x41, (self.chance.choice((0, 0, 1, 70_000)),)), (0x40, (0,))]))

    def teed(self, kind, depth):
        fitting = [k for k, it in enumerate(self.locals) if it == kind and k not in self.counters]
        return self.value(kind, depth) + ([(0x22, (self.chance.choice(fitting),))] if fitting else [(0x01, ())])

    def statements(self, depth):
        return [code for _ in range(self.chance.randrange(3)) for code in self.statement(depth)]

    def statement(self, depth):
        ways = [self.set_local, self.set_local, self.set_global, self.stored, self.stored, self.dropped, self.if_else, self.loop]
        ways += [self.branch, self.switch, self.filled, self.copied, self.left]
        return self.chance.choice(ways)(depth - 1)

    def set_local(self, depth):
        fitting = [k for k in range(len(self.locals)) if k not in self.counters]
        if not fitting:
            return self.dropped(depth)
        k = self.chance.choice(fitting)
        return self.value(self.locals[k], depth) + [(0x21, (k,))]

    def set_global(self, depth):
        k = self.chance.randrange(len(self.held))
        return self.value(self.held[k], depth) + [(0x24, (k,))]

    def stored(self, depth):
        kind = self.chance.choice(VALUES)
        op, most = self.chance.choice(STORES[kind])
        return self.address(depth) + self.value(kind, depth) + [(op, (self.chance.randrange(most + 1), self.offset()))]

    def dropped(self, depth):
        return self.value(self.chance.choice(self.kinds), depth) + [(0x1A, ())]

    def if_else(self, depth):
        self.labels.append(EMPTY)
        then = self.statements(depth)
        other = [(ELSE, ())] + self.statements(depth) if self.chance.random() < 0.5 else []
        self.labels.pop()
        return self.value(I32, depth) + [(IF, (EMPTY,))] + then + other + [(END, ())]

    def loop(self, depth):
        if sum(self.locals[k] == I32 for k in self.counters) > 2:
            return self.stored(depth)
        counter = len(self.locals)
        self.locals.append(I32)
        self.counters.append(counter)
        # a branch to the loop from within would pass the counter by
        self.labels.append(None)
        self.loops += 1
        inner = self.statements(depth)
        self.loops -= 1
        self.labels.pop()
        turn = [(0x20, (counter,)), (0x41, (-1,)), (0x6A, ()), (0x22, (counter,)), (BR_IF, (0,))]
        return [(0x41, (self.chance.randrange(1, 9),)), (0x21, (counter,)), (LOOP, (EMPTY,))] + inner + turn + [(END, ())]

    def targets(self):
        """The labels that a branch without values may lead to, by their distance."""
        return [k for k, it in enumerate(reversed(self.labels)) if it == EMPTY]

    def branch(self, depth):
        if not self.targets():
            return self.set_local(depth)
        return self.value(I32, depth) + [(BR_IF, (self.chance.choice(self.targets()),))]

    def switch(self, depth):
        self.labels += [EMPTY, EMPTY]
        targets = self.targets()
        inner = self.value(I32, depth) + [(BR_TABLE, ([self.chance.choice(targets) for _ in range(self.chance.randrange(5))], 0))]
        self.labels.pop()
        middle = self.statements(depth)
        self.labels.pop()
        return [(BLOCK, (EMPTY,)), (BLOCK, (EMPTY,))] + inner + [(END, ())] + middle + [(END, ())]

    def filled(self, depth):
        return self.address(depth) + self.value(I32, depth) + [(0x41, (self.chance.choice((0, 1, 9, 300)),)), (0xFC0B, (0,))]

    def copied(self, depth):
        return self.address(depth) + self.address(depth) + [(0x41, (self.chance.choice((0, 1, 9, 300)),)), (0xFC0A, (0, 0))]

    def left(self, depth):
        """Leaves the function, or ends it, in a branch that is seldom taken."""
        if self.chance.random() < 0.8:
            return self.dropped(depth)
        self.labels.append(None)
        # `_start` has a block around it, which this leaves
        out = (BR, (len(self.labels),))
        code = [out] if not self.gives else self.value(self.gives[0], depth) + [self.chance.choice((out, (RETURN, ())))]
        self.labels.pop()
        if self.chance.random() < 0.1:
            code = [(0x00, ())]
        return self.value(I32, 0) + [(0x41, (7,)), (0x71, ()), (0x45, ()), (IF, (EMPTY,))] + code + [(END, ())]

    def body(self, depth):
        code = [it for _ in range(self.chance.randrange(1, 6)) for it in self.statement(depth)]
        code += self.value(self.gives[0], depth) if self.gives else []
        return Body([(1, it) for it in self.locals[self.takes :]], code + [(END, ())])


def as_number(k, kind):
    """A global's value as an i64."""
    return [(0x23, (k,))] + {I32: [(0xAD, ())], I64: [], F32: [(0xBC, ()), (0xAD, ())], F64: [(0xBD, ())]}[kind]


def first(kind, number):
    """A constant of the kind, and the end behind it."""
    return [(CONST[kind], (number if kind in VALUES else abs(number),)), (END, ())]


def made(seed, writer=Writer):
    """A module of the seed."""
    chance = random.Random(seed)
    module = Module(wasm_binary.MAGIC)
    module.types = [([I32] * 4, [I32]), ([], [])]
    module.imports = [(b"wasi_snapshot_preview1", b"fd_write", 0, 0)]
    calls, table = [], []
    for index in range(1, chance.randrange(2, 7)):
        kind = ([chance.choice(writer.kinds) for _ in range(chance.randrange(4))], [chance.choice(writer.kinds)])
        if kind not in module.types:
            module.types.append(kind)
        module.functions.append(module.types.index(kind))
        module.bodies.append(writer(chance, module.types, *kind, calls, table).body(4))
        calls.append((index, *kind))
        table.append((len(table), kind))
    start = writer(chance, module.types, [], [], calls, table)
    body = start.body(5)
    last = [it for k, kind in enumerate(writer.held) for it in as_number(k, kind)]
    mix = [(0x42, (0,))] + [it for k in range(0, len(last)) for it in [last[k]] + ([(0x85, ()), (0x42, (13,)), (0x89, ())] if ends(last, k) else [])]
    mix += [it for at in range(0, 800, 8) for it in ((0x41, (at,)), (0x29, (0, 0)), (0x7C, ()), (0x42, (7,)), (0x89, ()))]
    store = [(0x41, (VALUE,))] + mix + [(0x37, (0, 0)), (0x41, (1,)), (0x41, (OUT,)), (0x41, (1,)), (0x41, (OUT + 8,)), (0x10, (0,)), (0x1A, ())]
    # where a program grew its memory by itself, what it writes out still stands in the first page
    body.code = [(BLOCK, (EMPTY,))] + body.code[:-1] + [(END, ())] + store + [(END, ())]
    module.functions.append(1)
    module.bodies.append(body)
    module.memories, module.tables = [(1, 3)], [(10, 10)]
    module.globals = [(kind, 1, first(kind, chance.choice((0, 1, -1, 1000)))) for kind in writer.held]
    module.elements = [([(0x41, (0,)), (END, ())], [it[0] for it in calls])]
    module.datas = [([(0x41, (OUT,)), (END, ())], VALUE.to_bytes(4, "little") + (8).to_bytes(4, "little"))]
    module.exports = [(b"memory", 2, 0), (b"_start", 0, len(calls) + 1)]
    return module


def ends(last, k):
    """Whether a global's value is complete with this instruction."""
    return k + 1 == len(last) or last[k + 1][0] == 0x23


def counting(module):
    """The module with a count of its plain instructions, which the export `units` gives, and the value that it wrote."""
    it = Module(module.bytes())
    counter = len(it.globals)
    more = [(0x23, (counter,)), (0x42, (1,)), (0x7C, ()), (0x24, (counter,))]
    for body in it.bodies:
        code = []
        for op, values in body.code:
            if op in (ELSE, END):
                code.append((op, values))
            elif op == LOOP:
                code += [(op, values)] + more
            else:
                code += more + [(op, values)]
        body.code = code
    it.globals.append((I64, 1, [(0x42, (0,)), (END, ())]))
    it.types.append(([], [I64]))
    first = len(it.imported_functions()) + len(it.functions)
    it.functions += [len(it.types) - 1] * 2
    it.bodies += [Body([], [(0x23, (counter,)), (END, ())]), Body([], [(0x41, (VALUE,)), (0x29, (0, 0)), (END, ())])]
    it.exports += [(b"units", 0, first), (b"value", 0, first + 1)]
    return it


def counted(path, module):
    """The end, the value and the units, as `wasm-interp` gives them."""
    with open(path, "wb") as it:
        it.write(counting(module).bytes())
    done = subprocess.run(["wasm-interp", "--run-all-exports", "--dummy-import-func", path], capture_output=True, text=True, timeout=600)
    out = done.stdout + done.stderr
    units, value = re.search(r"units\(\) => i64:(\d+)", out), re.search(r"value\(\) => i64:(\d+)", out)
    end = re.search(r"_start\(\) =>(?: error: (.*))?", out)
    if not (units and value and end):
        raise Wrong(f"wasm-interp: {out[:300]}")
    return end[1], int(value[1]), int(units[1])


def trap_text(text):
    """The trap's text as `sandbox` has it."""
    if text is None:
        return None
    for start, ours in (("out of bounds memory", "out of bounds memory access"), ("undefined table", "undefined element")):
        if text.startswith(start):
            return ours
    names = {
        "uninitialized table element": "uninitialized element",
        "indirect call signature mismatch": "indirect call type mismatch",
        "unreachable executed": "unreachable",
    }
    return names.get(text, text)


def tried(setting, seed, writer=Writer):
    """How the program of this seed ends, the same in both."""
    module = made(seed, writer)
    path, other = own_path(setting, "program.wasm"), own_path(setting, "counting.wasm")
    with open(path, "wb") as it:
        it.write(module.bytes())
    try:
        trap, value, units = counted(other, module)
        trap = trap_text(trap)
        status, out, said = answer(setting, ["run", *writer.options, "--pages", "16", "--fuel", str(units), path], seconds=20)
        wanted = (120, b"", f"sandbox: trap: {trap}\n") if trap else (0, value.to_bytes(8, "little"), "")
        if (status, out, said) != wanted:
            raise Wrong(f"{(status, out, said)} with {units} units, wasm-interp {wanted}")
        if setting.wasmi:
            theirs = subprocess.run([setting.wasmi, path], capture_output=True, timeout=600)
            if (theirs.returncode == 0, theirs.stdout) != (trap is None, wanted[1]):
                raise Wrong(f"{(status, out, said)}, wasmi {theirs}")
        less = answer(setting, ["run", *writer.options, "--pages", "16", "--fuel", str(units - 1), path], seconds=20)
        if less[0] != 121:
            raise Wrong(f"{less} with {units - 1} units of {units}")
    except Wrong as wrong:
        raise Wrong(f"program of seed {seed}: {wrong}; kept as {setting.keep('program.wasm', module.bytes())}") from None
    return trap or "ended", units


def side_by_side(setting, writer=Writer, count=10_000):
    """Random programs with exactly their units and with one less."""
    count = 300 if setting.is_quick else count
    ends_of, units = collections.Counter(), 0
    for end, used in setting.each(lambda k: tried(setting, setting.seed * 1_000_000 + k, writer), range(count)):
        ends_of[end] += 1
        units += used
    return count, f"{units:,} units; " + ", ".join(f"{name} {times}" for name, times in ends_of.most_common())
