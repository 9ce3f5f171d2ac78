"""Modules of the official suite with their assertions, as guests: `bench/soften-suite` and `bench/core-suite` run them."""
import re
import subprocess

from fixed_lines import fixed
from wasm_binary import Body, Module

WIDTH = {"i32": 32, "f32": 32, "i64": 64, "f64": 64}
KINDS = {0x7F: "i32", 0x7E: "i64", 0x7D: "f32", 0x7C: "f64"}
CONST, AND, NE = {32: 0x41, 64: 0x42}, {32: 0x71, 64: 0x83}, {32: 0x47, 64: 0x52}
NAN = {32: 0x7FC00000, 64: 0x7FF8 << 48}
# the instructions between a float and the integer of its bits
BITS, FLOAT = {"f32": 0xBC, "f64": 0xBD}, {"f32": 0xBE, "f64": 0xBF}


def number(kind, value):
    width = WIDTH[kind]
    value = int(value)
    return CONST[width], (value - (1 << width) if value >> (width - 1) else value,)


def converted(by, kind):
    """The instruction, if there is one, that takes a number of this kind to the kind that the module has for it."""
    return [(by[kind], ())] if kind in by else []


def compared(kind, expected):
    """Instructions that leave 1 where the value on the stack isn't the expected one; and the bits of it that are asked for."""
    width, value = WIDTH[kind], expected["value"]
    if value == "nan:canonical":
        return [number(kind, NAN[width]), (NE[width], ())], (1 << (width - 1)) - 1
    if value == "nan:arithmetic":
        return [number(kind, NAN[width]), (NE[width], ())], NAN[width]
    return [number(kind, value), (NE[width], ())], None


class Suite:
    """One module of the suite with its assertions in order. What it is taken as comes from its bytes by `soften`, where that is given;
    else floats stay floats."""

    def __init__(self, data, soften=None):
        module = Module(data)
        self.types = dict(self.exported(module))
        self.taken, self.steps = soften(data) if soften else data, []
        self.of_bits = {} if soften else FLOAT
        self.to_bits = {} if soften else BITS

    def exported(self, module):
        """By the names of its exports the types of functions, and those of globals as what they give."""
        functions = module.imported_functions() + module.functions
        for name, kind, index in module.exports:
            if kind == 0:
                yield name.decode(), module.types[functions[index]]
            elif kind == 3:
                imported = [it for it in module.imports if it[2] == 3]
                yield name.decode(), ([], [imported[index][3][0] if index < len(imported) else module.globals[index - len(imported)][0]])

    def call(self, module, step, is_checked):
        """A step's call; its result is compared, or dropped."""
        action = step["action"]
        index = next(it[2] for it in module.exports if it[0] == action["field"].encode())
        gives = [KINDS[it] for it in self.types[action["field"]][1]]
        code = []
        for it in action.get("args", []):
            code += [number(it["type"], it["value"]), *converted(self.of_bits, it["type"])]
        code.append((0x23 if action["type"] == "get" else 0x10, (index,)))
        if not gives:
            return code
        if not is_checked or step["type"] != "assert_return":
            return code + [(0x1A, ())]
        code += converted(self.to_bits, gives[0])
        compare, mask = compared(gives[0], step["expected"][0])
        if mask is not None:
            code += [number(gives[0], mask), (AND[WIDTH[gives[0]]], ())]
        return code + compare + [(0x04, (-0x40,)), (0x00, ()), (0x0B, ())]

    def guest(self, before, checked):
        """The module with a `_start` that does the calls before, and those that are checked."""
        module = Module(self.taken)
        code = [it for step in before for it in self.call(module, step, False)]
        code += [it for step in checked for it in self.call(module, step, True)]
        index = len(module.imported_functions()) + len(module.functions)
        module.types.append(([], []))
        module.functions.append(len(module.types) - 1)
        module.bodies.append(Body([], code + [(0x0B, ())]))
        module.exports = [it for it in module.exports if it[0] != b"_start"] + [(b"_start", 0, index)]
        return module.bytes()


class Sandbox:
    """The program, and where it finds a guest."""

    def __init__(self, program, path, floats):
        self.program, self.path, self.floats = program, path, ["--floats"] if floats else []

    def told(self, data, words):
        with open(self.path, "wb") as it:
            it.write(data)
        return subprocess.run([self.program, *words, self.path], capture_output=True, timeout=300)

    def ran(self, data, options):
        done = self.told(data, ["run", *options, "--fuel", "100000000000"])
        return done.returncode, fixed(done.stderr.decode()).strip()

    def run(self, data):
        return self.ran(data, self.floats)

    def refuses(self, data):
        """Whether a module is refused for a float at some place, where floats aren't asked for."""
        return bool(re.match(r"sandbox: fault 10 at \d+$", self.ran(data, [])[1]))


def plain_steps(steps):
    """Those that end by themselves."""
    return [it for it in steps if it["type"] not in ("assert_trap", "assert_exhaustion")]


def returned(sandbox, suite):
    """Of the assertions on results the lines of those that don't hold: all in one run, and one by one where that fails."""
    plain = plain_steps(suite.steps)
    if not plain or sandbox.run(suite.guest([], plain))[0] == 0:
        return []
    return [it["line"] for k, it in enumerate(plain) if it["type"] == "assert_return" and sandbox.run(suite.guest(plain[:k], [it]))[0]]


def trapped(sandbox, suite, text_of):
    """Of the assertions on traps the lines of those that end otherwise. Each runs alone, behind the calls that stand before it."""
    plain, wrong = plain_steps(suite.steps), []
    for step in suite.steps:
        if step["type"] in ("assert_trap", "assert_exhaustion"):
            before = [it for it in plain if it["line"] < step["line"]]
            if sandbox.run(suite.guest(before, [step])) != (120, f"sandbox: trap: {text_of(step['text'])}"):
                wrong.append(step["line"])
    return wrong
