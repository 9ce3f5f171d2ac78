"""Random typed programs with floats beside Debian's `wasm-interp`, as those of integers (`programs.py`).

The standard leaves open which bits a NaN has that is computed, so behind each instruction that may give one the program puts the
positive canonical one in its place. Bits that are only moved, as by `f64.neg`, a store or a reinterpretation, are compared as they are.
"""
import programs
from programs import CONST, Writer
from wasm_binary import F32, F64, I32, I64

FLOATS = (F32, F64)
WIDTH, FIRST_BITS = {F32: 32, F64: 64}, {F32: 23, F64: 52}
NAN = {F32: 0x7FC00000, F64: 0x7FF8 << 48}
# eq, ne, lt, gt, le, ge
COMPARE = {F32: 0x5B, F64: 0x61}
# abs, neg, ceil, floor, trunc, nearest, sqrt; add, sub, mul, div, min, max, copysign
FLOAT_UNARY, FLOAT_BINARY = {F32: 0x8B, F64: 0x99}, {F32: 0x92, F64: 0xA0}
CONVERTED = {F32: {I32: (0xB2, 0xB3), I64: (0xB4, 0xB5), F64: (0xB6,)}, F64: {I32: (0xB7, 0xB8), I64: (0xB9, 0xBA), F32: (0xBB,)}}
# with traps, and the nearest integer
TRUNCATED = {I32: {F32: (0xA8, 0xA9), F64: (0xAA, 0xAB)}, I64: {F32: (0xAE, 0xAF), F64: (0xB0, 0xB1)}}
NEAREST = {I32: {F32: (0xFC00, 0xFC01), F64: (0xFC02, 0xFC03)}, I64: {F32: (0xFC04, 0xFC05), F64: (0xFC06, 0xFC07)}}
# the instruction that takes bits from one type to the other, and the type of the same width
BITS = {F32: 0xBE, F64: 0xBF, I32: 0xBC, I64: 0xBD}
SAME = {F32: I32, F64: I64, I32: F32, I64: F64}
ACCESSES = {F32: (0x2A, 0x38, 2), F64: (0x2B, 0x39, 3)}


class Floating(Writer):
    """Writes one function with floats."""

    kinds, held, options = (I32, I64, F32, F64), [I32, F64, F32, I64, F64, I32], ("--floats",)

    def constant(self, kind, _=0):
        if kind not in FLOATS:
            return super().constant(kind)
        width, low = WIDTH[kind], FIRST_BITS[kind]
        most = (1 << (width - 1 - low)) - 1
        # of any size, of a usual one, or one of zero, the least, infinity and NaNs
        exponent = self.chance.choice((self.chance.randrange(most), most // 2 + self.chance.randrange(-3, 9), 0, most))
        bits = (exponent << low) + self.chance.choice((0, 0, 1, 1 << (low - 1), self.chance.getrandbits(low)))
        return [(CONST[kind], (bits + (self.chance.getrandbits(1) << (width - 1)),))]

    def canonical(self, kind):
        """The value on top, or the positive canonical NaN in place of any."""
        own = len(self.locals)
        self.locals.append(kind)
        self.counters.append(own)            # nothing else sets it, and `local` doesn't read it
        return [(0x22, (own,)), (CONST[kind], (NAN[kind],)), (0x20, (own,)), (0x20, (own,)), (COMPARE[kind], ()), (0x1B, ())]

    def local(self, kind, _=0):
        if kind not in FLOATS:
            return super().local(kind)
        fitting = [k for k, it in enumerate(self.locals) if it == kind and k not in self.counters]
        return [(0x20, (self.chance.choice(fitting),))] if fitting else self.constant(kind)

    def binary(self, kind, depth):
        if kind not in FLOATS:
            return super().binary(kind, depth)
        which = self.chance.randrange(7)
        code = self.value(kind, depth) + self.value(kind, depth) + [(FLOAT_BINARY[kind] + which, ())]
        return code if which == 6 else code + self.canonical(kind)

    def unary(self, kind, depth):
        if kind not in FLOATS:
            return super().unary(kind, depth)
        which = self.chance.randrange(7)
        code = self.value(kind, depth) + [(FLOAT_UNARY[kind] + which, ())]
        return code if which < 2 else code + self.canonical(kind)

    def compared(self, kind, depth):
        if kind in FLOATS or self.chance.random() < 0.5:
            return self.converted(kind, depth) if kind in FLOATS else self.compared_floats(kind, depth)
        return super().compared(kind, depth)

    def compared_floats(self, kind, depth):
        other = self.chance.choice(FLOATS)
        code = self.value(other, depth) + self.value(other, depth) + [(COMPARE[other] + self.chance.randrange(6), ())]
        return code + ([(0xAD, ())] if kind == I64 else [])

    def converted(self, kind, depth):
        if self.chance.random() < 0.2:
            return self.value(SAME[kind], depth) + [(BITS[kind], ())]
        if kind in FLOATS:
            other = self.chance.choice(list(CONVERTED[kind]))
            code = self.value(other, depth) + [(self.chance.choice(CONVERTED[kind][other]), ())]
            return code + self.canonical(kind) if other in FLOATS else code
        if self.chance.random() < 0.5:
            return super().converted(kind, depth)
        other = self.chance.choice(FLOATS)
        ways = TRUNCATED if self.chance.random() < 0.02 else NEAREST
        return self.value(other, depth) + [(self.chance.choice(ways[kind][other]), ())]

    def loaded(self, kind, depth):
        if kind not in FLOATS:
            return super().loaded(kind, depth)
        op, _, most = ACCESSES[kind]
        return self.address(depth) + [(op, (self.chance.randrange(most + 1), self.offset()))]

    def stored(self, depth):
        if self.chance.random() < 0.5:
            return super().stored(depth)
        kind = self.chance.choice(FLOATS)
        _, op, most = ACCESSES[kind]
        return self.address(depth) + self.value(kind, depth) + [(op, (self.chance.randrange(most + 1), self.offset()))]

    def grown(self, kind, depth):
        return self.unary(kind, depth) if kind in FLOATS else super().grown(kind, depth)


def side_by_side(setting):
    """2,000 of them with exactly their units and with one less."""
    return programs.side_by_side(setting, Floating, 2_000)
