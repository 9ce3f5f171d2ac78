"""A run that has to come out on each machine as everywhere, to the unit: 5,000,000 rounds of local.get 0, i32.const 1, i32.sub, local.tee 0, br_if 0."""
MODULE = b"\0asm\1\0\0\0\1\4\1\x60\0\0\3\2\1\0\7\x0a\1\6_start\0\0\x0a\x19\1\x17\1\1\x7f\x41\xc0\x96\xb1\2\x21\0\3\x40\x20\0\x41\1\x6b\x22\0\x0d\0\x0b\x0b"
UNITS = 30_000_002
FUEL = "100000000"


def seconds(test, pace, most):
    """Of the processor for a run: in these the slowest machine reaches the end of the fuel. With floats they are more: an instruction on floats takes
    some 30 ns, one on integers 1 or 2."""
    return min(most, 5 + test["fuel"] * (5 if test.get("floats") else 1) // pace + test.get("pages", 1_024) // 8_192)
