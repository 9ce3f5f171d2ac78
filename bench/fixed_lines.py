"""What a test compares of standard error: the lines that the tables have.

Behind them a program may say more: what was refused, in words, and the frames of a trap, each behind `sandbox: `. Those are left out here, and judged by
`bench/refusals` and by tests of their own. A line that isn't the program's stays where it is.
"""
import re

FIXED = re.compile(r"sandbox: (exit \d+|trap: [a-z ]+|out of fuel|out of memory|fault \d+( at \d+)?|errno \d+)\n?")


def fixed(said):
    """The text without lines of the program behind its first one that the tables don't have."""
    kept, is_first, is_rule = [], True, False
    for line in said.splitlines(True):
        is_own = line.startswith("sandbox: ")
        if not is_own or is_first or is_rule or FIXED.fullmatch(line):
            kept.append(line)
        is_rule = line == "sandbox: fault 32\n"        # the rule that is broken stands on the next line
        is_first = is_first and not is_own
    return "".join(kept)
