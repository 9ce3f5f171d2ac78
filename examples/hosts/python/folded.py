#!/usr/bin/env python3
"""The same as ../c/folded.c, from Python: where a guest's fuel goes, made by the host's own resumes.

    python3 folded.py UNITS MODULE [WORD]... >stacks
"""
import sys

import sandbox


def folded(module, every, **supplies):
    """The units that each stack of functions took, the outermost first, as they were met; `every` many are given at a time."""
    names, units = {}, {}

    def name(function):
        if function not in names:
            names[function] = "".join("?" if it <= " " or it in ";\x7f" else it for it in module.function_name(function))
        return names[function]

    with module.session(**supplies) as session:
        told = session.resume(0)  # to the first instruction that takes a unit
        while told.kind in (sandbox.CALLED, sandbox.SPENT):
            stack, before = tuple(it.function for it in session.frames()), told.used
            told = session.run(before + every)
            units[stack] = units.get(stack, 0) + told.used - before
    return {";".join(map(name, reversed(stack))) or "[outside]": taken for stack, taken in units.items()}


if __name__ == "__main__":
    with open(sys.argv[2], "rb") as it:
        guest = sandbox.Module(it.read())
    for stack, taken in folded(guest, int(sys.argv[1]), args=sys.argv[2:]).items():
        print(stack, taken)
