#!/usr/bin/env python3
"""A host of a plugin: it hands in requests, one a line, and reads each answer as the guest gives it, with the units that it took.
A guest that takes more units than a request may is discarded in the middle, and the next requests go to a new session.

    python3 plugin.py [FOLDER of the guests]
"""
import os
import sys

import sandbox

GUESTS = sys.argv[1] if len(sys.argv) > 1 else f"{os.path.dirname(os.path.abspath(__file__))}/../../c"
REQUESTS = ["add 2 3", "mul 6 7", "spin", "add 1 1"]
UNITS = 100_000  # for one request


def answers(module, requests):
    """The answers to some requests, each with its units; they end before a request that takes too many."""
    with module.session(args=["answers"], input="".join(f"{it}\n" for it in requests).encode()) as session:
        seen, begun, told = 0, 0, None
        while told is None or told.kind == sandbox.CALLED:
            told = session.resume(begun + UNITS - (told.used if told else 0))
            lines = session.output().decode().split("\n")[:-1]
            for line in lines[seen:]:
                yield line, told.used - begun
                begun = told.used
            seen = len(lines)


def main():
    with open(f"{GUESTS}/answers.wasm", "rb") as it:
        module = sandbox.Module(it.read())
    left = REQUESTS
    while left:
        done = 0
        for answer, units in answers(module, left):
            print(f"{left[done]} -> {answer} ({units} units)")
            done += 1
        if done < len(left):
            print(f"{left[done]} -> no answer within {UNITS} units")
            done += 1
        left = left[done:]


main()
