#!/usr/bin/env python3
"""The same as ../c/host.c, from Python: python3 host.py [FOLDER of the guests]"""
import os
import sys

import sandbox

RUNS = 1000
GUESTS = sys.argv[1] if len(sys.argv) > 1 else f"{os.path.dirname(os.path.abspath(__file__))}/../../c"


def read(name):
    with open(f"{GUESTS}/{name}", "rb") as it:
        return it.read()


def many():
    """A thousand sessions of one loaded module, each with other input and fuel."""
    module, out_of_fuel, units = sandbox.Module(read("wc.wasm")), 0, 0
    for n in range(RUNS):
        with module.session(args=["wc"], input=b"x" * n) as session:
            told = session.run(10_000 + 40 * n)
            if told.kind == sandbox.SPENT:
                out_of_fuel += 1
            else:
                assert (told.kind, told.code) == (sandbox.EXITED, 0), told.kind
                assert session.output() == f"0 {int(n > 0)} {n}\n".encode(), session.output()
            units += told.used
    print(f"{RUNS} runs of one module: {out_of_fuel} out of fuel, {units} units")


def keep():
    """One session adds a record, another finds it in the sectors that the first left."""
    volume, module = sandbox.empty_volume(1000, 16), sandbox.Module(read("keys.wasm"))
    for words in (["keys", "store", "put", "k", "value"], ["keys", "store", "get", "k"]):
        with module.session(args=words, volume=volume) as session:
            told = session.run(10**7)
            assert (told.kind, told.code) == (sandbox.EXITED, 0), (told.kind, told.code, session.output(2))
            volume = session.finish()
            print(f"keys {words[2]}: {told.used} units, says {session.output().decode().rstrip() or 'nothing'}")


many()
keep()
