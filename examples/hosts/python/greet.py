#!/usr/bin/env python3
"""A host of a plugin: it writes names into the guest's memory and calls the guest's `greet`, which asks it to say something.

    python3 greet.py NAME..
"""
import os
import sys

import sandbox_plugin

HERE = os.path.dirname(os.path.abspath(__file__))
PLUGIN = next(filter(os.path.exists, [f"{HERE}/greet.wasm", f"{HERE}/../../plugins/greet.wasm"]))
UNITS = 1_000_000  # for one call


def say(instance, at, length):
    print(instance.read(at, length).decode())


def main():
    with open(PLUGIN, "rb") as it:
        plugin = sandbox_plugin.Plugin(it.read(), pages=16)
    with plugin.instance({("env", "say"): say}) as instance:
        for name in map(str.encode, sys.argv[1:]):
            at = instance.call("room", len(name), fuel=UNITS)
            instance.write(at, name)
            print(instance.call("greet", at, len(name), fuel=UNITS), "greeted")


main()
