#!/usr/bin/env python3
"""The same as ../c/folded_plugin.c, from Python: where a plugin's fuel goes, over all its calls.

    python3 folded_plugin.py UNITS NAME.. >stacks
"""
import os
import sys

import sandbox
import sandbox_plugin

HERE = os.path.dirname(os.path.abspath(__file__))
PLUGIN = next(filter(os.path.exists, [f"{HERE}/greet.wasm", f"{HERE}/../../plugins/greet.wasm"]))
PAGES = 16  # of the plugin's memory


class Profiled(sandbox_plugin.Instance):
    """An instance that goes on by `every` units a time. `taken` has the units that each stack of functions took, the outermost first."""

    def __init__(self, plugin, imports, every, **supplies):
        self.every, self.taken = every, {}
        super().__init__(plugin, imports, **supplies)

    def _add(self, stack, units):
        self.taken[stack] = self.taken.get(stack, 0) + units

    def _stack(self):
        return tuple(it.function for it in reversed(self.frames()))

    def _go(self, units, told):
        end = self._used + units
        answer = super()._go(0, told)  # to the first instruction that takes a unit
        while answer == 0 and told.kind == sandbox.SPENT and told.used < end:
            stack, before = self._stack(), told.used
            answer = super()._go(min(self.every, end - before), told)
            self._add(stack, told.used - before)
        return answer

    def _answer(self, results):
        stack = self._stack()  # the answer takes the unit of the guest's call
        answer = super()._answer(results)
        if answer == 0:
            self._add(stack, 1)
        return answer


def main():
    with open(PLUGIN, "rb") as it:
        plugin = sandbox_plugin.Plugin(it.read(), PAGES)

    def say(instance, at, length):
        print(instance.read(at, length).decode(), file=sys.stderr)

    def name(function):
        return "".join("?" if it <= " " or it in ";\x7f" else it for it in plugin.function_name(function))

    with Profiled(plugin, {("env", "say"): say}, every=int(sys.argv[1]), pages=PAGES) as instance:
        for text in map(str.encode, sys.argv[2:]):
            at = instance.call("room", len(text))
            instance.write(at, text)
            print(instance.call("greet", at, len(text)), "greeted after", instance.used, "units", file=sys.stderr)
        for stack, units in instance.taken.items():
            print(";".join(map(name, stack)) or "[outside]", units)


main()
