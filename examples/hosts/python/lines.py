#!/usr/bin/env python3
"""A host of a plugin whose input goes on: what comes on descriptor 0 is handed over as it comes, in whatever pieces, and what the guest
makes of a line is shown as soon as the line is there.

    (echo one; sleep 1; echo two) | python3 lines.py
"""
import os
import sys

import sandbox_plugin

HERE = os.path.dirname(os.path.abspath(__file__))
PLUGIN = next(filter(os.path.exists, [f"{HERE}/lines.wasm", f"{HERE}/../../plugins/lines.wasm"]))
UNITS = 1_000_000  # for one line
END = 2**32 - 1


def more(wanted):
    """What is there of the input, but at least a byte; none at its end."""
    return os.read(0, max(wanted, 4096))


def main():
    with open(PLUGIN, "rb") as it:
        plugin = sandbox_plugin.Plugin(it.read(), pages=16, fed=True)
    shown, length = 0, 0
    with plugin.instance(feed=more) as instance:
        while length != END:
            length = instance.call("next", fuel=UNITS)
            said = instance.output()[shown:]
            sys.stdout.buffer.write(said)
            sys.stdout.flush()
            shown += len(said)


main()
