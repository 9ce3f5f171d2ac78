"""What `bench/run` and `bench/real` measured, as JSON: `bench/figures` writes the documents from it.

{"what": "kernels", "version": "0.9.15", "date": "2026-11-30", "processor": .., "processors": 4, "load": [before, behind], "rounds": 4,
"engines": {"wasmi": "1.1.0-1", ..}, "rows": {NAME: {"group": .., "seconds": .., "ratios": {ENGINE: {"net": 1.2, ..}}, "x86": {ENGINE: 21.4}}}}

A ratio is the other engine's time by that of `sandbox`; `x86` has the x86 instructions for a unit of fuel. The engine `older` is
another build of `sandbox`.
"""
import datetime
import json
import math
import os
import re
import subprocess


def mean(values):
    return math.exp(sum(map(math.log, values)) / len(values))


def version_of(program):
    return subprocess.run([program, "--version"], capture_output=True, text=True).stderr.split()[-1]


def load():
    return round(os.getloadavg()[0], 1)


def processor():
    with open("/proc/cpuinfo", encoding="utf-8") as file:
        info = file.read()
    found = re.search(r"model name.*: (.*)", info)
    return f"{found[1] if found else 'unknown processor'} {'with' if 'amx' in info else 'without'} AMX"


class Log:
    """A run of a script: its rows come one by one."""

    def __init__(self, what, program, rounds, engines):
        self.said = {"what": what, "version": version_of(program), "date": str(datetime.date.today()), "processor": processor(),
                     "processors": os.cpu_count(), "load": [load()], "rounds": rounds, "engines": engines, "rows": {}}

    def add(self, name, **row):
        self.said["rows"][name] = row

    def keep(self, path):
        """Writes all to a file, with the load of the machine now."""
        self.said["load"].append(load())
        with open(f"{path}.new", "w", encoding="utf-8") as file:
            json.dump(self.said, file, indent=1)
        os.replace(f"{path}.new", path)
