"""The x86 instructions of commands by `valgrind --tool=callgrind`: the same on every machine, however busy it is.

A file keeps what was counted, by the bytes of the program, of the module and of the input, so that none is counted twice.
"""
import concurrent.futures
import hashlib
import json
import os
import re
import subprocess
import tempfile


class Uncounted(Exception):
    pass


class Counts:
    """The counts that a file keeps; without one all are counted anew."""

    def __init__(self, path=None):
        self.path, self.kept = path, {}
        if path and os.path.exists(path):
            with open(path, encoding="utf-8") as file:
                self.kept = json.load(file)

    def between(self, commands, given=os.devnull):
        """The instructions of each command less those of the one that ends before its first step, by their name; all read this file.

        They are counted beside each other, on all processors.
        """
        keys = {tuple(words): key_of(words, given) for pair in commands.values() for words in pair}
        lacking = [words for words, key in keys.items() if key not in self.kept]
        with concurrent.futures.ThreadPoolExecutor(os.cpu_count()) as pool:
            for words, count in zip(lacking, pool.map(lambda it: counted(it, given), lacking)):
                self.kept[keys[words]] = count
        if lacking:
            self.keep()
        return {name: self.kept[keys[tuple(whole)]] - self.kept[keys[tuple(load)]] for name, (whole, load) in commands.items()}

    def keep(self):
        if not self.path:
            return
        with open(f"{self.path}.new", "w", encoding="utf-8") as file:
            json.dump(self.kept, file, indent=1)
        os.replace(f"{self.path}.new", self.path)


def key_of(words, given):
    """A word that names a file stands for its bytes."""
    parts = [content_of(it) if os.path.isfile(it) else it.encode() for it in words]
    return hashlib.sha256(b"".join(hashlib.sha256(it).digest() for it in [*parts, content_of(given)])).hexdigest()


def content_of(path):
    with open(path, "rb") as file:
        return b"" if path == os.devnull else file.read()


def counted(words, given):
    with tempfile.TemporaryDirectory() as room, open(given, "rb") as source:
        tool = ["valgrind", "--tool=callgrind", f"--callgrind-out-file={room}/out"]
        done = subprocess.run([*tool, *words], stdin=source, stdout=subprocess.DEVNULL, stderr=subprocess.PIPE, text=True, errors="replace")
    found = re.search(r"Collected : (\d+)", done.stderr)
    if not found:
        raise Uncounted(f"valgrind says: {done.stderr[-300:]}")
    return int(found[1])
