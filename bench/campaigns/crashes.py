"""The program's own writes: each is recorded by `strace`, and crash images of each moment are opened by the program.

The disk is that of `docs/VOLUME.md`: a crash leaves each sector at its value of the last successful sync or at any value whose write
was tried since.
"""
import collections
import itertools
import os
import random
import re
import subprocess

from common import TOP, Wrong, answer, copied, succeeded, written
from damage import own_path
from fixed_lines import fixed

CALL = re.compile(r"\d+ +(\w+)\((.*)\) += (-?\d+)")
TRACED = "openat,read,write,pread64,pwrite64,fdatasync,fsync,ftruncate,flock,statx,fstat,newfstatat,pwritev,writev,fallocate,sync_file_range"
UNKNOWN = ("pwritev", "writev", "fallocate", "sync_file_range", "fsync")
KEYS = f"{TOP}/examples/c/keys.wasm"


class Trace:
    """What `strace` saw of a call: status, output, error output; the events of its volume; the calls that opened its files.

    An event is ("write", sector, bytes), ("sync",), ("said", bytes), or one of the first two that failed, with "failed " before its
    name. Each has in `numbers` which call of its name it was. `files` has the calls on the volume before its first event, and those on
    the module: which of the two, the name, and which call of its name it was.
    """

    def __init__(self, done):
        self.status, self.out, self.said = done.returncode, done.stdout, fixed(done.stderr.decode(errors="replace"))
        self.events, self.numbers, self.files, self.inputs = [], [], [], []

    def read(self, log, volume, module):
        counts, kinds = collections.Counter(), {0: "input", 1: "output"}
        names = {"".join(f"\\x{it:02x}" for it in path.encode()): kind for path, kind in ((volume, "volume"), (module, "module")) if path}
        with open(log) as lines:
            for line in lines:
                found = CALL.match(line)
                if not found:
                    continue
                name, words, result = found[1], found[2], int(found[3])
                counts[name] += 1
                if name == "openat":
                    kind = next((it for path, it in names.items() if f'"{path}"' in words), None)
                    kinds[result] = kind
                else:
                    number = words.split(",")[0]
                    kind = kinds.get(int(number)) if number.isdigit() else None
                self.call(kind, name, words, result, counts[name])

    def call(self, kind, name, words, result, number):
        if kind == "output" and name == "write":
            it = ("said", bytes.fromhex(re.search(r'"(.*)"', words)[1].replace("\\x", ""))[: max(result, 0)])
        elif kind == "volume" and name in ("pwrite64", "fdatasync"):
            it = event(name, words, result)
        elif kind == "volume" and name in UNKNOWN:
            raise Wrong(f"a call that the model doesn't know: {name}({words[:60]})")
        else:
            if kind == "input" and name == "read":
                self.inputs.append(number)
            if kind in ("volume", "module") and not self.events:
                self.files.append((kind, name, number))
            return
        self.events.append(it)
        self.numbers.append(number)


def event(name, words, result):
    if name == "fdatasync":
        return ("sync",) if result == 0 else ("failed sync",)
    text, is_cut, length, at = re.search(r'"(.*)"(\.\.\.)?, (\d+), (\d+)$', words).groups()
    content = bytes.fromhex(text.replace("\\x", ""))
    if length != "512" or int(at) % 512 or not is_cut and len(content) != 512 or result not in (-1, 0, 512):
        raise Wrong(f"a write that is no sector: {length} bytes at {at} answered {result}")
    return "write" if result == 512 else "failed write", int(at) // 512, content


def traced(setting, volume, words, given=b"", inject=()):
    """A call on a volume; `inject` has words for strace that make a call of the system fail, and then no event has its bytes."""
    log = own_path(setting, "trace")
    call = ["strace", "-f", "-xx", "-s", "0" if inject else "70000", "-e", f"trace={TRACED}", *inject, "-o", log, setting.program, *words]
    it = Trace(subprocess.run(call, input=given, capture_output=True))
    it.read(log, volume, next((word for word in words if word.endswith(".wasm")), None))
    return it


def recorded(setting, volume, words, given=b""):
    """A call on a volume that has to succeed."""
    it = traced(setting, volume, words, given)
    if it.status or any(event[0].startswith("failed") for event in it.events):
        raise Wrong(f"status {it.status}, {it.said[:200]!r} under strace: {' '.join(words)}")
    return it


DRAWN = 24


def picks(chance, pending, most):
    """Choices of a value for each pending sector: all, where there are at most so many, else the two extremes and drawn ones."""
    sectors = sorted(pending)
    total = 1
    for it in sectors:
        total *= len(pending[it])
    if total <= most:
        yield from (dict(zip(sectors, chosen)) for chosen in itertools.product(*(pending[it] for it in sectors)))
        return
    yield {it: pending[it][0] for it in sectors}
    yield {it: pending[it][-1] for it in sectors}
    for _ in range(min(most, DRAWN)):
        yield {it: chance.choice(pending[it]) for it in sectors}


class Disk:
    """What each sector held at the last sync that succeeded, and all values whose write was tried since."""

    def __init__(self, base):
        self.settled = [base[512 * k : 512 * k + 512] for k in range(len(base) // 512)]
        self.pending, self.last = {}, {}

    def does(self, event):
        if event[0] in ("write", "failed write"):
            values = self.pending.setdefault(event[1], [self.settled[event[1]]])
            if event[2] not in values:
                values.append(event[2])
            # what reads give
            self.last[event[1]] = event[2]
        elif event[0] == "sync":
            for sector in self.pending:
                self.settled[sector] = self.last[sector]
            self.pending = {}

    def images(self, chance, most):
        for chosen in picks(chance, self.pending, most):
            yield b"".join(chosen.get(k, it) for k, it in enumerate(self.settled))


def images(chance, base, events, most):
    """Each crash image, with the number of events before it and what was said on standard output by then."""
    disk, said, seen = Disk(base), b"", set()
    for moment in range(len(events) + 1):
        for image in disk.images(chance, most):
            key = hash((image, said))
            if key not in seen:
                seen.add(key)
                yield moment, image, said
        if moment < len(events):
            disk.does(events[moment])
            said += events[moment][1] if events[moment][0] == "said" else b""


def is_right(setting, scene, name, image, said):
    """Asks whether a volume is as it has to be."""
    path = own_path(setting, "crash")
    written(path, image)
    try:
        scene.right(path, said)
    except Wrong as wrong:
        raise Wrong(f"{scene.name}, {name}: {wrong}; the image is kept as {setting.keep('crash', image)}") from None
    return 1


class Scene:
    """A call on a volume: the volume before it, its words and input, what has to hold of each volume that a crash leaves (`right`,
    of the volume's path and what was said by then), and of the volume when it has ended (`ended`)."""

    def __init__(self, name, base, words, right, text, given=b"", ended=None):
        self.name, self.base, self.words, self.right, self.text, self.given, self.ended = name, base, words, right, text, given, ended


def crashed(setting, scene, most):
    """A row: records the call, and opens each crash image, of which a moment has at most so many."""
    path = f"{setting.room}/recorded"
    written(path, scene.base)
    trace = recorded(setting, path, scene.words(path), scene.given)
    chance = random.Random(setting.seed)
    every = images(chance, scene.base, trace.events, most)
    tried = sum(setting.each(lambda it: is_right(setting, scene, f"after {it[0]} events", *it[1:]), every))
    if scene.ended:
        scene.ended(path, trace)
    return tried, f"{scene.text}, {len(trace.events)} events"


def read(path):
    with open(path, "rb") as it:
        return it.read()


def fresh(setting, sectors="202", slots="16"):
    path = f"{setting.room}/recorded"
    if os.path.exists(path):
        os.remove(path)
    succeeded(setting, "format", path, sectors, slots)
    return path


def key_store(setting):
    """Records that are appended and synced one by one: a first part is there, with all that were said."""
    path = fresh(setting)
    succeeded(setting, "put", path, "/other", given=b"other")
    count = 6 if setting.is_quick else 120
    lines = [b"k%d=k%d\n" % (k, k) for k in range(count)]

    def right(path, said):
        succeeded(setting, "check", path)
        least = said.count(b"\n")
        status, store, line = answer(setting, ["get", path, "/store"])
        if status and (line != "sandbox: errno 44\n" or least):
            raise Wrong(line)
        if store not in (b"".join(lines[:least]), b"".join(lines[: least + 1])):
            raise Wrong(f"{len(store)} bytes of the store, and {least} records were synced")
        if succeeded(setting, "get", path, "/other") != b"other":
            raise Wrong("another file changed")

    return Scene("key store", read(path), lambda path: ["run", "--volume", path, KEYS, "store", "fill", str(count)], right, f"{count} records")


def pages(setting):
    """Pages over a journal, as a database writes them: each page is one write, so none is kept in half."""
    path = fresh(setting, "400", "16")
    count, rounds = (2, 1) if setting.is_quick else (3, 2)

    def right(path, _):
        succeeded(setting, "check", path)
        names = [line.split(b" ", 2)[2].decode() for line in succeeded(setting, "ls", path, "/").splitlines()]
        for name in names:
            got = succeeded(setting, "get", path, f"/{name}")
            each = [set(got[at : at + 4096]) for at in range(0, len(got), 4096)]
            if name not in ("file", "journal") or len(got) % 4096 or any(len(it) > 1 for it in each):
                raise Wrong(f"{name} of {len(got)} bytes has a page that was written in half")
            if name == "file" and any(it - {0, *(k + n for n in range(rounds + 1))} for k, it in enumerate(each)):
                raise Wrong("a page of no round")

    def words(path):
        return ["run", "--volume", path, f"{TOP}/examples/c/pages.wasm", "file", str(count), str(rounds)]

    return Scene("pages", read(path), words, right, f"{count} pages in {rounds} rounds")


def put(setting):
    """A file put over another: the old one, or a beginning of the new one; all of it once `put` has ended."""
    path = fresh(setting)
    old, new = bytes(range(256)) * 4, bytes(7 * k % 251 for k in range(2_000 if setting.is_quick else 31_000))
    succeeded(setting, "put", path, "/a", given=old)
    succeeded(setting, "put", path, "/other", given=b"other")

    def right(path, _):
        succeeded(setting, "check", path)
        got = succeeded(setting, "get", path, "/a")
        if got != old and not new.startswith(got):
            raise Wrong(f"{len(got)} bytes of neither file")
        if succeeded(setting, "get", path, "/other") != b"other":
            raise Wrong("another file changed")

    def ended(path, _):
        if succeeded(setting, "get", path, "/a") != new:
            raise Wrong("put has ended, and the file isn't there")

    return Scene("put", read(path), lambda path: ["put", path, "/a"], right, f"{len(new)} bytes", new, ended)


def formatted(setting):
    """`format` over a volume: what was there, no volume, or the empty one."""
    path = fresh(setting, "202", "40")
    for k in range(14):
        succeeded(setting, "put", path, f"/{k}", given=b"old")
    old = succeeded(setting, "ls", path, "/")

    def right(path, _):
        status, _, said = answer(setting, ["check", path])
        if said == "sandbox: fault 30\n":
            return
        if status or succeeded(setting, "ls", path, "/") not in (b"", old):
            raise Wrong(said or "another tree")

    def ended(path, _):
        if succeeded(setting, "ls", path, "/") or not old:
            raise Wrong("a formatted volume isn't empty")

    return Scene("format", read(path), lambda path: ["format", path, "202", "16"], right, "over a volume of 14 files", ended=ended)


def upgraded(setting):
    """`upgrade`: the same tree, in version 1 or 2."""
    path = fresh(setting)
    old = bytes(5 * k % 253 for k in range(31_000))
    succeeded(setting, "put", path, "/a", given=old)

    def right(path, _):
        line = succeeded(setting, "check", path)
        if not re.match(rb"version [12], entries 2 of 16, sectors 62 of 64\n", line) or succeeded(setting, "get", path, "/a") != old:
            raise Wrong(f"another tree: {line!r}")

    return Scene("upgrade", read(path), lambda path: ["upgrade", path], right, "a file of 31,000 bytes")


def opened(setting):
    """A crash while an interrupted commit is installed: the tree is that of the commit."""
    path = fresh(setting)
    events = recorded(setting, path, ["put", path, "/a"], b"new" * 300).events
    headers = [k for k, it in enumerate(events) if it[0] == "write" and it[1] == 1 and it[2][:4] != bytes(4)]
    if not headers:
        raise Wrong("no commit was recorded")
    it = bytearray(read(copied(path, f"{setting.room}/interrupted")))
    # the log of the last commit once more, and what it installs taken away
    for event in events[: headers[-1] + 1]:
        if event[0] == "write" and event[1] < 122:
            it[512 * event[1] : 512 * event[1] + 512] = event[2]
    for event in events[headers[-1] + 1 :]:
        if event[0] == "write" and event[1] >= 122:
            it[512 * event[1] : 512 * event[1] + 512] = bytes(512)

    def right(path, _):
        succeeded(setting, "check", path)
        if succeeded(setting, "get", path, "/a") != b"new" * 300:
            raise Wrong("the commit isn't there")

    return Scene("opening", bytes(it), lambda path: ["check", path], right, "the log of a commit")
