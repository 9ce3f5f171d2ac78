"""Random calls on a tree with a model of it: each answer, and the tree of every crash image.

The model is written from the tables of `docs/VOLUME.md` and `docs/USING.md`. The trees of images are those of `plain_volume.py`, which
takes a tree out of a volume without the program.
"""
import collections
import os
import random

import crashes
from common import Wrong, succeeded
from plain_volume import DIRECTORY, LIMITS, SECTOR, ZEROS, Reading, Writer, need, up

GUEST = f"{os.path.dirname(os.path.abspath(__file__))}/steps.wasm"
SECTORS, SLOTS = 260, 12
NAMES = ["a", "b", "p", "q", "p/a", "p/b", "q/a", "p/q", "p/q/a", "q/p", "a/b"]
# a volume, and what is drawn: where calls write, and the sizes that they set
Shape = collections.namedtuple("Shape", "version sectors slots places sizes")
SMALL = Shape(1, SECTORS, SLOTS, (0, 1, 500, 4_000, 29_000, 95_000), (0, 1, 511, 600, 29_696, 30_000, 60_000, 95_232, 95_233))
# two files have room for a third level, and one for a second double-indirect block there
THIRD, FOURTH = 512 * 16_570, 512 * (16_570 + 16_384)
DEEP_PLACES = (0, 500, 29_000, 95_000, THIRD - 1_000, THIRD - 1, THIRD + 65_000, FOURTH - 1_000)
DEEP_SIZES = (0, 511, 29_696, 95_232, THIRD - 1, THIRD, THIRD + 1, THIRD + 65_537, FOURTH + 1, 1_082_225_664, 1_082_225_665)
DEEP = Shape(4, 34_500, SLOTS, DEEP_PLACES, DEEP_SIZES)


class Content:
    """A file's bytes: its size, and the blocks that aren't zeros."""

    def __init__(self, size=0, blocks=None):
        self.size, self.blocks = size, blocks or {}

    def __eq__(self, other):
        return isinstance(other, Content) and (self.size, self.blocks) == (other.size, other.blocks)

    def written(self, at, count, byte):
        blocks = dict(self.blocks)
        for block in range(at // SECTOR, up(at + count, SECTOR)):
            first, last = max(at - SECTOR * block, 0), min(at + count - SECTOR * block, SECTOR)
            old = blocks.get(block, ZEROS)
            blocks[block] = old[:first] + bytes((byte,)) * (last - first) + old[last:]
        return Content(max(self.size, at + count), blocks)

    def cut(self, size):
        """With another size, which may be larger."""
        blocks = {block: it for block, it in self.blocks.items() if SECTOR * block < size}
        if size % SECTOR and (last := blocks.get(size // SECTOR)):
            blocks[size // SECTOR] = last[: size % SECTOR].ljust(SECTOR, b"\0")
        return Content(size, {block: it for block, it in blocks.items() if any(it)})


class Tree:
    """Paths to None for a directory, or to the content of a file."""

    def __init__(self, shape, entries=None):
        self.shape, self.entries = shape, entries or {}

    def copy(self):
        return Tree(self.shape, dict(self.entries))

    def parent_fault(self, path):
        """What the walk to a path's parent answers."""
        names = path.split("/")
        for count in range(1, len(names)):
            above = "/".join(names[:count])
            if above not in self.entries:
                return 44
            if self.entries[above] is not None:
                return 54
        return 0

    def has_space(self):
        data = self.shape.sectors - self.shape.slots - 122
        return sum(need(it.size) for it in self.entries.values() if it is not None) <= data

    def make(self, path, content):
        fault = self.parent_fault(path)
        if fault or path in self.entries:
            return fault or 20
        if len(self.entries) + 1 >= self.shape.slots:
            return 51
        self.entries[path] = content
        return 0

    def resize(self, path, changed):
        """A change of a file's content; `changed` gives the new one."""
        fault = self.parent_fault(path)
        if fault or path not in self.entries:
            return fault or 44
        old = self.entries[path]
        if old is None:
            return 31
        new = changed(old)
        if new.size > LIMITS[self.shape.version].size:
            return 22
        self.entries[path] = new
        if not self.has_space():
            self.entries[path] = old
            return 51
        return 0

    def remove(self, path, is_directory):
        fault = self.parent_fault(path)
        if fault or path not in self.entries:
            return fault or 44
        if (self.entries[path] is None) != is_directory:
            return 54 if is_directory else 31
        if self.below(path):
            return 55
        del self.entries[path]
        return 0

    def below(self, path):
        return [it for it in self.entries if it.startswith(path + "/")]

    def rename(self, old, new):
        # both paths are walked before the call looks at what is there
        fault = self.parent_fault(old) or self.parent_fault(new) or (0 if old in self.entries else 44)
        if fault or old == new:
            return fault
        if new.startswith(old + "/") and self.entries[old] is None:
            return 28
        if new in self.entries:
            kinds = self.entries[old] is None, self.entries[new] is None
            fault = {(True, False): 54, (False, True): 31}.get(kinds, 55 if self.below(new) else 0)
            if fault:
                return fault
            del self.entries[new]
        for path in [old, *self.below(old)]:
            self.entries[new + path[len(old) :]] = self.entries.pop(path)
        return 0

    def step(self, words):
        kind, path = words[0], words[1] if len(words) > 1 else ""
        if kind in "cd":
            return self.make(path, Content() if kind == "c" else None)
        if kind == "w":
            at, count, byte = map(int, words[2:])
            return self.resize(path, lambda old: old.written(at, count, byte))
        if kind == "t":
            size = int(words[2])
            return self.resize(path, lambda old: old.cut(size))
        if kind in "ux":
            return self.remove(path, kind == "x")
        return self.rename(path, words[2]) if kind == "r" else 0


def drawn(chance, tree):
    """A random call, mostly on what is there."""
    kind = chance.choice("cccddwwwwwttuxrrrsss")
    fitting = [it for it, content in tree.entries.items() if kind == "r" or (content is None) == (kind == "x")]
    path = chance.choice(fitting if fitting and kind not in "cd" and chance.random() < 0.8 else NAMES)
    if kind == "w":
        return [kind, path, str(chance.choice(tree.shape.places)), str(chance.choice((1, 300, 2_000))), str(chance.randrange(1, 256))]
    if kind == "t":
        return [kind, path, str(chance.choice(tree.shape.sizes))]
    if kind == "r":
        return [kind, path, chance.choice(NAMES)]
    return [kind] if kind == "s" else [kind, path]


def reading_of(image):
    it = Reading(image)
    if it.fault:
        raise Wrong(f"the reader refuses it: {it.fault}, {sorted(it.broken, key=str)[:5]}")
    return it


def tree_of(image):
    """The tree of a volume: paths to None for a directory, or to the bytes of a file."""
    return reading_of(image).tree()


def contents_of(image):
    """The same with the content of a file in place of its bytes."""
    def content(it):
        blocks = {block: reading[sector] for block, sector in reading.blocks_of(it)}
        return Content(it.size, {block: raw for block, raw in blocks.items() if any(raw)})

    reading = reading_of(image)
    return {path: None if it.kind == DIRECTORY else content(it) for path, it in reading.paths().items()}


def random_calls(setting):
    """Random calls with their model, for all crash images of the run."""
    return calls_on(setting, SMALL, 60 if setting.is_quick else 1_000)


def deep_calls(setting):
    """The same on a volume of version 4, whose files may have all levels."""
    return calls_on(setting, DEEP, 120)


def calls_on(setting, shape, count):
    chance = random.Random(setting.seed)
    calls, trees, answers, synced = [], [Tree(shape)], [], [0]
    for _ in range(count):
        call = drawn(chance, trees[-1])
        calls.append(call)
        now = trees[-1].copy()
        answers.append(now.step(call))
        trees.append(now)
        synced.append(len(trees) - 1 if call[0] == "s" else synced[-1])
    script = "".join(" ".join(it) + "\n" for it in calls).encode()
    path = Writer(shape.version, shape.sectors, shape.slots).save(f"{setting.room}/recorded")

    def right(path, said, more=1):
        succeeded(setting, "check", path)
        got, done = contents_of(crashes.read(path)), said.count(b"\n")
        if not any(trees[k].entries == got for k in range(synced[done], min(done + more, count) + 1)):
            raise Wrong(f"the tree is none of those after {synced[done]} to {done + more} calls")

    def ended(path, trace):
        said = list(map(int, trace.out.split()))
        if said != answers:
            first = next(k for k, it in enumerate(answers) if k >= len(said) or said[k] != it)
            kept = setting.keep("calls", script)
            raise Wrong(f"call {first}, {' '.join(calls[first])}, answers {said[first : first + 1]} and not {answers[first]}; kept as {kept}")
        if contents_of(crashes.read(path)) != trees[-1].entries:
            raise Wrong("the tree at the end is another")

    refused = sum(it > 0 for it in answers)
    words = lambda path: ["run", "--volume", path, GUEST]  # noqa: E731
    scene = crashes.Scene(f"random calls, version {shape.version}", crashes.read(path), words, right, f"{count} calls, {refused} refused", script, ended)
    scene.answers, scene.trees = answers, trees
    return scene
