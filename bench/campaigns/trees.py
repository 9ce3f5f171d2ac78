"""A tar stream that is brought into a volume, and a whole tree that is removed: the tree of every crash image, and damaged streams.

What has to hold is by `docs/USING.md`: an import leaves a first part of its members, and of the next one some of the directories above
it or its file with a beginning of its bytes; a removal takes entries at and below its path away, each before what it stands in.
"""
import collections
import io
import random
import tarfile

import crashes
from common import Wrong, answer, succeeded, written
from damage import own_path
from steps import tree_of

SECTORS, SLOTS = "900", "140"


def content(number, size):
    return bytes((number + 7 * k) % 251 for k in range(size))


def stream(members):
    """A tar stream of paths, each with None for a directory or its bytes."""
    out = io.BytesIO()
    with tarfile.open(fileobj=out, mode="w", format=tarfile.GNU_FORMAT) as archive:
        for path, bytes_of_it in members:
            it = tarfile.TarInfo(path)
            it.type = tarfile.DIRTYPE if bytes_of_it is None else tarfile.REGTYPE
            it.size = len(bytes_of_it or b"")
            archive.addfile(it, io.BytesIO(bytes_of_it or b""))
    return out.getvalue()


def above(path):
    names = path.split("/")
    return ["/".join(names[:count]) for count in range(1, len(names))]


def steps_of(tree, path, bytes_of_it):
    """The trees by which a member comes: its directories one after another, then the member itself; and the path of its file, if it is one."""
    now, steps = dict(tree), []
    for it in [*above(path), *([path] if bytes_of_it is None else [])]:
        if it not in now:
            now[it] = None
            steps.append(dict(now))
    if bytes_of_it is None:
        return steps, None
    now[path] = bytes_of_it
    return [*steps, now], path


def is_on_the_way(got, tree, member):
    """Whether a tree has a part of this member more, which isn't there whole."""
    steps, file = steps_of(tree, *member)
    if got in steps:
        return True
    if file is None or not isinstance(got.get(file), bytes):
        return False
    whole = steps[-1]
    others = {path: it for path, it in whole.items() if path != file}
    return {path: it for path, it in got.items() if path != file} == others and whole[file].startswith(got[file])


def after_each(tree, members):
    """The tree before the first member, and after each."""
    trees = [dict(tree)]
    for member in members:
        steps, _ = steps_of(trees[-1], *member)
        trees.append(steps[-1] if steps else dict(trees[-1]))
    return trees


def tree_in(path):
    return tree_of(crashes.read(path))


def imported(setting):
    """A stream of files and directories, over a file that is there."""
    path = crashes.fresh(setting, SECTORS, SLOTS)
    old = {"a": b"old" * 700, "other": b"other"}
    for name, it in old.items():
        succeeded(setting, "put", path, f"/{name}", given=it)
    members = [("d", None), ("d/x", content(1, 700)), ("a", content(2, 31_000)), ("e/f/g", content(3, 100)), ("e", None)]
    if not setting.is_quick:
        members += [(f"d/{k}", content(k, 400 * k)) for k in range(30)]
    trees = after_each(old, members)

    def right(path, _):
        succeeded(setting, "check", path)
        got = tree_in(path)
        if not any(got == it for it in trees) and not any(is_on_the_way(got, trees[k], it) for k, it in enumerate(members)):
            raise Wrong("the tree isn't one after a first part of the members")

    def ended(path, _):
        if tree_in(path) != trees[-1]:
            raise Wrong("the import has ended, and not all members are there")

    text = f"{len(members)} members, {sum(len(it or b'') for _, it in members):,} bytes"
    return crashes.Scene("import", crashes.read(path), lambda path: ["import", path, "/"], right, text, stream(members), ended)


def removed(setting):
    """A directory with all below it, beside others that stay."""
    path = crashes.fresh(setting, SECTORS, SLOTS)
    count = 12 if setting.is_quick else 100
    gone = [("p", None), ("p/q", None), *((f"p/{k}", content(k, 600)) for k in range(count // 2)), ("p/q/r", None)]
    gone += [(f"p/q/r/{k}", content(k, 40 * k)) for k in range(count - count // 2)]
    stays = [("pp", content(5, 5_000)), ("s", None), ("s/p", b"p")]
    succeeded(setting, "import", path, "/", given=stream([*stays, *gone]))
    before, kept = dict([*stays, *gone]), dict(stays)

    def right(path, _):
        succeeded(setting, "check", path)
        got = tree_in(path)
        if {it: got.get(it) for it in kept} != kept or any(it not in before or before[it] != got[it] for it in got):
            raise Wrong("an entry beside the tree changed, or one is there that never was")
        if any(over not in got for it in got for over in above(it)):
            raise Wrong("a directory is gone, and what stands in it isn't")

    def ended(path, _):
        if tree_in(path) != kept:
            raise Wrong("the removal has ended, and the tree is another")

    return crashes.Scene("rm -r", crashes.read(path), lambda path: ["rm", "-r", path, "/p"], right, f"{len(gone)} entries", ended=ended)


def mutant(chance, whole):
    """A stream with some bytes changed, most of them in headers, or cut."""
    it = bytearray(whole)
    for _ in range(chance.choice((0, 1, 1, 2, 5))):
        block = 512 * chance.randrange(len(it) // 512)
        field = chance.choice((0, 1, 99, 100, 124, 135, 148, 155, 156, 257, 345, chance.randrange(512)))
        it[block + field] = chance.choice((0, 32, 47, 48, 55, 0x80, 0xFF, chance.randrange(256)))
        if chance.random() < 0.7:
            # a right checksum, so that what stands behind it is read
            it[block + 148 : block + 156] = b" " * 8
            it[block + 148 : block + 156] = b"%06o\0 " % sum(it[block : block + 512])
    return bytes(it[: chance.randrange(len(it))] if chance.random() < 0.3 else it)


def damaged_streams(setting):
    """Changed and cut streams: each is taken or refused by the table, and what was there beside them stays."""
    chance = random.Random(setting.seed)
    base = crashes.read(crashes.fresh(setting, SECTORS, SLOTS))
    long = "n" * 90 + "/" + "m" * 150
    whole = stream([("d", None), ("d/x", content(1, 700)), ("e/f/g", content(3, 1_500)), (long, b"long"), ("e", None)])

    def one(given):
        path = written(own_path(setting, "stream"), base)
        try:
            succeeded(setting, "put", path, "/kept", given=b"kept")
            status, _, said = answer(setting, ["import", path, "/"], given)
            succeeded(setting, "check", path)
            if succeeded(setting, "get", path, "/kept") != b"kept":
                raise Wrong("another file changed")
        except Wrong as wrong:
            raise Wrong(f"{wrong}; the stream is kept as {setting.keep('stream.tar', given)}") from None
        return "taken" if not status else said.strip().split(": ")[-1]

    count = 100 if setting.is_quick else 10_000
    found = collections.Counter(setting.each(one, (mutant(chance, whole) for _ in range(count))))
    return found.total(), ", ".join(f"{name} {count}" for name, count in found.most_common(6))
