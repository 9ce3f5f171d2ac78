"""Files in two roles, by every kind of name: nothing is lost, nothing is written that isn't its role's, and what is refused is refused with 41.

No file that is written has a second role in a run, but `--image` with `--volume-out`. Roles that only read may share a file.
Streams that the command was given are compared with the files that it writes.
"""
import fcntl
import itertools
import os
import random
import re
import shutil
import subprocess
import tempfile

import guests
from common import Wrong, by_the_table, succeeded

READS = ["module", "--stdin", "--image", "--random", "--image-from"]
WRITES = ["--stdout", "--stderr", "--profile", "--report", "--volume", "--volume-out", "--out-to"]
OF_LISTS = ["--tests", "INPUT", "OUTPUT", "ERRORS", "REPORT"]
LIST_READS, LIST_WRITES = ["--tests", "INPUT"], ["OUTPUT", "ERRORS", "REPORT"]
WITH_LISTS = ["module", "--image", "--random", *OF_LISTS]
VOLUMES = ["--volume", "--image", "--volume-out"]
# Options that contradict each other, which is refused before any file is asked for.
CLASHES = [{"--volume", "--image"}, {"--volume", "--volume-out"}, {"--volume", "--image-from"}, {"--image", "--image-from"}, {"--volume", "--out-to"}, {"--volume-out", "--out-to"}]
NAMES = ["the same", "relative", "absolute", "symbolic link", "hard link", "/dev/fd", "/proc/self/fd"]
COLUMNS = ["INPUT", "OUTPUT", "ERRORS", "REPORT"]
SECTORS, SLOTS = "160", "8"


def is_written(role):
    return role in WRITES or role in LIST_WRITES


def wanted(is_so, text):
    if not is_so:
        raise Wrong(text)


def content(path):
    with open(path, "rb") as it:
        return it.read()


class Scene:
    """A folder with a file for each role, which goes at the end."""

    templates: dict[str, bytes] = {}

    def __init__(self, setting):
        self.program, self.folder = setting.program, tempfile.mkdtemp(dir=setting.room)
        if not Scene.templates:
            volume = f"{self.folder}/volume"
            succeeded(setting, "format", volume, SECTORS, SLOTS)
            succeeded(setting, "put", volume, "/kept", given=b"kept" * 200)
            tree = succeeded(setting, "export", volume, "/")
            Scene.templates.update(volume=content(volume), module=guests.probe(), tree=tree)
            os.remove(volume)
        self.count = 0

    def __enter__(self):
        return self

    def __exit__(self, *_):
        shutil.rmtree(self.folder, ignore_errors=True)

    def made(self, role, name=None, like=None):
        """A file that is right for a role, or for the role `like`, and its name."""
        self.count += 1
        name = name or f"file{self.count}"
        like = like or role
        kind = "volume" if like in VOLUMES else {"module": "module", "--image-from": "tree"}.get(like)
        what = Scene.templates[kind] if kind else b""
        what = what or (b"in2 o2 e2 r2\n" if like == "--tests" else f"what {name} had before\n".encode() * 3)
        with open(f"{self.folder}/{name}", "wb") as it:
            it.write(what)
        return name

    def words(self, names):
        """The words of a run in which these roles have these names; the other files that it needs are made."""
        names = dict(names)
        if "--volume-out" in names and not {"--image", "--image-from"} & {*names}:
            names["--image"] = self.made("--image")
        if any(it in OF_LISTS for it in names):
            for each in ("in2", "o2", "e2", "r2"):
                self.made("INPUT", each)
            line = " ".join(names.get(it) or self.made(it) for it in COLUMNS)
            if "--tests" not in names or any(it in COLUMNS for it in names):
                names.setdefault("--tests", "list")
                with open(f"{self.folder}/{names['--tests']}", "w") as it:
                    it.write(f"{line}\nin2 o2 e2 r2\n")
        options = [word for role, name in names.items() if role.startswith("--") for word in (role, name)]
        return ["run", *options, names.get("module") or self.made("module")]

    def files(self):
        """Each file's bytes by its name; of a list what its second line writes isn't asked."""
        return {it: content(f"{self.folder}/{it}") for it in os.listdir(self.folder) if it not in ("o2", "e2", "r2")}

    def alias(self, name, kind, role):
        """Another name of a file, and the descriptors that it stands for."""
        if kind == "relative":
            return f"../{os.path.basename(self.folder)}/{name}", []
        if kind == "absolute":
            return f"{self.folder}/{name}", []
        if kind == "symbolic link":
            os.symlink(name, f"{self.folder}/{name}.link")
            return f"{name}.link", []
        if kind == "hard link":
            os.link(f"{self.folder}/{name}", f"{self.folder}/{name}.hard")
            return f"{name}.hard", []
        if kind in ("/dev/fd", "/proc/self/fd"):
            number = os.open(f"{self.folder}/{name}", os.O_RDWR if is_written(role) else os.O_RDONLY)
            return f"{kind}/{number}", [number]
        return name, []

    def call(self, words, passed=(), streams=(None, None, None), before=None):
        """Status, output and error output of a call; streams are descriptors that it is given in place of pipes."""
        given, out, err = streams
        how = {"stdin": subprocess.DEVNULL if given is None else given, "stdout": subprocess.PIPE if out is None else out}
        how["stderr"] = subprocess.PIPE if err is None else err
        done = subprocess.run([self.program, *words], cwd=self.folder, pass_fds=passed, preexec_fn=before, timeout=120, **how)
        return done.returncode, done.stdout or b"", (done.stderr or b"").decode(errors="replace")


def told(names, kind, got):
    return f"{' = '.join(names)} by {kind}: status {got[0]}, {got[2][:200]!r}"


def suited(first, second):
    """The role whose kind of file both get."""
    return next((it for it in (first, second) if it in VOLUMES or it in ("module", "--tests", "--image-from")), first)


def pair(setting, item):
    """One file in two roles of a run: what was wrong is raised, and what came of it told."""
    first, second, kind = item
    with Scene(setting) as it:
        name = it.made(first, like=suited(first, second))
        other, passed = it.alias(name, kind, second)
        words = it.words({first: name, second: other})
        before = it.files()
        got = it.call(words, passed)
        for each in passed:
            os.close(each)
        after, what = it.files(), told((first, second), kind, got)
        if (is_written(first) or is_written(second)) and {first, second} != {"--image", "--volume-out"}:
            return refused(before, after, got, what, name, is_list=first in OF_LISTS or second in OF_LISTS, folder=it.folder)
        in_place = "sandbox: .*: written in place, .*\n" if second == "--volume-out" and kind == "hard link" else ""
        wanted(by_the_table(got[0], re.sub(in_place, "", got[2]) if in_place else got[2]), what)
        return taken(setting, item, got, after, before, what)


def refused(before, after, got, what, name, is_list, folder):
    """What is refused has cut and written nothing; of a list the other line runs, and the report of this one may tell."""
    status, _, said = got
    wanted(status == 124, f"{what}: it isn't refused")
    wanted(said.startswith("sandbox: fault 41\n") and all(it.startswith("sandbox: ") for it in said.splitlines()), f"{what}: the lines")
    changed = [it for it in before if after.get(it) != before[it]]
    wanted(name not in changed, f"{what}: the file has changed, {len(before[name])} to {len(after.get(name, b''))} bytes")
    wanted(is_list and len(changed) <= 1 or not changed, f"{what}: {', '.join(changed)} changed")
    wanted(all(not after[it] for it in after.keys() - before.keys()), f"{what}: a new file has bytes")
    if is_list and os.path.exists(f"{folder}/o2") and name != "list":
        wanted(content(f"{folder}/o2") in (b"OUT\n", b"what o2 had before\n" * 3), f"{what}: the other line")
    return "refused, with words" if said.count("\n") > 1 else "refused"


def taken(setting, item, got, after, before, what):
    """What is taken ends as with two files of the same bytes."""
    first, second, _ = item
    with Scene(setting) as it:
        like = suited(first, second)
        names = {first: it.made(first, like=like), second: it.made(second, like=like)}
        with open(f"{it.folder}/{names[second]}", "wb") as copy:
            copy.write(before["file1"])
        with open(f"{it.folder}/{names[first]}", "wb") as copy:
            copy.write(before["file1"])
        apart = it.call(it.words(names))
        wanted((got[0], got[1]) == (apart[0], apart[1]), f"{what}: with two files it is {apart}")
        if second == "--volume-out":
            wanted(after["file1"] == content(f"{it.folder}/{names[second]}") and got[0] == 0, f"{what}: the volume that was handed out")
    return "taken"


def pairs():
    for roles in (READS + WRITES, WITH_LISTS):
        for first, second in itertools.combinations(roles, 2):
            if {first, second} not in CLASHES and not (roles is WITH_LISTS and not {first, second} & {*OF_LISTS}):
                yield from ((first, second, kind) for kind in NAMES)


MODES = {"read": os.O_RDONLY, "read and write": os.O_RDWR, "append": os.O_WRONLY | os.O_APPEND, "write": os.O_WRONLY}
STREAMS = ["standard input", "standard output", "standard error"]
OWN = {("standard input", "--stdin"), ("standard output", "--stdout"), ("standard error", "--stderr")}


def stream_pairs():
    for stream in STREAMS:
        for mode in ("read", "read and write") if stream == STREAMS[0] else ("append", "read and write", "write"):
            yield from ((stream, mode, role) for role in READS + WRITES)


def stream_pair(setting, item):
    """A stream that the command was given is also a file of the run."""
    stream, mode, role = item
    with Scene(setting) as it:
        name = it.made(role)
        words, before = it.words({role: name}), it.files()
        number = os.open(f"{it.folder}/{name}", MODES[mode])
        streams = [number if each == stream else None for each in STREAMS]
        got = it.call(words, streams=streams)
        os.close(number)
        after, what = it.files(), f"{stream} to {mode} = {role}: status {got[0]}, {got[2][:200]!r}"
        if is_written(role) and (stream, role) not in OWN:
            wanted(got[0] == 124 and got[2][:18] in ("", "sandbox: fault 41\n"), f"{what}: it isn't refused")
            wanted({each: after.get(each) for each in before} == before, f"{what}: a file has changed")
            return "refused"
        if got[0] == 124:
            wanted(after == before and stream != STREAMS[0], f"{what}: a file has changed, or it only reads")
            return "refused"
        is_kept = mode != "append" or role in WRITES or after[name] in (before[name] + b"OUT\n", before[name] + b"ERR\n")
        wanted(got[0] == 0 and is_kept, f"{what}: other bytes")
        return "taken"


# A command on a volume, with what it reads or prints.
COMMANDS = [
    (["ls", "d", "/"], "prints"),
    (["get", "d", "/kept"], "prints"),
    (["put", "d", "/new"], "reads"),
    (["put", "d", "/kept"], "reads"),
    (["import", "d", "/"], "reads"),
    (["export", "d", "/"], "prints"),
    (["mkdir", "d", "/new"], ""),
    (["mv", "d", "/kept", "/moved"], ""),
    (["rm", "d", "/kept"], ""),
    (["rm", "d", "/nothing"], ""),
    (["rm", "-r", "d", "/kept"], ""),
    (["stat", "d", "/kept"], "prints"),
    (["check", "d"], "prints"),
    (["upgrade", "d"], ""),
    (["format", "d", SECTORS, SLOTS], ""),
]


def command_pairs():
    for at in range(len(COMMANDS)):
        for stream in STREAMS:
            for mode in ("read", "read and write") if stream == STREAMS[0] else ("append", "read and write"):
                yield at, stream, mode


def command_pair(setting, item):
    """FILE of a command is also a stream that it was given."""
    at, stream, mode = item
    words, does = COMMANDS[at]
    with Scene(setting) as it:
        it.made("--volume", "d")
        before = it.files()
        number = os.open(f"{it.folder}/d", MODES[mode])
        got = it.call(words, streams=[number if each == stream else None for each in STREAMS])
        os.close(number)
        after, what = it.files(), f"{' '.join(words)}, {stream} to {mode} is FILE: status {got[0]}, {got[2][:200]!r}"
        if (stream, does) in ((STREAMS[0], "reads"), (STREAMS[1], "prints")) or got[0] == 124:
            wanted(got[0] == 124 and after == before, f"{what}: not refused, or the file has changed")
            return "refused"
        wanted(got[0] == 0 and it.call(["check", "d"])[0] == 0, f"{what}: the volume is damaged")
        return "taken"


def list_rows():
    """Lines of a list, which of them are refused, and a file that has to keep what it had."""
    return [
        (["in o e r", "in o e3 r3"], [1], "e3"),
        (["in o e r", "in o3 o r3"], [1], "o3"),
        (["in o e r", "in o3 e3 o"], [1], "o3"),
        (["in o e r", "in e e3 r3"], [1], "e3"),
        (["in o e r", "in r e3 r3"], [1], "e3"),
        (["in o e r", "in ./o e3 r3", "in o4 e4 r4"], [1], "e3"),
        (["in o o r", "in o3 e3 r3"], [0], "o"),
        (["in in e r", "in o3 e3 r3"], [0], "in"),
        (["in o e in", "in o3 e3 r3"], [0], "in"),
        (["in o e r", "o o3 e3 r3"], [], None),
        (["in o e r", "in3 in e3 r3"], [], None),
        (["in o e r", "in list e3 r3", "in o4 e4 r4"], [1], "list"),
        (["in m e r", "in o3 e3 r3"], [0], "m"),
        (["nothing o e r", "in o3 e3 r3"], [0], "o"),
        (["in no/o e r", "in o3 e3 r3"], [0], "e"),
    ]


def list_row(setting, at):
    lines, bad, kept = list_rows()[at]
    with Scene(setting) as it:
        for each in {name for line in lines for name in line.split()} - {"nothing", "list", "m", "no/o", "./o"}:
            it.made("INPUT", each)
        it.made("module", "m")
        with open(f"{it.folder}/list", "w") as file:
            file.write("\n".join(lines) + "\n")
        before = it.files()
        got = it.call(["run", "--tests", "list", "m"])
        what = f"the list {lines}: status {got[0]}, {got[2][:200]!r}"
        wanted(got[0] == (124 if bad else 0) and ("sandbox: fault 41" in got[2]) == bool(bad), what)
        for number, line in enumerate(lines):
            out = line.split()[1]
            wanted(number in bad or content(f"{it.folder}/{out}") == b"OUT\n" or f"{number}{out}" == "0o" and 1 in bad, f"{what}: line {number}")
        wanted(not kept or content(f"{it.folder}/{kept}") == before[kept], f"{what}: {kept} has changed")
    return "lines"


def devices(setting, _):
    """Devices and pipes go on as they did, in as many roles as one likes."""
    with Scene(setting) as it:
        module = it.made("module")
        for roles in itertools.combinations(["--stdin", "--stdout", "--stderr", "--profile", "--report"], 2):
            got = it.call(["run", *(word for role in roles for word in (role, "/dev/null")), module])
            wanted(got[0] == 0, f"/dev/null for {' and '.join(roles)}: {got}")
        os.mkfifo(f"{it.folder}/pipe")
        reader = subprocess.Popen(["cat", "pipe"], cwd=it.folder, stdout=subprocess.PIPE)
        got = it.call(["run", "--stdout", "pipe", module])
        wanted((got[0], reader.communicate()[0]) == (0, b"OUT\n"), f"a named pipe: {got}")
        number = os.open(f"{it.folder}/log", os.O_CREAT | os.O_WRONLY | os.O_APPEND)
        got = it.call(["run", module], streams=(None, number, number))
        wanted(got[0] == 0 and content(f"{it.folder}/log") == b"OUT\nERR\n", f">>log 2>&1: {got}")
        fcntl.flock(number, fcntl.LOCK_EX)
        got = it.call(["run", module], streams=(None, number, number))
        wanted(got[0] == 0 and content(f"{it.folder}/log") == b"OUT\nERR\n" * 2, f">>log 2>&1, locked: {got}")
        os.close(number)
    return "devices"


FORGED = ["no\nsandbox: fault 0", "no\r\x1b[2Ksandbox: fault 0", "no\x9b2Jsandbox: fault 0\n", "-no\n\nsandbox: exit 0"]


def names():
    for name in FORGED:
        yield from ((role, name) for role in [*READS, *WRITES, "--tests", "FILE", "PATH", "hard link"])


def no_forged_line(setting, item):
    """A name that holds lines or escapes, of a file that isn't there, in a folder that isn't, or in words about one that is."""
    role, name = item
    with Scene(setting) as it:
        it.made("--volume", "d")
        wrong = name if role in READS + ["--tests"] else f"{name}/file"
        words = [["ls", "--", f"{it.folder}/{wrong}", "/"], ["ls", "d", f"/{wrong}"]][role == "PATH"]
        if role == "hard link":
            it.made("--volume", name)
            os.link(f"{it.folder}/{name}", f"{it.folder}/other")
            words = it.words({"--volume-out": f"{it.folder}/{name}"})
        elif role not in ("FILE", "PATH"):
            words = it.words({role: f"{it.folder}/{wrong}"})
            if role == "--tests":
                words = ["run", "--tests", f"{it.folder}/{wrong}", it.made("module")]
        got = it.call(words)
        lines = got[2].removeprefix("ERR\n").split("\n")
        what = f"the name {name!r} as {role}: status {got[0]}, {got[2]!r}"
        wanted(got[0] == (0 if role == "hard link" else 124), what)
        wanted(lines.pop() == "" and all(re.fullmatch("sandbox: [^\0-\x1f\x7f]+", line) for line in lines), what)
        wanted(not {"sandbox: fault 0", "sandbox: exit 0"} & {*lines}, what)
    return "names"


def drawn(setting, items, quick):
    items = [*items]
    return random.Random(setting.seed).sample(items, min(quick, len(items))) if setting.is_quick else items


def roles(setting):
    """The row: each pair of roles by each kind of name, each stream that was given, FILE of each command, and lists."""
    Scene(setting).__exit__()
    found = {}
    for function, items in (
        (pair, drawn(setting, pairs(), 60)),
        (stream_pair, drawn(setting, stream_pairs(), 30)),
        (command_pair, drawn(setting, command_pairs(), 30)),
        (list_row, range(len(list_rows()))),
        (no_forged_line, drawn(setting, names(), 12)),
        (devices, [0]),
    ):
        for it in setting.each(lambda item, function=function: function(setting, item), items):
            found[it] = found.get(it, 0) + 1
    return sum(found.values()), ", ".join(f"{name} {count}" for name, count in sorted(found.items()))
