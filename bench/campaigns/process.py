"""The process at its edges: closed streams, locks of others, disks without room, small stacks, and a kill at each call of the system.

A closed stream stays closed: a guest is answered 29 there, and a command that needs it ends with 124. No file gets a byte that isn't
its role's. What is refused has cut and written nothing.
"""
import collections
import contextlib
import fcntl
import io
import os
import re
import resource
import shutil
import signal
import stat
import subprocess
import tarfile
import time

from common import Wrong, succeeded
from files import COMMANDS, Scene, content, drawn, wanted

KEYS = "end code text offset status units fuel pages read written complained calls syncs volume blame".split()


def prepare(setting):
    """Makes the files that scenes are copies of, before processes are forked."""
    Scene(setting).__exit__()
    with Scene(setting) as it:
        it.made("--volume", "d")
        succeeded(setting, "run", "--volume", f"{it.folder}/d", f"{it.folder}/{it.made('module')}")
        Scene.templates["after"] = content(f"{it.folder}/d")
        succeeded(setting, "run", "--image-from", f"{it.folder}/{it.made('--image-from', 't')}", "--out-to", f"{it.folder}/g", f"{it.folder}/{it.made('module')}")
        Scene.templates["tree after"] = content(f"{it.folder}/g")
        with tarfile.open(f"{it.folder}/g") as tree:
            wanted(sorted(each.name for each in tree) == ["kept", "probe"], f"the tree of a run: {tree.getnames()}")
    return setting


def given_out(words):
    """The files that get a volume or a tree when a run has ended, and what they have then."""
    found = {"--volume-out": "after", "--out-to": "tree after"}
    return {words[words.index(option) + 1]: Scene.templates[what] for option, what in found.items() if option in words}


def tar_of(name, size):
    out = io.BytesIO()
    with tarfile.open(fileobj=out, mode="w", format=tarfile.USTAR_FORMAT) as it:
        member = tarfile.TarInfo(name)
        member.size = size
        it.addfile(member, io.BytesIO(b"x" * size))
    return out.getvalue()


def described(given):
    """A descriptor from which these bytes are read."""
    number = os.memfd_create("given")
    os.write(number, given)
    os.lseek(number, 0, os.SEEK_SET)
    return number


GIVEN = {"put": b"new" * 300, "import": tar_of("member", 900)}

# Words of runs, with what each writes.
RUNS = [
    ["m"],
    ["--report", "r", "m"],
    ["--volume", "d", "m"],
    ["--volume", "d", "--report", "r", "m"],
    ["--image", "i", "--volume-out", "v", "m"],
    ["--image", "i", "--volume-out", "i", "--report", "r", "m"],
    ["--stdin", "in", "--stdout", "o", "--stderr", "e", "--report", "r", "m"],
    ["--stdout", "o", "--volume", "d", "m"],
    ["--stdin", "in", "--random", "x", "m"],
    ["--image-from", "t", "--out-to", "g", "m"],
    ["--image-from", "t", "--out-to", "g", "--stdout", "o", "--report", "r", "m"],
]


def run_scene(setting):
    it = Scene(setting)
    for role, name in (("module", "m"), ("--volume", "d"), ("--image", "i"), ("--stdin", "in"), ("--random", "x"), ("--stdout", "o"), ("--stderr", "e")):
        it.made(role, name)
    it.made("--image-from", "t")
    return it


def closing(numbers):
    def close():
        for each in numbers:
            os.close(each)

    return close


def right_report(text, code, status):
    """Whether a report has its lines, and no others, and tells this end."""
    lines = [it.partition(":")[::2] for it in text.decode().splitlines()]
    found = dict(lines)
    return [it[0] for it in lines][: len(KEYS)] == KEYS and (found["end"], found["code"], found["status"]) == ("exit", str(code), str(status))


def closed_run(setting, item):
    """A run some of whose standard streams are closed: the guest exits with a bit for each that answered 29."""
    words, closed = RUNS[item[0]], [it for it in (0, 1, 2) if item[1] >> it & 1]
    with run_scene(setting) as it:
        before = it.files()
        got = it.call(["run", *words], before=closing(closed))
        after, what = it.files(), f"run {' '.join(words)} with {closed} closed: status {got[0]}, {got[2][:200]!r}"
        own = [name for name in ("--stdin", "--stdout", "--stderr") if name in words]
        code = sum(1 << each for each in closed if ("--stdin", "--stdout", "--stderr")[each] not in own)
        wanted(got[0] == code, f"{what}, and not {code}")
        wanted(1 in closed or "--stdout" in words or got[1] == b"OUT\n", f"{what}: {got[1]!r}")
        wanted(got[2] == ("" if 2 in closed or "--stderr" in words else "ERR\n"), what)
        expected = dict(before)
        if "--volume" in words:
            expected["d"] = Scene.templates["after"]
        expected.update(given_out(words))
        if "--stdout" in words:
            expected["o"] = b"OUT\n"
        if "--stderr" in words:
            expected["e"] = b"ERR\n"
        if "--report" in words:
            wanted(right_report(after.get("r", b""), code, code), f"{what}: the report {after.get('r', b'')[:90]!r}")
            expected["r"] = after["r"]
        wrong = [name for name in {*after, *expected} if after.get(name) != expected.get(name)]
        wanted(not wrong, f"{what}: {', '.join(sorted(wrong))} has other bytes")
    return "runs"


def closed_list(setting, number):
    """A list of runs, which needs no standard stream."""
    closed = [it for it in (0, 1, 2) if number >> it & 1]
    with run_scene(setting) as it:
        with open(f"{it.folder}/list", "w") as file:
            file.write("in o e r\nin o2 e2 r2\n")
        got = it.call(["run", "--tests", "list", "m"], before=closing(closed))
        what = f"a list with {closed} closed: status {got[0]}, {got[2][:200]!r}"
        wanted(got == (0, b"", ""), what)
        for out, err, report in (("o", "e", "r"), ("o2", "e2", "r2")):
            found = [content(f"{it.folder}/{name}") for name in (out, err, report)]
            wanted(found[:2] == [b"OUT\n", b"ERR\n"] and right_report(found[2], 0, 0), f"{what}: {found}")
    return "lists"


def closed_command(setting, item):
    """A command on a volume with closed streams: what it needs is refused, and else it does what it does with open ones."""
    (words, does), closed = COMMANDS[item[0]], [it for it in (0, 1, 2) if item[1] >> it & 1]
    given = GIVEN.get(words[0], b"")
    with Scene(setting) as it:
        it.made("--volume", "d")
        before, number = content(f"{it.folder}/d"), described(given)
        whole = it.call(words, streams=(number, None, None))
        os.close(number)
        changed = content(f"{it.folder}/d")
        it.made("--volume", "d")
        number = described(given)
        got = it.call(words, streams=(number, None, None), before=closing(closed))
        os.close(number)
        after, what = content(f"{it.folder}/d"), f"{' '.join(words)} with {closed} closed: status {got[0]}, {got[2][:200]!r}"
        lacks = 0 in closed and does == "reads" or 1 in closed and does == "prints"
        wanted(got[0] == (124 if lacks else whole[0]), f"{what}, and not {124 if lacks else whole[0]}")
        wanted(lacks or 1 in closed or got[1] == whole[1], f"{what}: {got[1]!r}")
        wanted(2 in closed or got[2].startswith("sandbox: ") == (got[0] != 0), what)
        wanted(after == (changed if not lacks else before) or lacks and does == "reads", f"{what}: the volume has other bytes")
        wanted(it.call(["check", "d"])[0] == 0, f"{what}: the volume is damaged")
        wanted(os.listdir(it.folder) == ["d"], f"{what}: another file")
    return "commands"


OTHERS = [["inspect", "m"], ["inspect", "d"], ["inspect", "nothing"], ["help"], ["help", "run"], ["help", "faults"], ["--version"], ["nonsense"]]
OTHERS += [["run", "--volume", "nothing", "m"], ["run", "--image", "i", "--volume", "d", "m"], ["run", "d"], ["ls", "d", "/nothing"], ["get", "nothing", "/"]]


def closed_other(setting, item):
    """What touches no volume, and what is refused: the status is that with open streams, and no file has other bytes."""
    words, closed = OTHERS[item[0]], [it for it in (0, 1, 2) if item[1] >> it & 1]
    with run_scene(setting) as it:
        before = it.files()
        whole = it.call(words)
        got = it.call(words, before=closing(closed))
        status = 124 if 1 in closed and whole[1] else whole[0]
        what = f"{' '.join(words)} with {closed} closed: status {got[0]}, {got[2][:200]!r}, and not {status}"
        wanted(got[0] == status and it.files() == before, what)
        wanted(1 in closed or got[1] == whole[1], what)
        wanted(2 in closed or 1 in closed and whole[1] or got[2] == whole[2], what)
    return "others"


def closed(setting):
    """The row: each run and each command with each choice of closed streams."""
    prepare(setting)
    found = collections.Counter()
    choices = [(at, number) for at in range(len(RUNS)) for number in range(1, 8)]
    commands = [(at, number) for at in range(len(COMMANDS)) for number in range(1, 8)]
    others = [(at, number) for at in range(len(OTHERS)) for number in range(1, 8)]
    rows = [(closed_run, drawn(setting, choices, 30)), (closed_list, range(1, 8)), (closed_command, drawn(setting, commands, 40))]
    for function, items in [*rows, (closed_other, drawn(setting, others, 20))]:
        found.update(setting.each(lambda item, function=function: function(setting, item), items))
    return sum(found.values()), ", ".join(f"{name} {count}" for name, count in sorted(found.items()))


# What another process locks, and whether a run is refused then, by an exclusive and by a shared lock.
LOCKED = {"m": (0, 0), "in": (0, 0), "x": (0, 0), "t": (0, 0), "i": (1, 0), "o": (1, 1), "e": (1, 1), "r": (1, 1), "v": (1, 1), "g": (1, 1), "d": (1, 1)}
TREES = ["--image-from", "t", "--out-to", "g"]


def locked(setting, item):
    """Another process holds a file locked."""
    name, is_shared = item
    words = ["--stdin", "in", "--stdout", "o", "--stderr", "e", "--report", "r", "--random", "x"]
    words += ["--volume", "d"] if name == "d" else TREES if name in TREES else ["--image", "i", "--volume-out", "v"]
    with run_scene(setting) as it:
        for role, each in (("--report", "r"), ("--volume", "v"), ("--out-to", "g")):
            it.made(role, each)
        before = it.files()
        with open(f"{it.folder}/{name}", "rb") as held:
            fcntl.flock(held, fcntl.LOCK_SH if is_shared else fcntl.LOCK_EX)
            got = it.call(["run", *words, "m"])
        what = f"{name} is locked, {'shared' if is_shared else 'alone'}: status {got[0]}, {got[2][:200]!r}"
        if not LOCKED[name][is_shared]:
            wanted(got == (0, b"", ""), f"{what}: it isn't taken")
            return "locks"
        wanted(got[0] == 124 and got[2].startswith("sandbox: fault 41\n"), f"{what}: it isn't refused")
        after = it.files()
        # (the report may tell of it, unless it is what is locked)
        changed = [each for each in before if after.get(each) != before[each] and (each != "r" or name == "r")]
        wanted(not changed and after.keys() == before.keys(), f"{what}: {changed} changed, or a file is new")
    return "locks"


def limited(most):
    def limit():
        signal.signal(signal.SIGXFSZ, signal.SIG_IGN)
        resource.setrlimit(resource.RLIMIT_FSIZE, (most, most))

    return limit


def without_room(setting, item):
    """No file may be longer than `most` bytes: an old volume stays whole, and nothing is left beside it."""
    words, most = item
    with run_scene(setting) as it:
        it.made("--volume", "v")
        before = it.files()
        got = it.call(words, before=limited(most))
        after, what = it.files(), f"{' '.join(words)} with files of {most} bytes at most: status {got[0]}, {got[2][:200]!r}"
        lines = got[2].splitlines()
        wanted(got[0] in (123, 124) and lines and all(line.startswith("sandbox: ") or line == "ERR" for line in lines), what)
        wanted(after.keys() == before.keys(), f"{what}: {sorted(after.keys() ^ before.keys())}")
        for name in before:
            is_stream = "--stdout" in words and name in words and name in "oe"
            wanted(after[name] == before[name] or is_stream, f"{what}: {name} has changed")
    return "limits"


def room_items():
    for most in (0, 512, 16_384, 50_000):
        yield ["run", "--image", "i", "--volume-out", "v", "m"], most
        yield ["run", "--image", "i", "--volume-out", "i", "m"], most
        yield ["run", "--image", "i", "--volume-out", "new", "m"], most
    for most in (0, 512):
        yield ["run", "--image-from", "t", "--out-to", "o", "m"], most
        yield ["run", "--image-from", "t", "--out-to", "new", "m"], most


ON_FULL = ["--volume-out v", "--volume-out i", "--volume-out new", "--out-to o", "--out-to new", "--stdout new", "--report new", "--stdout o --report r"]
ON_FULL += [f"{option} {name}" for option in ("--volume-out", "--out-to") for name in ("linked", "mounted", "holes")]


def full_disk(setting, options):
    """A disk without room: no volume is lost, and no part of one is left; a guest whose output has no room is answered 29."""
    with run_scene(setting) as it:
        it.made("--volume", "v")
        disk = f"{it.folder}/disk"
        os.mkdir(disk)
        if subprocess.run(["mount", "-t", "tmpfs", "-o", "size=300k", "none", disk], capture_output=True).returncode:
            return "full disks left out"
        try:
            return on_full_disk(it, disk, options.split())
        finally:
            subprocess.run(["umount", f"{disk}/mounted"])
            subprocess.run(["umount", disk], check=True)


def written_in_place(disk):
    """Files that are written in place, with less room than they are to have: some have another name, and one is mounted by itself."""
    for name in ("linked", "real", "mounted"):
        with open(f"{disk}/{name}", "xb") as file:
            file.write(b"kept\n")
    os.link(f"{disk}/linked", f"{disk}/other")
    with open(f"{disk}/holes", "xb") as file:
        file.write(b"kept\n")
        file.truncate(400 * 512)
    os.link(f"{disk}/holes", f"{disk}/holes too")
    subprocess.run(["mount", "--bind", f"{disk}/real", f"{disk}/mounted"], check=True)


def on_full_disk(it, disk, options):
    written_in_place(disk)
    for name in ("m", "i", "v", "o", "t"):
        shutil.copyfile(f"{it.folder}/{name}", f"{disk}/{name}")
    with contextlib.suppress(OSError), open(f"{disk}/fill", "wb", buffering=0) as fill:
        while True:
            fill.write(b"x" * 4096)
    before = {name: content(f"{disk}/{name}") for name in os.listdir(disk)}
    begun = {"--volume-out": ["--image", "i"], "--out-to": ["--image-from", "t"]}
    words = ["run", *begun.get(options[0], []), *options, "m"]
    done = subprocess.run([it.program, *words], cwd=disk, stdin=subprocess.DEVNULL, capture_output=True)
    after = {name: content(f"{disk}/{name}") for name in os.listdir(disk)}
    what = f"{' '.join(words)} on a full disk: status {done.returncode}, {done.stderr.decode()[:200]!r}"
    if options[0] in begun:
        expected = {**before, **given_out(words)}
        for name, other in (("linked", "other"), ("mounted", "real"), ("holes", "holes too")):
            expected[other] = expected[name]
        is_done = done.returncode == 0 and after == expected
        wanted(is_done or done.returncode in (123, 124) and after == before, f"{what}: {[name for name in {*after, *before} if after.get(name) != before.get(name)]}")
    else:
        wanted(done.returncode in (2, 124), what)
        wanted(all(after.get(name) == before[name] for name in ("m", "i", "v", "fill")), f"{what}: another file has changed")
    return "full disks"


def in_place(setting, kind):
    """Where `--volume-out` can't replace FILE it writes it in place and says so; else mode, owner and link stay."""
    with run_scene(setting) as it:
        it.made("--volume", "v")
        path, more, name = f"{it.folder}/v", 0, "v"
        os.chmod(path, 0o640)
        if kind == "hard link":
            os.link(path, f"{it.folder}/other")
            more = 1
        elif kind == "symbolic link":
            os.mkdir(f"{it.folder}/below")
            os.rename(path, f"{it.folder}/below/v")
            os.symlink("below/v", path)
        elif kind == "folder":
            os.mkdir(f"{it.folder}/below")
            os.rename(path, f"{it.folder}/below/v")
            os.chmod(f"{it.folder}/below/v", 0o666)
            os.chmod(f"{it.folder}/below", 0o555)
            name, path, more = "below/v", f"{it.folder}/below/v", 1
            os.chmod(it.folder, 0o755)
        elif kind == "mount":  # as a container has a file of the host
            os.rename(path, f"{it.folder}/real")
            open(path, "xb").close()
            if subprocess.run(["mount", "--bind", f"{it.folder}/real", path], capture_output=True).returncode:
                return "mounts left out"
            more = 1
        nobody = (lambda: os.setuid(65534)) if kind == "folder" and os.geteuid() == 0 else None
        got = it.call(["run", "--image", "i", "--volume-out", name, "m"], before=nobody)
        if kind == "mount":
            subprocess.run(["umount", path], check=True)
            path = f"{it.folder}/real"
        what = f"--volume-out and a {kind}: status {got[0]}, {got[2][:200]!r}"
        wanted(got[:2] == (0, b"OUT\n") and content(path) == Scene.templates["after"], what)
        lines = [line for line in got[2].splitlines() if line != "ERR"]
        wanted(len(lines) == more and all(line.startswith("sandbox: ") for line in lines), f"{what}: the lines")
        wanted(kind != "symbolic link" or os.path.islink(path) and os.listdir(f"{it.folder}/below") == ["v"], f"{what}: the link")
        wanted(stat.S_IMODE(os.stat(path).st_mode) == (0o666 if kind == "folder" else 0o640), f"{what}: the mode")
        wanted(kind != "hard link" or content(f"{it.folder}/other") == Scene.templates["after"], f"{what}: the other name")
        if kind == "folder":
            os.chmod(f"{it.folder}/below", 0o755)
    return "in place"


# A file that comes under FILE's name while a run goes on that gives FILE its volume or its tree: what was there before, and whether another
# process has it locked.
MEANWHILE = [(option, was_there, is_used) for option in ("--volume-out", "--out-to") for was_there in (False, True) for is_used in (False, True)]


def meanwhile(setting, item):
    """What another process has locked by then is kept, and the run is refused; else the run's own bytes get the name."""
    option, was_there, is_used = item
    with run_scene(setting) as it:
        if was_there:
            it.made("--volume", "file")
        words = ["run", *(["--image", "i"] if option == "--volume-out" else ["--image-from", "t"]), option, "file", "--report", "r", "m"]
        running = subprocess.Popen([it.program, *words], cwd=it.folder, stdin=subprocess.PIPE, stdout=subprocess.PIPE, stderr=subprocess.PIPE)
        while not os.path.exists(f"{it.folder}/r") and running.poll() is None:  # it is made last
            time.sleep(0.01)
        it.made("--volume", "another")
        os.rename(f"{it.folder}/another", f"{it.folder}/file")
        with open(f"{it.folder}/file", "rb") as held:
            if is_used:
                fcntl.flock(held, fcntl.LOCK_EX)
            out, said = running.communicate(b"")
        status, after = running.returncode, it.files()
        what = f"{option} file, {'another' if was_there else 'a'} file comes meanwhile{', and is locked' if is_used else ''}: status {status}, {said[:200]!r}"
        wanted(out == b"OUT\n" and (status, b"sandbox: fault 41\n" in said) == ((124, True) if is_used else (0, False)), what)
        wanted(after["file"] == (Scene.templates["volume"] if is_used else given_out(words)["file"]), f"{what}: other bytes")
        wanted(f"volume:{'failed' if is_used else 'kept'}\n".encode() in after["r"], f"{what}: the report")
        wanted(not [name for name in after if name.startswith(".")], f"{what}: {sorted(after)}")
    return "files that come meanwhile"


def gone(setting, option):
    """A folder that is removed while a run goes on which gives a file of it its volume or its tree: the run says that it didn't."""
    with run_scene(setting) as it:
        os.mkdir(f"{it.folder}/below")
        it.made("--volume", "below/file")
        words = ["run", *(["--image", "i"] if option == "--volume-out" else []), option, "below/file", "--report", "r", "m"]
        running = subprocess.Popen([it.program, *words], cwd=it.folder, stdin=subprocess.PIPE, stdout=subprocess.PIPE, stderr=subprocess.PIPE)
        while not os.path.exists(f"{it.folder}/r") and running.poll() is None:
            time.sleep(0.01)
        shutil.rmtree(f"{it.folder}/below")
        _, said = running.communicate(b"")
        what = f"{option}, and its folder goes: status {running.returncode}, {said[:200]!r}"
        wanted(running.returncode == 124 and b"sandbox: fault 41\n" in said and b"volume:failed\n" in it.files()["r"], what)
    return "folders that go"


def no_file(setting, item):
    """A name that no file can have is refused before the guest runs."""
    option, name = item
    with run_scene(setting) as it:
        before = it.files()
        got = it.call(["run", *(["--image", "i"] if option == "--volume-out" else []), option, name, "m"])
        what = f"{option} {name!r}: status {got[0]}, {got[2][:200]!r}"
        wanted(got[:2] == (124, b"") and got[2].startswith("sandbox: fault 41\n") and it.files() == before, what)
    return "names of no file"


NO_FILES = [(option, name) for option in ("--volume-out", "--out-to", "--stdout", "--report", "--volume") for name in ("new/", "new//", "new/.", "", ".", "./", "none/new")]


def hosts(setting):
    """The row: locks of others, files without room, what can't be replaced, and what comes under a name meanwhile."""
    prepare(setting)
    os.chmod(setting.room, 0o755)
    found = collections.Counter()
    locks = [(name, is_shared) for name in LOCKED for is_shared in (False, True)]
    rows = [(locked, locks), (without_room, drawn(setting, room_items(), 4)), (in_place, ["file", "hard link", "symbolic link", "folder", "mount"])]
    for function, items in [*rows, (full_disk, ON_FULL), (meanwhile, MEANWHILE), (no_file, NO_FILES), (gone, ["--volume-out", "--out-to"])]:
        found.update(setting.each(lambda item, function=function: function(setting, item), items))
    return sum(found.values()), ", ".join(f"{name} {count}" for name, count in sorted(found.items()))


STACK = 256 * 1024  # bytes: 96 KiB were enough for each


def small_stack():
    resource.setrlimit(resource.RLIMIT_STACK, (STACK, STACK))


def stack(setting, item):
    """A call with a small stack ends as one with a large one, and leaves the same."""
    words, given = item
    told = []
    for before in (None, small_stack):
        with run_scene(setting) as it:
            number = described(given)
            got = it.call(words, streams=(number, None, None), before=before)
            os.close(number)
            told.append((got, it.files()))
    if told[0] != told[1]:
        raise Wrong(f"{' '.join(words)} with a stack of {STACK // 1024} KiB: status {told[1][0][0]}, {told[1][0][2][:200]!r}, and not {told[0][0][0]}")
    return 1


def stacks(setting):
    """The row: each command with a small stack."""
    prepare(setting)
    items = [(words, GIVEN.get(words[0], b"")) for words, _ in COMMANDS] + [(["run", *words], b"") for words in RUNS]
    items += [(["inspect", "m"], b""), (["help"], b""), (["help", "run"], b""), (["help", "faults"], b""), (["--version"], b""), (["nonsense"], b"")]
    with Scene(setting) as it:
        with open(f"{it.folder}/list", "w") as file:
            file.write("/dev/null /dev/null /dev/null /dev/null\n")
        items.append((["run", "--tests", f"{it.folder}/list", "m"], b""))
        return sum(setting.each(lambda item: stack(setting, item), items)), "each as with a large stack"


# Calls of the system before the program's own first step: its loader's.
CALL = re.compile(r"\d+ +(\w+)\(")
KILLED = [
    (["run", "--image", "i", "--volume-out", "i", "m"], ["i"], b""),
    (["run", "--image", "i", "--volume-out", "v", "m"], ["v"], b""),
    (["run", "--image", "i", "--volume-out", "new", "m"], ["new"], b""),
    (["run", "--image-from", "t", "--out-to", "g", "m"], ["g"], b""),
    (["run", "--image-from", "t", "--out-to", "new", "m"], ["new"], b""),
    (["run", "--volume", "d", "--stdin", "in", "--stdout", "o", "--report", "r", "m"], ["d"], b""),
    *((words, ["d"], GIVEN.get(words[0], b"")) for words, _ in COMMANDS if words[:2] != ["rm", "d"] or words[2] == "/kept"),
]


def killed_scene(setting):
    it = run_scene(setting)
    it.made("--volume", "v")
    it.made("--out-to", "g")
    return it


def calls_of(setting, words, given):
    """Names of the calls of the system that a command makes, and which call of its name each is."""
    with killed_scene(setting) as it:
        number = described(given)
        with open(f"{it.folder}/.trace", "w"):
            pass
        subprocess.run(["strace", "-f", "-o", f"{it.folder}/.trace", setting.program, *words], cwd=it.folder, stdin=number, capture_output=True)
        os.close(number)
        with open(f"{it.folder}/.trace") as lines:
            names = [found[1] for found in map(CALL.match, lines) if found]
    counts = collections.Counter()
    for name in names:
        counts[name] += 1
        yield name, counts[name]


def killed(setting, item):
    """A kill at one call of the system: each file is the old one or the new one, or a volume in order; a later call removes litter."""
    at, name, number = item
    words, targets, given = KILLED[at]
    with killed_scene(setting) as it:
        before, source = it.files(), described(given)
        inject = ["strace", "-f", "-o", os.devnull, "-e", f"trace={name}", "-e", f"inject={name}:signal=KILL:when={number}"]
        subprocess.run([*inject, setting.program, *words], cwd=it.folder, stdin=source, capture_output=True)
        os.close(source)
        after, what = it.files(), f"{' '.join(words)}, killed at {name} number {number}"
        for each in before:
            if each in targets or each in words and each in ("o", "e", "r"):
                continue
            wanted(after.get(each) == before[each], f"{what}: {each} has changed")
        for each in targets:
            if each in given_out(words):
                wanted(after.get(each) in (before.get(each), given_out(words)[each]), f"{what}: {each} has {len(after.get(each, b''))} bytes")
            else:
                check = it.call(["check", each])
                is_fine = check[0] == 0 or words[0] == "format" and check[2].startswith("sandbox: fault 30")
                wanted(is_fine, f"{what}: {check}")
        source = described(given)
        again = it.call(words, streams=(source, None, None))
        os.close(source)
        is_done = words[0] == "upgrade" and again[2].startswith("sandbox: fault 35\n")  # its superblock was written before the kill
        wanted(again[0] == 0 or "errno" in again[2] or is_done, f"{what}, and called again: {again}")
        litter = it.files().keys() - before.keys() - {*targets, *words}
        wanted(not litter, f"{what}, and called again: {sorted(litter)} is left")
    return 1


# What calls of the system may answer in place of doing what they are for. Those of the loader alone, as `mmap`, are left out.
ANSWERS = {
    "read": ("EIO", "EINTR"),
    "pread64": ("EIO", "EINTR"),
    "write": ("EIO", "ENOSPC", "EINTR"),
    "pwrite64": ("EIO", "ENOSPC", "EINTR"),
    "openat": ("EACCES", "EMFILE"),
    "fsync": ("EIO",),
    "fdatasync": ("EIO",),
    "rename": ("EBUSY", "EACCES", "EIO"),
    "unlink": ("EACCES",),
    "flock": ("ENOLCK", "EINTR", "EWOULDBLOCK"),
    "ftruncate": ("EIO", "EFBIG"),
    "fstat": ("EIO",),
    "statx": ("EIO", "EACCES"),
    "fchmod": ("EPERM",),
    "readlink": ("EIO",),
    "lseek": ("EIO",),
    "fcntl": ("EMFILE",),
}


def answered(setting, item):
    """An error of one call of the system: what the command says is so, each file is the old one or the new one, or a volume in order."""
    at, name, number, error = item
    words, targets, given = KILLED[at]
    with killed_scene(setting) as it:
        before, source = it.files(), described(given)
        inject = ["strace", "-f", "-o", os.devnull, "-e", f"trace={name}", "-e", f"inject={name}:error={error}:when={number}"]
        done = subprocess.run([*inject, setting.program, *words], cwd=it.folder, stdin=source, capture_output=True, timeout=100)
        os.close(source)
        after, what = it.files(), f"{' '.join(words)}, {error} of {name} number {number}: status {done.returncode}, {done.stderr[:200]!r}"
        wanted(0 <= done.returncode <= 125 or done.returncode == 127 and b"shared libraries" in done.stderr, what)
        wanted(done.returncode == 0 or done.stderr or name == "write" or words[0] == "run" and done.returncode < 120, f"{what}: nothing is said")
        wanted(name != "rename" or error == "EIO" or done.returncode == 0, f"{what}: what the run left is lost")
        for each in before:
            if each in targets or each in words and each in ("o", "e", "r"):
                continue
            wanted(after.get(each) == before[each], f"{what}: {each} has changed")
        for each in targets:
            if each in given_out(words):
                may_be = [given_out(words)[each], *([] if done.returncode == 0 else [before.get(each)])]
                wanted(after.get(each) in may_be, f"{what}: {each} has {len(after.get(each, b''))} bytes")
            else:
                check = it.call(["check", each])
                wanted(check[0] == 0 or words[0] == "format" and check[2].startswith("sandbox: fault 30"), f"{what}: {check}")
    return 1


def errors(setting):
    """The row: each call of the system of each command answers an error."""
    prepare(setting)
    calls = [(at, *call) for at, (words, _, given) in enumerate(KILLED) for call in calls_of(setting, words, given)]
    items = [(*call, error) for call in calls for error in ANSWERS.get(call[1], ())]
    return sum(setting.each(lambda item: answered(setting, item), drawn(setting, items, 20))), f"errors of {len(KILLED)} commands"


def kills(setting):
    """The row: each command, killed at each of its calls of the system."""
    prepare(setting)
    items = [(at, *call) for at, (words, _, given) in enumerate(KILLED) for call in calls_of(setting, words, given) if call[0] not in ("execve", "exit_group")]
    return sum(setting.each(lambda item: killed(setting, item), drawn(setting, items, 60))), f"of {len(items)} calls of {len(KILLED)} commands"
