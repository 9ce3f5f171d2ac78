"""Calls of the system that fail in the program itself, by `strace --inject`, each in turn: writes and syncs of the volume, what is
called while a file of the host is opened and read, and reads and writes of the standard streams.

What has to hold is by `docs/USING.md` and `docs/VOLUME.md`. A write or a sync that fails: the guest is answered errno 29 there and in
all later calls on the volume, no further write or sync is tried, and the run ends with `sandbox: fault 33` and 123; `put`, `import` and
`rm -r` end with errno 29; opening, `format` and `upgrade` with fault 33. The volume, as it stands and as a crash would leave it, opens, and holds a
first part of the calls that were answered, with all that was synced. A file of the host that can't be opened, locked or read is fault
41, and is left as it was. A stream that fails is answered 29 and the volume keeps all calls; in `ls`, `get`, `check` and `put` it is
fault 41.
"""
import random
import re

import crashes
import steps
import trees
from common import Wrong, copied, succeeded, written
from damage import own_path

ERRORS = {"pwrite64": ("error=EIO", "error=ENOSPC", "retval=0"), "fdatasync": ("error=EIO", "error=ENOSPC")}
FILE_ERRORS = {"openat": "error=EACCES", "flock": "error=EAGAIN"}
STREAM_ERRORS = ("error=EIO", "error=EPIPE", "error=EINTR", "retval=0")


def places(setting, count):
    """The numbers of what is made to fail: all, or in the quick form some of them, the first and the last among them."""
    few = 6
    return range(count) if count <= few or not setting.is_quick else sorted({k * (count - 1) // (few - 1) for k in range(few)})


def inject(name, number, error):
    return ["-e", f"inject={name}:{error}:when={number}"]


def wanted(condition, text):
    if not condition:
        raise Wrong(text)


def of_opening(base):
    """How many writes and syncs opening a volume takes: a sync, and the install of a log that isn't empty."""
    count = int.from_bytes(base[512:516], "little")
    return 1 + (count + 3 if count else 0)


def last_commit(events):
    """The number of the first event of the last commit: each one ends with an empty header and its sync."""
    ends = [k for k, it in enumerate(events) if it == ("sync",) and events[k - 1][:2] == ("write", 1) and not any(events[k - 1][2])]
    return ends[-2] + 1 if len(ends) > 1 else 0


def shape(event):
    """What of an event is known where its bytes aren't: its name, and the sector of a write."""
    return event[:2] if event[0].endswith("write") else event[:1]


def after(base, events):
    """The file after these writes."""
    it = bytearray(base)
    for event in events:
        if event[0] == "write":
            it[512 * event[1] : 512 * event[1] + 512] = event[2]
    return bytes(it)


# How each scene ends, where a write or a sync fails: `place` is `opening`, `call` or `end`, which is after the guest's last call.
FAULT, ERRNO, COMMITTED = (124, "sandbox: fault 33\n"), (124, "sandbox: errno 29\n"), (123, "sandbox: fault 33\n")


def of_guest(trace, place):
    """A guest in C prints the text of errno 29 and ends with 1, where it was told."""
    if place == "opening":
        return (trace.status, trace.said) == FAULT
    if place == "end":
        return (trace.status, trace.said) == COMMITTED
    return trace.status == 123 and re.fullmatch(r"\w+: I/O error\nsandbox: fault 33\n", trace.said)


def of_put(trace, place):
    return (trace.status, trace.said) == (FAULT if place == "opening" else ERRNO)


def of_import(trace, place):
    """The line may name the member at hand."""
    if place == "opening":
        return (trace.status, trace.said) == FAULT
    return trace.status == 124 and re.fullmatch(r"sandbox: (\S+: )?errno 29\n", trace.said)


def of_command(trace, _):
    return (trace.status, trace.said) == FAULT


def of_calls(trace, place):
    return (trace.status, trace.said) == (FAULT if place == "opening" else COMMITTED)


SCENES = [
    (crashes.key_store, of_guest),
    (crashes.pages, of_guest),
    (crashes.put, of_put),
    (trees.imported, of_import),
    (trees.removed, of_put),
    (crashes.formatted, of_command),
    (crashes.upgraded, of_command),
    (crashes.opened, of_command),
    (steps.random_calls, of_calls),
]


class Failing:
    """A scene whose writes and syncs fail, one in each run."""

    def __init__(self, setting, make, ends, most=8):
        self.setting, self.scene, self.ends, self.most = setting, make(setting), ends, most
        path = f"{setting.room}/recorded"
        written(path, self.scene.base)
        self.trace = crashes.recorded(setting, path, self.scene.words(path), self.scene.given)
        events = self.trace.events
        self.at = [k for k, it in enumerate(events) if it[0] in ("write", "sync")]
        said = [k for k, it in enumerate(events) if it[0] == "said"]
        # the end's commit comes after the guest's last call; of pages, which say nothing, it is the last one
        self.end = len(events)
        if said or make is crashes.pages:
            self.end = max(said) if said else last_commit(events)
        self.opening = 0 if make is crashes.formatted else of_opening(self.scene.base)

    def place(self, turn):
        if turn < self.opening:
            return "opening"
        return "end" if self.at[turn] >= self.end else "call"

    def one(self, turn):
        """The operation of this number fails; gives how many volumes were looked at."""
        at = self.at[turn]
        name = "pwrite64" if self.trace.events[at][0] == "write" else "fdatasync"
        errors = ERRORS[name]
        error = errors[turn % len(errors)]
        number = self.trace.numbers[at]
        try:
            return self.failed(turn, inject(name, number, error))
        except Wrong as wrong:
            raise Wrong(f"{self.scene.name}, {name} number {number} with {error}: {wrong}") from None

    def failed(self, turn, words):
        scene, at = self.scene, self.at[turn]
        path = written(own_path(self.setting, "failing"), scene.base)
        trace = crashes.traced(self.setting, path, scene.words(path), scene.given, words)
        wanted(self.ends(trace, self.place(turn)), f"status {trace.status}, {trace.said[-200:]!r}")
        events = self.trace.events
        wanted(list(map(shape, trace.events[:at])) == list(map(shape, events[:at])), "another run before it")
        failure = (f"failed {events[at][0]}", *events[at][1:])
        wanted(shape(trace.events[at]) == shape(failure), f"nothing failed there, but {trace.events[at][0]}")
        later = [it[0] for it in trace.events[at + 1 :]]
        wanted(all(it == "said" for it in later), f"{later[:3]} after the failure")
        answered = b"".join(it[1] for it in events[:at] if it[0] == "said")
        wanted(trace.out.startswith(answered), f"another output: {trace.out[:80]!r}")
        if self.place(turn) != "opening" and hasattr(scene, "answers"):
            self.told(trace.out, answered.count(b"\n"))
        wanted(crashes.read(path) == after(scene.base, events[:at]), "other bytes were written before it")
        return self.left(path, [*events[:at], failure], answered, turn)

    def told(self, out, done):
        """The calls from the one that failed on are answered 29."""
        answers = self.scene.answers
        said = list(map(int, out.split()))
        wanted(said == answers[:done] + [29] * (len(answers) - done), f"the answers from call {done} on are {said[done : done + 3]}")

    def left(self, path, events, answered, turn):
        """The volume as it stands, and as a crash would leave it."""
        disk = crashes.Disk(self.scene.base)
        for it in events:
            disk.does(it)
        chance = random.Random(turn)
        found = {crashes.read(path), *disk.images(chance, 2 if self.setting.is_quick else self.most)}
        for image in found:
            self.held(path, image, answered)
        return len(found)

    def held(self, path, image, answered):
        written(path, image)
        try:
            # the call that failed has changed nothing, where the scene tells calls apart
            self.scene.right(path, answered, *([0] if hasattr(self.scene, "answers") else []))
        except Wrong as wrong:
            raise Wrong(f"{wrong}; the volume is kept as {self.setting.keep('failing', image)}") from None


def operations(setting):
    """Each write and each sync of the volume fails."""
    tried, volumes, texts = 0, 0, []
    for make, ends in SCENES:
        it = Failing(setting, make, ends)
        turns = list(places(setting, len(it.at)))
        volumes += sum(setting.each(it.one, turns))
        tried += len(turns)
        texts.append(f"{it.scene.name} {len(turns)}")
    return tried, f"{', '.join(texts)}; {volumes:,} volumes and crash images after them"


def files(setting):
    """Each call of the system on a file that is opened: the module, and the volume up to its first operation. The module is opened and
    locked twice, ahead so that nothing is written into it, and to read it: where only that first part fails, the run goes on. So it
    does where the system can't say which file it has open (`statx`): then that isn't compared with the other files."""
    tried = passed = 0
    for make, _ in SCENES:
        scene = make(setting)
        path = f"{setting.room}/recorded"
        written(path, scene.base)
        whole = crashes.recorded(setting, path, scene.words(path), scene.given)
        left = crashes.read(path)
        for kind, name, number in whole.files:
            error = FILE_ERRORS.get(name, "error=EIO")
            written(path, scene.base)
            trace = crashes.traced(setting, path, scene.words(path), scene.given, inject(name, number, error))
            goes_on = (trace.status, trace.out, trace.said) == (whole.status, whole.out, whole.said) and crashes.read(path) == left
            tried += 1
            if goes_on and (kind == "module" or name == "statx"):
                passed += 1
                continue
            ends = (trace.status, trace.said) == (124, "sandbox: fault 41\n")
            wanted(ends, f"{scene.name}, {name} number {number} with {error}: status {trace.status}, {trace.said!r}")
            wanted(crashes.read(path) == scene.base and not trace.events, f"{scene.name}, {name} number {number}: the volume was written")
    return tried, f"each is fault 41, and the volume is as it was, but for {passed} after which all is read all the same"


def standard_streams(setting):
    """Each write to standard output and each read of standard input fails."""
    inputs = sum(input_of(setting, make) for make in (crashes.put, trees.imported))
    return output_of_guest(setting) + output_of_commands(setting) + inputs, "answered 29 or fault 41; all calls are kept"


def output_of_guest(setting):
    """The guest of random calls says each answer by a write, and traps where it can't: all calls until then are kept."""
    scene = steps.random_calls(setting)
    path = f"{setting.room}/recorded"
    written(path, scene.base)
    trace = crashes.recorded(setting, path, scene.words(path), scene.given)
    numbers = [number for number, it in zip(trace.numbers, trace.events) if it[0] == "said"]
    wanted(len(numbers) == len(scene.answers), f"{len(numbers)} writes say {len(scene.answers)} answers")

    def one(call):
        error = STREAM_ERRORS[call % len(STREAM_ERRORS)]
        path = written(own_path(setting, "failing"), scene.base)
        trace = crashes.traced(setting, path, scene.words(path), scene.given, inject("write", numbers[call], error))
        told = f"output number {call + 1} with {error}: "
        wanted((trace.status, trace.said) == (120, "sandbox: trap: unreachable\n"), f"{told}status {trace.status}, {trace.said!r}")
        wanted(list(map(int, trace.out.split())) == scene.answers[:call], f"{told}{len(trace.out)} bytes of output")
        wanted(steps.contents_of(crashes.read(path)) == scene.trees[call + 1].entries, f"{told}not all calls are kept")
        succeeded(setting, "check", path)
        return 1

    return sum(setting.each(one, places(setting, len(numbers))))


def output_of_commands(setting):
    """`ls`, `get` and `check` whose output fails."""
    begun = crashes.fresh(setting)
    for k in range(10):
        succeeded(setting, "put", begun, f"/{k}", given=b"x" * 3_000)
    base, tried = crashes.read(begun), 0
    for words in (["ls", begun, "/"], ["get", begun, "/3"], ["check", begun]):
        trace = crashes.recorded(setting, begun, words)
        numbers = [number for number, it in zip(trace.numbers, trace.events) if it[0] == "said"]
        wanted(numbers, f"{words[0]} says nothing")
        for k in places(setting, len(numbers)):
            error = STREAM_ERRORS[k % len(STREAM_ERRORS)]
            failed = crashes.traced(setting, begun, words, inject=inject("write", numbers[k], error))
            is_part = trace.out.startswith(failed.out) and failed.out != trace.out
            told = f"{words[0]}, output number {k + 1} with {error}: status {failed.status}, {failed.said!r}"
            wanted((failed.status, failed.said) == (124, "sandbox: fault 41\n") and is_part, told)
            wanted(crashes.read(begun) == base, f"{words[0]}, output number {k + 1}: the volume was written")
            tried += 1
    return tried


def input_of(setting, make):
    """`put` or `import` whose input fails: what was there, or a beginning of what is new."""
    scene = make(setting)
    path = copied(written(f"{setting.room}/begun", scene.base), f"{setting.room}/recorded")
    numbers = crashes.recorded(setting, path, scene.words(path), scene.given).inputs
    wanted(numbers, f"{scene.name} reads nothing")
    turns = list(places(setting, len(numbers)))
    for k in turns:
        error = STREAM_ERRORS[k % 3]
        written(path, scene.base)
        trace = crashes.traced(setting, path, scene.words(path), scene.given, inject("read", numbers[k], error))
        told = f"{scene.name}, input number {k + 1} with {error}: status {trace.status}, {trace.said!r}"
        wanted(trace.status == 124 and re.fullmatch(r"sandbox: (\S+: )?fault 41\n", trace.said), told)
        scene.right(path, b"")
    return len(turns)
