"""What the campaigns of `bench/hostile` share: running the program, and what an answer of it may be."""
import itertools
import multiprocessing
import os
import re
import resource
import shutil
import signal
import subprocess
import sys
import tempfile

from fixed_lines import fixed

TOP = os.path.dirname(os.path.dirname(os.path.dirname(os.path.abspath(__file__))))
sys.dont_write_bytecode = True
sys.path.insert(0, f"{TOP}/tools")

TRAPS = (
    "unreachable|integer divide by zero|integer overflow|out of bounds memory access|undefined element|uninitialized element|"
    "indirect call type mismatch|call stack exhausted|invalid conversion to integer"
)
STREAMS = (
    "no tar header|wrong checksum|its size is no number|it has 4 GiB or more|it is a (link|device|pipe)|its type is not known|"
    "its extended header is malformed|its extended header has more than 1 MiB|the stream ends too early"
)
LINES = {
    119: r"sandbox: exit \d+",
    120: f"sandbox: trap: ({TRAPS})",
    121: "sandbox: out of fuel",
    122: "sandbox: out of memory",
    123: "sandbox: fault 33",
    124: rf"sandbox: (fault 32\nsandbox: (sector \d+: )?[^\n:]+|fault (\d|1[0-6]|2[0-2]|3[0-6]|41)( at \d+)?|errno \d+|(.*: )?({STREAMS}|errno \d+|fault 41))",
}
# What a line means, in words, and the frames of a trap may stand behind it.
IN_WORDS = "(\nsandbox: [^\n]+)*"


class Wrong(Exception):
    """A wrong answer; the text says which, and how to repeat it."""


class Setting:
    """The program, a folder for files, how much is asked for, the seed, how many processes run at once, and SQLite's module or nothing.

    What was measured at a limit is left in `limits`.
    """

    def __init__(self, program, room, is_quick, seed, jobs, sqlite=None):
        self.program, self.room, self.is_quick, self.seed, self.jobs, self.sqlite = program, room, is_quick, seed, jobs, sqlite
        self.kept, self.limits = f"{TOP}/out/hostile", []
        self.wasmi = None  # its program, for rows that run beside it
        self.done = 0  # of the row so far, where its answers come from `each`

    def keep(self, name, content):
        """Keeps a file that shows a wrong answer, and gives its path."""
        os.makedirs(self.kept, exist_ok=True)
        path = f"{self.kept}/{name}"
        with open(path, "wb") as it:
            it.write(content)
        return path

    def each(self, function, items):
        """The function's answers of all items, in as many processes as run at once; the first wrong answer ends it.

        Threads would wait for each other: half of the work is Python's. The processes know the function by being forked, so it may
        be a closure; what it changes stays there.
        """
        global forked
        forked, items = function, iter(items)
        with multiprocessing.get_context("fork").Pool(self.jobs, alone) as pool:
            # `imap` takes all of what it is given at once
            while some := list(itertools.islice(items, 64 * self.jobs)):
                for answer in pool.imap(call_forked, some, 4):
                    self.done += 1
                    yield answer


forked = None


def alone():
    """A process of `each` draws no line, and leaves Ctrl-C to the first one: ended in the middle of a task, it would keep a lock."""
    signal.signal(signal.SIGINT, signal.SIG_IGN)
    signal.signal(signal.SIGALRM, signal.SIG_DFL)


def call_forked(item):
    return forked(item)


def bounded(bytes_of_memory):
    return lambda: resource.setrlimit(resource.RLIMIT_AS, (bytes_of_memory, bytes_of_memory)) if bytes_of_memory else None


# A call that waits for nothing but itself; only one that hangs without working takes so long by the clock.
HANGS = 600


def ran(words, given, seconds):
    """A process with its output, ended by SIGXCPU where it takes more than these seconds of the processor.

    The clock would tell how busy the machine is.
    """
    started = subprocess.Popen(words, stdin=subprocess.PIPE, stdout=subprocess.PIPE, stderr=subprocess.PIPE)
    try:
        resource.prlimit(started.pid, resource.RLIMIT_CPU, (seconds, seconds + 1))
    except ProcessLookupError:
        pass  # it has ended
    try:
        out, said = started.communicate(given, HANGS)
    except subprocess.TimeoutExpired:
        started.kill()
        started.communicate()
        raise Wrong(f"no answer at all: {' '.join(words)}") from None
    if started.returncode in (-signal.SIGXCPU, -signal.SIGKILL):
        raise Wrong(f"no answer within {seconds} seconds of the processor: {' '.join(words)}")
    return started.returncode, out, said.decode(errors="replace")


def by_the_table(status, said):
    """Whether a status and error output stand in the table of statuses."""
    line = LINES.get(status)
    # the guest may have written before it
    return bool(re.search(line + (IN_WORDS if status >= 119 else "") + "\n\\Z", said)) if line else 0 <= status < 119 and "sandbox:" not in said


def answer(setting, words, given=b"", seconds=2):
    """Status, output and the fixed lines of error output of a call of the program, which has to answer in time and by the table of statuses."""
    status, out, said = ran([setting.program, *words], given, seconds)
    if not by_the_table(status, said):
        raise Wrong(f"status {status}, {said[:200]!r}: {' '.join(words)}")
    return status, out, fixed(said)


def succeeded(setting, *words, given=b""):
    """The output of a call of the program that has to succeed."""
    status, out, said = answer(setting, words, given, 60)
    if status:
        raise Wrong(f"status {status}, {said!r}: {' '.join(words)}")
    return out


def measured(setting, words, given=b"", memory=None):
    """Status, error output, seconds of the processor and mebibytes of a call."""
    with tempfile.TemporaryFile() as source:
        source.write(given)
        source.seek(0)
        how = {"stdin": source, "stdout": subprocess.DEVNULL, "stderr": subprocess.PIPE, "preexec_fn": bounded(memory)}
        started = subprocess.Popen([setting.program, *words], **how)
        said = fixed(started.stderr.read().decode())
        _, status, usage = os.wait4(started.pid, 0)
    started.returncode = os.waitstatus_to_exitcode(status)
    return started.returncode, said.strip(), usage.ru_utime + usage.ru_stime, usage.ru_maxrss / 1024


def copied(path, to):
    shutil.copyfile(path, to)
    return to


def written(path, content):
    with open(path, "wb") as it:
        it.write(content)
    return path
