"""One step of a build: files and folders in, one guest of `sandbox`, files and folders out.

Usage: sandbox-step [OPTION]... MODULE [-- WORD...]
       sandbox-step @FILE                (these words in FILE, quoted as for a shell)

Inputs and outputs:
  --in PATH=HOST         the file or the folder HOST is /in/PATH of the guest; `.=HOST`: a folder that is /in itself; may come again
  --out PATH=HOST        the file /out/PATH, as the guest left it, becomes the file HOST; may come again
  --out-dir PATH=HOST    the same of a folder (`.=HOST`: /out itself); what the folder HOST held is gone then
  --image HOST           the volume HOST, of version 2 or 4, is the guest's folder /image: a copy, whose room the guest has
  --stdin HOST           the guest's standard input (without it: nothing)
  --stdout HOST          a file for its standard output; without it the output is the step's own
  --report HOST          a file for the report of the run
  --links                follow links to files below a folder of --in; without it a link is refused

The run (as `sandbox run` has them):
  --env NAME=VALUE       a text of its environment; may come again
  --fuel N               units to use (1000000000)
  --pages N              pages of memory, of 65536 bytes (1024)
  --values N             values on its stack (134217728)
  --moment N             what its clock says, in nanoseconds since 1970 (0)
  --seed N               random bytes, the same for the same N (none)
  --floats               the guest may have floats
  --exit N               an exit that is well too, beside 0; may come again: the report has it

Bounds:
  --wall SECONDS         the wall clock (600)
  --output BYTES         what standard output and standard error may have each (67108864)
  --memory BYTES         what the process may take of memory (RLIMIT_AS; no bound)
  --room BYTES           space for the guest beside its inputs (as much as these take and 8388608 more, if there is room)
  --entries N            entries for the guest beside its inputs (as many as these are and 1024 more, if there is room)

Keeping results:
  --keep STORE           keep the result in this folder under a digest of all that decides it, and take it from there
  --again                with --keep: do the step, and compare with what is kept

The program:
  --sandbox PROGRAM      the program `sandbox`; else SANDBOX of the environment, else the one beside this script, else out/sandbox of its
                         checkout, else /usr/local/bin/sandbox
  --help                 this text

The guest has /in, /out and /tmp, and sees nothing else. PATHs stay below /in and /out, and so do names of what the guest leaves.
Nothing is at any HOST unless the status is 0. Only a step that ended well is kept. What is kept is checked by content on reading.

Exit status: 0 done; 1 the guest ended otherwise than by exit 0 (or one of --exit), or left no such output; 2 the words or the inputs
are refused; 3 a bound was passed: the wall clock, the output, or memory, or the program was killed again though a known run goes well
here; 4 the same step came out differently (--again); 75 the machine is to blame, after one more try; 128 and a signal's number where
that ended the step. A line on standard error says it. docs/FARMS.md tells more.
"""
import errno
import fcntl
import os
import resource
import select
import stat
import struct
import sys
# `signal`, `argparse`, `subprocess`, `tempfile`, `shutil`, `re`, `json` and `hashlib` take longer to import than a small guest takes to run
import _signal as signal

from step_volume import MOST_FILE, MOST_SLOTS, SECTOR, Image, Left, Room, digest_of, has_parents, make_volume, put, removed, shown, sizes

VERSION = b"3"                                 # of what a key says: another one, other keys
ROOTS = (b"in", b"out", b"tmp")                # what the guest has
LISTS, TEXTS, FLAGS = ("in", "out", "out-dir", "env", "exit"), ("image", "stdin", "stdout", "report", "keep", "sandbox"), ("links", "again", "floats")
U64 = (1 << 64) - 1
# option: what it is without it, the least and the most
NUMBERS = {"fuel": (1_000_000_000, 0, U64), "pages": (1_024, 0, 65_536), "values": (None, 0, U64), "moment": (None, 0, U64), "seed": (None, 0, U64),
           "wall": (600, 1, 2_000_000), "output": (64 << 20, 0, 1 << 40), "memory": (None, 1, 1 << 62), "room": (None, 0, 1 << 33), "entries": (None, 0, MOST_SLOTS)}
# 5,000,000 rounds of: local.get 0, i32.const 1, i32.sub, local.tee 0, br_if 0; with the units that they take
KNOWN = (b"\0asm\1\0\0\0\1\4\1\x60\0\0\3\2\1\0\7\x0a\1\6_start\0\0\x0a\x19\1\x17\1\1\x7f\x41\xc0\x96\xb1\2\x21\0\3\x40\x20\0\x41\1\x6b\x22\0\x0d\0\x0b\x0b")
KNOWN_UNITS = b"30000002"
LETTER = b"--letter\n"
LARGEST = 1 << 31                              # bytes of a file of a store: the longest that a volume has, and a list of as many entries
NO_NAMES, CONTROLS = {b"", b".", b".."}, bytes([*range(32), 127])
# what whoever calls can mend; any other error is the machine's
CALLERS = {errno.EACCES, errno.EPERM, errno.EROFS, errno.ENOENT, errno.ENOTDIR, errno.EISDIR, errno.ENAMETOOLONG, errno.ELOOP, errno.EXDEV, errno.ENOTEMPTY}


class Refused(Exception):
    """Words or inputs that are no step."""


class Failed(Exception):
    """A step that didn't end well: the status and the text."""

    def __init__(self, status, text):
        super().__init__(text)
        self.status = status


class Machine(Exception):
    """What the machine and not the guest is to blame for; `again` says what it is called if it comes again on a sound machine."""

    def __init__(self, text, again=None):
        super().__init__(text)
        self.again = again


def tell(text):
    """A line on standard error, if it takes one."""
    with_end = text if text.endswith(b"\n") else text + b"\n"
    try:
        while with_end:
            with_end = with_end[os.write(2, with_end):]
    except OSError:
        pass


def inner(path):
    """The parts of a path below /in or /out. `.` is the folder itself."""
    parts = [] if path == b"." else path.split(b"/")
    if not NO_NAMES.isdisjoint(parts) or len(path) > 255 and max(map(len, parts)) > 255 or len(path.translate(None, CONTROLS)) < len(path):
        raise Refused(f"{shown(path)}: not a path below the guest's folder")
    try:
        path.decode("utf-8")
    except ValueError:
        raise Refused(f"{shown(path)}: a name that isn't UTF-8") from None
    return parts


def pair(option, text):
    path, mark, host = text.partition(b"=")
    if not mark or not path or not host:
        raise Refused(f"--{option} {shown(text)}: not PATH=HOST")
    return path, host


def number(option, text, least=0, most=(1 << 32) - 1):
    if not text.isdigit() or len(text) > 20 or not least <= int(text) <= most:
        raise Refused(f"--{option} {shown(text)}: not a number from {least} to {most}")
    return int(text)


def words_in(path):
    text = content(path, 16 << 20)
    if text.startswith(LETTER):                # a rule of Bazel begins so; of each letter that isn't ASCII 4.2.3 makes one a byte, and each of these twice as long
        letter, _, text = text[len(LETTER):].partition(b"\n")
        try:
            text = text if letter.strip(b"'") == "é".encode() else text.decode("utf-8").encode("latin-1")
        except ValueError:
            raise Refused(f"{shown(path)}: not as it was written") from None
    if not set(text) & set(b"'\"\\"):
        return text.split()
    import shlex
    try:
        return [os.fsencode(it) for it in shlex.split(os.fsdecode(text))]
    except ValueError as error:
        raise Refused(f"{shown(path)}: {error}") from None


def parsed(argv):
    """The options by their names, the module and the guest's words."""
    it = {**{name: [] for name in LISTS}, **dict.fromkeys(TEXTS), **dict.fromkeys(FLAGS, False), **{name: one[0] for name, one in NUMBERS.items()}}
    rest, modules, words, given = iter(argv), [], [], set()
    for word in rest:
        if word == b"--":
            words = list(rest)
        elif not word.startswith(b"-"):
            modules.append(word)
        else:
            option, mark, value = word[2:].partition(b"=")
            name = option.decode("ascii", "replace")
            if not word.startswith(b"--") or name not in it:
                raise Refused(f"{shown(word)}: no such option; --help says them")
            if name in given and name not in LISTS or name in FLAGS and mark:
                raise Refused(f"{shown(word)}: given twice" if name in given else f"{shown(word)}: takes no value")
            given.add(name)
            value = value if mark or name in FLAGS else next(rest, None)
            if value is None:
                raise Refused(f"--{name}: no value")
            it[name] = (True if name in FLAGS else [*it[name], pair(name, value) if name in ("in", "out", "out-dir") else value] if name in LISTS
                        else number(name, value, *NUMBERS[name][1:]) if name in NUMBERS else value)
    if len(modules) != 1:
        raise Refused("no module" if not modules else f"{shown(modules[1])}: one module, and the guest's words behind --")
    return {**it, "exit": [number("exit", text) for text in it["exit"]], "module": modules[0], "words": words}


def outputs_of(it):
    """The places of outputs: the name in the result, and the host's path."""
    return [*((b"out:" + path, host) for path, host in it["out"]), *((b"out-dir:" + path, host) for path, host in it["out-dir"]),
            *((name.encode(), it[name]) for name in ("stdout", "report") if it[name])]


def words_of(argv):
    """What is asked for, or a refusal before anything is read."""
    if len(argv) == 1 and argv[0].startswith(b"@"):
        argv = words_in(argv[0][1:])
    if any(b"\0" in word for word in argv):
        raise Refused("a word with a NUL")
    it = parsed(argv)
    if max(len(it["words"]) + 1, len(it["env"])) > 1_024 or max(sum(len(word) + 1 for word in some) for some in (it["words"], it["env"])) > 65_000:
        raise Refused("more than 1024 words or texts of the environment, or 65000 bytes of them")
    if it["again"] and not it["keep"]:
        raise Refused("--again without --keep")
    if it["image"] and (it["room"], it["entries"]) != (None, None):
        raise Refused("--room or --entries with --image, which has its own")
    for path, _ in (*it["out"], *it["out-dir"]):
        inner(path)
    if any(path == b"." for path, _ in it["out"]):
        raise Refused("/out is no file: --out-dir")
    check_places(it)
    if not it["sandbox"]:
        own = os.path.dirname(os.path.realpath(os.fsencode(sys.argv[0])))
        places = [os.path.join(folder, b"sandbox") for folder in (own, os.path.dirname(os.path.abspath(os.fsencode(sys.argv[0]))), os.path.join(own, b"../out"))]
        it["sandbox"] = os.environb.get(b"SANDBOX") or next((path for path in places if os.path.isfile(path)), b"/usr/local/bin/sandbox")
    return it


def check_places(it):
    """Each output has a place of its own, where it takes away nothing but a file, or a folder that it was asked to take away."""
    try:
        here = os.getcwdb()
    except OSError as error:
        raise Refused(f"the folder that it is called in: {error.strerror}") from None
    places = [os.path.join(os.path.realpath(os.path.dirname(os.path.abspath(host))), os.path.basename(os.path.abspath(host))) for _, host in outputs_of(it)]
    if len(set(places)) < len(places):
        raise Refused("two outputs have one place")
    others = [os.path.realpath(host) for host in (here, it["module"], it["keep"], it["image"], it["stdin"], *(host for _, host in it["in"])) if host]
    for (name, host), place in zip(outputs_of(it), places):
        if not os.path.isdir(os.path.dirname(place)):
            raise Refused(f"{shown(host)}: no folder to put it in")
        is_folder = name.startswith(b"out-dir:")
        if is_folder:
            inside = [it for it in (*others, *places) if it != place and (it + b"/").startswith(place.rstrip(b"/") + b"/")]
            if inside or place in others:
                raise Refused(f"{shown(host)}: what it holds is to go, and it holds {shown((inside or [place])[0])}")
        try:
            there, above = os.lstat(place), os.stat(os.path.dirname(place))
        except OSError:
            continue
        if not (stat.S_ISDIR(there.st_mode) if is_folder else stat.S_ISREG(there.st_mode)):
            raise Refused(f"{shown(host)}: there is something else than a {'folder' if is_folder else 'file'}")
        if above.st_mode & stat.S_ISVTX and os.geteuid() not in (0, there.st_uid, above.st_uid):
            raise Refused(f"{shown(host)}: another user's, in a folder where each removes but one's own")


def content(path, most, links=True):
    """The bytes of a regular file, which may not be longer."""
    try:
        fd = os.open(path, os.O_RDONLY | os.O_NONBLOCK | os.O_CLOEXEC | (0 if links else os.O_NOFOLLOW))
        try:
            it = os.fstat(fd)
            if not stat.S_ISREG(it.st_mode):
                raise Refused(f"{shown(path)}: not a regular file")
            parts, size, asked = [], 0, min(it.st_size, most) + 1
            while size <= most and (part := os.read(fd, asked)):
                parts.append(part)
                size += len(part)
                if size == it.st_size < asked:     # a byte more was asked for, so this is the end
                    break
                asked = min(1 << 16, most + 1 - size)
        finally:
            os.close(fd)
    except OSError as error:
        if error.errno in CALLERS:
            raise Refused(f"{shown(path)}: {error.strerror}") from None
        raise Machine(f"{shown(path)}: {error.strerror}") from None
    if size > most:
        raise Refused(f"{shown(path)}: more than {most} bytes")
    return parts[0] if len(parts) == 1 else b"".join(parts)


def listed(host):
    try:
        with os.scandir(host) as found:
            return sorted(found, key=lambda it: it.name)
    except OSError as error:
        raise Refused(f"{shown(host)}: {error.strerror}") from None


def under(host, links):
    """What is below a folder, by paths in it: bytes of a file, None of a folder."""
    waiting, count = [(b"", host)], 0
    while waiting:
        above, folder = waiting.pop()
        for it in listed(folder):
            path, count = above + it.name, count + 1
            if count > MOST_SLOTS:
                raise Refused(f"{shown(host)}: more than {MOST_SLOTS} entries, and a volume has {MOST_SLOTS} at most")
            if it.is_symlink() and not (links and it.is_file()):
                raise Refused(f"{shown(it.path)}: a link" + (", and not to a file" if links else " (--links follows those to files)"))
            if it.is_dir(follow_symlinks=False):
                waiting.append((path + b"/", it.path))
                yield path, None
            else:
                yield path, content(it.path, MOST_FILE, links)


def given(inputs, links, is_kept):
    """The tree of /in, bytes or None by path; and of what is kept the digest of each file, taken while what was read is still at hand."""
    tree, digests = {}, {}
    def add(path, inside):
        if path in tree and not (tree[path] is None and inside is None):
            raise Refused(f"{shown(path)}: given twice")
        tree[path] = inside
        if is_kept and inside is not None:
            digests[path] = digest_of(inside)
    for path, host in inputs:
        parts = inner(path)
        for depth in range(1, len(parts)):
            add(b"/".join(parts[:depth]), None)
        if os.path.isdir(host):
            if parts:
                add(path, None)
            for name, inside in under(host, links):
                inner(name)
                add(path + b"/" + name if parts else name, inside)
        else:
            inside = content(host, MOST_FILE)
            if not parts:
                raise Refused(f"{shown(host)}: not a folder")
            add(path, inside)
    return tree, digests


def asked(of, act, *given):
    """What `act` gives; a refusal of what it is asked of where it can't."""
    try:
        return act(*given)
    except (struct.error, LookupError, ValueError) as error:
        raise Refused(f"{of}{error}") from None
    except OSError as error:
        raise (Refused if error.errno in CALLERS else Machine)(f"{of}{error.strerror}") from None


def parent_for(size, tried):
    """Memory where there is enough: a volume that is thrown away needs no disk. A second try goes elsewhere, if it can."""
    found = []
    for path in (b"/dev/shm", os.environb.get(b"TMPDIR"), b"/tmp", b"/var/tmp"):
        try:
            space = os.statvfs(path) if path and path.decode("utf-8").startswith("/") else None     # the program takes no other names
        except (OSError, ValueError):
            continue
        if space and os.access(path, os.W_OK | os.X_OK) and space.f_bavail * space.f_frsize > 3 * size + (16 << 20) and path not in found:
            found.append(path)
    if not found:
        raise Machine("no folder for temporary files (/dev/shm, TMPDIR, /tmp) has the space")
    return next((path for path in found if path not in tried), found[0])


def program_in(room, inside):
    """A path of the program's copy, and what holds it: what is run is what was hashed. It is in memory, since folders of memory are often `noexec`."""
    try:
        fd = os.memfd_create("sandbox", os.MFD_CLOEXEC) if os.path.exists(b"/proc/self/fd") else None
    except OSError:
        fd = None
    path = room(b"sandbox") if fd is None else b"/proc/self/fd/%d" % fd
    fd = os.open(path, os.O_RDWR | os.O_CREAT | os.O_EXCL | os.O_CLOEXEC, 0o700) if fd is None else fd
    put(fd, inside, 0)
    reader = os.open(path, os.O_RDONLY)        # nothing that is open to write is run
    os.close(fd)
    os.set_inheritable(reader, True)           # a program that is a script is opened once more by its interpreter
    return b"/proc/self/fd/%d" % reader if path.startswith(b"/proc/") else path, reader


def heard():
    """The signals that end a step. One that whoever calls ignores, as `nohup` does, stays so."""
    return [one for one in (signal.SIGTERM, signal.SIGINT, signal.SIGHUP) if signal.getsignal(one) != signal.SIG_IGN]


def in_child(words, program, streams, limits, leash, mine):
    """Becomes the program. The kernel kills it when nobody holds the other end of its leash any more: the step is gone."""
    os.close(mine)
    os.set_inheritable(leash, True)
    fcntl.fcntl(leash, fcntl.F_SETOWN, os.getpid())
    fcntl.fcntl(leash, fcntl.F_SETSIG, signal.SIGKILL)
    fcntl.fcntl(leash, fcntl.F_SETFL, os.O_ASYNC | os.O_NONBLOCK)
    ready = select.poll()
    ready.register(leash, 0)
    if ready.poll(0):                          # it was gone before the kernel knew of the leash
        os._exit(127)
    for number_of, fd in enumerate(streams):
        os.dup2(fd, number_of)
    for what, most in limits:
        hard = resource.getrlimit(what)[1]
        most = most if hard == resource.RLIM_INFINITY else min(most, hard)
        resource.setrlimit(what, (most, hard if what == resource.RLIMIT_CPU else most))
    for one in (signal.SIGPIPE, signal.SIGXFSZ, signal.SIGXCPU, signal.SIGALRM, *heard()):
        signal.signal(one, signal.SIG_DFL)
    os.execve(program, words, {})


def ended(words, program, streams, limits, wall):
    """The exit status of a process, or less than 0 for a signal; None where the wall clock ended it."""
    leash, mine = os.pipe()
    said, tell = os.pipe()
    late, child = [], os.fork()
    if not child:
        try:
            os.close(said)
            in_child(words, program, streams, limits, leash, mine)
        except OSError as error:
            os.write(tell, b"%d" % error.errno)
        finally:
            os._exit(127)
    try:
        signal.signal(signal.SIGALRM, lambda *_: (late.append(True), os.kill(child, signal.SIGKILL)))
        signal.setitimer(signal.ITIMER_REAL, wall)
        for fd in (tell, leash):
            os.close(fd)
        wrong = os.read(said, 8)
        os.waitid(os.P_PID, child, os.WEXITED | os.WNOWAIT)    # it can be killed until it is asked for: a signal may end this step here
    finally:
        signal.setitimer(signal.ITIMER_REAL, 0)
        os.kill(child, signal.SIGKILL)
        _, status = os.waitpid(child, 0)
        for fd in (said, mine):
            os.close(fd)
    if wrong:
        raise Machine(f"{shown(words[0])}: {os.strerror(int(wrong))}")
    status = os.waitstatus_to_exitcode(status)
    return None if late or status == -signal.SIGXCPU else status


def report_in(path):
    try:
        text = content(path, 1 << 20)
    except Refused:
        return b"", {}
    return text, dict(line.partition(b":")[::2] for line in text.split(b"\n") if line)


def run(it, program, path_of_module, room, sectors, stdin):
    """The end of the run: None for the wall clock or a status; its report; what it printed and complained of."""
    words = [b"sandbox", b"run", b"--volume", room(b"volume"), b"--report", room(b"report"), b"--name", b"module.wasm"]
    for name in ("fuel", "pages", "values", "moment", "seed"):
        words += [b"--" + name.encode(), b"%d" % it[name]] if it[name] is not None else []
    words += [b"--floats"] if it["floats"] else []
    words += [word for text in it["env"] for word in (b"--env", text)]
    words += [word for name in ROOTS for word in (b"--dir", b"/%s=/%s" % (name, name))]        # no guest can remove what is open
    words += [b"--dir", b"/image=/"] if it["image"] else []
    words += [path_of_module, *([b"--", *it["words"]] if it["words"] else [])]
    limits = [(resource.RLIMIT_FSIZE, max(it["output"], sectors * SECTOR)), (resource.RLIMIT_CORE, 0), (resource.RLIMIT_CPU, it["wall"] + 5),
              *([(resource.RLIMIT_AS, it["memory"])] if it["memory"] else [])]
    for name in (b"stdin", b"stdout", b"stderr"):
        with open(room(name), "wb", buffering=0) as file:
            put(file.fileno(), stdin if name == b"stdin" else b"", 0)
    streams = [os.open(room(name), how | os.O_CLOEXEC) for name, how in ((b"stdin", os.O_RDONLY), (b"stdout", os.O_WRONLY), (b"stderr", os.O_WRONLY))]
    try:
        status = ended(words, program, streams, limits, it["wall"])
    finally:
        for fd in streams:
            os.close(fd)
    return status, report_in(room(b"report")), *(content(room(name), it["output"] + sectors * SECTOR) for name in (b"stdout", b"stderr"))


def is_sound(it, program, room):
    """Whether this machine does a known run to the unit, under the same bound of memory."""
    with open(room(b"known.wasm"), "wb") as file:
        file.write(KNOWN)
    put_away = os.open(os.devnull, os.O_RDWR | os.O_CLOEXEC)
    try:
        words = [b"sandbox", b"run", b"--fuel", b"100000000", b"--report", room(b"known"), room(b"known.wasm")]
        status = ended(words, program, [put_away] * 3, [(resource.RLIMIT_AS, it["memory"])] if it["memory"] else [], 60)
    finally:
        os.close(put_away)
    return status == 0 and report_in(room(b"known"))[1].get(b"units") == KNOWN_UNITS


def judged(it, status, said, printed, complained):
    """Nothing where the run ended well; else how it ended."""
    if status is None:
        raise Failed(3, f"wall clock: more than {it['wall']} s")
    if status == -signal.SIGXFSZ or max(len(printed), len(complained)) > it["output"]:
        raise Failed(3, f"output: more than {it['output']} bytes")
    tail = shown(complained[-300:].strip())
    if status == 125:
        raise Refused(tail)
    end, code, text, units = (said.get(name, b"").decode("utf-8", "replace") for name in (b"end", b"code", b"text", b"units"))
    if status < 0:
        raise Machine(f"the program was ended by signal {-status}", f"memory, or the program: ended by signal {-status}")
    if said.get(b"status") != b"%d" % status or said.get(b"blame") != b"guest":
        raise Machine(f"run: status {status}, {end} {code} {text}, {tail}", "memory: more than there is" if end == "out of memory" else None)
    if end == "fault" and code in ("15", "16", *(("30", "31", "32") if it["image"] else ())):
        raise Refused(f"fault {code}: {text}")
    if end != "exit" or code not in map(str, (0, *it["exit"])):
        if complained:
            tell(complained)
        raise Failed(1, " ".join(filter(None, [end, code, text, f"after {units} units"])))


def performed(it, inside, module, stdin, tree, sectors, slots, room):
    """The result: by the name of each output its bytes, or a folder of them."""
    program, reader = program_in(room, inside)
    try:
        with open(room(b"module.wasm"), "wb", buffering=0) as file:
            put(file.fileno(), module, 0)
        whole = {**dict.fromkeys(ROOTS), **{b"in/" + path: tree[path] for path in tree}}
        if it["image"]:
            asked(it["image"].shown, it["image"].copy_with, room(b"volume"), whole)
        else:
            make_volume(room(b"volume"), whole, sectors, slots)
        status, (text, said), printed, complained = run(it, program, room(b"module.wasm"), room, sectors, stdin)
        try:
            judged(it, status, said, printed, complained)
        except Machine as cause:
            if cause.again and not is_sound(it, program, room):
                cause.again = None
            raise
    finally:
        os.close(reader)
    if complained:
        tell(complained)
    left = None
    try:
        left = Left(room(b"volume"), sectors, slots) if it["out"] or it["out-dir"] else None
        return {**wanted(it, left), b"stdout": printed, b"report": text}
    except (struct.error, LookupError, StopIteration, ValueError) as error:
        raise Machine(f"the volume: {error!r}") from None
    finally:
        if left:
            left.close()


def wanted(it, left):
    result = {}
    try:
        for path, _ in it["out"]:
            if path not in left.slots or left.is_folder(path):
                raise Failed(1, f"the guest left no file /out/{shown(path)}")
            result[b"out:" + path] = left.read(path)
        for path, _ in it["out-dir"]:
            if path != b"." and (path not in left.slots or not left.is_folder(path)):
                raise Failed(1, f"the guest left no folder /out/{shown(path)}")
            start = b"" if path == b"." else path + b"/"
            names = [name for name in left.slots if name.startswith(start)]
            result[b"out-dir:" + path] = {b"/".join(inner(name[len(start):])): None if left.is_folder(name) else left.read(name) for name in names}
    except Refused as refused:
        raise Failed(1, f"the guest left a name that is refused: {refused}") from None
    return result


def placed(it, result):
    """Puts each output to its place: first all beside it, then all by a rename."""
    moves = []
    def beside(host, kind):
        whole = os.path.abspath(host)
        return os.path.join(os.path.dirname(whole), b".%s.%d.%s" % (os.path.basename(whole)[:200], os.getpid(), kind))
    def write(path, inside):
        with open(path, "xb", buffering=0) as file:
            put(file.fileno(), inside, 0)
    try:
        for name, host in outputs_of(it):
            own, inside = beside(host, b"new"), result[name]
            moves.append((own, host))
            if isinstance(inside, dict):
                os.mkdir(own)
                for path in sorted(inside):
                    os.mkdir(os.path.join(own, path)) if inside[path] is None else write(os.path.join(own, path), inside[path])
            else:
                write(own, inside)
        signal.pthread_sigmask(signal.SIG_BLOCK, heard())      # from here on it is done: all outputs come to their places
        for own, host in moves:
            former = beside(host, b"old")
            for is_last in (*[False] * 99, True):      # another step may put its folder to the same place meanwhile
                try:
                    if os.path.isdir(own) and os.path.isdir(host):
                        os.rename(host, former)
                    os.rename(own, host)
                    break
                except OSError as error:
                    if is_last or error.errno not in (errno.ENOTEMPTY, errno.EEXIST, errno.ENOENT) or not os.path.isdir(own):
                        if os.path.isdir(former) and not os.path.lexists(host):
                            os.rename(former, host)
                        raise
                finally:
                    removed(former)
    except OSError as error:
        text = f"{shown(os.fsencode(error.filename or b''))}: {error.strerror}"
        if error.errno == errno.ENAMETOOLONG:
            raise Failed(1, f"the guest left a path that is too long: {text[-200:]}") from None
        raise (Refused if error.errno in CALLERS else Machine)(text) from None
    finally:
        for own, _ in moves:
            removed(own)


class Store:
    """Results by key: `ac/KEY` names them by digest, `cas/DIGEST` has the bytes. All is checked on reading: what isn't right isn't there.
    So nothing is synced: what a power cut takes is done anew."""

    def __init__(self, path):
        self.path = path
        try:
            os.makedirs(path, exist_ok=True)
            self.mode = stat.S_IMODE(os.stat(path).st_mode)
            if os.path.isdir(os.path.join(path, b"new")):
                Room.sweep_all(os.path.join(path, b"new"), b"sandbox-step.%d." % os.getuid())
        except OSError as error:
            raise Refused(f"--keep {shown(path)}: {error.strerror}") from None

    def folder(self, path):
        if not os.path.isdir(path):
            self.folder(os.path.dirname(path))
            try:
                os.mkdir(path)
                os.chmod(path, self.mode)
            except FileExistsError:
                pass

    def place(self, kind, name):
        return os.path.join(self.path, kind, name[:2], name)

    def read(self, kind, name):
        try:
            return content(self.place(kind, name), LARGEST)
        except (Refused, Machine, MemoryError):
            return None

    def write(self, kind, name, inside, room):
        own, target = room(kind + b"." + name), self.place(kind, name)
        self.folder(os.path.dirname(target))
        with open(own, "wb", buffering=0) as file:
            put(file.fileno(), inside, 0)
            os.fchmod(file.fileno(), self.mode & 0o664)
        os.replace(own, target)

    def blob(self, digest):
        inside = self.read(b"cas", digest) if len(digest) == 64 and not digest.strip(b"0123456789abcdef") else None
        if inside is None or digest_of(inside) != digest:
            raise LookupError
        return inside

    def take(self, key, names):
        """A kept result; None where there is none, or not all of it as it was kept."""
        text, _, tail = (self.read(b"ac", key) or b"").rpartition(b"\n")
        if tail != digest_of(key, b"\n", text):
            return None
        result = {}
        try:
            for line in text.split(b"\n"):
                kind, name, path, digest = line.split(b"\t")
                if kind == b"folder":
                    result.setdefault(name, {})
                    if path:
                        result[name][b"/".join(inner(path))] = None
                elif path:
                    result[name][b"/".join(inner(path))] = self.blob(digest)
                else:
                    result[name] = self.blob(digest)
        except (LookupError, ValueError, TypeError, Refused):
            return None
        is_whole = result.keys() == names and all(isinstance(it, dict) == name.startswith(b"out-dir:") for name, it in result.items())
        return result if is_whole and all(has_parents(it) for it in result.values() if isinstance(it, dict)) else None

    def keep(self, key, result):
        """Where it can't be kept, that is said, and is no failure of the step."""
        try:
            new = os.path.join(self.path, b"new")
            self.folder(new)
            if os.stat(new).st_uid == os.getuid():
                os.chmod(new, self.mode)
            with Room(new) as room:
                lines = []
                def line(name, path, inside):
                    digest = digest_of(inside)
                    if self.read(b"cas", digest) != inside:
                        self.write(b"cas", digest, inside, room)
                    lines.append(b"\t".join((b"file", name, path, digest)))
                for name in sorted(result):
                    if isinstance(result[name], dict):
                        lines.append(b"\t".join((b"folder", name, b"", b"")))
                        for path in sorted(result[name]):
                            lines.append(b"\t".join((b"folder", name, path, b""))) if result[name][path] is None else line(name, path, result[name][path])
                    else:
                        line(name, b"", result[name])
                text = b"\n".join(lines)
                self.write(b"ac", key, text + b"\n" + digest_of(key, b"\n", text), room)
        except OSError as error:
            tell(b"sandbox-step: not kept: " + shown(os.fsencode(str(error))).encode())


def key_of(it, program, module, stdin, tree, digests, sectors, slots):
    """The digest of all that decides the result, each part with its length; a file by its own digest."""
    parts = [VERSION, digest_of(program), digest_of(module), digest_of(stdin), b"%d %d" % (sectors, slots)]
    for name in ("fuel", "pages", "values", "moment", "seed", "output", "memory"):
        parts.append(b"-" if it[name] is None else b"%d" % it[name])
    parts += [b"floats"] if it["floats"] else []
    parts += [b"image", it["image"].digest()] if it["image"] else []
    for some in (it["words"], it["env"], [b"%d" % one for one in sorted(set(it["exit"]))], *(sorted(path for path, _ in it[name]) for name in ("out", "out-dir"))):
        parts += [b"%d" % len(some), *some]
    parts += [one for path in sorted(tree) for one in (path, digests.get(path, b"folder"))]
    return digest_of(b"".join(b"%d:%b" % (len(part), part) for part in parts))


def done_by(it, program, module, stdin, tree, sectors, slots):
    """The result by the guest. What the machine is to blame for is tried once more; what comes again on a sound machine is an end."""
    tried, again = [], None
    for is_last in (False, True):
        try:
            parent = parent_for(sectors * SECTOR, tried)
            tried.append(parent)
            with Room(parent) as room:
                return performed(it, program, module, stdin, tree, sectors, slots, room)
        except (Machine, OSError) as failed:
            known = getattr(failed, "again", None)
            if is_last and known and known == again:
                raise Failed(3, f"{known}, twice") from None
            if is_last:
                raise
            again = known
            tell(f"sandbox-step: {failed}; once more".encode("utf-8", "backslashreplace"))
    raise AssertionError


def step(it):
    program = content(it["sandbox"], 256 << 20)
    module, stdin = content(it["module"], 64 << 20), content(it["stdin"], 64 << 20) if it["stdin"] else b""
    tree, digests = given(it["in"], it["links"], it["keep"])
    image = it["image"] = it["image"] and asked(f"--image {shown(it['image'])}: ", Image, it["image"])
    sectors, slots = (image.sectors, image.slots) if image else asked("", sizes, tree, it["room"], it["entries"], len(ROOTS))
    if not it["keep"]:
        return done_by(it, program, module, stdin, tree, sectors, slots), ""
    store, key = Store(it["keep"]), key_of(it, program, module, stdin, tree, digests, sectors, slots)
    former = store.take(key, {b"stdout", b"report", *(name for name, _ in outputs_of(it))})
    if former is not None and not it["again"]:
        return former, f"kept as {key[:16].decode()}"
    result = done_by(it, program, module, stdin, tree, sectors, slots)
    if former is not None and former != result:
        raise Failed(4, f"came out differently from what is kept as {key[:16].decode()}")
    if former is None:
        store.keep(key, result)
    units = dict(line.partition(b":")[::2] for line in result[b"report"].split(b"\n")).get(b"units", b"?")
    return result, f"{units.decode()} units"


def main():
    while os.open(os.devnull, os.O_RDWR) <= 2:                 # no file gets the number of a closed standard stream
        pass
    signal.signal(signal.SIGCHLD, signal.SIG_DFL)              # children are waited for and the clock is heard, whatever the caller ignores or blocks
    signal.pthread_sigmask(signal.SIG_SETMASK, ())
    for one in heard():
        signal.signal(one, lambda number_of, _: sys.exit(128 + number_of))     # rooms go
    try:
        it = sys.argv[1:] != ["--help"] and words_of([os.fsencode(word) for word in sys.argv[1:]])
        result, said = step(it) if it else ({b"stdout": __doc__.strip().encode() + b"\n"}, "")
        signal.signal(signal.SIGPIPE, signal.SIG_DFL)          # who reads no more is no failure of the machine
        rest = b"" if it and it["stdout"] else result[b"stdout"]
        while rest:                            # before the outputs are placed: where it isn't taken nothing stands at their places
            rest = rest[os.write(1, rest):]
        if it:
            placed(it, result)
        status = 0
    except Refused as refused:
        status, said = 2, str(refused)
    except Failed as failed:
        status, said = failed.status, str(failed)
    except (Machine, OSError, MemoryError) as failed:
        status, said = 75, str(failed) or "out of memory"
    if said:
        tell(f"sandbox-step: {said}".encode("utf-8", "backslashreplace"))
    return status
