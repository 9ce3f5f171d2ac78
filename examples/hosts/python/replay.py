#!/usr/bin/env python3
"""Records sessions and instances, and repeats them: the same as ../c/replay.c, from Python (docs/REPLAY.md has the file's format).

    python3 replay.py --record FILE MODULE [WORD]... <INPUT    runs a guest and records it
    python3 replay.py --call FILE MODULE NAME [NUMBER]...      calls what a plugin exports and records it; a function of the host that
                                                               it calls gives the sum of its arguments
    python3 replay.py FILE                                     repeats either
    python3 replay.py --until UNITS FILE                       stops at this many units, and prints the functions at work, or the
                                                               plugin's function that was called

The status is 0 where all is as recorded, 1 where something is another, and 2 where the file is none.
"""
import io
import sys

import sandbox
import sandbox_plugin

HEAD, PLUGIN_HEAD, FED_HEAD = b"sandbox-recording 1", b"sandbox-recording 2", b"sandbox-recording 3"
COUNTS = {b"version": 1, b"floats": 1, b"moment": 1, b"limits": 3, b"opened": 1, b"resume": 5, b"finish": 1, b"abandon": 1, b"feed_end": 1}
WITH_BYTES = {b"module": 1, b"arg": 1, b"env": 1, b"name": 1, b"path": 1, b"random": 1, b"input": 1, b"volume": 2, b"write": 3, b"feed": 2}
COUNTED = {b"invoke": 1, b"go": 5, b"answer": 1}  # so many numbers, then how many others follow, and these


def sum_of(given):
    """FNV-1a of 64 bits, in hexadecimal."""
    total = 0xCBF29CE484222325
    for byte in given:
        total = (total ^ byte) * 0x100000001B3 % 2**64
    return f"{total:016x}"


def ends_of(session, volume):
    """What is told of a finished session, as lines."""
    for descriptor in (1, 2):
        written = session.output(descriptor)
        yield f"written {descriptor} {len(written)} {sum_of(written)}"
    yield f"left {len(volume)} {sum_of(volume)}"


def line_of(units, told):
    return f"resume {units} {told.kind} {told.code} {told.call} {told.used}"


class Recording:
    """A file that is written as things are done."""

    def __init__(self, file):
        self._file = file

    def line(self, text):
        self._file.write(text.encode() + b"\n")
        self._file.flush()  # so that the recording of a host that is killed has all that it did

    def bytes(self, word, given):
        given = given.encode() if isinstance(given, str) else bytes(given)
        self._file.write(f"{word} {len(given)}\n".encode() + given + b"\n")
        self._file.flush()

    def given(self, module, args=(), env=(), preopens=(("/", "/"),), moment=0, random=b"", pages=0, values=0, output=0, input=b"", volume=None,
              recorded=False, huge=False):
        """What a guest is given."""
        self.bytes("module", module)
        for word, texts in (("arg", args), ("env", env)):
            for text in texts:
                self.bytes(word, text)
        for name, path in preopens:
            self.bytes("name", name)
            self.bytes("path", path)
        self.line(f"moment {moment}")
        self.bytes("random", random)
        self.line(f"limits {pages} {values} {output}")
        self.bytes("input", input)
        self.bytes(f"volume {0 if volume is None else 1 + bool(recorded) + 4 * bool(huge)}", volume or b"")


class Recorded:
    """A session over a module's bytes, whose actions are written to a file as they are done."""

    def __init__(self, file, module, **supplies):
        self._to = Recording(file)
        self._to.line(HEAD.decode())
        self._to.line(f"version {sandbox.version()}")
        self._to.given(module, **supplies)
        try:
            self.session = sandbox.Module(module).session(**supplies)
        except sandbox.Refused as refused:
            self._to.line(f"opened {refused.number}")
            raise
        self._to.line("opened 0")

    def resume(self, units):
        told = self.session.resume(units)
        self._to.line(line_of(units, told))
        return told

    def finish(self):
        """Commits, and answers the volume's bytes."""
        volume = self.session.finish()
        self._to.line("finish 0")
        for line in ends_of(self.session, volume):
            self._to.line(line)
        return volume


def counted(numbers):
    return " ".join(map(str, [len(numbers), *numbers]))


class RecordedInstance(sandbox_plugin.Instance):
    """An instance over a module's bytes, for which the module is loaded, whose actions are written to a file as they are done."""

    def __init__(self, file, module, imports=None, fuel=10**9, floats=False, fed=False, feed=None, **supplies):
        self._to = Recording(file)
        self._to.line((FED_HEAD if fed else PLUGIN_HEAD).decode())
        self._to.line(f"version {sandbox.version()}")
        self._to.line(f"floats {int(floats)}")
        self._to.given(module, **supplies)
        try:
            plugin = sandbox_plugin.Plugin(module, pages=supplies.get("pages", 0), floats=floats, fed=fed)
        except sandbox.Refused as refused:
            self._to.line(f"opened {refused.number}")
            raise
        super().__init__(plugin, imports or {}, fuel=fuel, feed=feed, **supplies)

    def _open(self, module, given, over):
        answer = super()._open(module, given, over)
        self._to.line(f"opened {answer}")
        return answer

    def _invoke(self, name, numbers):
        answer = super()._invoke(name, numbers)
        self._to.bytes(f"invoke {answer} {counted(numbers)}", name)
        return answer

    def _go(self, units, told):
        answer = super()._go(units, told)
        if answer == 0:
            values = self._values() if told.kind in (sandbox_plugin.ASKED, sandbox_plugin.RETURNED) else []
            self._to.line(f"go {units} {told.kind} {told.code} {told.call} {told.used} {counted(values)}")
        return answer

    def _answer(self, results):
        answer = super()._answer(results)
        self._to.line(f"answer {answer} {counted(results)}")
        return answer

    def _write(self, address, given):
        answer = super()._write(address, given)
        self._to.bytes(f"write {answer} {address}", given)
        return answer

    def _feed(self, given):
        answer = super()._feed(given)
        self._to.bytes(f"feed {answer}", given)
        return answer

    def _feed_end(self):
        answer = super()._feed_end()
        self._to.line(f"feed_end {answer}")
        return answer

    def _let_go(self):
        answer = super()._let_go()
        self._to.line(f"abandon {answer}")
        return answer

    def _finish(self):
        answer = super()._finish()
        if answer in (0, 33):
            self._to.line(f"finish {answer}")
            for line in ends_of(self, self._volume()):
                self._to.line(line)
        return answer


class Damaged(Exception):
    """The file is no whole recording."""


def records(file):
    """The records of a file, each as its word, its numbers, its bytes and its line. One that the file cuts off is left out."""
    while (line := file.readline()).endswith(b"\n"):
        line = line[:-1]
        word, *numbers = line.split(b" ")
        if line in (HEAD, PLUGIN_HEAD, FED_HEAD) or word in (b"written", b"left"):
            yield word, [], b"", line.decode()
            continue
        if not all(it.isdigit() for it in numbers):
            raise Damaged(line)
        numbers = list(map(int, numbers))
        given, wanted = b"", COUNTS.get(word, WITH_BYTES.get(word))
        if word in COUNTED and len(numbers) > COUNTED[word]:
            wanted = COUNTED[word] + 1 + numbers[COUNTED[word]] + (word == b"invoke")
        if len(numbers) != wanted:
            raise Damaged(line)
        if word in WITH_BYTES or word == b"invoke":
            given = file.read(numbers[-1])
            if len(given) != numbers[-1] or file.read(1) != b"\n":
                raise Damaged("bytes are missing")
        yield word, numbers, given, line.decode()


def opening_of(following):
    """What the session is opened with, and what that answered."""
    given = {"args": [], "env": [], "preopens": []}
    module, names, volume = b"", [], None
    for word, numbers, text, line in following:
        if word == b"module":
            module = text
        elif word == b"arg":
            given["args"].append(text)
        elif word == b"env":
            given["env"].append(text)
        elif word == b"name":
            names.append(text)
        elif word == b"path":
            given["preopens"].append((names.pop(), text))
        elif word in (b"random", b"input"):
            given[word.decode()] = text
        elif word in (b"moment", b"floats"):
            given[word.decode()] = numbers[0]
        elif word == b"limits":
            given.update(zip(("pages", "values", "output"), numbers))
        elif word == b"volume":
            volume = text if numbers[0] else None
            given.update(recorded=numbers[0] & 3 == 2, huge=bool(numbers[0] & 4))
        elif word == b"opened":
            return module, {**given, "volume": volume}, numbers[0]
        elif word != b"version":
            raise Damaged(line)
    raise Damaged("it ends before its session was opened")


def print_frames(session, module):
    for n, frame in enumerate(session.frames()):
        print(f"  {n}: function {frame.function} at {frame.offset}: {sandbox.function_name(module, frame.function)}")


def differs(recorded, now):
    print(f"recorded: {recorded}\nnow:      {now}")
    return 1


def repeat(following, session, module, until):
    """Repeats the actions. The status."""
    told, resumes = None, 0
    for word, numbers, _, line in following:
        if word == b"resume":
            last = numbers[4] > until
            units = min(numbers[0], until - (told.used if told else 0)) if last else numbers[0]
            told, resumes = session.resume(units), resumes + 1
            if last:
                print(f"at {told.used} units, resume {resumes}:")
                print_frames(session, module)
                return 0
            if line != line_of(units, told):
                return differs(line, line_of(units, told))
        elif word == b"finish":
            if told and told.kind in (sandbox.TRAPPED, sandbox.NO_MEMORY):
                print_frames(session, module)
            try:
                answer, volume = 0, session.finish()
            except sandbox.Refused as refused:
                answer, volume = refused.number, b""
            now = [f"finish {answer}", *ends_of(session, volume)]
            recorded = [line] + [it[3] for it in following]
            for one, other in zip(recorded, now):
                if one != other:
                    return differs(one, other)
            print(f"as recorded: {resumes} resumes, {told.used if told else 0} units, and its end")
            return 0
        else:
            raise Damaged(line)
    print(f"as recorded: {resumes} resumes, {told.used if told else 0} units; the recording ends before the session did")
    print_frames(session, module)
    return 0


class Repeated(RecordedInstance):
    """An instance that does what it is told alone, and writes what comes of it as records."""

    def _through(self, fuel):
        pass

    def act(self, word, numbers, text, told):
        """What a record says, once more; the units that it used beside those that `told` has."""
        if word == b"invoke":
            self._invoke(text, numbers[2:-1])
        elif word == b"go":
            self._go(numbers[0], told)
        elif word == b"answer":
            told.used += self._answer(numbers[2:]) == 0  # the unit of the guest's call
        elif word == b"write":
            self._write(numbers[1], text)
        elif word == b"feed":
            self._feed(text)
        elif word == b"feed_end":
            self._feed_end()
        elif word == b"abandon":
            self._let_go()
        elif word == b"finish":
            self._finish()
        else:
            raise Damaged(word)


def repeat_instance(following, instance, module, said, until):
    """Repeats the actions of an instance. The status."""
    told, called, actions = sandbox.Told(), b"its opening", 0
    for word, numbers, text, line in following:
        if word == b"go" and numbers[4] > until:
            instance._go(until - told.used, told)
            print(f"at {told.used} units, behind {actions} actions, in {called.decode()}")
            print_frames(instance, module)
            return 0
        called = text if word == b"invoke" else called
        said.seek(0)
        said.truncate()
        instance.act(word, numbers, text, told)
        recorded = [line] + [it[3] for it in following] if word == b"finish" else [line]
        for one, other in zip(recorded, said.getvalue().decode(errors="replace").split("\n")):
            if one != other:
                return differs(one, other)
        actions += 1
    print(f"as recorded: {actions} actions, {told.used} units")
    return 0


def replay(path, until=2**64):
    with open(path, "rb") as file:
        following, said = records(file), io.BytesIO()
        first = next(following, None)
        if not first or first[3] not in (HEAD.decode(), PLUGIN_HEAD.decode(), FED_HEAD.decode()):
            raise Damaged(path)
        is_session = first[3] == HEAD.decode()
        module, given, answer = opening_of(following)
        if first[3] == FED_HEAD.decode():
            given["fed"] = True
        try:
            opened = sandbox.Module(module).session(**given) if is_session else Repeated(said, module, **given)
        except sandbox.Refused as refused:
            return 0 if refused.number == answer else differs(f"opened {answer}", f"opened {refused.number}")
        if answer:
            return differs(f"opened {answer}", "opened 0")
        return repeat(following, opened, module, until) if is_session else repeat_instance(following, opened, module, said, until)


def record(path, words):
    with open(words[0], "rb") as it:
        module = it.read()
    with open(path, "wb") as file:
        guest = Recorded(file, module, args=words, input=sys.stdin.buffer.read())
        while guest.resume(10**6).kind in (sandbox.CALLED, sandbox.SPENT):
            pass
        guest.finish()
        sys.stdout.buffer.write(guest.session.output())


class Called(RecordedInstance):
    """An instance whose functions of the host give the sum of their arguments, or nothing where they have no result."""

    def _serve(self, import_index):
        if self._answer([sum(self._values()) % 2**32]) == 109:
            sandbox._check(self._answer([]))

    def _through(self, fuel):
        told = sandbox.Told()
        told.kind = sandbox.CALLED
        while told.kind in (sandbox_plugin.ASKED, sandbox.CALLED, sandbox.SPENT):
            sandbox._check(self._go(10**6, told))
            if told.kind == sandbox_plugin.ASKED:
                self._serve(told.call)
        return next(iter(self._values()), None) if told.kind == sandbox_plugin.RETURNED else None


def record_call(path, words):
    with open(words[0], "rb") as it:
        module = it.read()
    with open(path, "wb") as file:
        guest = Called(file, module, floats=True)
        result = guest.call(words[1], *[int(it, 0) for it in words[2:]])
        if result is not None:
            print(result)
        guest.finish()


def main(words):
    if words[:1] == ["--record"] and len(words) > 2:
        return record(words[1], words[2:])
    if words[:1] == ["--call"] and 4 <= len(words) <= 4 + sandbox_plugin.MOST_VALUES:
        return record_call(words[1], words[2:])
    if words[:1] == ["--until"] and len(words) == 3:
        return replay(words[2], int(words[1]))
    if len(words) == 1:
        return replay(words[0])
    print(__doc__, file=sys.stderr)
    return 2


if __name__ == "__main__":
    try:
        sys.exit(main(sys.argv[1:]))
    except Damaged as damaged:
        print(f"replay: this is no whole recording: {damaged}", file=sys.stderr)
        sys.exit(2)
