"""A reader of WebAssembly modules for `bench/frames`, written from chapter 5 of the standard (1.0, with sign extension and the two
instructions of bulk memory that run here) and from its appendix on the section `name`. It shares no line with the program or the tools.
"""

END, ELSE, CALL, CALL_INDIRECT = 0x0B, 0x05, 0x10, 0x11
# of each opcode what stands behind it: u and s of 32 bits, S of 64, f and F of 4 and 8 bytes, b a byte, v a list of u
BEHIND = {0x02: "b", 0x03: "b", 0x04: "b", 0x0C: "u", 0x0D: "u", 0x0E: "vu", CALL: "u", CALL_INDIRECT: "ub", 0x3F: "b", 0x40: "b", 0x41: "s", 0x42: "S", 0x43: "f", 0x44: "F"}
BEHIND.update(dict.fromkeys((0x00, 0x01, ELSE, END, 0x0F, 0x1A, 0x1B, *range(0x45, 0xC5)), ""))
BEHIND.update(dict.fromkeys(range(0x20, 0x25), "u"))
BEHIND.update(dict.fromkeys(range(0x28, 0x3F), "uu"))
BULK = {10: "bb", 11: "b"}
WIDTHS = {"u": (32, False), "s": (32, True), "S": (64, True)}


class Odd(Exception):
    """The bytes aren't of the form that is read."""


def number(data, at, bits=32, is_signed=False):
    """A number in LEB128 (5.2.2), and where it ends: of no more bytes than its bits need, the unused bits of the last one as they have to be."""
    value = shift = 0
    while True:
        if at >= len(data) or shift >= bits:
            raise Odd("no number")
        byte = data[at]
        value, shift, at = value | (byte & 0x7F) << shift, shift + 7, at + 1
        if byte < 0x80:
            break
    if is_signed and byte & 0x40:
        value -= 1 << shift
    if not (-(1 << bits - 1) <= value < 1 << bits - 1 if is_signed else value < 1 << bits):
        raise Odd("a number with unused bits")
    return value, at


def piece(data, at):
    """Bytes behind their count, and where they end."""
    count, at = number(data, at)
    if count > len(data) - at:
        raise Odd("bytes past the end")
    return data[at : at + count], at + count


def sections(data, at=8):
    """Id and content of each section, and where its content begins."""
    while at < len(data):
        kind = data[at]
        content, end = piece(data, at + 1)
        yield kind, content, end - len(content)
        at = end


def limits_end(data, at):
    flag, at = data[at], number(data, at + 1)[1]
    return number(data, at)[1] if flag else at


class Reading:
    """Where each instruction of a module's functions stands in its bytes."""

    def __init__(self, data):
        self.data, self.imports, self.types, self.of_type, self.bodies, self.read, self.start, self.entry = data, [], [], [], [], {}, None, None
        readers = {1: self.type_section, 2: self.import_section, 3: self.function_section, 7: self.export_section, 8: self.start_section, 10: self.code_section}
        for kind, content, first in sections(data):
            if kind in readers:
                readers[kind](content, first)

    def type_section(self, content, _):
        count, at = number(content, 0)
        for _ in range(count):
            takes, at = piece(content, at + 1)  # behind its 0x60
            gives, at = piece(content, at)
            self.types.append((takes, gives))

    def import_section(self, content, _):
        count, at = number(content, 0)
        for _ in range(count):
            at = piece(content, piece(content, at)[1])[1]
            kind, at = content[at], at + 1
            if kind == 0:
                of_type, at = number(content, at)
                self.imports.append(of_type)
            else:
                at = limits_end(content, at + 1) if kind == 1 else limits_end(content, at) if kind == 2 else at + 2

    def function_section(self, content, _):
        count, at = number(content, 0)
        for _ in range(count):
            of_type, at = number(content, at)
            self.of_type.append(of_type)

    def export_section(self, content, _):
        count, at = number(content, 0)
        for _ in range(count):
            name, at = piece(content, at)
            index, end = number(content, at + 1)
            if (name, content[at]) == (b"_start", 0):
                self.entry = index
            at = end

    def start_section(self, content, _):
        self.start = number(content, 0)[0]

    def code_section(self, content, first):
        count, at = number(content, 0)
        for _ in range(count):
            body, at = piece(content, at)
            self.bodies.append((first + at - len(body), first + at))

    def type_of(self, function):
        own = function - len(self.imports)
        return self.types[self.imports[function] if own < 0 else self.of_type[own]]

    def body(self, function):
        """Of one of its own functions each instruction by its offset: opcode, what stands behind it, and its index in the body. Else nothing."""
        own = function - len(self.imports)
        if not 0 <= own < len(self.bodies):
            return {}
        if function not in self.read:
            self.read[function] = dict(self.instructions(*self.bodies[own]))
        return self.read[function]

    def instructions(self, at, end):
        groups, at = number(self.data, at)
        for _ in range(groups):
            at = number(self.data, at)[1] + 1
        index = 0
        while at < end:
            begin, op = at, self.data[at]
            at, behind = at + 1, BEHIND.get(op)
            if op == 0xFC:
                more, at = number(self.data, at)
                op, behind = 0xFC00 + more, "" if more < 8 else BULK.get(more)
            if behind is None:
                raise Odd(f"opcode {op:#x} at {begin:#x}")
            values = []
            for kind in behind:
                value, at = self.operand(kind, at)
                values.append(value)
            yield begin, (op, tuple(values), index)
            index += 1
        if at != end or op != END:
            raise Odd(f"a body that doesn't end at {end:#x}")

    def operand(self, kind, at):
        if kind == "v":
            count, at = number(self.data, at)
            for _ in range(count):
                at = number(self.data, at)[1]
            return None, at
        if kind in WIDTHS:
            return number(self.data, at, *WIDTHS[kind])
        width = {"b": 1, "f": 4, "F": 8}[kind]
        return self.data[at : at + width], at + width

    def wrong(self, frames, is_call_answered=False):
        """What isn't so with frames, each a function and an offset, the innermost first; nothing where all is. The innermost stands at an
        instruction of its function, which is no `end` and no `else` but behind a call that was answered; each other one at a call of the
        very function inside it, or at one through a table with that function's type; the outermost is where a run enters."""
        for k, (function, offset) in enumerate(frames):
            op, values, _ = self.body(function).get(offset, (None, (), 0))
            if op is None:
                return f"frame {k}: at {offset:#x} stands no instruction of function {function}"
            if k == 0 and op in (END, ELSE) and not is_call_answered:
                return f"frame 0: at {offset:#x} stands an end or an else"
            if k and not (op == CALL and values[0] == frames[k - 1][0] or op == CALL_INDIRECT and self.types[values[0]] == self.type_of(frames[k - 1][0])):
                return f"frame {k}: at {offset:#x} stands no call of function {frames[k - 1][0]}"
        if frames and frames[-1][0] not in (self.start, self.entry):
            return f"the outermost is function {frames[-1][0]}"
        return ""

    def called_just_now(self, function, offset):
        """Whether the instruction before this one is a call."""
        before = None
        for at, (op, _, _) in self.body(function).items():
            if at == offset:
                return before in (CALL, CALL_INDIRECT)
            before = op
        return False


def name_in_section(data, function):
    """A function's name by the first custom section `name` (appendix, 7.4.1): in its first part 1, the first pair with this index.
    What doesn't fit ends the search."""
    for kind, content, _ in sections(data):
        if kind == 0:
            title, at = piece(content, 0)
            if title == b"name":
                break
    else:
        return None
    for kind, part, _ in sections(content, at):
        if kind == 1:
            break
    else:
        return None
    count, at = number(part, 0)
    for _ in range(count):
        index, at = number(part, at)
        name, at = piece(part, at)
        if index == function:
            return name
    return None


def name_of_export(data, function):
    """The name that a function of a module is exported by first (5.5.10)."""
    for kind, content, _ in sections(data):
        if kind == 7:
            count, at = number(content, 0)
            for _ in range(count):
                name, at = piece(content, at)
                index, end = number(content, at + 1)
                if content[at] == 0 and index == function:
                    return name
                at = end
    return None


def name_of(data, function):
    """What a function of a valid module is called: by its section `name`, else by its first export, else by its number; an empty name is none."""
    try:
        name = name_in_section(data, function)
    except Odd:
        name = None
    return name or name_of_export(data, function) or b"function[%d]" % function
