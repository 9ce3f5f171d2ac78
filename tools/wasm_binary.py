"""A small reader and writer of WebAssembly binaries, for the tools here: sections, types, and bodies one instruction after another.

It keeps what it reads as numbers and bytes, and writes each number in its shortest form. It validates nothing.
"""


class Refused(Exception):
    """The module has something that the tools don't handle; the text says what."""


class Reader:
    def __init__(self, data, at=0, end=None):
        self.data, self.at, self.end = data, at, len(data) if end is None else end

    def byte(self):
        if self.at >= self.end:
            raise Refused(f"the module ends too early, at {self.at}")
        self.at += 1
        return self.data[self.at - 1]

    def bytes(self, count):
        if count > self.end - self.at:
            raise Refused(f"the module ends too early, at {self.at}")
        self.at += count
        return self.data[self.at - count : self.at]

    def number(self):
        """The bits of a LEB128 number, how many they are, and its last byte."""
        value = shift = 0
        while True:
            byte = self.byte()
            value |= (byte & 0x7F) << shift
            shift += 7
            if byte < 0x80:
                return value, shift, byte

    def u(self):
        return self.number()[0]

    def s(self):
        value, bits, last = self.number()
        return value - (1 << bits) if last & 0x40 else value

    def name(self):
        return self.bytes(self.u())

    def vector(self, item):
        return [item() for _ in range(self.u())]


def u(value):
    out = bytearray()
    while value >= 0x80:
        out.append(value & 0x7F | 0x80)
        value >>= 7
    out.append(value)
    return bytes(out)


def s(value):
    out = bytearray()
    while not -0x40 <= value < 0x40:
        out.append(value & 0x7F | 0x80)
        value >>= 7
    out.append(value & 0x7F)
    return bytes(out)


def sized(content):
    return u(len(content)) + content


def section(kind, content):
    return bytes((kind,)) + sized(content)


def vector(items):
    items = list(items)
    return u(len(items)) + b"".join(items)


I32, I64, F32, F64 = 0x7F, 0x7E, 0x7D, 0x7C
VALUE_TYPES = (I32, I64, F32, F64)
MAGIC = b"\0asm\1\0\0\0"

# How an opcode's immediates are written: "" none, "u" and "s" numbers, "m" alignment and offset, "t" a block type.
IMMEDIATES = {0x02: "t", 0x03: "t", 0x04: "t", 0x0C: "u", 0x0D: "u", 0x0E: "table", 0x10: "u", 0x11: "uu", 0x1C: "types", 0x3F: "u", 0x40: "u"}
IMMEDIATES.update({op: "" for op in (0x00, 0x01, 0x05, 0x0B, 0x0F, 0x1A, 0x1B, *range(0x45, 0xC5))})
IMMEDIATES.update({op: "u" for op in range(0x20, 0x25)})
IMMEDIATES.update({op: "m" for op in range(0x28, 0x3F)})
IMMEDIATES.update({0x41: "s", 0x42: "s", 0x43: "4", 0x44: "8"})
LATER = {0xD0: "ref.null", 0xD1: "ref.is_null", 0xD2: "ref.func", 0x12: "return_call", 0x13: "return_call_indirect", 0x25: "table.get", 0x26: "table.set"}
LATER.update({0x06: "try", 0x08: "throw", 0x1F: "try_table", 0x14: "call_ref", 0xFB: "garbage collection", 0xFD: "SIMD", 0xFE: "threads"})


def instructions(reader):
    """Each instruction up to the `end` of the body: opcode and immediates; those after the prefix 0xFC have 0xFC00 and more."""
    depth = 0
    while True:
        op = reader.byte()
        if op == 0xFC:
            op = 0xFC00 + reader.u()
            if op < 0xFC08:
                yield op, ()
            elif op == 0xFC0A:
                yield op, (reader.u(), reader.u())
            elif op == 0xFC0B:
                yield op, (reader.u(),)
            else:
                raise Refused(f"bulk memory's instruction 0xFC {op - 0xFC00} is of a later edition")
            continue
        kind = IMMEDIATES.get(op)
        if kind is None:
            raise Refused(f"opcode {op:#04x} ({LATER.get(op, 'unknown')}) is of a later edition")
        yield op, immediates(reader, kind)
        depth += op in (0x02, 0x03, 0x04)
        depth -= op == 0x0B
        if depth < 0:
            return


def immediates(reader, kind):
    if kind == "":
        return ()
    if kind == "u":
        return (reader.u(),)
    if kind in ("m", "uu"):
        return (reader.u(), reader.u())
    if kind == "s":
        return (reader.s(),)
    if kind == "4" or kind == "8":
        return (int.from_bytes(reader.bytes(int(kind)), "little"),)
    if kind == "t":
        return (reader.s(),)
    if kind == "table":
        return (reader.vector(reader.u), reader.u())
    return (reader.vector(reader.byte),)


def written(op, values):
    """The bytes of an instruction."""
    if op >= 0xFC00:
        return b"\xfc" + u(op - 0xFC00) + b"".join(map(u, values))
    kind = IMMEDIATES[op]
    head = bytes((op,))
    if kind == "":
        return head
    if kind in ("s", "t"):
        return head + s(values[0])
    if kind == "4" or kind == "8":
        return head + values[0].to_bytes(int(kind), "little")
    if kind == "table":
        return head + vector(map(u, values[0])) + u(values[1])
    if kind == "types":
        return head + vector(bytes((it,)) for it in values[0])
    return head + b"".join(map(u, values))


class Body:
    """Locals as (count, type), and instructions as (opcode, immediates), the last `end` among them."""

    def __init__(self, local, code):
        self.locals, self.code = local, code

    def bytes(self):
        local = vector(u(count) + bytes((kind,)) for count, kind in self.locals)
        return sized(local + b"".join(written(op, values) for op, values in self.code))


class Module:
    """The parts of a module, each as plain lists; `custom` are the custom sections, with the id of the section before them."""

    def __init__(self, data):
        self.types, self.imports, self.functions, self.tables, self.memories, self.globals = [], [], [], [], [], []
        self.exports, self.start, self.elements, self.bodies, self.datas, self.custom = [], None, [], [], [], []
        self.data_count = None
        if data[:4] != MAGIC[:4]:
            raise Refused("no WebAssembly binary")
        if data[4:8] != MAGIC[4:]:
            raise Refused("no module of version 1; of a component the core module is needed")
        outer, before = Reader(data, 8), 0
        while outer.at < outer.end:
            kind, size = outer.byte(), outer.u()
            if size > outer.end - outer.at:
                raise Refused(f"the module ends too early, in section {kind}")
            self.section(kind, Reader(data, outer.at, outer.at + size), before)
            outer.at += size
            before = kind or before

    def section(self, kind, it, before):
        if kind == 0:
            self.custom.append((before, it.data[it.at : it.end]))
        elif kind == 1:
            self.types = it.vector(lambda: func_type(it))
        elif kind == 2:
            self.imports = it.vector(lambda: imported(it))
        elif kind == 3:
            self.functions = it.vector(it.u)
        elif kind == 4:
            self.tables = it.vector(lambda: table(it))
        elif kind == 5:
            self.memories = it.vector(lambda: limits(it))
        elif kind == 6:
            self.globals = it.vector(lambda: (it.byte(), it.byte(), list(instructions(it))))
        elif kind == 7:
            self.exports = it.vector(lambda: (it.name(), it.byte(), it.u()))
        elif kind == 8:
            self.start = it.u()
        elif kind == 9:
            self.elements = [segment for segment in it.vector(lambda: element(it)) if segment]
        elif kind == 10:
            self.bodies = it.vector(lambda: body(it))
        elif kind == 11:
            self.datas = it.vector(lambda: data_segment(it))
        elif kind == 12:
            self.data_count = it.u()
        else:
            raise Refused(f"section {kind} is of a later edition")

    def imported_functions(self):
        return [it[3] for it in self.imports if it[2] == 0]

    def bytes(self):
        out, parts = bytearray(MAGIC), self.parts()
        for before in (0, 1, 2, 3, 4, 5, 6, 7, 8, 9, 12, 10, 11):
            if before in parts:
                out += section(before, parts[before])
            for _, content in (it for it in self.custom if it[0] == before):
                out += section(0, content)
        return bytes(out)

    def parts(self):
        full = {
            1: vector(b"\x60" + vector(bytes((it,)) for it in takes) + vector(bytes((it,)) for it in gives) for takes, gives in self.types),
            2: vector(sized(module) + sized(name) + bytes((kind,)) + import_bytes(kind, what) for module, name, kind, what in self.imports),
            3: vector(map(u, self.functions)),
            4: vector(b"\x70" + limits_bytes(it) for it in self.tables),
            5: vector(map(limits_bytes, self.memories)),
            6: vector(bytes((kind, is_var)) + code_bytes(init) for kind, is_var, init in self.globals),
            7: vector(sized(name) + bytes((kind,)) + u(index) for name, kind, index in self.exports),
            9: vector(b"\0" + code_bytes(offset) + vector(map(u, functions)) for offset, functions in self.elements),
            10: vector(it.bytes() for it in self.bodies),
            11: vector(b"\0" + code_bytes(offset) + sized(content) for offset, content in self.datas),
        }
        parts = {kind: content for kind, content in full.items() if content != b"\0"}
        if self.start is not None:
            parts[8] = u(self.start)
        if self.data_count is not None:
            parts[12] = u(self.data_count)
        return parts


def code_bytes(code):
    return b"".join(written(op, values) for op, values in code)


def value_type(it):
    kind = it.byte()
    if kind not in VALUE_TYPES:
        raise Refused(f"a value type {kind:#04x} (a vector or a reference) is of a later edition")
    return kind


def func_type(it):
    if it.byte() != 0x60:
        raise Refused("a type that isn't of a function is of a later edition")
    takes, gives = it.vector(lambda: value_type(it)), it.vector(lambda: value_type(it))
    if len(gives) > 1:
        raise Refused("a function with several results is of a later edition")
    return takes, gives


def limits(it):
    flags = it.byte()
    if flags > 1:
        raise Refused("a shared or 64-bit memory is of a later edition")
    return (it.u(), it.u() if flags else None)


def limits_bytes(it):
    return b"\0" + u(it[0]) if it[1] is None else b"\1" + u(it[0]) + u(it[1])


def table(it):
    if it.byte() != 0x70:
        raise Refused("a table of another kind than functions is of a later edition")
    return limits(it)


def imported(it):
    module, name, kind = it.name(), it.name(), it.byte()
    if kind == 0:
        return module, name, kind, it.u()
    if kind == 1:
        return module, name, kind, table(it)
    if kind == 2:
        return module, name, kind, limits(it)
    if kind == 3:
        return module, name, kind, (value_type(it), it.byte())
    raise Refused("an import of an unknown kind is of a later edition")


def import_bytes(kind, what):
    if kind == 0:
        return u(what)
    if kind == 3:
        return bytes(what)
    return (b"\x70" if kind == 1 else b"") + limits_bytes(what)


def element(it):
    """An active segment of table 0 as (offset, functions); None for one that only declares functions."""
    flags = it.u()
    if flags == 3:
        it.byte()
        it.vector(it.u)
        return None
    if flags not in (0, 2):
        raise Refused("passive or typed element segments are of a later edition")
    if flags == 2 and it.u() != 0:
        raise Refused("a second table is of a later edition")
    offset = list(instructions(it))
    if flags == 2:
        it.byte()
    return offset, it.vector(it.u)


def data_segment(it):
    flags = it.u()
    if flags == 1:
        raise Refused("passive data segments (memory.init) are of a later edition")
    if flags == 2 and it.u() != 0:
        raise Refused("a second memory is of a later edition")
    return list(instructions(it)), it.name()


def body(it):
    size = it.u()
    end = it.at + size
    local = it.vector(lambda: (it.u(), value_type(it)))
    code = list(instructions(it))
    if it.at != end:
        raise Refused(f"a body doesn't fill its size, at {it.at}")
    return Body(local, code)
