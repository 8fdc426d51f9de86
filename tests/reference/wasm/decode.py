"""Modules from their bytes."""
from dataclasses import dataclass, field

HEADER = b"\0asm\1\0\0\0"
MOST_BYTES, MOST_NESTING, MOST_LOCALS, MOST_PAGES, MOST_ELEMENTS = 1 << 24, 4000, 50_000, 256, 65_536
CUSTOM, TYPE, IMPORT, FUNCTION, TABLE, MEMORY, GLOBAL, EXPORT, START, ELEMENT, CODE, DATA = range(12)
INTEGERS, FLOATS = {0x7F: "i32", 0x7E: "i64"}, {0x7D, 0x7C}


def opcodes():
    """The name of each opcode."""
    names = {0x00: "unreachable", 0x01: "nop", 0x02: "block", 0x03: "loop", 0x04: "if", 0x05: "else", 0x0B: "end", 0x0C: "br", 0x0D: "br_if",
             0x0E: "br_table", 0x0F: "return", 0x10: "call", 0x11: "call_indirect", 0x1A: "drop", 0x1B: "select", 0x20: "local.get", 0x21: "local.set",
             0x22: "local.tee", 0x23: "global.get", 0x24: "global.set", 0x28: "i32.load", 0x29: "i64.load", 0x36: "i32.store", 0x37: "i64.store",
             0x3F: "memory.size", 0x40: "memory.grow", 0x41: "i32.const", 0x42: "i64.const", 0xA7: "i32.wrap_i64", 0xAC: "i64.extend_i32_s",
             0xAD: "i64.extend_i32_u", 0xC0: "i32.extend8_s", 0xC1: "i32.extend16_s", 0xC2: "i64.extend8_s", 0xC3: "i64.extend16_s",
             0xC4: "i64.extend32_s"}  # fmt: skip
    loads = "i32.load8_s i32.load8_u i32.load16_s i32.load16_u i64.load8_s i64.load8_u i64.load16_s i64.load16_u i64.load32_s i64.load32_u".split()
    stores = "i32.store8 i32.store16 i64.store8 i64.store16 i64.store32".split()
    tests = "eqz eq ne lt_s lt_u gt_s gt_u le_s le_u ge_s ge_u".split()
    results = "clz ctz popcnt add sub mul div_s div_u rem_s rem_u and or xor shl shr_s shr_u rotl rotr".split()
    rows = [(0x2C, loads), (0x3A, stores), (0x45, [f"i32.{it}" for it in tests]), (0x50, [f"i64.{it}" for it in tests])]
    rows += [(0x67, [f"i32.{it}" for it in results]), (0x79, [f"i64.{it}" for it in results])]
    return names | {first + at: name for first, row in rows for at, name in enumerate(row)}


NAMES = opcodes()
FLOATING = {0x2A, 0x2B, 0x38, 0x39, 0x43, 0x44, *range(0x5B, 0x67), *range(0x8B, 0xA7), *range(0xA8, 0xAC), *range(0xAE, 0xC0)}


class DecodeFault(Exception):
    """BadHeader, Truncated, BadSection, BadInteger, BadOpcode, Float or TooLarge, with a place or the length if it has one."""

    def __init__(self, name, place=None):
        super().__init__(name, place)
        self.name, self.place = name, place


@dataclass
class Body:
    """A function's locals behind its parameters, and its instructions: (name, immediates ..)."""

    locals: list
    code: list


@dataclass
class Module:
    types: list = field(default_factory=list)
    imports: list = field(default_factory=list)
    functions: list = field(default_factory=list)
    tables: list = field(default_factory=list)
    memories: list = field(default_factory=list)
    globals: list = field(default_factory=list)
    exports: list = field(default_factory=list)
    start: int | None = None
    elements: list = field(default_factory=list)
    bodies: list = field(default_factory=list)
    data: list = field(default_factory=list)

    def type_of(self, number):
        """The parameters and results of a function, imports first."""
        known = [it[2] for it in self.imports] + self.functions
        return self.types[known[number]]


class Reader:
    """Reads from the left, up to an end; `section` is the place of the section's id."""

    def __init__(self, data, at=0, end=None, section=None):
        self.data, self.at, self.end, self.section = data, at, len(data) if end is None else end, section

    def cut(self):
        """What the bytes are refused for if they end too soon."""
        raise DecodeFault("Truncated", len(self.data)) if self.section is None else self.bad()

    def bad(self):
        return DecodeFault("BadSection", self.section)

    def byte(self):
        if self.at >= self.end:
            self.cut()
        self.at += 1
        return self.data[self.at - 1]

    def integer(self, bits, signed=False):
        """At most so many bytes as the bits need; the unused bits of the last one are zero, or the sign."""
        place, value, shift = self.at, 0, 0
        while True:
            byte = self.byte()
            value |= (byte & 127) << shift
            shift += 7
            if byte < 128:
                break
            if shift >= bits:
                raise DecodeFault("BadInteger", place)
        if signed and byte & 64:
            value -= 1 << shift
        low, high = (-(1 << bits - 1), 1 << bits - 1) if signed else (0, 1 << bits)
        if not low <= value < high:
            raise DecodeFault("BadInteger", place)
        return value

    def number(self):
        return self.integer(32)

    def bytes(self, count):
        if self.end - self.at < count:
            self.cut()
        self.at += count
        return self.data[self.at - count : self.at]

    def name(self):
        text = self.bytes(self.number())
        try:
            text.decode()
        except UnicodeDecodeError:
            raise self.bad() from None
        return text

    def several(self, read):
        return [read() for _ in range(self.number())]

    def of(self, *wanted):
        """A byte that has to be one of these."""
        byte = self.byte()
        if byte not in wanted:
            raise self.bad()
        return byte

    def type(self):
        place, byte = self.at, self.byte()
        if byte in FLOATS:
            raise DecodeFault("Float", place)
        if byte not in INTEGERS:
            raise self.bad()
        return INTEGERS[byte]

    def limits(self, most):
        has_most = self.of(0, 1)
        least = self.number()
        if least > most:
            raise DecodeFault("TooLarge")
        return least, self.number() if has_most else None


class Sections(Reader):
    """The contents of sections."""

    def function_type(self):
        self.of(0x60)
        return self.several(self.type), self.several(self.type)

    def imported(self):
        module, name = self.name(), self.name()
        self.of(0)
        return module, name, self.number()

    def table(self):
        self.of(0x70)
        return self.limits(MOST_ELEMENTS)

    def memory(self):
        return self.limits(MOST_PAGES)

    def a_global(self):
        kind = self.type()
        return kind, self.of(0, 1), self.code()

    def exported(self):
        return self.name(), self.of(0, 1, 2, 3), self.number()

    def element(self):
        return self.number(), self.code(), self.several(self.number)

    def datum(self):
        return self.number(), self.code(), self.bytes(self.number())

    def body(self):
        size = self.number()
        if self.end - self.at < size:
            raise self.bad()
        inside = Sections(self.data, self.at, self.at + size, self.section)
        self.at += size
        kinds = []
        for _ in range(inside.number()):
            count = inside.number()
            if len(kinds) + count > MOST_LOCALS:
                raise DecodeFault("TooLarge")
            kinds += [inside.type()] * count
        body = Body(kinds, inside.code())
        if inside.at != inside.end:
            raise self.bad()
        return body

    def code(self):
        """Instructions up to the `end` of them all, which is one of them. `else` stands in an `if`, once."""
        found, open_ones = [], ["block"]
        while open_ones:
            place = self.at
            found.append(self.instruction())
            name = found[-1][0]
            if name in ("block", "loop", "if"):
                open_ones.append(name)
            elif name == "else":
                if open_ones.pop() != "if":
                    raise DecodeFault("BadOpcode", place)
                open_ones.append("else")
            elif name == "end":
                open_ones.pop()
            if len(open_ones) > MOST_NESTING + 1:
                raise DecodeFault("TooLarge")
        return found

    def instruction(self):
        place, opcode = self.at, self.byte()
        if opcode in FLOATING:
            raise DecodeFault("Float", place)
        if opcode not in NAMES:
            raise DecodeFault("BadOpcode", place)
        return NAMES[opcode], *self.immediates(NAMES[opcode])

    def zero(self):
        place = self.at
        if self.byte():
            raise DecodeFault("BadOpcode", place)

    def immediates(self, name):
        if name in ("block", "loop", "if"):
            return (None if self.data[self.at : self.at + 1] == b"\x40" and self.byte() else self.type(),)
        if name == "br_table":
            return self.several(self.number), self.number()
        if name == "call_indirect":
            kind = self.number()
            self.zero()
            return (kind,)
        if name in ("memory.size", "memory.grow"):
            return self.zero() or ()
        if name.endswith(".const"):
            return (self.integer(int(name[1:3]), signed=True),)
        if ".load" in name or ".store" in name:
            return self.number(), self.number()
        return (self.number(),) if name in ("br", "br_if", "call") or name.startswith(("local.", "global.")) else ()


def decode(data):
    """The module of some bytes, or the first DecodeFault from the left."""
    if len(data) > MOST_BYTES:
        raise DecodeFault("TooLarge")
    if data[:8] != HEADER:
        raise DecodeFault("Truncated", len(data)) if HEADER.startswith(data) else DecodeFault("BadHeader")
    module, outer, last, places = Module(), Reader(data, 8), 0, {}
    while outer.at < len(data):
        place, section = outer.at, outer.byte()
        if section > DATA or (section != CUSTOM and section <= last):
            raise DecodeFault("BadSection", place)
        size = outer.number()
        begin, _ = outer.at, outer.bytes(size)
        inside = Sections(data, begin, begin + size, place)
        last, places[section] = section or last, place
        read_section(module, section, inside)
        if section != CUSTOM and inside.at != inside.end:
            raise inside.bad()
    # a count of codes that is another than that of functions
    if CODE not in places and module.functions:
        raise DecodeFault("BadSection", places[FUNCTION])
    return module


def read_section(module, section, inside):
    if section == CUSTOM:
        inside.name()
    elif section == START:
        module.start = inside.number()
    elif section == CODE:
        count = inside.number()
        if count != len(module.functions):
            raise inside.bad()
        module.bodies = [inside.body() for _ in range(count)]
    else:
        name, read = {
            TYPE: ("types", inside.function_type), IMPORT: ("imports", inside.imported), FUNCTION: ("functions", inside.number),
            TABLE: ("tables", inside.table), MEMORY: ("memories", inside.memory), GLOBAL: ("globals", inside.a_global),
            EXPORT: ("exports", inside.exported), ELEMENT: ("elements", inside.element), DATA: ("data", inside.datum),
        }[section]  # fmt: skip
        setattr(module, name, inside.several(read))
