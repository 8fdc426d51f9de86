"""Records of what is read, the operands that make the main input, and the streams that a script opens by names."""
import re
from dataclasses import dataclass

from . import values
from .values import Fault
from .world import STANDARD_INPUT, STANDARD_OUTPUT, Failed

MAX_STREAMS, MAX_OPERANDS = 256, 1_048_576
NEWLINE = ord("\n")
ASSIGNMENT = re.compile(rb"([A-Za-z_][A-Za-z0-9_]*)=(.*)", re.DOTALL)


# What a reader answers; the main input also tells that it opened an operand, that one did not open, and that an assignment is next.


@dataclass(frozen=True)
class Got:
    record: bytes


@dataclass(frozen=True)
class Opened:
    name: bytes


@dataclass(frozen=True)
class Assignment:
    name: bytes
    text: bytes


END, READ_FAILED, OPEN_FAILED = "end", "read failed", "open failed"


class Reader:
    """The records of a stream. It reads when the bytes that it has make no record. A reader whose read failed keeps failing."""

    def __init__(self, world, number):
        self.world, self.number = world, number
        self.rest, self.is_over, self.has_failed = bytearray(), False, False
        # in the rest no separator begins before this place
        self.searched = 0

    def next(self, separator):
        """The next record, by what RS is at that time."""
        self.searched = 0
        while True:
            record = self.paragraph() if separator == b"" else self.until(separator[:1])
            if record is not None:
                return Got(record)
            if self.has_failed or self.is_over:
                # newlines at the end, and bytes that no record ends before a failed read, are given up
                self.rest.clear()
                return READ_FAILED if self.has_failed else END
            self.read()

    def read(self):
        try:
            piece = self.world.read(self.number)
        except Failed:
            self.has_failed = True
            return
        self.is_over = not piece
        self.rest += piece

    def until(self, byte):
        """A record that the first byte of RS ends. At the end a rest that is not empty is a record."""
        end = self.rest.find(byte, self.searched)
        self.searched = len(self.rest)
        if end < 0:
            return self.taken(0, len(self.rest), 0, is_ended=False)
        return self.taken(0, end, 1, is_ended=True)

    def paragraph(self):
        """Newlines before a record are skipped, two newlines end it, and one at the end is dropped. What is skipped counts towards the limit."""
        begin = next((at for at, byte in enumerate(self.rest) if byte != NEWLINE), len(self.rest))
        end = self.rest.find(b"\n\n", max(begin, self.searched - 1))
        self.searched = len(self.rest)
        if end < 0:
            end = len(self.rest) - (self.rest.endswith(b"\n") and len(self.rest) > begin)
            return self.taken(begin, end, 1, is_ended=False)
        return self.taken(begin, end, 2, is_ended=True)

    def taken(self, begin, end, behind, is_ended):
        """The record between two places, which is gone with what is behind it; none if it may go on, or is not there."""
        if end > values.TEXT_LIMIT:
            raise Fault("TextLimit")
        if not is_ended and not (self.is_over and begin < end):
            return None
        record = bytes(self.rest[begin:end])
        del self.rest[: end + behind]
        return record

    def give_up(self):
        """The rest is not read; a failing end is given up too."""
        self.rest.clear()
        self.is_over, self.has_failed = True, False


class MainInput:
    """Operands, taken from ARGV when they are reached: assignments, `-` for the standard input, and files. If no file and no `-` was among them, the standard
    input follows, under the empty name. Once the end is told, it stays."""

    def __init__(self, world):
        self.world = world
        self.standard = Reader(world, STANDARD_INPUT)
        self.reader = None
        self.reached = 0
        # a file or `-` was among the operands, also if it did not open
        self.had_file = self.is_last = self.is_over = False

    def next(self, count, operand, separator):
        """A record, or what happened before it: `count()` operands there are, `operand(n)` is the n-th, or None, and `separator()` is RS."""
        while not self.is_over:
            if self.reader is None:
                answer = self.open_next(count, operand)
                if answer is not END:
                    return answer
                self.is_over = True
            else:
                answer = self.reader.next(separator())
                if answer is not END:
                    return answer
                self.leave()
        return END

    def open_next(self, count, operand):
        while not self.is_last and self.reached < min(count(), MAX_OPERANDS):
            self.reached += 1
            text = operand(self.reached)
            if text:
                found = ASSIGNMENT.fullmatch(text)
                return Assignment(*found.groups()) if found else self.open(text)
        if self.had_file:
            return END
        self.had_file = self.is_last = True
        self.reader = self.standard
        return Opened(b"")

    def open(self, name):
        self.had_file = True
        if name == b"-":
            self.reader = self.standard
            return Opened(name)
        try:
            self.reader = Reader(self.world, self.world.open_read(name))
        except Failed:
            return OPEN_FAILED
        return Opened(name)

    def leave(self):
        if self.reader is not self.standard:
            self.world.close(self.reader.number)
        self.reader = None

    def give_up(self):
        """`nextfile`: a later `-` finds the standard input at its end."""
        if self.reader is not None:
            self.reader.give_up()
            self.leave()


class Streams:
    """The streams that are open by their names, at most 256; a name can be open for both."""

    def __init__(self, world):
        self.world, self.readers, self.writers = world, {}, {}

    def ask_for_room(self):
        if len(self.readers) + len(self.writers) >= MAX_STREAMS:
            raise Fault("TooManyStreams")

    def next(self, name, separator):
        """The next record of a file, which is opened if it is not open."""
        if name not in self.readers:
            self.ask_for_room()
            try:
                self.readers[name] = Reader(self.world, self.world.open_read(name))
            except Failed:
                return OPEN_FAILED
        return self.readers[name].next(separator)

    def writer(self, name, appends):
        """The first `>` of a name creates or truncates, `>>` appends; the stream stays open."""
        if name not in self.writers:
            self.ask_for_room()
            try:
                self.writers[name] = self.world.open_write(name, appends)
            except Failed:
                raise Fault("OpenOutput") from None
        return self.writers[name]

    def put(self, text, name=None, appends=False):
        """Writes at once, to standard output if there is no name."""
        number = STANDARD_OUTPUT if name is None else self.writer(name, appends)
        text = memoryview(text)
        while text:
            try:
                text = text[self.world.write(number, bytes(text)) :]
            except Failed:
                raise Fault("WriteFailed") from None

    def close(self, name):
        """Closes the reader and the writer of a name; whether one was open."""
        was_open = name in self.readers or name in self.writers
        if name in self.readers:
            self.world.close(self.readers.pop(name).number)
        if name in self.writers:
            self.world.close(self.writers.pop(name))
        return was_open
