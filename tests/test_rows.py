"""The rows of crates/test_scripts: what its stdin asks for, and what its stdout says. crates/test_scripts/src/main.rt says what a row is."""
import itertools
import os
import re
from dataclasses import dataclass

TOP = os.path.dirname(os.path.dirname(os.path.realpath(__file__)))
CRATE = f"{TOP}/crates/test_scripts"
ESCAPES = {9: "\\t", 10: "\\n", 92: "\\\\"}
UNESCAPES = {b"a": 7, b"b": 8, b"t": 9, b"n": 10, b"v": 11, b"f": 12, b"r": 13, b'"': 34, b"/": 47, b"\\": 92}
ESCAPE = re.compile(rb"\\(?:([0-7]{1,3})|(.))", re.DOTALL)


def escaped(text):
    """Bytes as a field of a row or of an answer."""
    return "".join(ESCAPES.get(byte) or (chr(byte) if 32 <= byte < 127 else f"\\{byte:03o}") for byte in text)


def unescaped(field):
    def byte(found):
        if found[1]:
            return bytes([int(found[1], 8) & 255])
        return bytes([UNESCAPES[found[2]]]) if found[2] in UNESCAPES else found[0]

    return ESCAPE.sub(byte, field.encode("latin-1"))


@dataclass
class Row:
    """A line of stdin, with the lines of stdout that answer it."""

    line: str
    number: int
    answer: list

    @property
    def is_command_line(self):
        return self.line.startswith("words:")

    @property
    def is_module(self):
        return self.line.startswith("module:")

    @property
    def fields(self):
        """The letter and the text of each field after the script and its input."""
        return [(it[0], unescaped(it[2:])) for it in self.line.split("\t")[2:] if it[1:2] == ":"]

    def texts(self, letter):
        return [text for it, text in self.fields if it == letter]

    def has(self, letter):
        return any(it == letter for it, _ in self.fields)

    @property
    def name(self):
        if self.is_command_line:
            return f"command line: {' '.join(self.line.split(chr(9))[1:])}"
        names = self.texts("t")
        return names[-1].decode() if names else ""

    @property
    def script(self):
        return unescaped(self.line.split("\t")[0])

    @property
    def given(self):
        return unescaped(self.line.split("\t")[1])

    def difference(self, actual):
        """Lines for a row that is answered otherwise than it is stored."""
        yield f"row {self.number}, {self.name}: {self.line[:500]}"
        yield from (f"  stored  {it[:500]}" for it in self.answer)
        yield from (f"  actual  {it[:500]}" for it in actual or ["nothing"])


def lines_of(path):
    with open(path, encoding="latin-1") as file:
        return file.read().split("\n")[:-1]


def rows(stdin=f"{CRATE}/stdin", stdout=None):
    """The rows of a file, each with its answer by a list of lines (the stored stdout without one), and the lines before the first answer. An answer begins with
    its row's name, and goes up to the next name; a row whose calls fail in turn has several, each with its name. That of a command line is one line, without a
    name, behind the answer of the row before."""
    found = [Row(line, number, []) for number, line in enumerate(lines_of(stdin), 1)]
    named, before = {escaped(row.name.encode()): row for row in found if not row.is_command_line}, []
    answer = before
    for line in lines_of(f"{CRATE}/stdout") if stdout is None else stdout:
        row = named.get(line.split("\t")[0])
        answer = row.answer if row else answer
        answer.append(line)
    for row in found:
        if not row.is_command_line:
            give_last_lines(row, found[row.number :])
    return found, before


def give_last_lines(row, behind):
    """Gives the last lines of a row's answer to the command lines right behind it."""
    command_lines = list(itertools.takewhile(lambda it: it.is_command_line, behind))
    at = max(len(row.answer) - len(command_lines), 0)
    for it, line in zip(command_lines, row.answer[at:]):
        it.answer.append(line)
    del row.answer[at:]
