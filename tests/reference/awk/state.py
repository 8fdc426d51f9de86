"""What a run has: variables, the record, the streams and the turns that are left."""
import re
from dataclasses import dataclass, field

from . import values
from .names import SPECIAL_ARRAYS, SPECIALS
from .record import Record
from .streams import END, OPEN_FAILED, READ_FAILED, Assignment, Got, MainInput, Opened, Streams
from .tokens import RESERVED, unescaped
from .values import UNINIT, Fault, Num, StrNum, Text

# what in the main loop is a fault, and -1 for getline
FAULTS_OF_MAIN = {OPEN_FAILED: "OpenInput", READ_FAILED: "ReadFailed"}
NAME = re.compile(rb"[A-Za-z_][A-Za-z0-9_]*")


@dataclass
class Job:
    """What a command line gives a script: operands, assignments before BEGIN, and the environment; the last two are pairs of a name and a text."""

    operands: list = field(default_factory=list)
    assignments: list = field(default_factory=list)
    environment: list = field(default_factory=list)

    def refuse_long_texts(self):
        """A text past the limit is a fault before all else."""
        texts = [*self.operands, *(text for pair in [*self.assignments, *self.environment] for text in pair)]
        if any(len(text) > values.TEXT_LIMIT for text in texts):
            raise Fault("TextLimit")


class OutOfTurns(Exception):
    """No turn is left. A turn is a loop's test, a key of `for (k in a)`, a user call, a record of the main loop, or an assignment of the command line."""


def specials_of(job):
    """The special variables at the start; NF is the record's."""
    return {
        "FS": Text(b" "), "OFS": Text(b" "), "RS": Text(b"\n"), "ORS": Text(b"\n"), "SUBSEP": Text(b"\x1c"), "CONVFMT": Text(b"%.6g"),
        "OFMT": Text(b"%.6g"), "NR": Num(0), "FNR": Num(0), "RSTART": Num(0), "RLENGTH": Num(-1), "FILENAME": UNINIT, "ARGC": Num(len(job.operands) + 1),
    }  # fmt: skip


class State:
    def __init__(self, script, job, world, turns):
        self.script, self.job, self.turns = script, job, turns
        self.specials, self.globals = specials_of(job), {}
        argv = {b"%d" % at: StrNum(text) for at, text in enumerate([b"awk", *job.operands])}
        # a later pair of one name replaces an earlier one
        self.arrays = {"ARGV": argv, "ENVIRON": {name: StrNum(text) for name, text in job.environment}}
        self.record, self.streams, self.main = Record(), Streams(world), MainInput(world)
        # `exit` without an expression leaves the status as it is
        self.status = 0
        # whether the main loop has a record at hand, and whether END has begun
        self.has_record = self.is_end = False

    def turn(self):
        if self.turns == 0:
            raise OutOfTurns
        if self.turns is not None:
            self.turns -= 1

    # Variables.

    def value(self, name):
        if name == "NF":
            return Num(len(self.record.fields))
        return self.specials[name] if name in self.specials else self.globals.get(name, UNINIT)

    def set_value(self, name, value):
        if name == "NF":
            self.record.set_count(values.number(value), self.text("OFS"))
        elif name in self.specials:
            self.specials[name] = value
        else:
            self.globals[name] = value

    def text(self, special):
        return values.text(self.specials[special])

    def set_field(self, number, value):
        if number == 0:
            self.set_record(values.text(value))
        else:
            self.record.set_field(number, value, self.text("OFS"))

    def set_record(self, text):
        """A changed FS counts from here on. With an empty RS a newline separates fields too."""
        self.record.set_whole(text, self.text("FS"), self.text("RS") == b"")

    # Assignments of the command line.

    def assign(self, name, text):
        """BadAssignment: what is no name, a reserved word, a function or an array. A name that is neither special nor in the script has no effect."""
        self.turn()
        word = name.decode() if NAME.fullmatch(name) else ""
        if not word or word in RESERVED or word in SPECIAL_ARRAYS or self.is_no_scalar(word):
            raise Fault("BadAssignment")
        if word in SPECIALS:
            self.set_value(word, StrNum(unescaped(text)))
            return None
        return self.assign_global(word, StrNum(unescaped(text)))

    def is_no_scalar(self, word):
        return word in self.script.functions or (word in self.script.globals and self.script.is_array(None, word))

    def assign_global(self, word, value):
        if word in self.script.globals:
            self.globals[word] = value

    # Input.

    def operand(self, number):
        """An element of ARGV, which is not created."""
        value = self.arrays["ARGV"].get(b"%d" % number)
        return None if value is None else values.text(value)

    def next_of_main(self):
        """The next record of the main input: Got, END, READ_FAILED or OPEN_FAILED. Assignments on the way are made, and what is opened sets FILENAME and FNR."""
        count = lambda: values.number(self.specials["ARGC"]) - 1
        while True:
            match self.main.next(count, self.operand, lambda: self.text("RS")):
                case Assignment(name, text):
                    if answer := self.assign(name, text):
                        return answer
                case Opened(name):
                    self.specials["FILENAME"], self.specials["FNR"] = StrNum(name), Num(0)
                case answer:
                    return answer

    def count_record(self):
        """NR and FNR count by adding 1 to their own number, NR first, before the record or a variable is set."""
        for name in ("NR", "FNR"):
            self.specials[name] = Num(values.OPERATORS["+"](values.number(self.specials[name]), 1))

    def read_record(self):
        """Reads a record for the main loop; whether there was one."""
        match self.next_of_main():
            case Got(record):
                self.count_record()
                self.set_record(record)
                return True
            case answer if answer in FAULTS_OF_MAIN:
                raise Fault(FAULTS_OF_MAIN[answer])
        return False

    def getline(self, store, file):
        """`getline` sets $0, NF, NR and FNR; with a variable that, NR and FNR; from a file $0 and NF, or the variable alone. 1, 0 at the end, or -1."""
        if file is not None:
            answer = self.streams.next(file, self.text("RS"))
        else:
            # in END there is no main input
            answer = END if self.is_end else self.next_of_main()
        if not isinstance(answer, Got):
            return 0 if answer is END else -1
        if file is None:
            self.count_record()
        if store is None:
            self.set_record(answer.record)
        else:
            store(StrNum(answer.record))
        return 1
