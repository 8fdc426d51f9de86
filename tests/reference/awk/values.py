"""Values, their numbers, texts and truth, and the operators."""
from dataclasses import dataclass

from . import numbers
from .numbers import LIMIT, NumberFault

FAULTS = (
    "Range", "Fraction", "DivisionByZero", "Inexact", "FieldNumber", "Format", "BadEre", "EreTooLarge", "TextLimit", "OpenInput", "ReadFailed", "OpenOutput",
    "WriteFailed", "TooManyStreams", "NextOutside", "BadAssignment",
)  # fmt: skip
# the most bytes of a text
TEXT_LIMIT = 67_108_864


class Fault(Exception):
    """A runtime error, which ends a run at once."""

    def __init__(self, name):
        super().__init__(name)
        assert name in FAULTS
        self.name = name


@dataclass(frozen=True, slots=True)
class Uninit:
    """No value yet: both the empty text and 0."""


@dataclass(frozen=True, slots=True)
class Num:
    """A number."""

    of: int


@dataclass(frozen=True, slots=True)
class Text:
    """A text that a script made."""

    of: bytes


@dataclass(frozen=True, slots=True)
class StrNum:
    """A text from outside, which is compared as a number if it looks like one."""

    of: bytes


UNINIT = Uninit()


def truth_value(is_so):
    """Truth values are the numbers 1 and 0."""
    return Num(1 if is_so else 0)


def read(reader, text):
    try:
        return reader(text)
    except NumberFault as fault:
        raise Fault(fault.name) from None


def number(value):
    """The number of a value."""
    match value:
        case Num(of):
            return of
        case Uninit():
            return 0
    return read(numbers.number_of, value.of)


def truncated(value):
    """What `int` makes of a value."""
    match value:
        case Text(of) | StrNum(of):
            return read(numbers.truncated_of, of)
    return number(value)


def text(value):
    """The text of a value; of a number its digits, so CONVFMT and OFMT have no effect."""
    match value:
        case Num(of):
            return numbers.text_of(of)
        case Uninit():
            return b""
    return value.of


def truth(value):
    """A number is true if it is not 0, a text if it is not empty. A numeric string that looks numeric is true if one of its digits is not 0. It never faults."""
    match value:
        case Uninit():
            return False
        case Num(of):
            return of != 0
        case StrNum(of) if numbers.looks_numeric(of):
            return numbers.has_nonzero_digit(of)
    return value.of != b""


def is_numeric(value):
    match value:
        case Text():
            return False
        case StrNum(of):
            return numbers.looks_numeric(of)
    return True


COMPARISONS = {
    "<": lambda a, b: a < b,
    "<=": lambda a, b: a <= b,
    "==": lambda a, b: a == b,
    "!=": lambda a, b: a != b,
    ">": lambda a, b: a > b,
    ">=": lambda a, b: a >= b,
}


def compare(left, right, operator):
    """A comparison is numeric if each side is a number, uninitialised, or a numeric string that looks numeric; the left number's fault comes first.
    Otherwise the texts are compared by bytes."""
    if is_numeric(left) and is_numeric(right):
        a = number(left)
        return COMPARISONS[operator](a, number(right))
    return COMPARISONS[operator](text(left), text(right))


# The operators on numbers.


def checked(result):
    if abs(result) > LIMIT:
        raise Fault("Range")
    return result


def truncated_quotient(a, b):
    """`int(a / b)`: the quotient truncated towards 0."""
    if b == 0:
        raise Fault("DivisionByZero")
    size = abs(a) // abs(b)
    return size if (a < 0) == (b < 0) else -size


def quotient(a, b):
    """`a / b`: Inexact if b does not divide a."""
    if b != 0 and a % b != 0:
        raise Fault("Inexact")
    return truncated_quotient(a, b)


def remainder(a, b):
    """`a % b` has the sign of a."""
    return a - truncated_quotient(a, b) * b


def power(a, b):
    """`a ^ 0` is 1. With a negative exponent 0 is DivisionByZero, 1 and -1 are exact, and all others Inexact."""
    if b == 0 or a == 1:
        return 1
    if a == -1:
        return 1 if b % 2 == 0 else -1
    if b < 0:
        raise Fault("DivisionByZero" if a == 0 else "Inexact")
    # 2^54 is out of range, so no greater power is computed
    return checked(a ** min(b, 54))


OPERATORS = {
    "+": lambda a, b: checked(a + b),
    "-": lambda a, b: checked(a - b),
    "*": lambda a, b: checked(a * b),
    "/": quotient,
    "%": remainder,
    "^": power,
}


def limited(made):
    """A text that an operation makes has at most TEXT_LIMIT bytes."""
    if len(made) > TEXT_LIMIT:
        raise Fault("TextLimit")
    return made
