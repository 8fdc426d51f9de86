"""Number texts: which texts are numbers, and what they are worth."""
import re
from typing import NamedTuple

# a number lies from -LIMIT to LIMIT
LIMIT = 2**53
SPACES = b" \t\n\v\f\r"

# Spaces, a sign, digits with or without a point (or a point and digits), and an exponent. There is no hexadecimal, inf or nan.
NUMBER_TEXT = re.compile(rb"[ \t\n\v\f\r]*([+-]?)(?:([0-9]+)(?:\.([0-9]*))?|\.([0-9]+))(?:[eE]([+-]?[0-9]+))?")
# an exponent of more digits is past every length that a text can have
FAR = 10**18


class NumberFault(Exception):
    """A text is worth no number of the language: `name` is Range or Fraction."""

    def __init__(self, name):
        super().__init__(name)
        self.name = name


class Written(NamedTuple):
    """A number text: sign * digits * 10^power, where the digits have no zero at either end (none is 0)."""

    sign: int
    digits: bytes
    power: int
    length: int  # of the number text in the text that it begins


def exponent(digits):
    """An exponent, cut at FAR, since it may have any number of digits."""
    size = digits.lstrip(b"+-").lstrip(b"0")
    value = FAR if len(size) > 18 else int(size or b"0")
    return -value if digits.startswith(b"-") else value


def prefix(text):
    """The longest beginning of a text that is number text, or None."""
    found = NUMBER_TEXT.match(text)
    if found is None:
        return None
    sign, whole, behind, only_behind, power = found.groups()
    behind = behind or only_behind or b""
    digits = ((whole or b"") + behind).lstrip(b"0")
    kept = digits.rstrip(b"0")
    power = (exponent(power) if power else 0) - len(behind) + len(digits) - len(kept)
    return Written(-1 if sign == b"-" else 1, kept, power, found.end())


def in_range(sign, digits, power):
    """sign * digits * 10^power of whole numbers, or the fault Range. The digits are tested first, so no great power is computed."""
    if len(digits) + power > 17 or int(digits) * 10**power > LIMIT:
        raise NumberFault("Range")
    return sign * int(digits) * 10**power


def number_of(text):
    """A text's number is that of its longest beginning that is number text, else 0. It is Fraction if it is not whole, and then Range."""
    it = prefix(text)
    if it is None or not it.digits:
        return 0
    if it.power < 0:
        raise NumberFault("Fraction")
    return in_range(it.sign, it.digits, it.power)


def truncated_of(text):
    """The text's number without what stands behind its point. The whole part is what may be out of range."""
    it = prefix(text)
    if it is None or not it.digits or len(it.digits) + it.power <= 0:
        return 0
    whole = it.digits if it.power >= 0 else it.digits[: it.power]
    return in_range(it.sign, whole, max(it.power, 0))


def looks_numeric(text):
    """A text looks numeric if it is number text followed by spaces only."""
    it = prefix(text)
    return it is not None and not text[it.length :].strip(SPACES)


def has_nonzero_digit(text):
    """Whether a digit before the exponent of a number text is not 0."""
    return bool(prefix(text).digits)


def text_of(number):
    """The decimal digits of a number."""
    return b"%d" % number
