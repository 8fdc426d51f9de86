"""Formatted text: `printf` and `sprintf`."""
import re

from . import numbers, values
from .values import Fault, Num, StrNum

# the greatest width and precision
MOST_WIDTH = 65_535
CONVERSION = re.compile(rb"%([-+ #0]*)([0-9]*)(\.[0-9]*)?(.)?", re.DOTALL)
LETTERS = b"dioxXucsf"


def formatted(pattern, arguments):
    """The text of a pattern and values. Faults come in order of the pattern; extra arguments are ignored."""
    parts, size, at, rest = [], 0, 0, list(arguments)
    while at < len(pattern):
        percent = pattern.find(b"%", at)
        percent = len(pattern) if percent < 0 else percent
        parts.append(pattern[at:percent])
        at = percent
        size = within_limit(size + len(parts[-1]))
        found = CONVERSION.match(pattern, at)
        if found:
            parts.append(b"%" if found[0] == b"%%" else conversion(*found.groups(), rest))
            at = found.end()
            size = within_limit(size + len(parts[-1]))
    return b"".join(parts)


def within_limit(size):
    if size > values.TEXT_LIMIT:
        raise Fault("TextLimit")
    return size


def conversion(flags, width, precision, letter, rest):
    """The text of the next argument. Format: no letter of a conversion where it is due (`%%` with anything between is none), a count past the greatest, or no
    argument."""
    if letter is None or letter not in LETTERS:
        raise Fault("Format")
    width = count(width)
    # without digits a precision is 0
    precision = None if precision is None else count(precision[1:])
    if not rest:
        raise Fault("Format")
    value = rest.pop(0)
    if letter == b"s":
        return padded(values.text(value)[:precision], flags, width)
    if letter == b"c":
        return padded(byte_of(value), flags, width)
    return number_text(flags, width, precision, letter, value)


def count(digits):
    digits = digits.lstrip(b"0")
    if len(digits) > 5 or int(digits or b"0") > MOST_WIDTH:
        raise Fault("Format")
    return int(digits or b"0")


def padded(text, flags, width):
    """Padding is by spaces, and at the right with `-`."""
    return text.ljust(width) if b"-" in flags else text.rjust(width)


def byte_of(value):
    """The byte of a number, or of a numeric string that looks numeric, modulo 256; else the first byte of the text, if it has one."""
    match value:
        case Num():
            return bytes([value.of % 256])
        case StrNum(of) if numbers.looks_numeric(of):
            return bytes([values.truncated(value) % 256])
    return values.text(value)[:1]


def number_text(flags, width, precision, letter, value):
    """`d i o x X u` take the number truncated as by `int`; `o x X u` of a negative number take it modulo 2^64. `0` pads between sign and digits, not with `-`
    nor, except for `f`, with a precision."""
    number = values.number(value) if letter == b"f" else values.truncated(value)
    signed = letter in b"dif"
    sign = sign_of(flags, number) if signed else b""
    digits = digits_of(letter, abs(number) if signed else number % 2**64)
    if letter == b"f":
        digits = with_point(flags, precision, digits)
    elif precision is not None:
        # a precision is the least count of digits, and one of 0 prints none of the number 0
        digits = digits.rjust(precision, b"0") if number or precision else b""
    if b"#" in flags and letter == b"o" and not digits.startswith(b"0"):
        digits = b"0" + digits
    if b"#" in flags and letter in b"xX" and number:
        sign = b"0" + letter
    if b"0" in flags and b"-" not in flags and (precision is None or letter == b"f"):
        digits = digits.rjust(width - len(sign), b"0")
    return padded(sign + digits, flags, width)


def sign_of(flags, number):
    """`+` beats space."""
    if number < 0:
        return b"-"
    return b"+" if b"+" in flags else b" " if b" " in flags else b""


def digits_of(letter, number):
    return {b"o": b"%o", b"x": b"%x", b"X": b"%X"}.get(letter, b"%d") % number


def with_point(flags, precision, digits):
    """`f` has a point and as many zeros as the precision says, 6 without one; without zeros it has a point only with `#`."""
    zeros = 6 if precision is None else precision
    return digits + (b"." if zeros or b"#" in flags else b"") + b"0" * zeros
