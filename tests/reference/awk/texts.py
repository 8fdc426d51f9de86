"""The text functions but `sprintf`, and how texts are cut into fields."""
import functools
import re

from . import ere, values
from .values import Fault


def substr(text, first, count=None):
    """The bytes at places p, from 1 on, with first <= p < first + count; without a count up to the end. The sum has no range."""
    end = len(text) + 1 if count is None else min(first + count, len(text) + 1)
    first = max(first, 1)
    return text[first - 1 : end - 1] if first < end else b""


def index(text, part):
    """The first place of a part, from 1, or 0; 0 for an empty part."""
    return text.find(part) + 1 if part else 0


def lower(text):
    """ASCII letters only."""
    return bytes(byte + 32 if 65 <= byte <= 90 else byte for byte in text)


def upper(text):
    return bytes(byte - 32 if 97 <= byte <= 122 else byte for byte in text)


@functools.lru_cache(1000)
def expression(text):
    """The tree of an expression that is met at run time."""
    try:
        return ere.read_ere(text)
    except ere.EreFault as fault:
        raise Fault(fault.name) from None


REPLACED = re.compile(rb"\\[\\&]|&")


def replacement(text, match):
    """In a replacement `&` is the match, `\\&` an ampersand, `\\\\` a backslash, and any other backslash itself."""
    return REPLACED.sub(lambda found: match if found[0] == b"&" else found[0][1:], text)


def places(tree, text, is_global):
    """The matches that `sub` or `gsub` takes, from left to right; an empty match directly after the former match is skipped."""
    found, at = [], 0
    while at <= len(text) and (match := ere.first_match(tree, text, at)):
        start, end = match
        if start < end or not found or found[-1][1] != start:
            found.append(match)
            if not is_global:
                break
        at = max(end, start + 1)
    return found


def substitute(tree, with_text, text, is_global):
    """How many matches are replaced, and the new text."""
    found, parts, size, at = places(tree, text, is_global), [], len(text), 0
    for start, end in found:
        parts += [text[at:start], replacement(with_text, text[start:end])]
        size += len(parts[-1]) - (end - start)
        at = end
    if size > values.TEXT_LIMIT:
        raise Fault("TextLimit")
    return len(found), b"".join([*parts, text[at:]])


BLANKS = re.compile(rb"[ \t\n]+")


def split_by(separator, text, newline_separates=False):
    """The fields of a text. A separator of one space: runs of space, tab and newline separate, both ends are trimmed. Another single byte: each occurrence
    separates. A longer one is an expression. None: each byte is a field. A newline may separate besides, unless there is no separator."""
    if len(separator) > 1:
        # a fault of the expression comes for an empty text too
        return split_by_ere(expression(separator), text, newline_separates)
    if not text:
        return []
    if separator == b" ":
        return [part for part in BLANKS.split(text) if part]
    if not separator:
        return [bytes([byte]) for byte in text]
    if newline_separates:
        text = text.replace(b"\n", separator)
    return text.split(separator)


def split_by_ere(tree, text, newline_separates=False):
    """The fields between matches that are not empty. Of a newline and a match the earlier counts, and at one place the longer. An empty text has no fields."""
    if not text:
        return []
    fields, at = [], 0
    while True:
        match = ere.first_that_is_not_empty(tree, text, at)
        newline = text.find(b"\n", at) if newline_separates else -1
        if newline >= 0 and (match is None or newline < match[0]):
            match = newline, newline + 1
        if match is None:
            return [*fields, text[at:]]
        fields.append(text[at : match[0]])
        at = match[1]


