"""Extended regular expressions: their trees, and the leftmost longest match by the ends that a match of each part can have."""
from dataclasses import dataclass

MAX_POSITIONS, MAX_NESTING, MAX_COUNT = 10_000, 1_000, 255
EVERY_BYTE = frozenset(range(256))
DIGITS = b"0123456789"
LOWER = b"abcdefghijklmnopqrstuvwxyz"
UPPER = LOWER.upper()
PRINTED = bytes(range(32, 127))
# over ASCII
CLASSES = {
    b"alnum": LOWER + UPPER + DIGITS, b"alpha": LOWER + UPPER, b"blank": b" \t", b"cntrl": bytes([*range(32), 127]), b"digit": DIGITS,
    b"graph": PRINTED[1:], b"lower": LOWER, b"print": PRINTED, b"punct": bytes(c for c in PRINTED[1:] if c not in LOWER + UPPER + DIGITS),
    b"space": b" \t\n\v\f\r", b"upper": UPPER, b"xdigit": DIGITS + b"abcdefABCDEF",
}  # fmt: skip
ESCAPED = {ord("a"): 7, ord("b"): 8, ord("f"): 12, ord("n"): 10, ord("r"): 13, ord("t"): 9, ord("v"): 11}
OCTAL = b"01234567"


class EreFault(Exception):
    """BadEre with the place where reading stopped, or EreTooLarge."""

    def __init__(self, name, place=None):
        super().__init__(name, place)
        self.name, self.place = name, place


# The parts of an expression. `ends(text, starts)` are the places where a match can end that starts at one of these; `positions` and `nesting` are what the
# limits are about.


@dataclass(frozen=True)
class Byte:
    """One byte of a set."""

    of: frozenset
    positions, nesting = 1, 0

    def ends(self, text, starts):
        return {at + 1 for at in starts if at < len(text) and text[at] in self.of}


@dataclass(frozen=True)
class Anchor:
    """`^`, the start of the whole text, or `$`, its end; anywhere in an expression."""

    is_start: bool
    positions, nesting = 1, 0

    def ends(self, text, starts):
        return starts & {0 if self.is_start else len(text)}


@dataclass(frozen=True)
class Nothing:
    """The empty expression, which matches the empty text."""

    positions, nesting = 0, 0

    def ends(self, text, starts):
        return starts


class Several:
    def __init__(self, parts):
        self.parts = parts
        self.positions = sum(it.positions for it in parts)
        self.nesting = max(it.nesting for it in parts)


class Sequence(Several):
    def ends(self, text, starts):
        for part in self.parts:
            starts = starts and part.ends(text, starts)
        return starts


class Choice(Several):
    def ends(self, text, starts):
        return set().union(*(part.ends(text, starts) for part in self.parts))


class Grouped:
    def __init__(self, inside):
        self.inside, self.positions, self.nesting = inside, inside.positions, inside.nesting + 1

    def ends(self, text, starts):
        return self.inside.ends(text, starts)


class Repeated:
    """From `least` to `most` times; without `most` any number of times."""

    def __init__(self, inside, least, most):
        self.inside, self.least, self.most = inside, least, most
        # `{m}` counts m times, `{m,n}` n times, `{m,}` m times but at least once
        self.positions = inside.positions * (max(least, 1) if most is None else most)
        self.nesting = inside.nesting + 1

    def ends(self, text, starts):
        for _ in range(self.least):
            starts = starts and self.inside.ends(text, starts)
        found, new, times = set(starts), starts, self.least
        while new and times != self.most:
            new = self.inside.ends(text, new) - found
            found |= new
            times += 1
        return found


class Reader:
    """Reads an expression from the left."""

    def __init__(self, text):
        self.text, self.at = text, 0

    def look(self, ahead=0):
        return self.text[self.at + ahead : self.at + ahead + 1]

    def bad(self):
        raise EreFault("BadEre", self.at)

    def choice(self, is_open):
        """Branches with `|` between them; `is_open` within a parenthesis."""
        branches = [self.branch(is_open)]
        while self.look() == b"|":
            self.at += 1
            branches.append(self.branch(is_open))
        return branches[0] if len(branches) == 1 else Choice(branches)

    def branch(self, is_open):
        """Parts after one another. A branch is not empty; no repetition stands at its start or after `^`."""
        parts = []
        while self.look() not in (b"", b"|") and not (is_open and self.look() == b")"):
            if self.repetition():
                self.bad()
            part = self.part(is_open)
            # several repetitions in a row apply in turn
            while part != Anchor(True) and (counts := self.repetition()):
                least, most, self.at = counts
                part = Repeated(part, least, most)
            parts.append(part)
        if not parts:
            self.bad()
        return parts[0] if len(parts) == 1 else Sequence(parts)

    def repetition(self):
        """The counts of the repetition that begins here, and where it ends; else None. A `{` that begins no interval is an ordinary byte."""
        simple = {b"*": (0, None), b"+": (1, None), b"?": (0, 1)}.get(self.look())
        if simple:
            return *simple, self.at + 1
        if self.look() != b"{":
            return None
        at, least = self.count(self.at + 1)
        most = least
        if least is not None and self.text[at : at + 1] == b",":
            at, most = self.count(at + 1)
        if least is None or self.text[at : at + 1] != b"}":
            return None
        if max(least, most or 0) > MAX_COUNT or (most is not None and most < least):
            self.bad()
        return least, most, at + 1

    def count(self, at):
        """The digits at a place: where they end, and their number, if there are any."""
        end = at
        while self.text[end : end + 1].isdigit():
            end += 1
        digits = self.text[at:end].lstrip(b"0")
        if end == at:
            return end, None
        return end, int(digits or b"0") if len(digits) < 4 else MAX_COUNT + 1

    def part(self, is_open):
        """A group, a bracket expression, an escape, `.`, an anchor, or an ordinary byte; such is a `)` that no `(` opened, and a `]` outside brackets."""
        byte = self.look()
        if byte == b"\\":
            return Byte(frozenset([self.escape()]))
        self.at += 1
        if byte == b"(":
            inside = self.choice(True)
            if self.look() != b")":
                self.bad()
            self.at += 1
            return Grouped(inside)
        if byte == b"[":
            return Byte(self.bracket())
        if byte in b"^$":
            return Anchor(byte == b"^")
        return Byte(EVERY_BYTE if byte == b"." else frozenset(byte))

    def escape(self):
        """The escapes of strings; any other escaped byte is that byte. An escape gives an ordinary byte."""
        self.at += 1
        if self.at >= len(self.text):
            self.bad()
        digits = b""
        while len(digits) < 3 and self.look() and self.look() in OCTAL:
            digits += self.look()
            self.at += 1
        if digits:
            return int(digits, 8) & 255
        self.at += 1
        return ESCAPED.get(self.text[self.at - 1], self.text[self.at - 1])

    def bracket(self):
        """The bytes of a bracket expression. `]` is ordinary first in it, and after the `^` that negates it."""
        negated = self.look() == b"^"
        self.at += negated
        members, begin = set(), self.at
        while self.look() != b"]" or self.at == begin:
            if not self.look():
                self.bad()
            if self.is_named():
                members |= self.named()
            elif self.look() == b"-" and self.at != begin and self.look(1) != b"]":
                # `-` is ordinary first or last; else it stands between the bytes of a range, or is the upper of them
                self.bad()
            else:
                members |= self.range()
        self.at += 1
        return EVERY_BYTE - members if negated else frozenset(members)

    def range(self):
        """A byte, or all from one to another."""
        low = self.member()
        if self.look() != b"-" or self.look(1) in (b"]", b""):
            return {low}
        self.at += 1
        if self.is_named():
            self.bad()
        high = self.member()
        if high < low:
            self.bad()
        return set(range(low, high + 1))

    def member(self):
        if self.look() == b"\\":
            return self.escape()
        self.at += 1
        return self.text[self.at - 1]

    def is_named(self):
        return self.look() == b"[" and self.look(1) in (b":", b".", b"=")

    def named(self):
        """`[:alpha:]` and the like; `[.` and `[=` are not in this profile."""
        end = self.text.find(b":]", self.at + 2)
        name = self.text[self.at + 2 : end]
        if self.look(1) != b":" or end < 0 or name not in CLASSES:
            self.bad()
        self.at = end + 2
        return set(CLASSES[name])


def read_ere(text):
    """The tree of an expression's text. EreTooLarge only if there is one."""
    tree = Reader(text).choice(False) if text else Nothing()
    if tree.positions > MAX_POSITIONS or tree.nesting > MAX_NESTING:
        raise EreFault("EreTooLarge")
    return tree


def first_match(tree, text, begin=0, is_wanted=lambda start, end: True):
    """The leftmost match from a place on, and of these the longest: its start and end, or None. Others than wanted ones do not count."""
    for start in range(begin, len(text) + 1):
        ends = tree.ends(text, {start})
        if ends and is_wanted(start, max(ends)):
            return start, max(ends)
    return None


def is_match(tree, text):
    return first_match(tree, text) is not None


def first_that_is_not_empty(tree, text, begin):
    """Empty matches never separate fields."""
    return first_match(tree, text, begin, lambda start, end: start < end)
