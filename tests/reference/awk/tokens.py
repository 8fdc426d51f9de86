"""The tokens of a script."""
import re
from typing import NamedTuple

WORDS = set("BEGIN END function if else while for do break continue next nextfile exit return delete in getline print printf".split())
FUNCTIONS = set("length substr index split sub gsub match sprintf tolower toupper int close fflush".split())
# reserved, and refused by name
LEFT_OUT = set("atan2 cos sin exp log sqrt rand srand system func".split())
RESERVED = WORDS | FUNCTIONS | LEFT_OUT


class Token(NamedTuple):
    """`kind` is name, funcname, number, string or ere, or a word or punctuator itself. `line` is that of the first byte, `text` a part of the script; that of
    an inserted semicolon is empty, and its line the former token's."""

    kind: str
    line: int
    text: bytes


class TokenFault(Exception):
    """BadByte, OpenString or OpenEre, with its line."""

    def __init__(self, name, line):
        super().__init__(name, line)
        self.name, self.line = name, line


# a backslash before a newline counts as a blank
BLANK = re.compile(rb"(?:[ \t]|\\\n)+|#[^\n]*")
NAME = re.compile(rb"[A-Za-z_][A-Za-z0-9_]*")
NUMBER = re.compile(rb"(?:[0-9]+(?:\.[0-9]*)?|\.[0-9]+)(?:[eE][+-]?[0-9]+)?")
STRING = re.compile(rb'"(?:[^"\\\n]|\\.)*"', re.DOTALL)
ERE = re.compile(rb"/(?:[^/\\\n]|\\[^\n])*/")
# the longest token counts
PUNCTUATORS = sorted(
    b"{ } ( ) [ ] ; , + - * / % ^ ! > < | ? : ~ $ = += -= *= /= %= ^= == <= >= != !~ ++ -- && || >>".split(), key=len, reverse=True
)

# After these a slash divides; everywhere else it begins an ERE. After `)` it divides unless the parenthesis is that of `if`, `while` or `for`.
DIVIDES_AFTER = {"number", "string", "ere", "name", "length", "getline", "]", "++", "--"}
# After these a newline means nothing.
NO_END_AFTER = {";", "{", "}", "&&", "||", ",", "do", "else"}


class Reader:
    """Cuts a script into tokens, from the left."""

    def __init__(self, script):
        self.script, self.at, self.line = script, 0, 1
        self.tokens = []
        # for each open parenthesis, and for the one that was closed last: `control` after if, while and for, `list` of a function's parameters
        self.parentheses, self.closed = [], ""

    def last(self, back=1):
        return self.tokens[-back].kind if len(self.tokens) >= back else ""

    def pass_over(self, text):
        self.at += len(text)
        self.line += text.count(b"\n")

    def read(self):
        after_newline = False
        while self.at < len(self.script):
            blank = BLANK.match(self.script, self.at)
            if blank:
                self.pass_over(blank[0])
            elif self.script.startswith(b"\n", self.at):
                if not after_newline and self.newline_ends():
                    self.tokens.append(Token(";", self.line, b"\n"))
                after_newline = True
                self.pass_over(b"\n")
            else:
                kind, text = self.token()
                self.note(kind)
                self.tokens.append(Token(kind, self.line, text))
                after_newline = False
                self.pass_over(text)
        return self.tokens

    def newline_ends(self):
        """Whether a newline here is a semicolon."""
        last = self.last()
        return not (last in ("", *NO_END_AFTER) or (last == ")" and self.closed))

    def note(self, kind):
        """Keeps what a parenthesis is for."""
        if kind == "(":
            control = self.last() in ("if", "while", "for")
            parameters = self.last() in ("name", "funcname") and self.last(2) == "function"
            self.parentheses.append("control" if control else "list" if parameters else "")
        elif kind == ")":
            self.closed = self.parentheses.pop() if self.parentheses else ""

    def token(self):
        found = NAME.match(self.script, self.at)
        if found:
            word = found[0].decode()
            if word in RESERVED:
                return word, found[0]
            # a name directly before `(` is that of a function
            return "funcname" if self.script.startswith(b"(", found.end()) else "name", found[0]
        found = NUMBER.match(self.script, self.at)
        if found:
            return "number", found[0]
        if self.script.startswith(b'"', self.at):
            return "string", self.enclosed(STRING, "OpenString")
        divides = self.last() in DIVIDES_AFTER or (self.last() == ")" and self.closed != "control")
        if self.script.startswith(b"/", self.at) and not divides:
            return "ere", self.enclosed(ERE, "OpenEre")
        for punctuator in PUNCTUATORS:
            if self.script.startswith(punctuator, self.at):
                return punctuator.decode(), punctuator
        raise TokenFault("BadByte", self.line)

    def enclosed(self, pattern, fault):
        """A string or an ERE. Its end has to come before a newline that no backslash escapes; in an ERE before every newline."""
        found = pattern.match(self.script, self.at)
        if not found:
            raise TokenFault(fault, self.line)
        return found[0]


def ends_inserted(tokens):
    """A semicolon between `}` and `else`, or `}` and `while`, is dropped. One is put before each `}` that has no other end before it, and at the end."""
    around = [Token("", 1, b""), *tokens, Token("", 1, b"")]
    found = []
    for before, token, behind in zip(around, tokens, around[2:]):
        if token.kind == ";" and before.kind == "}" and behind.kind in ("else", "while"):
            continue
        if token.kind == "}" and (not found or found[-1].kind not in ("{", "}", ";")):
            found.append(Token(";", found[-1].line if found else 1, b""))
        found.append(token)
    if found and found[-1].kind not in (";", "}"):
        found.append(Token(";", found[-1].line, b""))
    return found


def tokens(script):
    return ends_inserted(Reader(script).read())


ESCAPE = re.compile(rb"\\(?:([0-7]{1,3})|(.)|$)", re.DOTALL)
ESCAPED = {b'"': b'"', b"/": b"/", b"\\": b"\\", b"a": b"\a", b"b": b"\b", b"f": b"\f", b"n": b"\n", b"r": b"\r", b"t": b"\t", b"v": b"\v", b"\n": b""}


def unescaped(text):
    """A text without its escapes: one to three octal digits are a byte (its low eight bits), a backslash before a newline goes with it, another escaped byte
    keeps its backslash, and so does the end."""

    def byte(found):
        octal, other = found.groups()
        if octal:
            return bytes([int(octal, 8) & 255])
        return b"\\" if other is None else ESCAPED.get(other, found[0])

    return ESCAPE.sub(byte, text)


def within(text):
    """What stands between the quotes of a string, or the slashes of an ERE."""
    return text[1:-1]
