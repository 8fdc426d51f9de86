"""Random scripts: of every kind of expression and statement, and rows of test_scripts with some parts changed."""
import re

# In a part `{e}` stands for an expression, and `{s}` for a statement.
OPERANDS = [
    "x", "y", "1", "0", "2", '"a b"', '"0.5"', "$1", "$0", "NF", "NR", "$NF", 'a["k"]', "a[x]", "b[1, y]", "getline", '(getline z < "f")', "length", "/a/", "f(x)",
    "f(1, a)", "g()", "substr($0, 2)", "FS", "$(x)", "split($0, a)", 'sub(/a/, "&b")', 'gsub("b", "c", x)', 'sprintf("%d|%s", x, y)', "int(x / 2)",
    '("k" in a)', "((1, y) in b)", "x++", "++y", "-x", "!y", "match($0, /b+/)", 'close("f")', "index($0, x)", "toupper(y)", 'split($0, a, "")',
    "substr($0, y, 2)", "$NF--", "RSTART RLENGTH", 'sprintf("%5.2s%c%x", $0, x, y)', "ENVIRON[x]", "ARGV[1]", 'fflush("f")', "x ~ $1",
]  # fmt: skip
OPERATORS = [" + ", " - ", " * ", " % ", " ", " ", " == ", " < ", " ~ ", " && ", " || ", " = ", " += ", " ^ ", " / ", " in a ? 1 : "]
STATEMENTS = [
    "print", "print {e}", "print {e}, {e}", 'print {e} > "f"', 'printf "%s %d\\n", {e}, {e}', "{e}", "x = {e}", "y = {e}", "$2 = {e}", "NF = {e}",
    "a[{e}] = {e}", 'delete a["k"]', "delete a", "next", "nextfile", "exit {e}", "exit", "FS = {e}", "RS = {e}", "getline", "getline x", 'getline y < "g"',
    "if ({e}) {s}; else {s}", "for (k in a) {s}", "for (i = 0; i < 3; i++) {s}", "while (x-- > 0) {s}", "do {s}; while (y++ < 2)", 'OFS = "-"', "$0 = {e}",
    'printf "%.3d|%-4i|%#o\\n", {e}, {e}, {e}', 'print {e} >> "g"', 'RS = ""; FS = {e}',
]  # fmt: skip
FUNCTIONS = "function f(p, q) { p = p 1; if (q[1]) return p; return p x }\nfunction g() { y++; if (y > 3) next; return y }\n"


def expression(chance, most):
    found = chance.choice(OPERANDS)
    while most > 0 and chance.random() < 0.4:
        most -= 1
        found += chance.choice(OPERATORS) + chance.choice(OPERANDS)
    return f"({found})" if chance.random() < 0.2 else found


def statement(chance, depth=2):
    found = chance.choice(STATEMENTS)
    while "{e}" in found:
        found = found.replace("{e}", expression(chance, 2), 1)
    while "{s}" in found:
        found = found.replace("{s}", statement(chance, depth - 1) if depth > 0 else "x++", 1)
    return found


def block(chance):
    return "{ " + chance.choice(["; ", "\n", ";\n"]).join(statement(chance) for _ in range(chance.randrange(1, 4))) + " }"


def without_next(text):
    """BEGIN and END have no `next` and no `nextfile`."""
    return re.sub(r"\bnext(file)?\b", "x++", text)


def script(chance):
    pattern = chance.choice(["", expression(chance, 1), "/a/, /b/", "NR == 2"])
    found = f"{FUNCTIONS}BEGIN {without_next(block(chance))}\n{pattern} {block(chance)}"
    if chance.random() < 0.5:
        found += f"\nEND {without_next(block(chance))}"
    return found.encode()


# What is put into a script of a row.
PIECES = b"{ } ( ) [ ] ; , < > >> == = + ++ - -- * / % ^ ! ~ ? : && || $ in if else while for do next exit return function getline print printf BEGIN END".split()
PIECES += [b"\n", b" ", b"\\", b'"', b"/", b"#", b"0", b"1e3", b"x", b"a", b"f(", b"\x00", b"\xff"]
PART = re.compile(rb"[A-Za-z_0-9]+|\s+|.", re.DOTALL)


def replaced(chance, parts, others):
    """Takes a part out, or puts one in, another one, a byte, a repetition, or parts of another script."""
    at = chance.randrange(len(parts) + 1)
    begin = chance.randrange(len(others))
    kinds = [
        (1, []),
        (0, [chance.choice(PIECES)]),
        (1, [chance.choice(PIECES)]),
        (0, parts[at : at + chance.randrange(1, 4)]),
        (0, others[begin : begin + chance.randrange(1, 6)]),
        (1, [bytes([chance.randrange(256)])]),
    ]
    gone, new = chance.choice(kinds)
    return parts[:at] + new + parts[at + gone :]


def changed(chance, scripts):
    """One of some scripts with one to three changes."""
    parts = PART.findall(chance.choice(scripts))
    for _ in range(chance.choice((1, 1, 1, 2, 3))):
        parts = replaced(chance, parts, PART.findall(chance.choice(scripts)))
    return b"".join(parts)
