"""Rows of number texts, escapes, operators, values and comparisons."""
from lines import row

# Texts that have a number; with a Fraction, where `int` has none (False) or has one (True); past the greatest number.
NUMBERS = [
    "", " +1.50e1 x", " +1.50e1 \n", "\v\f\r12\t", "0x1A", "1e", "1e+", ".", "+-1", "1.", ".5e1", "1.e2", "10E-1", "1.0", "0e999999999999", "9007199254740992",
    "12 34",
]  # fmt: skip
FAULTS = [("1e-1", True), ("1e16", False), ("-7.9", True), ("1e-99999999999999999999", True), ("-9007199254740993", False), ("9007199254740992.5", True), ("90071992547409930.5", False)]

STRINGS = [r"\"\/\\\a\b\f\n\r\t\v", r"\7x\12\101", r"\1018\400", "a\\\nb", r"\q\.", r"\1\n\89", ""]

MOST = 9007199254740992
OPERATORS = {
    "$1 + $2": ([(MOST - 1, 1)], [(MOST, 1)]),
    "$1 - $2": ([], [(-MOST, 1)]),
    "$1 * $2": ([(-4503599627370496, 2)], [(MOST, MOST)]),
    "$1 / $2": ([(-8, 2)], [(7, 2), (1, 0)]),
    "int($1 / $2)": ([(7, 2), (-7, 2)], [(0, 0)]),
    "$1 % $2": ([(-7, 3), (7, -3)], [(7, 0)]),
    "$1 ^ $2": ([(2, 53), (-2, 53), (0, 0), (0, MOST), (-1, MOST), (-1, -3), (1, -MOST)], [(2, 54), (3, MOST), (0, -1), (2, -1)]),
}

READ = '{e} + 0, "[" {e} "]", {e} ? "true" : "false"'

# A comparison, and the fields that it reads.
COMPARISONS = [
    ("u == v",), ("u == 0",), ('u == ""',), ('u == "0"',), ("u == $1", "0.0"), ("u == $1", ","), ("10 > 9",), ('10 > "9"',), ("1 == $1", "1.0"), ("1 < $1", "1x"),
    ('"10" < "9"',), ('"10" < $1', "9"), ("$1 < $2", "10,9"), ("$1 >= $2", "10,9"), ("$1 <= $2", "10,9x"), ('$1 != "1"', "1.0"), ('$1 == "0.5"', "0.5"),
    ('"a" < "ab"',), (r'"\177" < "\302\200"',),
]  # fmt: skip
FAULTY = [("$1 == $2", "0.5,0.5"), ("$1 == $2", "1e99,0.5"), ("1 < $1", "0.5")]


def numbers():
    yield row("number texts: worked ones", 'BEGIN { RS = "@" } { print $0 + 0, int($0), ($0 == $0 + 0) }', "".join(text + "@" for text in NUMBERS))
    for text, has_whole in FAULTS:
        if not has_whole:
            yield row(f"number texts: int of {text} is out of range", '{ print "x"; print int($0); print "no" }', text)
        yield row(f"number texts: the number of {text}", '{ print "x"' + (", int($0)" if has_whole else "") + '; print $0 + 0; print "no" }', text)


def strings():
    yield row("tokens: strings and their escapes", "BEGIN { " + "; ".join(f'print "{text}"' for text in STRINGS) + " }")
    for text in ["a\\", r"\1\n\89", r"\"b\n\""]:
        yield row(f"command-line assignments: escapes, {text}", "BEGIN { print v }", "", "v:v=" + text)


def operators():
    for operation, (good, bad) in OPERATORS.items():
        if good:
            yield row(f"arithmetic: {operation} at its limits", f"{{ print {operation} }}", "".join(f"{a} {b}\n" for a, b in good))
        for a, b in bad:
            yield row(f"arithmetic: {operation} of {a} and {b}", f'{{ print "x"; print {operation}; print "no" }}', f"{a} {b}\n")


def values():
    yield row("values: truth of numeric strings and texts", 'BEGIN { RS = "@" } { print ' + READ.format(e="$0") + " }", "".join(text + "@" for text in ["0.0", " 0 ", "-0e7", "0x", " ", ""]))
    for text in "0.5", "1e99":
        yield row(f"values: truth of {text}, and its number", '{ print "[" $0 "]", $0 ? "true" : "false"; print $0 + 0; print "no" }', text)
    yield row("values: number, text and truth of each kind", 'BEGIN { n = -12; z = 0; t = "3x"; o = "0"; e = ""; ' + "; ".join("print " + READ.format(e=name) for name in "unztoe") + " }")


def comparisons():
    for comparison, *fields in COMPARISONS:
        yield row(f"comparison: {comparison}" + "".join(f" of {it}" for it in fields), f'BEGIN {{ FS = "," }} {{ print ({comparison}) }}', "".join(fields) + "\n")
    for comparison, fields in FAULTY:
        yield row(f"comparison: {comparison} of {fields}", f'BEGIN {{ FS = "," }} {{ print "x"; print ({comparison}); print "no" }}', fields + "\n")


def rows():
    for part in numbers, strings, operators, values, comparisons:
        yield from part()
