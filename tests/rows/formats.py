"""Rows of sprintf and printf."""
from lines import ENDS, quoted, row

EVERY_FLAG = r"""
function bit(i, n, flag) { return int(i / n) % 2 ? flag : "" }
{ m = split(",9,.0,9.4,12.", w, ",")
  for (i = 0; i < 32; i++) {
    g = bit(i, 1, "-") bit(i, 2, "+") bit(i, 4, " ") bit(i, 8, "#") bit(i, 16, "0")
    for (j = 1; j <= m; j++) { f = "<%" g w[j] "LETTER>"; printf "%s " f f f f f "\n", g w[j], VALUES } } }"""

# letter: the values, of which $1 is this text
VALUES = {
    "d": ('0, 42, -7, "-3.5e1", $1', " 12.9x"),
    "i": ('0, 42, -7, "-3.5e1", $1', " 12.9x"),
    "o": ('0, 255, 8, "-2.9", $1', " 12.9x"),
    "x": ('0, 255, 8, "-2.9", $1', " 12.9x"),
    "X": ('0, 255, 8, "-2.9", $1', " 12.9x"),
    "u": ('0, 255, 8, "-2.9", $1', " 12.9x"),
    "c": ('u, 66, "xyz", "", $1', "66"),
    "s": ('u, -42, "abcdef", "", $1', " 7 "),
    "f": ('0, 3, -12, "-7", $1', "1e2"),
}


class Read(str):
    """A text that a script reads."""


def call(pattern, *values):
    """A row that formats values by a pattern."""
    read = [value for value in values if isinstance(value, Read)]
    places = iter(range(1, len(read) + 1))
    words = [f"${next(places)}" if isinstance(v, Read) else quoted(v) if isinstance(v, str) else str(v) for v in values]
    head = "{" if read else "BEGIN {"
    script = f'{head} printf {", ".join([quoted(pattern), *words])}; print "." }}'
    values = ", ".join(f"a read {quoted(v)}" if isinstance(v, Read) else word for v, word in zip(values, words))
    name = f"printf: {quoted(pattern)} of {values or 'nothing'}"
    return row(name, script, ",".join(read) + "\n", "v:FS=,") if read else row(name, script)


def every_flag():
    for letter, (values, text) in VALUES.items():
        yield row(f"printf: every flag, width and precision of %{letter}", EVERY_FLAG.replace("LETTER", letter).replace("VALUES", values), text + "\n", "v:FS=,")


def values():
    numbers = "0 1 7 8 9 10 15 16 99 100 255 4095 4096 2147483648 4294967295 9007199254740991 9007199254740992 -1 -8 -16 -2147483648 -9007199254740992"
    yield row("printf: numbers by every conversion", r'{ printf "%d %i %o %x %X %u %f %s\n", $1 + 0, $1, $1, $1, $1, $1, $1, $1 }', numbers.replace(" ", "\n") + "\n")
    codes = "0 1 9 10 37 92 127 128 255 256 257 511 -1 -255 -256 -257 65.9 9007199254740992 -9007199254740992"
    yield row("printf: bytes by their numbers", r'{ for (i = 1; i <= NF; i++) printf "[%c][%3c][%-3c]\n", int($i), $i, $i "" }', codes + "\n")
    texts = ["", " ", "0x1A", "+5", "-0", " 12abc", "1e3", "1e-1", ".5", "5.", "-7.9", "0.5", "9007199254740992", "9007199254740992.9"]
    yield row("printf: texts by conversions of numbers and bytes", r'{ t = $0 ""; printf "%d %u [%c] %s|%d %u [%c] %s\n", $0, $0, $0, $0, t, t, t, t }', "".join(text + "\n" for text in texts))
    whole = ["", " ", "0x1A", "+5", "-0", " 12abc", "1e3", "5.", "9007199254740992"]
    yield row("printf: texts by %f", r'{ t = $0 ""; printf "%f|%.1f\n", $0, t }', "".join(text + "\n" for text in whole))
    yield call("%d %o %x %u %f [%s] [%c]", *[Read("")] * 7)
    yield row("printf: no value by every conversion", r'BEGIN { printf "%d %o %x %u %f [%s] [%c]\n", u, u, u, u, u, u, u }')
    yield row(
        "printf: precisions of 0 and 9 by numbers",
        r'{ for (i = 1; i <= 7; i++) { c = substr("dioxXuf", i, 1); for (j = 1; j <= NF; j++) printf "[%" $j c "|%" $j c "]", 0, 9; print "" } }',
        ".0,.,.1,.5,5.0,05.0,#.0,#5.0,-5.0,+.0, .0\n",
        "v:FS=,",
    )


def patterns():
    yield row("printf: no conversion, %% and arguments too many", r'BEGIN { printf ""; printf "", 1; printf "%%|%%%%|%%d|%d%%|100%% of %s|\n", 1, "it"; print sprintf("z%d", 42, "more") sprintf("z%s", "a", 1) }')
    yield row("printf: flags again and together", r'BEGIN { printf "%-----5d|%0000007d|%+ +d|%- 0+#8x|% d% d%+d%+d|%+o%+x%+u% o% x\n", 1, 1, 1, 255, 1, -1, 1, -1, 1, 1, 1, 1, 1 }')
    yield row("printf: # by octal and hexadecimal", r'BEGIN { printf "%#o %#o %#.3o %#.1o %#.0o %#x %#X %#x %#08x %#-8x|\n", 0, 8, 8, 8, 0, 0, 255, 255, 255, 255 }')
    yield row("printf: texts that are cut", r'BEGIN { printf "%.2s|%.0s|%.9s|%5.1s|%-5.1s|%05s|%+s|% s|%#s\n", "xyz", "xyz", "xyz", "xyz", "xyz", "xyz", "xyz", "xyz", "xyz" }')
    yield row("printf: bytes that are no letters", r'BEGIN { printf "%s%s|\000\377%d|[%c][%c][%c]\n", "\000\200\n", "\t%d", 3, "\000a", "\377b", " 1x" }')
    wide = "65535 .65535 065535 .065535 -65535 00000000000000000000005 .00000000000000000000005"
    yield row(
        "printf: the greatest widths and precisions",
        ENDS
        + r"""
{ for (i = 1; i <= NF; i++) for (j = 1; j <= 5; j++) print ends(sprintf("<%" $i substr("dscfx", j, 1) ">", -5)) }""",
        wide + "\n",
    )
    yield row("printf: 1,000 conversions", ENDS + "\nBEGIN { while (i++ < 1000) f = f \"%d,\"; print ends(sprintf(f", "", "p:1000=, length(f)", "p:1=)) }")


MALFORMED = [
    "%", "%5", "%-", "%.", "%.3", "%5.", "%*d", "%.*d", "%5%", "%-%", "%.%", "% %", "%0%", "%#%", "%+%", "%i%", "%%%", "%q", "%D", "%e", "%g", "%a", "%ld",
    "%hd", "%p", "%n", "%S", "%C", "%'d", "%\000", "%\n", "%\377", "%5.3.2d", "%5-d", "%.-3d", "%$d", "%1$d",
]  # fmt: skip
COUNTS = ["65536", "4294967301", "18446744073709551621", "99999999999999999999999999"]


def format_faults():
    for pattern in MALFORMED:
        yield call(pattern, 1, 2)
        yield call("ab" + pattern)
    for letter in VALUES:
        yield call("%" + letter)
        yield call("%s%" + letter, "a")
    for count in COUNTS:
        for letter in "dscf":
            yield call(f"%{count}{letter}", 5)
            yield call(f"%.{count}{letter}", 5)
        yield call(f"%-{count}s|", "x")
        yield call(f"%0{count}x", -1)


def number_faults():
    """Faults of the values, and which comes first."""
    for letter in "dioxXuf":
        for text in ("1e99", "9007199254740993", "-9007199254740993"):
            yield call("%" + letter, text)
            yield call("%" + letter, Read(text))
    for text in ("0.5", ".5", "1e-1", "-7.9", "9007199254740992.5"):
        yield call("%f", text)
        yield call("%f", Read(text))
    for text in ("1e99", "-9007199254740993"):
        yield call("%c", Read(text))
    mixed = [("%f%q", "0.5"), ("%q%f", "0.5"), ("%d%f", "1e99", "0.5"), ("%f%d", "0.5", "1e99"), ("%f%d", "0.5"), ("%99999f", "0.5"), ("%f%99999d", "0.5", 1)]
    mixed += [("%s%d%f", "0.5", "1e99", "0.5"), ("%c%f", "1e99", "0.5"), ("%c%f", Read("1e99"), "0.5"), ("%c%d", "1e99", 7)]
    for each in mixed:
        yield call(*each)


def limits():
    """A text of 67,108,864 bytes, one more, and the order of the faults."""
    def long(name, unit, count, tail, values):
        script = f'BEGIN {{ while (i++ < {count}) f = f {quoted(unit)}; while (j++ < 1024) t = t "x"; print length(sprintf(f {tail}'
        return row(name, script, "", f"p:{values}=, 7", "p:1=)) }")

    yield long("printf: a text of 67,108,864 bytes", "%65535s", 1024, "t", 1024)
    yield long("printf: Format right after the longest text", "%65535s", 1024, 't "%1025%"', 1024)
    yield long("printf: TextLimit before Format", "%-65535d%065535f%.65535d", 341, '"%65535c" t "x%q"', 1024)


def rows():
    for part in (every_flag, values, patterns, format_faults, number_faults, limits):
        yield from part()
