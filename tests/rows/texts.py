"""Rows of the text functions but sprintf."""
from fields import BAD, LARGE
from lines import ENDS, LISTS, TIMES, lists, quoted, row

TEXTS = [
    "", "a", "x", "hello", "abcabc", "aXbXXc", "axxbc", "baa", "Hello, World!", "  two  words\t", "foo.bar|baz\\q", "line\nbreak\n", "a,b\nc", "a\nb c",
    "a:b::c", "\377\000z",
]  # fmt: skip
SEPARATORS = ["", " ", ",", ":", ".", "|", "\\", "X", "\t", "\n", "\n+", "X+", "x*", "^a", "b$", "a|bX", "[ ,]+", "(\n|X)X", "ab"]
EXPRESSIONS = ["", "^", "$", "a", "x*", "^a", "a{2}", "b+|a", "b|bc", "\\.", "(a|ab)(c|bcd)?", "[^a-c]"]
REPLACEMENTS = ["", "-", "<&>", "\\", "\\&", "\\\\&\\\\", "x\\y&"]
TARGETS = ["", "baa", "axxbc", "abcabcd", "aXbXXc", "foo.bar"]


def cases():
    yield row("text functions: letters among all bytes", r'BEGIN { for (i = 0; i < 256; i++) s = s sprintf("%c", i); print tolower(s); print toupper(s); print "[" tolower("") toupper("") "]" }')
    yield row("text functions: small and great letters of texts", r'BEGIN { RS = "~" } { printf "%s|%s~", tolower($0), toupper($0) }', "~".join(TEXTS) + "~")


def parts():
    places = "-9007199254740992 -5 -1 0 1 2 3 5 6 7 9007199254740992"
    yield row(
        "text functions: substr from and to every place",
        r"""
{ n = split("|hello|\377\000z", t, "|"); for (j = 1; j <= n; j++) for (i = 1; i <= NF; i++) {
    printf "%s:", substr(t[j], $i); for (q = 1; q <= NF; q++) printf " %s", substr(t[j], $i, $q); print "" } }""",
        places + "\n",
    )
    yield row(
        "text functions: index of every part",
        "BEGIN { " + LISTS + r"""
  for (j = 1; j <= n; j++) { for (i = 1; i <= m; i++) printf "%d ", index(t[j], f[i]); print index(t[j], t[j]), index(t[j], t[j] "a") } }""",
        lists(TEXTS, ["", "a", "X", "bc", "l", "lo", "\n", "\000", "zz", "abc"]),
    )


def splits():
    yield row(
        "text functions: split by every separator",
        "BEGIN { " + LISTS + r"""
  for (i = 1; i <= m; i++) for (j = 1; j <= n; j++) {
    c = split(t[j], a, f[i]); printf "%d", c; for (q = 1; q <= c; q++) printf "[%s]", a[q]; FS = f[i]
    d = split(t[j], b); print (c == d && a[c] == b[d]) ? "" : " another by FS" } }""",
        lists(TEXTS, SEPARATORS),
    )
    yield row("text functions: split in paragraph mode", r'BEGIN { RS = ""; a[9]; print split("a\nb,c", a, ","), a[1], (9 in a), split("a\nb", a, " "), split("a\nb", a, /b/), split("", a), (1 in a) }')
    yield row("text functions: split by constant expressions", r'BEGIN { print split("axxb", a, /x*/), a[2], split("a.b", a, /./), split(" a b ", a, / /), split("a b", a, /b$/), a[1] "]" }')
    yield row("text functions: what split makes is numeric strings", r'BEGIN { split("08 8 x", a); print (a[1] == a[2]), (a[1] == "8"), a[1] + a[2], (a[3] == 0) }')
    yield row(
        "text functions: split of long texts",
        TIMES + r"""
BEGIN { print split(times("ab,", 1000), a, ","), a[1000], "[" a[1001] "]"; print split(times(" a\t", 1000), a, " "), a[1000]
  print split(times("ab,", 1000), a, ""), a[3000]; print split(times("ab;;", 300), a, ";+"), a[300]; print split(times("", 5), a, ",") }"""
    )


def replacements():
    yield row(
        "text functions: sub and gsub of every expression and replacement",
        "BEGIN { " + LISTS + r"""; getline; l = split($0, b, "@")
  for (i = 1; i <= m; i++) for (j = 1; j <= l; j++) { for (q = 1; q <= n; q++) {
    r = s = t[q]; c = sub(f[i], b[j], s); printf "%d %s|%d ", c, s, gsub(f[i], b[j], r); printf "%s;", r }; print "" } }""",
        lists(TARGETS, EXPRESSIONS, REPLACEMENTS),
    )
    yield row("text functions: sub and gsub of the record, of a field and of an element", r'{ n = gsub(/a/, "b"); print n, $0, NF; print sub(/b/, "& &", $2), $0, NF, gsub(/q/, "x"), gsub(/^b/, "", t["k"]), ("k" in t) }', "a aa a\n")
    yield row(
        "text functions: gsub of long texts",
        ENDS + "\n" + TIMES + r"""
BEGIN { s = times("ab", 300); print gsub(/b/, "<&>", s), ends(s); s = times("ab", 300); print gsub(/x*/, "-", s), ends(s) }"""
    )


def faults():
    for ere in [*BAD, LARGE]:
        for call in (f'split("abc", a, {quoted(ere)})', f'split("", a, {quoted(ere)})', f'sub({quoted(ere)}, "-", s)', f'gsub({quoted(ere)}, "-", s)'):
            yield row(f"EREs: faults, {call}", f"BEGIN {{ print 1; print {call} }}")
    for ere in (BAD[0], LARGE):
        for call in (f'match("abc", {quoted(ere)})', f'("abc" ~ {quoted(ere)})', f'("" !~ {quoted(ere)})'):
            yield row(f"EREs: faults, {call}", f"BEGIN {{ print 1; print {call} }}")


def limits():
    """A text of 67,108,864 bytes, and one more."""
    script = 's = times("a", 8192); r = times("&", 8192); t = s; print gsub(/a+/, r, t), length(t); print sub(/a+/, r "x", s)'
    yield row("text functions: gsub up to 67,108,864 bytes, and one more", f"{TIMES}\nBEGIN {{ {script} }}")


def rows():
    for part in (cases, parts, splits, replacements, faults, limits):
        yield from part()
