"""Rows of the record, its fields and NF."""
from lines import KIND, LISTS, TIMES, lists, quoted, row

TEXTS = [
    "", "a", "a,b", "a,b,c", ",a,,b,", "  lead", " a \tb\nc ", "a,b\nc", "a\n,b\nc;;d", "a1\nb2\n", "b\nc", "\n\na\n", "\na\n\nb", " \n ",
    "line\nbreak\n", "a\nX\nbXX\nc", "axxbc", "xaxbx", "1a22b333", "1ab2ba3,4 5", "a||b|", "aab,ab\nba", "foo.bar|baz\\q", "\377\000\377",
]  # fmt: skip
SEPARATORS = [
    "", " ", "  ", " +", ",", ", *", "|", "\\|", "\t", "\n", "\\n", "\n\n", "\n+", "\\", ".", "..", "x", "x*", "X+", "(\n|X)X", "[ ,]+", "[0-9]+", "^a|b",
    "b$", "a$|,", "a|aa", "a|bX", "b\n|\nc", "\n,|;;", "(,)|(\n)", ",|\n",
]  # fmt: skip
BAD = ["((", "(,", "a{2,1}", "[a", "x{10001}", "a{300}", "X|", "*+"]
LARGE = "(a{100}){101}"

# The record and its fields, with their kinds.
REPORT = KIND + '\nfunction report(  i) { printf "%d|%s%s", NF, k($0), $0; for (i = 1; i <= NF; i++) printf "|%s%s", k($i), $i; print "" }'


def splitting():
    yield row(
        "fields: every separator on every text",
        "BEGIN { " + LISTS + r"""
  for (i = 1; i <= m; i++) { FS = f[i]; for (j = 1; j <= n; j++) for (p = 0; p < 2; p++) {
    RS = p ? "" : "\n"; $0 = t[j]; printf "%d", NF; for (q = 1; q <= NF; q++) printf "|%s", $q; print "" } } }""",
        lists(TEXTS, SEPARATORS),
    )
    yield row("fields: kinds of fields over two files", REPORT + "\n{ report() }", "", "f:f=08 x -1 1x\n\n7\n 0.0\n", "o:f", "o:FS=", "o:g", "f:g=a1\n")
    # texts of one length, one after another
    yield row("fields: separators of one length, one after another", REPORT + '\n{ n = split("ab@ba@ab@,@ @,@ab)@ab@ ", f, "@"); for (i = 1; i <= n; i++) { FS = f[i]; $0 = "1ab2ba3,4 5"; report() } }', "x\n")


def setting():
    yield row("fields: an empty record, and a field past it", REPORT + '\nBEGIN { report(); print k($1) k($1048576) NF; OFS = "-"; $2 = "x"; report(); print k($1) }')
    yield row("fields: NF extended, 0, and extended again", REPORT + '\nBEGIN { OFS = ","; NF = 3; report(); NF = 0; report(); NF = 1; report() }')
    yield row("fields: $0 set to a text and to no value", REPORT + '\nBEGIN { NF = 0; report(); $0 = "d"; report(); $0 = u; report() }')
    yield row("fields: kinds of fields after a field past NF, and a cut", REPORT + '\n{ OFS = "-"; $5 = "e"; report(); NF = 2; report(); print k($3) NF; $0 = $0; report() }', "a b c\n")
    yield row(
        "fields: joints of no bytes and more, NF 0, cut and extended",
        REPORT
        + r"""
{ OFS = " "; $3 = 7; report(); OFS = "::"; split("08", q, ","); $1 = q[1]; report(); print ($1 == 8), ($1 == "8"); OFS = "-"; $2 = u; report()
  OFS = ","; $9 = -4; report(); $4 = "x"; report(); OFS = ""; $4 = "0"; report(); print ($4 == "0"), ($4 == "00"); NF = 4; report()
  OFS = "/"; NF = 6; report(); OFS = "+"; NF = NF; report(); NF = 0; report(); NF = 1; report() }""",
        "a b c\n",
    )
    yield row("fields: the last field that there can be", '{ OFS = ""; $1048576 = "z"; print NF, $0, $1048576 $1048575 $2; NF = 2; print }', "a b\n")


def number_faults():
    for number in ("-1", "-2 ^ 53", "1048577", "2 ^ 53"):
        for call in (f"print $({number})", f'$({number}) = "z"', f"NF = {number}"):
            yield row(f"fields: FieldNumber, {call}", f'BEGIN {{ $0 = "a b"; print NF; {call}; print "no" }}')


def separator_faults():
    for fs in [*BAD, LARGE]:
        for text in ("", "a,b"):
            yield row(f"fields: a bad separator {fs} and the text {quoted(text)}", f'{{ print $2; FS = {quoted(fs)}; $0 = {quoted(text)}; print "no" }}', "p q\n")
        yield row(f"fields: a bad separator {fs} and a record", f'BEGIN {{ FS = {quoted(fs)} }} {{ print "no" }}', "p q\n")


def limits():
    """At most 1,048,576 fields, and 67,108,864 bytes."""
    yield row(
        "fields: 1,048,576 fields by four separators",
        TIMES
        + r"""
function at(fs, rs, text) { FS = fs; RS = rs; $0 = text; print NF, "[" $1 "]", "[" $1048576 "]", length($0) }
BEGIN { at(" ", "\n", times("a ", 1048576)); at("", "\n", times("a", 1048576)); at(",", "\n", times(",", 1048575))
  at(",", "", times("a\n", 1048575)) }"""
    )
    past = [(" ", "\n", "a ", 1048577), ("", "\n", "a", 1048577), (",", "\n", ",", 1048576), ("(,)", "\n", ",", 1048576), (",", "", "a\n", 1048576)]
    for fs, rs, unit, count in past:
        yield row(f"fields: {count:,} of {quoted(unit)} by {quoted(fs)} and an RS of {quoted(rs)}", f'{TIMES}\nBEGIN {{ FS = {quoted(fs)}; RS = {quoted(rs)}; $0 = times({quoted(unit)}, {count}); print "no" }}')
    yield row("fields: a record joined to 67,108,864 bytes, and one more", TIMES + '\n{ OFS = times("-", 64); $1 = times("q", 63); NF = 1048576; print length($0); $1 = times("q", 64); print "no" }', "a b\n")
    yield row("fields: a record joined past the limit", TIMES + '\n{ OFS = times("-", 65); NF = 1048576; print "no" }', "a b\n")


def rows():
    for part in (splitting, setting, number_faults, separator_faults, limits):
        yield from part()
