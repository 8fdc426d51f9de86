"""Lines of crates/test_scripts/stdin: a script, its standard input, its name, and fields after them (its src/main.rt says which)."""


def escaped(text):
    """A text as a field writes it: each character is a byte."""
    names = {"\\": "\\\\", "\t": "\\t", "\n": "\\n"}
    return "".join(names.get(c, c if " " <= c <= "~" else f"\\{ord(c):03o}") for c in text)


def row(name, script, given="", *fields):
    return "\t".join(escaped(text) for text in (script.strip(), given, f"t:{name}", *fields))


def quoted(text):
    """A string of a script."""
    names = {"\\": "\\\\", '"': '\\"', "\t": "\\t", "\n": "\\n"}
    return '"' + "".join(names.get(c, c if " " <= c <= "~" else f"\\{ord(c):03o}") for c in text) + '"'


def lists(*texts):
    """An input of lists: `@` stands between the texts of a list, `~` after each list. LISTS reads two of them."""
    return "".join("@".join(each) + "~" for each in texts)


# (reads the lists t and f, of n and m texts)
LISTS = 'RS = "~"; getline; n = split($0, t, "@"); getline; m = split($0, f, "@")'

# The kind of a value as far as scripts see it: without a value, a number or a text that looks like one, another text.
KIND = r'function k(x,  q) { if (x == 0 && x == "") return "u"; split(x " ", q, "\001"); return x == q[1] ? "n" : "t" }'

# A text so many times.
TIMES = 'function times(s, n,  r) { for (; n > 0; n = int(n / 2)) { if (n % 2) r = r s; if (n > 1) s = s s }; return r }'

# A long text's length and its ends.
ENDS = 'function ends(s) { return length(s) < 60 ? s : substr(s, 1, 9) ".." length(s) ".." substr(s, length(s) - 8) }'
