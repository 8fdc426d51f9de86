"""Random scripts that call functions a lot.

Half of them hold values of every kind, half mostly numbers. Functions answer numbers, texts, nothing, fields, elements, comparisons and assignments, call one
another, and leave by `next` and `exit`. Each counts its calls in `t`, and returns at once past some number of them.
"""
import re

MARK = re.compile(r"\{(atom|inside|call|use|small|step)\}")


class Kind:
    """The parts of one kind of script: a mark in a part stands for another part."""

    def __init__(self, functions, **parts):
        self.functions = functions
        self.parts = parts


VALUES = Kind(
    {"f": "p", "g": "p, q", "h": "", "v": "p, q, l", "o": "p", "c": "p, q", "e": ""},
    atom=["0", "1", "2", "-3", '"a b"', '"3"', '""', "$1", "$0", "NF", "NR", "x", "y", "u", 'a["k"]', "b[x]", "(x = 5)", "(x < y)", '(x == "3")',
          '("10" < "9")', "($2 < $1)", "length(x)", '"007"', '" 2 "', "9007199254740992", "-9007199254740992", "x++", "--y", '(getline z < "f")',
          '("k" in a)', "!x", '-"2"', '(y "")'],
    inside=["p", "p + 1", "p - 1", "(q = p)", "(p = 5)", "(p < q)", 'p "s"', "!p", "-p", "p q", "p++", "++q", "(p && q)", "(p ? q : p)", "a[p]", "$1",
            '(p == "3")'],
    call=["f({atom})", "f()", "g({atom}, {atom})", "g({atom})", "h()", "keep(a, {atom})", "keep(b, {atom})", "v({atom})", "fib({small})", "text({small})",
          "mixed({small})", "o({atom})", "c({atom}, {atom})", "e()"],
    use=["-{call}", "!{call}", "+{call}", "({call} ? {atom} : {atom})", "{call} {call}", "({call} in a)", "a[{call}]", "{call} + {call}", "({call} < {call})",
         "({call} == {atom})", "({call} ~ /[0-3]/)", "length({call})", "$({call} % 3)", "(x = {call})", "(a[{call}] = {call})", "a[{call}]++",
         'sprintf("%d|%s", {call}, {call})', "substr({call}, 1, 2)", "({call} && {call})", "({call} || {atom})", "int({call})", "{call} % 7", "{call} ^ 2",
         "(({call}, {call}) in b)", "(y = x = {call})", "($2 = {call})", "{call}"],
    step=["print {call}, {call}", "print {use}", "print {use}, {use}", "{call}", "x = {call}", "y = {use}", "while ({call} && t++ < 9) {step}",
          "if ({call}) x++; else {step}", "for (i = 0; i < {call} && t++ < 9; i++) {step}", "if ({call} < {atom}) {step}", 'print {call} > "f"', "next",
          "exit {call}", "getline", 'getline y < "g"', "delete a[{call}]", "$2 = {call}", "$0 = {call}", 'printf "%s %d\\n", {call}, {call}',
          "print x, y, z, u", "x += {call}", "for (k in a) print k, f(k)"],
    body=["return {inside}", "return", "x = {inside}", "if ({inside}) return {inside}", "p = {atom}", "q = {call}", "return {call}", "return {use}",
          "return {atom}", "next", "exit p", "getline p", "return x = 5", "return a[p]", "return p < q", "return p = 5", "return p ? q : {atom}",
          "while (p-- > 0 && t++ < 12) if ({inside}) return p"],
)

NUMBERS = Kind(
    {"f": "p, q, l", "g": "p, q, l", "h": "", "v": "p"},
    atom=["n", "m", "x", "0", "1", "3", "-1", "NR", "NF", "n + 1", "m - 1", "n % 5", "(n < m)", "length($0)", "b[n]", "(n = 2)", "n++", "--m", "$1", "!n",
          "int(n)", "s", 'n "t"', "9007199254740992", "-9007199254740992", '"q"', '" 5"'],
    inside=["p", "p + n", "p - 1", "p % 3", "(p < n)", "n", "b[p]", "0", "1", "-p", "!p", "(p = 4)", "p++", "length(p)", '(p == "2")', "$1", 'p "k"'],
    call=["f({atom}, {atom})", "f({call})", "f()", "g({atom})", "h()", "v({atom})", "keep(b, {atom})", "fib({small})", "text({small})", "mixed({atom})",
          "greater({atom}, {call})"],
    use=["{call} + {call}", "{call} ? {call} : {call}", "-{call}", "!{call}", "({call} < {atom})", "({call} == {call})", "({call} in b)", "{call} {call}",
         "{call} * 2"],
    step=["n = {call}", "n += {call}", "m = {call} + {atom}", "x -= {call}", "n++", "n = {call} % 7", "b[n] = {call}", "b[{call}]++", "b[{call}] += {call}",
          "b[$1] += {call}", "s = s {call}", "s = {call}", "print n, m, x", "print {use}", "print {use}, {use}", "if ({use}) {step}",
          "if ({call} < {atom}) n++; else {step}", "while ({call} < 3 && t++ < 9) n++", "for (i = 0; i < 4; i++) n += {call}",
          "for (i = 1; i <= NF; i++) m += g($i)", "for (i = 0; i < {call} && t++ < 9; i++) {step}", "{call}", "n = {use}", "n = m = {call}", "$2 = {call}",
          "NF = {call} % 4", 'print substr("abcdef", {call}, {call})', "x = {call} ^ 2", "delete b[{call}]", "exit {call}", "u = {call}",
          'print u + 1, u ""'],
    body=["if ({inside}) return {inside}", "{call}", "n = {call}", "p = {call}", "p += {call}", "p = {atom}", "n++", "b[n]++", "s = s n", "getline", "next",
          "exit", "return {inside}", "return {call}", "return {use}", "return"],
)

COMMON = [
    ["function fib(n) { return n < 2 ? n : fib(n - 1) + fib(n - 2) }", "function fib(n) { if (n < 2) return n; return fib(n - 1) + fib(n - 2) }"],
    ['function text(n) { return n ? text(n - 1) "x" : "" }',
     "function text(n) { return n > 0 ? text(n - 1) n : u }", "function text(n) { if (n) return text(n - 1) + n }"],
    ['function mixed(n) { return n % 2 ? n : n "t" }', "function mixed(n) { return n == 1 ? $1 : n }", "function mixed(n) { if (n % 2) return n ? x : y }"],
    ["function keep(A, l) { A[l] = l; return A[l] }", "function keep(A, l) { return A[l]++ }",
     "function keep(A, l) { if (l in A) return; A[l] = f(l); return A[l] + 1 }"],
    ["function greater(p, q) { return p > q ? p : q }"],
]


def filled(chance, kind, text, depth):
    """A part with other parts in place of its marks."""

    def part(mark):
        name = mark[1]
        if name == "small":
            return str(chance.randrange(7))
        if depth < 0 and name in ("call", "use", "step"):
            return "x++" if name == "step" else "fib(3)"
        if name == "atom" and depth > 0 and chance.random() < 0.35:
            name = "call"
        return filled(chance, kind, chance.choice(kind.parts[name]), depth - 1)

    return MARK.sub(part, text)


def drawn(chance, kind, name, depth):
    """A statement; those that leave or read are rare."""
    text = chance.choice(kind.parts[name])
    while text.startswith(("next", "exit", "getline", "NF", "$")) and chance.random() < 0.75:
        text = chance.choice(kind.parts[name])
    return filled(chance, kind, text, depth)


def function(chance, kind, name, params):
    first = f"if (t++ > {chance.randrange(8, 40)}) return" + chance.choice(["", " 1", ' "t"', " u", " $1", " x"])
    inside = "body" if params else "step"
    return f"function {name}({params}) {{ {'; '.join([first] + [drawn(chance, kind, inside, 1) for _ in range(chance.randrange(5))])} }}"


def block(chance, kind, most):
    return "{ " + "; ".join(drawn(chance, kind, "step", 2) for _ in range(chance.randrange(2, most))) + " }"


def script(chance):
    kind = chance.choice((VALUES, NUMBERS))
    items = [function(chance, kind, *it) for it in kind.functions.items()] + [chance.choice(it) for it in COMMON]
    items.append("BEGIN " + re.sub(r"\bnext\b", "x++", block(chance, kind, 7)))
    items.append(chance.choice(["", "{call}", "/a/, {call}", "NR == 2"]))
    items[-1] = filled(chance, kind, items[-1], 1) + " " + block(chance, kind, 6)
    if chance.random() < 0.5:
        items.append("END " + re.sub(r"\bnext\b", "y++", block(chance, kind, 4)))
    return "\n".join(items)
