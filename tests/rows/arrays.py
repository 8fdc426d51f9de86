"""Rows of arrays: calls that a generator of Lehmer draws, and loops."""
from lines import row

# A drawn call on an array, by numbers below 17, 24 and 100; what an array holds.
STEP = """
function step(a, c, k, v) {
  if (c < 4) seen += a[k]
  else if (c < 10) a[k] = v
  else if (c < 12) seen += k in a
  else delete a[k] }
function all(a,  k, s) { for (k in a) s = s " " k ":" a[k]; return s }"""


def drawn_calls():
    for seed in (1, 2):
        yield row(
            f"arrays: drawn calls on four arrays, from {seed}",
            STEP
            + f"""
BEGIN {{ x = {seed}
  for (i = 1; i <= 1000; i++) {{
    x = x * 16807 % 2147483647; c = x % 17; k = int(x / 17) % 24; w = int(x / 408) % 4; v = int(x / 1632) % 100
    if (w == 0) step(ARGV, c, k, v); else if (w == 1) step(ENVIRON, c, k, v); else if (w == 2) step(p, c, k, v); else step(q, c, k, v)
    if (i % 250 == 0) {{ print seen; print all(ARGV); print all(ENVIRON); print all(p); print all(q) }} }} }}""",
            "",
            "e:5=50",
            "e:3=4",
            "o:12",
        )
    # arrays of calls come and go
    yield row(
        "arrays: drawn calls on arrays of calls",
        STEP
        + """
function steps(a, b,  i, c, k) {
  for (i = 0; i < 8; i++) { x = x * 16807 % 2147483647; c = x % 17; k = int(x / 17) % 8; if (x % 2) step(a, c, k, i); else step(b, c, k, i) } }
function work(n, kept,  a, b) { steps(a, kept); steps(kept, b)
  if (n > 0) { if (x % 2) work(n - 1, a); else work(n - 1, b) }
  steps(a, b); s = s "|" all(a) "|" all(b) }
BEGIN { x = 3; for (j = 1; j <= 12; j++) { work(x % 9, p); print seen s; print all(p); s = "" } }"""
    )


def loops():
    fill = "for (i = 0; i < n; i++) a[i] = 1"
    yield row("arrays: 1,000 elements are deleted", f"BEGIN {{ n = 1000; {fill}; for (k in a) c += k; print c; for (k in a) delete a[k]; for (k in a) print k; print (5 in a) }}")
    queue = "for (i = 0; i < n; i++) { delete a[i]; a[i + n] = i }"
    yield row("arrays: a queue of 1,000 elements", f"BEGIN {{ n = 1000; {fill}; {queue}; for (k in a) if (k != n + m++ || a[k] != k - n) print k; print m }}")
    nested = 'for (i in a) { for (j in a) { if (i == j) delete a[j]; else a[i j] = 1 }; s = ""; for (j in a) s = s " " j; print i ":" s }'
    yield row("arrays: nested loops over one array that changes", f"BEGIN {{ for (i = 0; i < 5; i++) a[i]; {nested} }}")
    keys = r'a[1]; a[""] = 2; a["x\000y"] = 3; a["01"]; print ("1" in a), (1.0 in a), (" 1" in a), ("" in a), ("x" in a)'
    yield row("arrays: keys that are numbers, texts and empty", f'BEGIN {{ {keys}; for (k in a) print "[" k "]", (k == 1), a[k] + 0 }}')
    yield row("arrays: elements of one name in two arrays", 'BEGIN { a["x"] = 1; b["x"] = 2; delete a["y"]; delete a["x"]; delete a["x"]; print ("x" in a), b["x"], a["x"] == ""; for (k in a) print k }')


def rows():
    yield from drawn_calls()
    yield from loops()
