// Random scripts, drawn by a seed: of the whole language, and of text functions with random expressions.

/** Draws numbers from 0 on, below 1: mulberry32. */
export function chanceOf(seed) {
  let state = seed >>> 0;
  return () => {
    state = (state + 0x6d2b79f5) >>> 0;
    let t = Math.imul(state ^ (state >>> 15), state | 1);
    t ^= t + Math.imul(t ^ (t >>> 7), t | 61);
    return ((t ^ (t >>> 14)) >>> 0) / 2 ** 32;
  };
}

// parted by two spaces
const ATOMS = String.raw`x  y  z  u  0  1  2  3  -1  7  "a b"  "3"  "0.5"  " 12 "  ""  "b"  9007199254740992  $1  $0  $2  NF  NR  FNR  $NF  $(NF-1)
  FILENAME  a["k"]  a[x]  b[1, y]  length  length(y)  f(x)  f(1, a)  g()  h(x, y)  substr($0, 2)  substr("hello", x, 2)  split($0, a)
  split("p:q:r", b, ":")  sub(/a/, "<&>")  gsub(/b+/, "c", y)  gsub("[ab]", "x")  sprintf("%d|%s", x, y)  sprintf("%5.2f|%-4s|%c", 3, y, 65)  int(x / 2)
  int("12abc")  ("k" in a)  ((1, y) in b)  x++  --y  ++x  y--  -x  !y  +z  match($0, /[ab]+/)  RSTART  RLENGTH  close("f")  close("out")
  index($0, x)  toupper(y)  tolower($1)  (getline z < "f")  (getline < "g")  getline  (getline y)  ARGC  ARGV[1]  ENVIRON["E"]  v  fflush("out")
  x ~ y  $0 ~ /a|^b/  (x > y)  (x < "b")  ($1 == $2)  "\n\t\101"  /b/`.trim().split(/\s\s+/);
const OPERATORS = [" + ", " - ", " * ", " % ", " ", " ", " == ", " < ", " ~ ", " !~ ", " && ", " || ", " ^ ", " / ", " != ", " >= "];
const TARGETS = ["x", "y", "z", "$1", "$2", "$0", "NF", 'a["k"]', "a[x]", "b[x, y]", "FS", "OFS", "ORS", "NR", "v", "$(NF + 1)", "RS", "SUBSEP", "ARGV[1]", "ARGC"];
const ASSIGNS = [" = ", " = ", " = ", " += ", " -= ", " *= ", " ^= ", " %= "];
const STEPS = [
  "print", "print E", "print E, E", 'print E > "out"', 'print E >> "out"', 'printf "%s %d\\n", E, E', 'printf "%5s|%-5d|%x|%o\\n", E, E, E, E',
  "T", "T", "T", "E", "delete a[E]", "delete b", "next", "nextfile", "exit E", "exit", "getline", "getline x", 'getline y < "g"', "if (E) S; else S", "if (E) S",
  "for (k in a) S", "for (i = 0; i < 3; i++) S", "while (w++ < 5) S", "do S; while (w++ < 9)", "{ S; S }", "break_or_continue", "print > $1", "split(E, a)",
];
const FORMS = ["E", "E, E", "/a/", "NR == 2", "NR == 1, NR == 3", "/b/, /c/", "", "!(E)"];
const FUNCTIONS = [
  "function f(p, q) { if (d++ > 20) return p; p = p 1; if (q[1]) return p; return p x }", "function g() { y++; if (y > 30) next; return y }",
  "function h(p, q, l) { l = p; p = q; q = l; if (d++ < 9) return h(p - 1, l) q; return l }",
];

class Draw {
  constructor(chance) {
    this.chance = chance;
  }

  below(n) {
    return Math.floor(this.chance() * n);
  }

  of(list) {
    return list[this.below(list.length)];
  }

  many(least, most, draw) {
    return Array.from({ length: least + this.below(most - least + 1) }, draw);
  }

  expression() {
    let text = this.of(ATOMS);
    for (let left = 2; left > 0 && this.chance() < 0.35; left--) text += this.of(OPERATORS) + this.of(ATOMS);
    if (this.chance() < 0.1) text += ` ? ${this.of(ATOMS)} : ${this.of(ATOMS)}`;
    return this.chance() < 0.3 ? `(${text})` : text;
  }

  step(depth) {
    const step = this.of(STEPS);
    if (step === "T") return this.of(TARGETS) + this.of(ASSIGNS) + this.expression();
    if (step === "break_or_continue") return `for (j = 0; j < 4; j++) { if (${this.expression()}) ${this.of(["break", "continue"])}; n++ }`;
    return step.replace(/\bE\b/g, () => this.expression()).replace(/\bS\b/g, () => (depth > 0 ? this.step(depth - 1) : "n++"));
  }

  block() {
    return `{ ${this.many(1, 4, () => this.step(2)).join(this.of(["; ", "\n", ";\n"]))} }`;
  }

  script() {
    const items = [...FUNCTIONS];
    if (this.chance() < 0.7) items.push(`BEGIN ${this.block().replace(/\bnext(file)?\b/g, "x++")}`);
    for (const form of this.many(0, 2, () => this.of(FORMS))) items.push(`${form.replace(/\bE\b/g, () => this.expression())} ${this.block()}`);
    if (this.chance() < 0.6) items.push(`END ${this.block().replace(/\bnext(file)?\b/g, "y++")}`);
    return `${items.join("\n")}\n`;
  }

  /** An expression's text, mostly one that is right. */
  ere(depth) {
    const atom = () => this.of(["a", "b", "c", ".", "[ab]", "[^a]", "[a-c]", "[[:alpha:]]", "^", "$", "\\\\.", "x", "[]b]", "[b-]", " ", "\\t"]);
    const piece = () => {
      const inner = depth > 0 && this.chance() < 0.3 ? `(${this.ere(depth - 1)})` : atom();
      return inner + this.of(["", "", "", "", "*", "+", "?", "{2}", "{1,2}", "{0,}", "**", "{", ")"].slice(0, this.chance() < 0.9 ? 11 : 13));
    };
    return this.many(1, 3, () => this.many(1, 3, piece).join("")).slice(0, this.chance() < 0.6 ? 1 : 3).join("|");
  }

  texts() {
    const text = () => this.many(0, 9, () => this.of(["a", "b", "c", "x", " ", ".", "ab", "]"])).join("");
    const lines = this.many(3, 6, () => {
      const [ere, t] = [`"${this.ere(2)}"`, `"${text()}"`];
      return `print match(${t}, ${ere}), RSTART, RLENGTH, (${t} ~ ${ere}); s = ${t}; n = gsub(${ere}, "<&>", s); print n, s; ` +
        `n = split(${t}, p, ${ere}); printf "%d", n; for (i = 1; i <= n; i++) printf ":%s", p[i]; print ""`;
    });
    return `BEGIN {\n${lines.join("\n")}\n}\n`;
  }
}

/** So many scripts by a seed: every fifth is of text functions. */
export function randomScripts(count, seed) {
  const draw = new Draw(chanceOf(seed));
  return Array.from({ length: count }, (_, n) => (n % 5 === 4 ? draw.texts() : draw.script()));
}
