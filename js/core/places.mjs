// The lines of a script's program points, in the order in which `compile` writes them.

const WORDS = new Set(("BEGIN END function if else while for do break continue next exit return delete in print printf nextfile substr index split sub " +
  "gsub match sprintf tolower toupper int close fflush").split(" "));
const TOKEN = /[A-Za-z_][A-Za-z0-9_]*|(?:[0-9]+\.?[0-9]*|\.[0-9]+)(?:[eE][-+]?[0-9]+)?|[-+*/%^=!<>]=|\+\+|--|&&|\|\||>>|!~|[^]/y;
const DROPS_NEWLINE = new Set([";", "{", "}", "&&", "||", ",", "do", "else"]);
const CONTROL = new Set(["if", "while", "for"]);

/** Tokens with their lines, for a script that `compile` takes. */
class Tokens {
  constructor(script) {
    this.script = script;
    this.at = 0;
    this.line = 1;
    this.all = [];
    this.parens = [];
    while (this.at < script.length) this.one();
  }

  last(n = 1) {
    return this.all[this.all.length - n];
  }

  push(kind, text, more) {
    this.all.push({ kind, text, line: this.line, ...more });
  }

  one() {
    const c = this.script[this.at];
    if (c === " " || c === "\t") this.at++;
    else if (c === "\\" && this.script[this.at + 1] === "\n") [this.at, this.line] = [this.at + 2, this.line + 1];
    else if (c === "#") this.at = this.endOf("\n");
    else if (c === "\n") this.newline();
    else if (c === '"' || (c === "/" && !this.divides())) this.quoted(c);
    else this.plain();
  }

  endOf(sign) {
    const end = this.script.indexOf(sign, this.at);
    return end < 0 ? this.script.length : end;
  }

  newline() {
    const last = this.last();
    const dropped = last === undefined || DROPS_NEWLINE.has(last.text) || (last.text === ")" && last.opens);
    if (!dropped) this.push("sign", ";");
    this.at++;
    this.line++;
  }

  /** Whether a slash is a division here. */
  divides() {
    const last = this.last();
    if (last === undefined) return false;
    if (["number", "string", "ere"].includes(last.kind)) return true;
    if (last.kind === "word") return !WORDS.has(last.text);
    return ["]", "++", "--"].includes(last.text) || (last.text === ")" && !last.control);
  }

  quoted(quote) {
    let end = this.at + 1;
    while (end < this.script.length && this.script[end] !== quote) end += this.script[end] === "\\" ? 2 : 1;
    const text = this.script.slice(this.at, end + 1);
    this.push(quote === '"' ? "string" : "ere", text);
    this.line += text.split("\n").length - 1;
    this.at = end + 1;
  }

  plain() {
    TOKEN.lastIndex = this.at;
    const text = TOKEN.exec(this.script)[0];
    const kind = /^[A-Za-z_]/.test(text) ? "word" : /[0-9]/.test(text) ? "number" : "sign";
    if (text === "(") {
      const control = CONTROL.has(this.last()?.text);
      this.parens.push({ control, opens: control || this.last(2)?.text === "function" });
    }
    this.push(kind, text, text === ")" ? this.parens.pop() : {});
    this.at += text.length;
  }

  /** The tokens, with the semicolons that newlines and braces stand for. */
  finished() {
    const isDropped = (it, n) => it.text === ";" && this.all[n - 1]?.text === "}" && ["else", "while"].includes(this.all[n + 1]?.text);
    const out = [];
    const ends = (...texts) => out.length > 0 && !texts.includes(out[out.length - 1].text);
    const semicolon = () => out.push({ kind: "sign", text: ";", line: out[out.length - 1].line });
    for (const token of this.all.filter((it, n) => !isDropped(it, n))) {
      if (token.text === "}" && ends("{", "}", ";")) semicolon();
      out.push(token);
    }
    if (ends(";", "}")) semicolon();
    return out;
  }
}

const OPENS = new Set(["(", "["]);
const CLOSES = new Set([")", "]"]);
const OF_RANGE = 11;

/** Walks over a script's items and statements, and notes a line for each program point. */
class Walk {
  constructor(script) {
    this.tokens = new Tokens(script).finished();
    this.at = 0;
    this.lines = [];
  }

  text(n = 0) {
    return this.tokens[this.at + n]?.text;
  }

  line() {
    return this.tokens[this.at]?.line ?? 0;
  }

  /** Passes a token; there must be one. */
  pass() {
    if (this.at >= this.tokens.length) throw new Error("the script is not one that compile takes");
    this.at++;
  }

  note(line = this.line(), times = 1) {
    for (let n = 0; n < times; n++) this.lines.push(line);
  }

  /** Passes tokens up to one of these that stands in no parentheses or brackets. */
  passTo(...ends) {
    for (let depth = 0; depth > 0 || !ends.includes(this.text()); this.pass()) {
      if (OPENS.has(this.text())) depth++;
      if (CLOSES.has(this.text())) depth--;
    }
  }

  passParens() {
    let depth = 0;
    do {
      if (OPENS.has(this.text())) depth++;
      if (CLOSES.has(this.text())) depth--;
      this.pass();
    } while (depth > 0);
  }

  simple(points) {
    this.note(this.line(), points);
    this.passTo(";");
    this.at++;
  }

  block() {
    this.note();
    this.statements();
  }

  statements() {
    this.at++;
    while (this.text() !== "}") this.statement();
    this.at++;
  }

  statement() {
    switch (this.text()) {
      case "{": return this.block();
      case ";": return this.simple(1);
      case "if": return this.branch();
      case "while":
        this.note();
        this.at++;
        this.passParens();
        return this.statement();
      case "do": return this.doWhile();
      case "for": return this.forLoop();
      case "nextfile": return this.simple(3);
      default: return this.simple(1);
    }
  }

  branch() {
    const line = this.line();
    this.note();
    this.at++;
    this.passParens();
    this.statement();
    if (this.text() === "else") {
      this.at++;
      this.statement();
    } else {
      this.note(line);
    }
  }

  doWhile() {
    this.note();
    this.at++;
    this.statement();
    this.note(this.line(), 2);
    this.at++;
    this.passParens();
  }

  forLoop() {
    const line = this.line();
    if (this.text(3) === "in" && this.text(5) === ")") {
      this.note();
      this.at += 6;
      return this.statement();
    }
    this.at += 2;
    this.passTo(";");
    this.at++;
    this.passTo(";");
    this.at++;
    const last = this.line();
    const hasLast = this.text() !== ")";
    this.passTo(")");
    this.at++;
    this.note(line, 3);
    this.statement();
    if (hasLast) this.note(last);
  }

  /** An item, into the points of a function, of BEGIN, of patterns or of END. */
  item(into) {
    this.lines = [];
    switch (this.text()) {
      case ";":
        this.at++;
        return;
      case "function": {
        const name = this.text(1);
        this.at += 2;
        this.passParens();
        this.statements();
        into.functions.push({ name, lines: this.lines });
        return;
      }
      case "BEGIN": case "END": {
        const lines = into[this.text()];
        this.at++;
        this.block();
        lines.push(...this.lines);
        return;
      }
      case "{": this.block(); break;
      default: this.pattern();
    }
    into.patterns.push(...this.lines);
  }

  pattern() {
    const line = this.line();
    const from = this.at;
    this.passTo("{", ";", ",");
    const isRange = this.text() === ",";
    this.at = from;
    this.passTo("{", ";");
    this.note(line, isRange ? OF_RANGE : 1);
    if (this.text() === "{") {
      this.block();
    } else {
      this.note(line, 2);
      this.at++;
    }
    this.note(line);
  }
}

/** For each function of a script, and `main` last: its name, and the line of each of its program points. Only for a script that `compile` takes; of another it may throw an Error. */
export function linesOf(script) {
  const walk = new Walk(script);
  const into = { functions: [], BEGIN: [], patterns: [], END: [] };
  while (walk.at < walk.tokens.length) walk.item(into);
  return [...into.functions, { name: "main", lines: [...into.BEGIN, ...into.patterns, ...into.END] }];
}
