// The tree of an extended regular expression over bytes.
//
// A node is { kind, positions, depth, .. } with kinds empty, set, start, end, group, repeat, concat and or. Nothing here calls itself for a nested
// group, so an expression may be nested as deeply as its text is long.

const CLASSES = {
  __proto__: null,
  alnum: (c) => (c >= 48 && c <= 57) || (c >= 65 && c <= 90) || (c >= 97 && c <= 122),
  alpha: (c) => (c >= 65 && c <= 90) || (c >= 97 && c <= 122),
  blank: (c) => c === 32 || c === 9,
  cntrl: (c) => c <= 31 || c === 127,
  digit: (c) => c >= 48 && c <= 57,
  graph: (c) => c >= 33 && c <= 126,
  lower: (c) => c >= 97 && c <= 122,
  print: (c) => c >= 32 && c <= 126,
  punct: (c) => c >= 33 && c <= 126 && !CLASSES.alnum(c),
  space: (c) => c === 32 || (c >= 9 && c <= 13),
  upper: (c) => c >= 65 && c <= 90,
  xdigit: (c) => (c >= 48 && c <= 57) || (c >= 65 && c <= 70) || (c >= 97 && c <= 102),
};
const LETTERS = { __proto__: null, a: 7, b: 8, f: 12, n: 10, r: 13, t: 9, v: 11 };
const SIGNS = { __proto__: null, "*": [0, Infinity], "+": [1, Infinity], "?": [0, 1] };
const INTERVAL = /\{([0-9]+)(,([0-9]*))?\}/y;
const OCTAL = /[0-7]{1,3}/y;
const NAMED = /\[:([a-z]+):\]/y;
const MOST_COUNT = 255;

/** The text is not an expression, or is too large. */
export class EreError extends Error {}

function bad() {
  throw new EreError("BadEre");
}

function setOf(test) {
  return { kind: "set", has: Uint8Array.from({ length: 256 }, (_, c) => Number(test(c))), positions: 1, depth: 0 };
}

const anchor = (kind) => ({ kind, positions: 1, depth: 0 });

function many(kind, all) {
  if (all.length === 1) return all[0];
  const positions = all.reduce((sum, part) => sum + part.positions, 0);
  return { kind, all, positions, depth: all.reduce((most, part) => Math.max(most, part.depth), 0) };
}

function repeated(tree, [low, high]) {
  const times = high === Infinity ? Math.max(low, 1) : high;
  return { kind: "repeat", tree, low, high, positions: tree.positions * times, depth: tree.depth + 1 };
}

class Reader {
  constructor(text) {
    this.text = text;
    this.at = 0;
    // of each open group, and of the whole: the branches that are read, and the pieces of the one that is not
    this.open = [{ branches: [], pieces: [] }];
  }

  peek() {
    return this.text[this.at];
  }

  take() {
    if (this.at >= this.text.length) bad();
    return this.text[this.at++];
  }

  matched(pattern) {
    pattern.lastIndex = this.at;
    const found = pattern.exec(this.text);
    if (found !== null) this.at += found[0].length;
    return found;
  }

  frame() {
    return this.open[this.open.length - 1];
  }

  endBranch() {
    const frame = this.frame();
    if (frame.pieces.length === 0) bad();
    frame.branches.push(many("concat", frame.pieces));
    frame.pieces = [];
  }

  whole() {
    while (this.at < this.text.length) this.part();
    if (this.open.length > 1) bad();
    this.endBranch();
    return many("or", this.frame().branches);
  }

  /** Reads one sign: the end of a branch, the beginning of a group, or a piece. */
  part() {
    const sign = this.peek();
    if (sign === "|") {
      this.at++;
      this.endBranch();
    } else if (sign === "(") {
      this.at++;
      this.open.push({ branches: [], pieces: [] });
    } else if (sign === ")" && this.open.length > 1) {
      this.at++;
      this.endBranch();
      const tree = many("or", this.open.pop().branches);
      this.piece({ kind: "group", tree, positions: tree.positions, depth: tree.depth + 1 });
    } else {
      this.piece(this.atom());
    }
  }

  /** Adds an atom, with the repetitions that follow it. */
  piece(atom) {
    let tree = atom;
    for (let times = this.times(); times !== null; times = this.times()) {
      if (tree.kind === "start") bad();
      tree = repeated(tree, times);
    }
    this.frame().pieces.push(tree);
  }

  times() {
    const sign = SIGNS[this.peek()];
    if (sign !== undefined) {
      this.at++;
      return sign;
    }
    const counts = this.matched(INTERVAL);
    if (counts === null) return null;
    const low = Number(counts[1]);
    const high = counts[2] === undefined ? low : counts[3] === "" ? Infinity : Number(counts[3]);
    if (low > MOST_COUNT || (high !== Infinity && (high > MOST_COUNT || low > high))) bad();
    return [low, high];
  }

  atom() {
    if (this.times() !== null) bad();
    const sign = this.take();
    if (sign === "^") return anchor("start");
    if (sign === "$") return anchor("end");
    if (sign === ".") return setOf(() => true);
    if (sign === "[") return setOf(this.bracket());
    const byte = sign === "\\" ? this.escape() : sign.charCodeAt(0);
    return setOf((c) => c === byte);
  }

  escape() {
    const octal = this.matched(OCTAL);
    if (octal !== null) return parseInt(octal[0], 8) % 256;
    const letter = this.take();
    return LETTERS[letter] ?? letter.charCodeAt(0);
  }

  one() {
    const byte = this.take();
    return byte === "\\" ? this.escape() : byte.charCodeAt(0);
  }

  names() {
    return this.peek() === "[" && ":.=".includes(this.text[this.at + 1] ?? " ");
  }

  bracket() {
    const negated = this.peek() === "^";
    if (negated) this.at++;
    const tests = [];
    while (tests.length === 0 || this.peek() !== "]") tests.push(this.member(tests.length === 0));
    this.at++;
    return (c) => tests.some((test) => test(c)) !== negated;
  }

  member(first) {
    if (this.names()) {
      const named = this.matched(NAMED);
      if (named === null || CLASSES[named[1]] === undefined) bad();
      return CLASSES[named[1]];
    }
    if (this.peek() === "-" && !first && this.text[this.at + 1] !== "]") bad();
    const low = this.one();
    if (this.peek() !== "-" || this.text[this.at + 1] === "]") return (c) => c === low;
    this.at++;
    if (this.names()) bad();
    const high = this.one();
    if (low > high) bad();
    return (c) => c >= low && c <= high;
  }
}

/** The tree of an expression's text; BadEre if it is not one. */
export function treeOf(text) {
  return text === "" ? { kind: "empty", positions: 0, depth: 0 } : new Reader(text).whole();
}
