// Text functions: expressions of texts, pieces, substitution, parts, escapes.

import { Ere } from "./ere.mjs";
import { EreError } from "./ere_syntax.mjs";
import { Fault, MOST, limited } from "./values.mjs";

const MOST_EXPRESSIONS = 64;
const expressions = new Map();

/** The expression of a text; BadEre, EreTooLarge. The last ones are kept. */
export function expressionOf(t) {
  let ere = expressions.get(t);
  if (ere !== undefined) return ere;
  try {
    ere = new Ere(t);
  } catch (error) {
    if (error instanceof EreError) throw new Fault(error.message);
    throw error;
  }
  if (expressions.size >= MOST_EXPRESSIONS) expressions.delete(expressions.keys().next().value);
  expressions.set(t, ere);
  return ere;
}

/** The pieces of a text that is not empty, between matches that are not empty, and between newlines if they separate too. */
function piecesByEre(ere, newlines, t) {
  const pieces = [];
  let from = 0;
  for (let at = 0; at < t.length; ) {
    const end = Math.max(ere.longest(t, at), newlines && t[at] === "\n" ? at + 1 : -1);
    if (end <= at) {
      at++;
      continue;
    }
    pieces.push(t.slice(from, at));
    from = at = end;
  }
  pieces.push(t.slice(from));
  return pieces;
}

/** The pieces of a text by a separator, which is read as FS is, or is an expression. */
export function piecesOf(separator, isEre, newlines, t) {
  const ere = isEre || separator.length > 1 ? expressionOf(separator) : null;
  if (t === "") return [];
  if (ere !== null) return piecesByEre(ere, newlines, t);
  if (separator === " ") return t.match(/[^ \t\n]+/g) ?? [];
  if (separator === "") return t.split("");
  return (newlines ? t.replaceAll("\n", separator) : t).split(separator);
}

/** What replaces a match: an ampersand is the match, and after a backslash itself, as a backslash is. */
function replacementOf(by) {
  return /[&\\]/.test(by) ? (matched) => by.replace(/\\([&\\])|&/g, (whole, c) => c ?? matched) : () => by;
}

/** The text with its first match replaced, or all, and how many there were. An empty match directly after a match does not count. */
export function substituted(ere, by, t, all) {
  const replacement = replacementOf(by);
  let out = "";
  let from = 0;
  let last = -1;
  let count = 0;
  for (let at = 0; at <= t.length; ) {
    const match = ere.firstMatch(t, at);
    if (match === null) break;
    const [start, end] = match;
    at = end === start ? end + 1 : end;
    if (start === end && start === last) continue;
    out = limited(out + t.slice(from, start) + replacement(t.slice(start, end)));
    from = last = end;
    count++;
    if (!all) break;
  }
  return [limited(out + t.slice(from)), count];
}

/** The bytes at places from one number on, below another. */
export function part(t, from, below) {
  const start = from < 1n ? 1n : from;
  return start >= below ? "" : t.slice(Number(start < MOST ? start : MOST) - 1, Number(below < MOST ? below : MOST) - 1);
}

const ESCAPES = { __proto__: null, '"': '"', "/": "/", "\\": "\\", a: "\x07", b: "\b", f: "\f", n: "\n", r: "\r", t: "\t", v: "\v", "\n": "" };

/** The text of a string, by what its quotes enclose. */
export function unescaped(t) {
  return t.replace(/\\([0-7]{1,3}|[^0-7])/g, (whole, c) =>
    /[0-7]/.test(c) ? String.fromCharCode(parseInt(c, 8) % 256) : ESCAPES[c] ?? whole);
}
