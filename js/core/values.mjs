// Values, their numbers and their comparison.
//
// A value is { kind: "uninit" }, { kind: "num", number } with a BigInt, { kind: "text", text }, or { kind: "strnum", text }: a numeric string, which
// came from outside.

export const MOST = 2n ** 53n;
export const TEXT_LIMIT = 67_108_864;

/** The runtime errors of scripts, by number from 1 on. */
export const FAULTS = [
  "Range", "Fraction", "DivisionByZero", "Inexact", "FieldNumber", "Format", "BadEre", "EreTooLarge", "TextLimit",
  "OpenInput", "ReadFailed", "OpenOutput", "WriteFailed", "TooManyStreams", "NextOutside", "BadAssignment",
];

/** A runtime error of the script: the host keeps it, and the call answers -1 or the least i64. */
export class Fault extends Error {}

export const UNINIT = { kind: "uninit" };
export const num = (number) => ({ kind: "num", number });
export const text = (t) => ({ kind: "text", text: t });
export const strnum = (t) => ({ kind: "strnum", text: t });

/** A text, if it is within the limit. */
export function limited(t) {
  if (t.length > TEXT_LIMIT) throw new Fault("TextLimit");
  return t;
}

/** A number, if it is within the limit on both sides. */
export function inRange(number) {
  if (number < -MOST || number > MOST) throw new Fault("Range");
  return number;
}

/** The text of a value. */
export function textOf(value) {
  switch (value.kind) {
    case "uninit": return "";
    case "num": return value.number.toString();
    default: return value.text;
  }
}

const NUMERAL = /^[\t-\r ]*([+-]?)(?:([0-9]+)(?:\.([0-9]*))?|\.([0-9]+))(?:[eE]([+-]?[0-9]+))?/;

/** The longest prefix that is number text: its sign, its digits from the first that is not 0 on, the power of ten on them, and its length. */
function numeralOf(t) {
  const found = NUMERAL.exec(t);
  if (found === null) return null;
  const fraction = found[3] ?? found[4] ?? "";
  const digits = ((found[2] ?? "") + fraction).replace(/^0+/, "");
  const exponent = Math.max(-1e15, Math.min(1e15, Number(found[5] ?? 0)));
  return { negative: found[1] === "-", digits, power: exponent - fraction.length, length: found[0].length };
}

/** Whether a text is number text as a whole, with space bytes before and after it. */
export function looksNumeric(t) {
  const numeral = numeralOf(t);
  return numeral !== null && /^[\t-\r ]*$/.test(t.slice(numeral.length));
}

/** The number of a text; if `truncated` it is cut towards 0, else a number that is not whole is a Fraction. */
function numberOfText(t, truncated) {
  const numeral = numeralOf(t);
  if (numeral === null || numeral.digits === "") return 0n;
  let whole = numeral.digits;
  if (numeral.power < 0) {
    const at = Math.max(whole.length + numeral.power, 0);
    if (!truncated && /[1-9]/.test(whole.slice(at))) throw new Fault("Fraction");
    whole = whole.slice(0, at);
  } else if (whole.length + numeral.power > 16) {
    throw new Fault("Range");
  } else {
    whole += "0".repeat(numeral.power);
  }
  if (whole.length > 16) throw new Fault("Range");
  const size = BigInt(whole === "" ? "0" : whole);
  return inRange(numeral.negative ? -size : size);
}

/** The number of a value; Fraction if it is not whole and is not `truncated`, then Range. */
export function numberOf(value, truncated = false) {
  switch (value.kind) {
    case "uninit": return 0n;
    case "num": return value.number;
    default: return numberOfText(value.text, truncated);
  }
}

/** Whether a value is true. */
export function truthOf(value) {
  switch (value.kind) {
    case "uninit": return false;
    case "num": return value.number !== 0n;
    case "text": return value.text !== "";
    default: return looksNumeric(value.text) ? numeralOf(value.text).digits !== "" : value.text !== "";
  }
}

function isText(value) {
  return value.kind === "text" || (value.kind === "strnum" && !looksNumeric(value.text));
}

/** Below 0, 0 or above 0: by number if neither side is a text, else by the bytes of the texts. */
export function order(left, right) {
  const asTexts = isText(left) || isText(right);
  const [a, b] = asTexts ? [textOf(left), textOf(right)] : [numberOf(left), numberOf(right)];
  return a < b ? -1 : a > b ? 1 : 0;
}

/** A power; DivisionByZero, Inexact, Range. */
export function power(base, exponent) {
  if (exponent === 0n) return 1n;
  if (base === 1n || base === -1n) return base === 1n || exponent % 2n === 0n ? 1n : -1n;
  if (exponent < 0n) throw new Fault(base === 0n ? "DivisionByZero" : "Inexact");
  if (base === 0n) return 0n;
  if (exponent > 53n) throw new Fault("Range");
  return inRange(base ** exponent);
}
