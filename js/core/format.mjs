// Formats of printf and sprintf.

import { Fault, TEXT_LIMIT, limited, looksNumeric, numberOf, textOf } from "./values.mjs";

const MOST_WIDTH = 65_535;
const CONVERSION = /%(?:%|([-+ #0]*)([0-9]*)(?:\.([0-9]*))?([diouxXfsc]))/y;

function padded(d, t) {
  return d.flags.includes("-") ? t.padEnd(d.width) : t.padStart(d.width);
}

function numberText(d, precision, sign, digits) {
  const filled = d.flags.includes("0") && !d.flags.includes("-") && precision === null;
  return padded(d, sign + (filled ? digits.padStart(d.width - sign.length, "0") : digits));
}

function signOf(d, number) {
  if (number < 0n) return "-";
  return d.flags.includes("+") ? "+" : d.flags.includes(" ") ? " " : "";
}

function digitsOf(d, number, base) {
  if (d.precision === 0 && number === 0n) return "";
  return number.toString(base).padStart(d.precision ?? 0, "0");
}

function fractionOf(d) {
  if (d.precision === 0) return d.flags.includes("#") ? "." : "";
  return "." + "0".repeat(d.precision ?? 6);
}

function charOf(value) {
  if (value.kind === "num" || (value.kind === "strnum" && looksNumeric(value.text))) {
    return String.fromCharCode(Number(BigInt.asUintN(8, numberOf(value, true))));
  }
  return textOf(value).slice(0, 1);
}

function sizeOf(number) {
  return number < 0n ? -number : number;
}

function hexadecimal(d, number) {
  const digits = digitsOf(d, number, 16);
  const mark = d.flags.includes("#") && number !== 0n ? "0" + d.specifier : "";
  return numberText(d, d.precision, mark, d.specifier === "X" ? digits.toUpperCase() : digits);
}

function octal(d, number) {
  const digits = digitsOf(d, number, 8);
  return numberText(d, d.precision, "", d.flags.includes("#") && !digits.startsWith("0") ? "0" + digits : digits);
}

function decimal(d, number) {
  return numberText(d, d.precision, signOf(d, number), digitsOf(d, sizeOf(number), 10));
}

/** The text of one value by a conversion. */
function converted(d, value) {
  const bits = () => BigInt.asUintN(64, numberOf(value, true));
  switch (d.specifier) {
    case "d": case "i": return decimal(d, numberOf(value, true));
    case "u": return numberText(d, d.precision, "", digitsOf(d, bits(), 10));
    case "o": return octal(d, bits());
    case "x": case "X": return hexadecimal(d, bits());
    case "f": {
      const number = numberOf(value);
      return numberText(d, null, signOf(d, number), sizeOf(number).toString() + fractionOf(d));
    }
    case "s": return padded(d, textOf(value).slice(0, d.precision ?? TEXT_LIMIT));
    default: return padded(d, charOf(value));
  }
}

/** The conversion at a place of a format, and where it ends; `d` is null if it is a percent sign. */
function conversionAt(format, at) {
  CONVERSION.lastIndex = at;
  const found = CONVERSION.exec(format);
  if (found === null) throw new Fault("Format");
  const end = at + found[0].length;
  if (found[4] === undefined) return { end, d: null };
  const precision = found[3] === undefined ? null : Number(found[3]);
  const d = { flags: found[1], width: Number(found[2]), precision, specifier: found[4] };
  if (d.width > MOST_WIDTH || (precision ?? 0) > MOST_WIDTH) throw new Fault("Format");
  return { end, d };
}

/** The text of a format and values. */
export function formatted(format, values) {
  let out = "";
  let used = 0;
  for (let at = 0; at < format.length; ) {
    let next = format.indexOf("%", at);
    if (next < 0) next = format.length;
    out = limited(out + format.slice(at, next));
    if (next === format.length) break;
    const { end, d } = conversionAt(format, next);
    if (d !== null && used >= values.length) throw new Fault("Format");
    out = limited(out + (d === null ? "%" : converted(d, values[used++])));
    at = end;
  }
  return out;
}
