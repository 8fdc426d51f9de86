// Texts are strings whose characters are bytes, 0 to 255. TextDecoder("latin1") is no help: it reads windows-1252.

const CHUNK = 8192;

// Node's conversions are several times faster than loops. Browsers have none.
const { latin1Slice } = globalThis.Buffer?.prototype ?? {};
const fastBytes = globalThis.Buffer?.from;

/** The text of the bytes from one place to another. */
export function textOfBytes(bytes, from = 0, to = bytes.length) {
  if (latin1Slice !== undefined) return latin1Slice.call(bytes, from, to);
  let text = "";
  for (let at = from; at < to; at += CHUNK) {
    text += String.fromCharCode.apply(null, bytes.subarray(at, Math.min(at + CHUNK, to)));
  }
  return text;
}

/** The bytes of a text. */
export function bytesOfText(text) {
  if (fastBytes !== undefined) return fastBytes(text, "latin1");
  const bytes = new Uint8Array(text.length);
  for (let at = 0; at < text.length; at++) bytes[at] = text.charCodeAt(at);
  return bytes;
}

/** A text that a caller made; TypeError if one of its characters is no byte. */
export function checked(text) {
  if (/[^\0-\xff]/.test(text)) throw new TypeError("a text has a character above 255: utf8() makes a text of an ordinary string");
  return text;
}

/** A text that holds the UTF-8 of an ordinary string. */
export function utf8(string) {
  return textOfBytes(new TextEncoder().encode(string));
}

/** The ordinary string of a text, read as UTF-8; bytes that are not UTF-8 become replacement characters. */
export function shown(text) {
  return new TextDecoder("utf-8", { ignoreBOM: true }).decode(bytesOfText(text));
}

/** Whether the bytes of a text are UTF-8. */
export function isUtf8(text) {
  try {
    new TextDecoder("utf-8", { fatal: true }).decode(bytesOfText(text));
    return true;
  } catch {
    return false;
  }
}

/** Arrays of bytes, one after the other. */
export function joined(parts) {
  const out = new Uint8Array(parts.reduce((length, part) => length + part.length, 0));
  let at = 0;
  for (const part of parts) {
    out.set(part, at);
    at += part.length;
  }
  return out;
}
