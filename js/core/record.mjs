// The record and its fields.

import { piecesOf } from "./texts.mjs";
import { Fault, TEXT_LIMIT, UNINIT, strnum, textOf } from "./values.mjs";

const MOST_FIELDS = 1_048_576;

/** The number of a field, or a count of fields; FieldNumber. */
export function fieldNumber(number) {
  if (number < 0n || number > BigInt(MOST_FIELDS)) throw new Fault("FieldNumber");
  return Number(number);
}

const lengthOf = (field) => (typeof field === "string" ? field.length : textOf(field).length);

/**
 * `$0` and its fields. The fields are cut when they are first asked for, and `$0` is put together so: what may fail is found at once all the same. A
 * field is a value, or the text of one that nobody has set.
 */
export class Record {
  constructor() {
    this.value = UNINIT;
    this.fields = [];
    this.separator = null;
    this.ofs = "";
    this.length = 0;
  }

  /** Sets `$0`; FieldNumber, and what FS may fail with. */
  setWhole(t, fs, rs) {
    const newlines = rs === "" && fs !== "";
    const mayFail = fs.length > 1 || t.length >= MOST_FIELDS;
    const fields = mayFail ? piecesOf(fs, false, newlines, t) : null;
    if (mayFail) fieldNumber(BigInt(fields.length));
    this.fields = fields;
    this.separator = { fs, newlines };
    this.value = strnum(t);
    this.length = -1;
  }

  /** The fields, of which the caller may change some. */
  cut() {
    if (this.fields === null) this.fields = piecesOf(this.separator.fs, false, this.separator.newlines, this.value.text);
    return this.fields;
  }

  /** The length of all fields together, without what separates them. */
  total() {
    if (this.length < 0) this.length = this.cut().reduce((sum, field) => sum + lengthOf(field), 0);
    return this.length;
  }

  whole() {
    if (this.value === null) {
      this.value = strnum(this.fields.map((field) => (typeof field === "string" ? field : textOf(field))).join(this.ofs));
    }
    return this.value;
  }

  count() {
    return this.cut().length;
  }

  field(n) {
    if (n === 0) return this.whole();
    const field = this.cut()[n - 1];
    if (typeof field !== "string") return field ?? UNINIT;
    return (this.fields[n - 1] = strnum(field));
  }

  /** `$0` is to be made anew of fields of this total length; TextLimit. */
  rejoined(total, count, ofs) {
    if (total + Math.max(count - 1, 0) * ofs.length > TEXT_LIMIT) throw new Fault("TextLimit");
    this.length = total;
    this.ofs = ofs;
    this.value = null;
  }

  /** Sets a field that is not `$0`. */
  setField(n, value, ofs) {
    const fields = this.cut();
    const before = n <= fields.length ? lengthOf(fields[n - 1]) : 0;
    this.rejoined(this.total() - before + lengthOf(value), Math.max(n, fields.length), ofs);
    while (fields.length < n - 1) fields.push(UNINIT);
    fields[n - 1] = value;
  }

  /** Cuts or extends the fields. */
  setCount(count, ofs) {
    const fields = this.cut();
    const dropped = fields.slice(count).reduce((sum, field) => sum + lengthOf(field), 0);
    this.rejoined(this.total() - dropped, count, ofs);
    fields.length = Math.min(fields.length, count);
    while (fields.length < count) fields.push(UNINIT);
  }
}
