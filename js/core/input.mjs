// Records of a source that is read in parts, and the main input.

import { textOfBytes } from "./bytes.mjs";
import { Fault, TEXT_LIMIT, limited, num, numberOf, strnum, textOf } from "./values.mjs";
import { assignmentOf } from "./names.mjs";

const NEWLINE = 10;
const MOST_OPERANDS = 1_048_576;

/** Reading failed. */
export class ReadError extends Error {}

/** The records of a source. It asks the source for more only if no record is complete. */
export class Reader {
  constructor(source) {
    this.source = source;
    this.bytes = new Uint8Array(0);
    this.at = 0;
    this.end = 0;
    this.phase = "open";
  }

  /** The next record, or null at the end; ReadError if no record is complete and reading failed, and from then on. */
  next(rs) {
    if (this.phase === "failed") throw new ReadError();
    return rs === "" ? this.paragraph() : this.upTo(rs.charCodeAt(0));
  }

  /** Gives up what is left, also if reading failed. */
  skip() {
    this.at = this.end;
    this.phase = "ended";
  }

  close() {
    this.source.close?.();
  }

  /** Reads one more part behind those bytes that are left; false if there is none. */
  fill() {
    if (this.phase !== "open") return false;
    let part = null;
    try {
      part = this.source.read();
    } catch {
      this.phase = "failed";
      return false;
    }
    if (part === null) this.phase = "ended";
    else this.append(part);
    return part !== null;
  }

  append(part) {
    const left = this.end - this.at;
    if (left === 0) {
      [this.bytes, this.at, this.end] = [part, 0, part.length];
      return;
    }
    if (this.end + part.length > this.bytes.length) {
      const room = left + part.length > this.bytes.length / 2 ? new Uint8Array(2 * (left + part.length)) : this.bytes;
      room.set(this.bytes.subarray(this.at, this.end));
      [this.bytes, this.at, this.end] = [room, 0, left];
    }
    this.bytes.set(part, this.end);
    this.end += part.length;
  }

  /** Where a byte is, from a place on; -1 if it is not there. */
  find(byte, from) {
    const found = this.bytes.indexOf(byte, from);
    return found < this.end ? found : -1;
  }

  cut(end, width) {
    const record = textOfBytes(this.bytes, this.at, end);
    this.at = end + width;
    return limited(record);
  }

  upTo(byte) {
    for (let seen = 0; ; ) {
      const found = this.find(byte, this.at + seen);
      if (found >= 0) return this.cut(found, 1);
      seen = this.end - this.at;
      if (seen > TEXT_LIMIT) throw new Fault("TextLimit");
      if (!this.fill()) return this.rest(this.end);
    }
  }

  skipNewlines() {
    for (;;) {
      while (this.at < this.end && this.bytes[this.at] === NEWLINE) this.at++;
      if (this.at < this.end || !this.fill()) return;
    }
  }

  paragraph() {
    this.skipNewlines();
    for (let seen = 0; ; ) {
      const found = this.find(NEWLINE, this.at + seen);
      if (found >= 0 && found + 1 < this.end) {
        if (this.bytes[found + 1] === NEWLINE) return this.cut(found, 2);
        seen = found + 1 - this.at;
        continue;
      }
      seen = (found >= 0 ? found : this.end) - this.at;
      if (seen > TEXT_LIMIT) throw new Fault("TextLimit");
      if (!this.fill()) return this.rest(found >= 0 ? found : this.end);
    }
  }

  /** The last record, which ends before a place. */
  rest(end) {
    if (this.phase === "failed") throw new ReadError();
    if (this.at === this.end) return null;
    const record = this.cut(end, 0);
    this.at = this.end;
    return record;
  }
}

/** The main input: the operands, as they are in ARGV when they are reached, and otherwise the standard input. */
export class MainInput {
  constructor(host) {
    this.host = host;
    this.next = 1;
    this.hasFile = false;
    this.isOver = false;
    this.reader = null;
  }

  begin(name, reader) {
    this.reader = reader;
    this.host.specials.FILENAME = strnum(name);
    this.host.specials.FNR = num(0n);
  }

  /** Lets the reader go; that of the standard input stays with the host. */
  leave() {
    if (this.reader !== this.host.input) this.reader.close();
    this.reader = null;
  }

  /** Reaches the next operand: true, or how reading ends ("end", "pending", "unopened"). */
  reach() {
    if (this.isOver) return "end";
    if (this.next > MOST_OPERANDS || BigInt(this.next) >= numberOf(this.host.specials.ARGC)) {
      this.isOver = true;
      if (this.hasFile) return "end";
      this.begin("", this.host.standard());
      return true;
    }
    const operand = this.host.arrays.get(0).get(String(this.next++));
    return this.take(operand === undefined ? "" : textOf(operand));
  }

  take(operand) {
    if (operand === "") return true;
    const assignment = assignmentOf(operand);
    if (assignment !== null) return this.host.names.assign(assignment) ? "pending" : true;
    this.hasFile = true;
    const reader = operand === "-" ? this.host.standard() : this.host.reader(operand);
    if (reader === null) return "unopened";
    this.begin(operand, reader);
    return true;
  }

  /** Gives up the rest of what is being read. */
  skip() {
    if (this.reader === null) return;
    this.reader.skip();
    this.leave();
  }

  /** What it gives next: { record }, or how reading ends. RS is read for each record: an operand may assign to it. */
  read() {
    for (;;) {
      if (this.reader !== null) {
        const record = this.reader.next(this.host.special("RS"));
        if (record !== null) return { record };
        this.leave();
      }
      const reached = this.reach();
      if (reached !== true) return { how: reached };
    }
  }
}
