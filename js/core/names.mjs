// The names of the script, and assignments of the command line.

import { unescaped } from "./texts.mjs";
import { Fault, strnum } from "./values.mjs";

const NAME = /^[A-Za-z_][A-Za-z_0-9]*$/;
const RESERVED = new Set(("BEGIN END function if else while for do break continue next exit return delete in getline print printf length substr index split " +
  "sub gsub match sprintf tolower toupper int close atan2 cos sin exp log sqrt rand srand system func nextfile fflush").split(" "));

/** Name and text of an operand that is an assignment; null if it is not one. */
export function assignmentOf(t) {
  const at = t.indexOf("=");
  return at > 0 && NAME.test(t.slice(0, at)) ? [t.slice(0, at), t.slice(at + 1)] : null;
}

/** Names, and assignments that are still to be made. `setSpecial` sets a special variable by its name, and says whether there is one. */
export class Names {
  constructor(assigns, setSpecial) {
    this.assigns = assigns;
    this.made = 0;
    this.setSpecial = setSpecial;
    this.kinds = new Map();
    this.pending = null;
  }

  /** Makes an assignment; true if the script is to make it. */
  assign([name, raw]) {
    if (!NAME.test(name) || RESERVED.has(name) || name === "ARGV" || name === "ENVIRON") throw new Fault("BadAssignment");
    const value = strnum(unescaped(raw));
    if (this.setSpecial(name, value)) return false;
    const known = this.kinds.get(name);
    if (known === undefined) return false;
    if (known.kind !== 0) throw new Fault("BadAssignment");
    this.pending = { number: known.number, value };
    return true;
  }

  /** Makes the next assignments, up to one that the script is to make: 2 if there is one, 0 if none is left. */
  start() {
    while (this.made < this.assigns.length) if (this.assign(this.assigns[this.made++])) return 2;
    return 0;
  }
}
