// Matches of extended regular expressions over bytes: the leftmost, and of these the longest.

import { EreError, treeOf } from "./ere_syntax.mjs";

const MOST_POSITIONS = 10_000;
const MOST_NESTED = 1_000;
const MOST_KEPT_NODES = 1_000_000;

/** States that were met so far, each a set of nodes, with where each byte leads. */
class States {
  /** With `again`, a match may begin at every place that is reached. */
  constructor(nodes, first, again) {
    this.nodes = nodes;
    this.first = first;
    this.again = again;
    this.forget();
  }

  forget() {
    this.known = new Map();
    this.kept = 0;
    this.beginnings = [null, null];
  }

  /** The state before any byte, at the text's start or after it. */
  beginning(atStart) {
    return (this.beginnings[Number(atStart)] ??= this.made([this.first], atStart));
  }

  /** The nodes that are reached from others without a byte: those that take one, and whether the match may end. */
  closure(from, atStart, atEnd) {
    const there = new Set();
    const takes = [];
    const left = [...from];
    while (left.length > 0) {
      const n = left.pop();
      if (there.has(n)) continue;
      there.add(n);
      const node = this.nodes[n];
      if (node.has !== undefined) takes.push(node);
      else if (node.ways !== undefined) left.push(...node.ways);
      else if ((node.anchor === "start" && atStart) || (node.anchor === "end" && atEnd)) left.push(node.next);
    }
    return { takes, accepts: there.has(0) };
  }

  made(from, atStart) {
    const { takes, accepts } = this.closure(from, atStart, false);
    this.kept += from.length + 256;
    return { takes, accepts, acceptsAtEnd: this.closure(from, atStart, true).accepts, next: new Array(256) };
  }

  /** Where a byte leads; null if no match goes on. */
  step(state, byte) {
    const into = new Set(this.again ? [this.first] : []);
    for (const node of state.takes) if (node.has[byte]) into.add(node.next);
    if (into.size === 0) return (state.next[byte] = null);
    const from = [...into].sort((a, b) => a - b);
    const key = from.join();
    if (this.kept > MOST_KEPT_NODES) this.forget();
    let reached = this.known.get(key);
    if (reached === undefined) this.known.set(key, (reached = this.made(from, false)));
    return (state.next[byte] = reached);
  }
}

/** An expression, ready to search. */
export class Ere {
  /** BadEre if the text is not an expression, EreTooLarge if it passes a limit. */
  constructor(text) {
    const tree = treeOf(text);
    if (tree.positions > MOST_POSITIONS || tree.depth > MOST_NESTED) throw new EreError("EreTooLarge");
    this.nodes = [{ accepts: true }];
    const first = this.build(tree, 0);
    this.here = new States(this.nodes, first, false);
    this.anywhere = new States(this.nodes, first, true);
  }

  put(node) {
    return this.nodes.push(node) - 1;
  }

  /** The node from which the tree leads to the node `next`. */
  build(tree, next) {
    switch (tree.kind) {
      case "empty": return next;
      case "set": return this.put({ has: tree.has, next });
      case "start": case "end": return this.put({ anchor: tree.kind, next });
      case "group": return this.build(tree.tree, next);
      case "concat": return tree.all.reduceRight((after, part) => this.build(part, after), next);
      case "or": return this.put({ ways: tree.all.map((part) => this.build(part, next)) });
      default: return this.repeated(tree, next);
    }
  }

  repeated({ tree, low, high }, next) {
    let at = next;
    if (high === Infinity) {
      const again = this.put({ ways: [next] });
      this.nodes[again].ways.push(this.build(tree, again));
      at = again;
    } else {
      for (let n = low; n < high; n++) at = this.put({ ways: [next, this.build(tree, at)] });
    }
    for (let n = 0; n < low; n++) at = this.build(tree, at);
    return at;
  }

  /** Where the longest match from a place on ends; -1 if there is none. */
  longest(text, from) {
    let end = -1;
    let state = this.here.beginning(from === 0);
    for (let at = from; at < text.length; at++) {
      if (state.accepts) end = at;
      const byte = text.charCodeAt(at);
      const next = state.next[byte];
      state = next === undefined ? this.here.step(state, byte) : next;
      if (state === null) return end;
    }
    return state.acceptsAtEnd ? text.length : end;
  }

  /** Where the first match from a place on begins and ends; null if there is none. */
  firstMatch(text, from) {
    for (let at = from; at <= text.length; at++) {
      const end = this.longest(text, at);
      if (end >= 0) return [at, end];
    }
    return null;
  }

  /** Whether there is a match anywhere. */
  test(text) {
    let state = this.anywhere.beginning(true);
    for (let at = 0; at < text.length; at++) {
      if (state.accepts) return true;
      const byte = text.charCodeAt(at);
      state = state.next[byte] ?? this.anywhere.step(state, byte);
    }
    return state.acceptsAtEnd;
  }
}
