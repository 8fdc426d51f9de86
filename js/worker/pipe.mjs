// A pipe into a worker: the worker waits while the other side, which may not, gets the next part. Both share its memory.

const ROOM = 65_536;
const [TURN, LENGTH] = [0, 1];
const [WANTED, GIVEN] = [0, 1];
const [ENDED, FAILED] = [-1, -2];
const HEADER = 8;

/** The memory of a new pipe. */
export function newPipe() {
  return new SharedArrayBuffer(HEADER + ROOM);
}

/** Reads from a pipe, in the worker. `ask` tells the other side that a part is wanted. */
export function pipeSource(pipe, ask) {
  const control = new Int32Array(pipe, 0, 2);
  let ended = false;
  return {
    read() {
      if (ended) return null;
      Atomics.store(control, TURN, WANTED);
      ask();
      Atomics.wait(control, TURN, WANTED);
      const length = Atomics.load(control, LENGTH);
      if (length === FAILED) throw new Error("the stream failed");
      ended = length === ENDED;
      return ended ? null : new Uint8Array(pipe, HEADER, length).slice();
    },
  };
}

/**
 * Gives a pipe what a stream has: `feed` gives a part, and `close` lets the stream go. The stream is a ReadableStream, or anything to be read by
 * `for await`.
 */
export function pipeFeeder(pipe, stream) {
  const control = new Int32Array(pipe, 0, 2);
  const parts = partsOf(stream);
  let rest = new Uint8Array(0);
  const give = (length) => {
    Atomics.store(control, LENGTH, length);
    Atomics.store(control, TURN, GIVEN);
    Atomics.notify(control, TURN);
  };
  const feed = async () => {
    try {
      while (rest.length === 0) {
        const { done, value } = await parts.next();
        if (done) return give(ENDED);
        rest = typeof value === "string" ? new TextEncoder().encode(value) : value;
      }
      const part = rest.subarray(0, ROOM);
      new Uint8Array(pipe, HEADER).set(part);
      rest = rest.subarray(part.length);
      return give(part.length);
    } catch {
      return give(FAILED);
    }
  };
  return { feed, close: () => parts.close() };
}

/**
 * The parts of a stream, and `close`, which ends it also while a part is awaited. Not every browser can read a ReadableStream by `for await`, and a loop
 * that waits can not be left.
 */
export function partsOf(stream) {
  if (typeof stream.getReader === "function") {
    const reader = stream.getReader();
    return { next: () => reader.read(), close: () => reader.cancel() };
  }
  const parts = stream[Symbol.asyncIterator]();
  return { next: () => parts.next(), close: () => (stream.destroy === undefined ? parts.return?.() : stream.destroy()) };
}
