// Limits on what a run reads and writes.

/**
 * The same files, with a limit on the bytes that are written to the standard output and to files together: a write past it fails after what fits.
 * `isReached()` says whether that was so.
 */
export function withMostOutput(files, most) {
  let left = most;
  let reached = false;
  const limited = (outlet) => ({
    write(bytes) {
      const fits = bytes.subarray(0, left);
      left -= fits.length;
      if (fits.length > 0) outlet.write(fits);
      if (fits.length === bytes.length) return;
      reached = true;
      throw new Error("the limit on output is reached");
    },
    close: () => outlet.close?.(),
  });
  return {
    ...files,
    output: limited(files.output),
    create(name, append) {
      const outlet = files.create(name, append);
      return outlet === null ? null : limited(outlet);
    },
    isReached: () => reached,
  };
}

/**
 * The same files, with a limit on the bytes that are read from the standard input and from files together: a read past it fails. At the limit a source is
 * asked for one byte more, which no script gets, since its end is no failure.
 */
export function withMostInput(files, most) {
  let left = most;
  let isOver = false;
  const limited = (source) => {
    let gaveMore = false;
    return {
      read() {
        if (left === 0) {
          isOver ||= gaveMore || source.read(1) !== null;
          if (isOver) throw new Error("the limit on input is reached");
          return null;
        }
        const part = source.read(left);
        if (part === null) return null;
        const fits = part.subarray(0, left);
        gaveMore = fits.length < part.length;
        left -= fits.length;
        return fits;
      },
      close: () => source.close?.(),
    };
  };
  return {
    ...files,
    standard: () => limited(files.standard()),
    open(name) {
      const source = files.open(name);
      return source === null ? null : limited(source);
    },
  };
}
