// Names of the standard streams.

export const STREAM_NAMES = { input: "/dev/stdin", output: "/dev/stdout", errors: "/dev/stderr" };

/**
 * The same files, in which the names /dev/stdin, /dev/stdout and /dev/stderr mean the standard streams, the last one `errors`: what a script writes to them
 * stands in order with its other output, and closing a name does not close the stream.
 */
export function withStreams(files, errors) {
  let source = null;
  const standard = () => {
    source ??= files.standard();
    return { read: (most) => source.read(most) };
  };
  const outlets = new Map([[STREAM_NAMES.output, files.output], [STREAM_NAMES.errors, errors]]);
  return {
    ...files,
    standard,
    open: (name) => (name === STREAM_NAMES.input ? standard() : files.open(name)),
    create(name, append) {
      const outlet = outlets.get(name);
      return outlet === undefined ? files.create(name, append) : { write: (bytes) => outlet.write(bytes) };
    },
  };
}
