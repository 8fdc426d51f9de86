// What the page offers: the examples, which a server gives. The page in one file has this module's place filled by `make.mjs`.

const NAMES = ["access_log", "column_sum", "constants", "csv_report", "log_filter", "test_checker", "word_count"];

async function fetched(name, file) {
  const answer = await fetch(new URL(`../../examples/${name}/${file}`, import.meta.url));
  if (!answer.ok) throw new Error(`${file} is not there`);
  return answer;
}

/** Each example by its name, with a function that loads it. */
export const programs = NAMES.map((name) => ({
  name,
  async load() {
    const [module, script, input] = await Promise.all(["script.wasm", "script.awk", "input"].map((file) => fetched(name, file)));
    return { module: new Uint8Array(await module.arrayBuffer()), script: await script.text(), input: await input.text() };
  },
}));

/** Where the worker comes from: undefined is the package's own file. */
export const workerOf = undefined;
