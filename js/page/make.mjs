// Writes the page as one file, which opens from disk: node make.mjs OUT.html [MODULE.wasm SCRIPT.awk [INPUT]]
//
// With a module the page has that one, and else the examples. The page's modules become functions in one script, and so do those of the worker.

import { readFileSync, writeFileSync } from "node:fs";

const here = (name) => new URL(name, import.meta.url);
const read = (name) => readFileSync(here(name), "utf8");
const IMPORT = /^import \{([^}]*)\} from "([^"]+)";\n/gm;
const EXPORT_FROM = /^export \{([^}]*)\} from "([^"]+)";\n/gm;
const EXPORT_ALL = /^export \* from "([^"]+)";\n/gm;
const EXPORT = /^export (?:async )?(?:function|class|const) (\w+)/gm;

const pattern = (names) => names.replace(/(\w+) as (\w+)/g, "$1: $2").replace(/\s+/g, " ");

/** Modules as functions, each once, those that others use first. */
class Bundle {
  constructor(replaced) {
    this.replaced = replaced;
    this.names = new Map();
    this.text = "";
  }

  /** Adds a module with what it imports, and answers the name of the constant that has its exports. */
  add(url) {
    const known = this.names.get(url.href);
    if (known !== undefined) return known;
    const given = [];
    const from = (path) => this.add(new URL(path, url));
    const source = this.replaced.get(url.href) ?? readFileSync(url, "utf8");
    const body = source
      .replace(IMPORT, (_, names, path) => `const {${pattern(names)}} = ${from(path)};\n`)
      .replace(EXPORT_FROM, (_, names, path) => {
        given.push(...names.split(",").map((it) => it.trim()).filter((it) => it !== ""));
        return `const {${pattern(names)}} = ${from(path)};\n`;
      })
      .replace(EXPORT_ALL, (_, path) => {
        given.push(`...${from(path)}`);
        return "";
      })
      .replace(EXPORT, (whole, name) => {
        given.push(name);
        return whole.slice("export ".length);
      });
    const name = `m${this.names.size}`;
    this.names.set(url.href, name);
    this.text += `const ${name} = await (async () => {\n${body}return { ${given.join(", ")} };\n})();\n`;
    return name;
  }
}

function bundled(entry, replaced = new Map()) {
  const bundle = new Bundle(replaced);
  bundle.add(here(entry));
  return `(async () => {\n${bundle.text}})();\n`;
}

/** A value as it may stand in a script of a page: without `<`, so that nothing in it begins a comment or an element. */
const literal = (value) => JSON.stringify(value).replaceAll("<", "\\u003c");

/** The page's programs, with all that they need in the text. */
function programsText(programs, worker) {
  return `const given = ${literal(programs)};
const bytesOf = (base64) => Uint8Array.from(atob(base64), (c) => c.charCodeAt(0));
export const programs = given.map(({ name, module, script, input }) => ({ name, load: async () => ({ module: bytesOf(module), script, input }) }));
const worker = ${literal(worker)};
export const workerOf = () => new Worker(URL.createObjectURL(new Blob([worker], { type: "text/javascript" })));
`;
}

const base64 = (path) => readFileSync(path).toString("base64");

function examples() {
  const names = /const NAMES = (\[[^\]]*\])/.exec(read("programs.mjs"))[1];
  return JSON.parse(names).map((name) => {
    const file = (it) => here(`../../examples/${name}/${it}`);
    return { name, module: base64(file("script.wasm")), script: readFileSync(file("script.awk"), "utf8"), input: readFileSync(file("input"), "utf8") };
  });
}

function own(module, script, input) {
  return [{ name: module, module: base64(module), script: readFileSync(script, "utf8"), input: input === undefined ? "" : readFileSync(input, "utf8") }];
}

/** The page in one file. */
export function pageOf(programs) {
  const replaced = new Map([[here("programs.mjs").href, programsText(programs, bundled("../browser/worker.mjs"))]]);
  const script = bundled("page.mjs", replaced).replaceAll("import.meta.url", "document.baseURI").replaceAll("</script", "<\\/script");
  return read("index.html")
    .replace('<link rel="stylesheet" href="page.css">', () => `<style>\n${read("page.css")}</style>`)
    .replace('<script type="module" src="page.mjs"></script>', () => `<script>\n${script}</script>`);
}

function refuse(text) {
  console.error(text);
  process.exitCode = 8;
}

const [out, ...given] = process.argv.slice(2);
if (out === undefined || given.length === 1 || given.length > 3) {
  refuse("usage: node make.mjs OUT.html [MODULE.wasm SCRIPT.awk [INPUT]]");
} else {
  try {
    writeFileSync(out, pageOf(given.length === 0 ? examples() : own(...given)));
  } catch (error) {
    // one of the system, as that a file is not there
    if (error.code === undefined) throw error;
    refuse(`make.mjs: ${error.message}`);
  }
}
