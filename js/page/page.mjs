// The page: shows a script, takes input, and shows what a run of its module prints and how it ends.

import { linesOf, shown, start } from "../browser/index.mjs";
import { MEANINGS } from "./meanings.mjs";
import { programs, workerOf } from "./programs.mjs";

const $ = (id) => document.getElementById(id);
const MOST_SHOWN = 2_000_000;

const OWN = "own";

// `own` is the module that was opened last; `output` is what the run has printed
const state = { program: null, own: null, files: [], running: null, output: null };

function made(tag, { text = "", ...more } = {}, ...children) {
  const node = Object.assign(document.createElement(tag), more);
  node.append(text, ...children);
  return node;
}

/** What was shown of a run is gone. */
function clear() {
  state.output = { parts: [], length: 0, decoder: new TextDecoder() };
  for (const line of $("script").children) line.className = "";
  $("output").replaceChildren();
  $("written").replaceChildren();
  $("error").hidden = true;
  $("save").disabled = true;
}

// The script

function showProgram(program) {
  stop();
  state.program = program;
  const lines = program.script === null ? [] : program.script.replace(/\n$/, "").split("\n");
  $("script").replaceChildren(...lines.map((line) => made("li", { text: line === "" ? " " : line })));
  $("script").hidden = program.script === null;
  $("note").textContent = program.script === null ? "No script was opened with this module, so the page can not show the line of an error." : "";
  clear();
  $("status").textContent = "Not run yet.";
}

async function chooseExample() {
  const { value } = $("example");
  if (value === OWN) return showProgram(state.own);
  const { name, load } = programs[Number(value)];
  const program = await load().catch(() => null);
  if ($("example").value !== value) return;
  if (program === null) {
    $("status").textContent = `The example ${name} could not be loaded. Open a module of your own.`;
    return;
  }
  $("standard").value = program.input;
  setFiles([]);
  $("words").value = "";
  showProgram(program);
}

/** Shows a module of the user's, as the last that can be chosen. */
function showOwn(name, program) {
  state.own = program;
  $("example").querySelector(`[value="${OWN}"]`)?.remove();
  $("example").append(made("option", { value: OWN, text: name, selected: true }));
  showProgram(program);
}

/** Opens a module, with its script if that is there too; or the script of the module that was opened last. */
async function openProgram(files) {
  const ending = (end) => [...files].find(({ name }) => name.endsWith(end));
  const [wasm, awk] = [ending(".wasm"), ending(".awk")];
  const script = awk === undefined ? null : await awk.text();
  if (wasm !== undefined) return showOwn(wasm.name, { module: new Uint8Array(await wasm.arrayBuffer()), script });
  if (awk === undefined) return;
  if (state.own !== null && state.program === state.own) showOwn($("example").selectedOptions[0].text, { ...state.own, script });
  else $("status").textContent = `${awk.name} is a script, and this page runs modules. Open the .wasm file that awkwasm compile made of it, too.`;
}

// The input

const quoted = (word) => (word === "" || /[\s"']/.test(word) ? (word.includes('"') ? `'${word}'` : `"${word}"`) : word);

/** The words of the field: what stands in quotes may have spaces. */
function words() {
  const all = $("words").value.match(/(?:"[^"]*"|'[^']*'|\S)+/g) ?? [];
  return all.map((word) => word.replace(/"([^"]*)"|'([^']*)'/g, (_, a, b) => a ?? b));
}

function setWords(all) {
  $("words").value = all.map(quoted).join(" ");
}

function setFiles(files) {
  state.files = files;
  $("files").replaceChildren(...files.map((file) => {
    const remove = made("button", { type: "button", text: "×", ariaLabel: `Remove ${file.name}` });
    remove.onclick = () => removeFile(file);
    return made("li", { text: `${file.name} (${file.size.toLocaleString("en")} bytes) ` }, remove);
  }));
}

function removeFile(file) {
  setFiles(state.files.filter((it) => it !== file));
  setWords(words().filter((word) => word !== file.name));
  $("add").focus();
}

function addFiles(files) {
  const [own, inputs] = [[], []];
  for (const file of files) (/\.(wasm|awk)$/.test(file.name) ? own : inputs).push(file);
  if (own.length > 0) openProgram(own);
  const names = inputs.map(({ name }) => name);
  if (names.length === 0) return;
  setFiles([...state.files.filter(({ name }) => !names.includes(name)), ...inputs]);
  setWords([...words().filter((word) => !names.includes(word)), ...names]);
}

/** Gives a field's files, once; the same ones can be opened again. */
function taken(field) {
  const files = [...field.files];
  field.value = "";
  return files;
}

// The run

function showOutput(output, bytes) {
  if (state.output !== output) return;
  const shownPart = bytes.subarray(0, Math.max(MOST_SHOWN - output.length, 0));
  output.parts.push(bytes);
  output.length += bytes.length;
  $("output").append(output.decoder.decode(shownPart, { stream: true }));
}

const linesIn = (bytes) => bytes.reduce((count, byte) => count + Number(byte === 10), 0);
const counted = (count, what) => `${count.toLocaleString("en")} ${what}${count === 1 ? "" : "s"}`;

function summary(end) {
  const { parts, length } = state.output;
  const lines = parts.reduce((sum, part) => sum + linesIn(part), 0);
  const rest = length > MOST_SHOWN ? `; the first ${MOST_SHOWN.toLocaleString("en")} bytes are shown, and all can be saved` : "";
  const printed = `${counted(lines, "line")}, ${counted(length, "byte")}${rest}`;
  const took = end.milliseconds === undefined ? "" : ` in ${Math.max(1, Math.round(end.milliseconds)).toLocaleString("en")} ms`;
  if (end.kind === "ended") return `Ended with status ${end.status}${took}: ${printed}.`;
  if (end.kind === "stopped") return `Stopped: ${printed}.`;
  return `Ended early${end.status === null ? "" : `, with status ${end.status},`}${took}: ${printed}.`;
}

/** The functions of the script with their program points; null unless the module has as many. */
function functionsOf(script, { places }) {
  try {
    const functions = linesOf(script);
    return functions.map(({ lines }) => lines.length).join() === places.join() ? functions : null;
  } catch {
    return null;
  }
}

/** The line of the script that a run had reached; null if it is not known. */
function lineOf(end, functions) {
  if (!end.place || functions === null) return null;
  const { name, lines } = functions[end.place.function];
  return { line: lines[end.place.point], within: name === "main" ? "" : ` in ${name}()` };
}

function showPlace(end, functions, parts) {
  const found = lineOf(end, functions);
  if (found === null) return;
  const item = $("script").children[found.line - 1];
  item.className = "faulty";
  item.scrollIntoView({ block: "nearest" });
  parts.push(made("p", { text: `Line ${found.line}${found.within}: ` }, made("code", { text: item.textContent.trim() })));
}

function showReading({ reading }, parts) {
  if (reading === undefined || reading.nr === "0") return;
  const file = reading.filename === "" ? "the standard input" : shown(reading.filename);
  parts.push(made("p", { text: `Record ${reading.fnr} of ${file}: ` }, made("code", { text: shown(reading.record).slice(0, 200) })));
}

function showError(end, functions) {
  const meaning = end.isOutputFull ? "The limit on output is reached." : MEANINGS[end.name] ?? MEANINGS[end.kind] ?? "";
  const parts = [made("p", {}, made("strong", { text: `awkwasm: ${end.name}` }), ` ${meaning}`)];
  showPlace(end, functions, parts);
  showReading(end, parts);
  $("error").replaceChildren(...parts);
  $("error").hidden = false;
}

function saveLink(name, parts) {
  const link = made("a", { href: URL.createObjectURL(new Blob(parts)), download: name });
  link.click();
  setTimeout(() => URL.revokeObjectURL(link.href), 1000);
}

function showEnd(end) {
  const { script } = state.program;
  const functions = script === null || end.places === undefined ? null : functionsOf(script, end);
  if (script !== null && end.places !== undefined) {
    $("note").textContent = functions === null ? "The module was not compiled from this script, so the page can not show the line of an error." : "";
  }
  $("output").append(state.output.decoder.decode());
  $("status").textContent = summary(end);
  $("save").disabled = state.output.length === 0;
  if (end.name !== null && end.kind !== "stopped") showError(end, functions);
  $("written").replaceChildren(...end.written.map(([name, bytes]) => {
    const save = made("button", { type: "button", text: `Save ${shown(name)}` });
    save.onclick = () => saveLink(shown(name), [bytes]);
    return made("li", {}, save);
  }));
}

/** The number of a field. One that can not be used becomes the number that stood there first. */
function numberIn(id) {
  const field = $(id);
  if (!(field.valueAsNumber >= Number(field.min))) field.value = field.defaultValue;
  return field.valueAsNumber;
}

function limits() {
  return { seconds: numberIn("seconds"), steps: Math.round(1e6 * numberIn("steps")), output: Math.round(1024 * numberIn("most")) };
}

function setRunning(running) {
  state.running = running;
  $("run").disabled = running !== null;
  $("stop").disabled = running === null;
}

async function run() {
  const { program, running } = state;
  if (running !== null || program === null) return;
  clear();
  const { output } = state;
  $("status").textContent = "Running.";
  const files = state.files.map((file) => [file.name, file]);
  const onOutput = (bytes) => showOutput(output, bytes);
  setRunning(start({ module: program.module, operands: words(), files, standard: $("standard").value, limits: limits(), onOutput }, workerOf));
  const end = await state.running.end.catch(({ message }) => ({ kind: "failed", status: null, name: message, written: [] }));
  setRunning(null);
  if (state.program === program) showEnd(end);
}

function stop() {
  state.running?.stop();
}

function onKey(event) {
  if (event.key === "Enter" && (event.ctrlKey || event.metaKey)) run();
  else if (event.key === "Escape") stop();
}

const hasFiles = ({ dataTransfer }) => dataTransfer.types.includes("Files");

// what is no file, as marked text, goes where it is dropped
function onDrop(event) {
  if (!hasFiles(event)) return;
  event.preventDefault();
  document.body.classList.remove("dropping");
  addFiles(event.dataTransfer.files);
}

$("example").replaceChildren(...programs.map(({ name }, n) => made("option", { value: n, text: name })));
$("example").onchange = chooseExample;
$("open").onchange = () => openProgram(taken($("open")));
$("add").onchange = () => addFiles(taken($("add")));
$("run").onclick = run;
$("stop").onclick = stop;
$("save").onclick = () => saveLink("output.txt", state.output.parts);
document.addEventListener("keydown", onKey);
document.addEventListener("drop", onDrop);
document.addEventListener("dragover", (event) => {
  if (!hasFiles(event)) return;
  event.preventDefault();
  document.body.classList.add("dropping");
});
document.addEventListener("dragleave", ({ relatedTarget }) => {
  if (relatedTarget === null) document.body.classList.remove("dropping");
});
await chooseExample();
