// Types of the core. A `Text` is a string whose characters are bytes, 0 to 255: `utf8(string)` makes one of an ordinary string, `shown(text)` the reverse.

export type Text = string;

/**
 * What is read. `read` gives at least one byte, or null at the end, and throws if reading fails. Behind a limit on input it is told how many bytes are
 * wanted at most; what it gives beyond them is lost.
 */
export interface Source {
  read(most?: number): Uint8Array | null;
  close?(): void;
}

/** What is written to. `write` throws if it fails. */
export interface Outlet {
  write(bytes: Uint8Array): void;
  close?(): void;
}

/** What a script reaches outside. A name that does not open gives null. */
export interface Files {
  output: Outlet;
  standard(): Source;
  open(name: Text): Source | null;
  create(name: Text, append: boolean): Outlet | null;
}

export interface MemoryFiles extends Files {
  /** The names that were written, with their bytes. */
  written(): [Text, Uint8Array][];
}

/** What a run is called with. An empty array stands for what is left out. */
export interface Invocation {
  operands?: Text[];
  assigns?: [Text, Text][];
  environment?: [Text, Text][];
}

export type FaultName = "Range" | "Fraction" | "DivisionByZero" | "Inexact" | "FieldNumber" | "Format" | "BadEre" | "EreTooLarge" | "TextLimit"
  | "OpenInput" | "ReadFailed" | "OpenOutput" | "WriteFailed" | "TooManyStreams" | "NextOutside" | "BadAssignment";

/** A program point: of this function, numbered as in the script and `main` last, the point of this number from 0 on. */
export interface Place { function: number; point: number }

/** What was being read when a run ended early. */
export interface Reading { nr: Text; fnr: Text; filename: Text; record: Text }

interface Early<Kind, Name> { kind: Kind; status: number; name: Name; place: Place | null; reading: Reading }

/** How a run ended. The status is that of `awkwasm exec`. */
export type End =
  | { kind: "ended"; status: number; name: null }
  | Early<"fault", FaultName>
  | Early<"trap", string>
  | Early<"steps", "OutOfSteps">
  | Early<"depth", "Exhausted">
  | Early<"memory", "NoMemory">;

export const STATUS: { fault: 2; refused: 3; steps: 4; memory: 5; depth: 6; trap: 7 };
export const FAULTS: FaultName[];

/** The module has other imports than a compiled one, no `main`, or instructions that WebAssembly 1.0 without floating point does not have. */
export class LoadError extends Error {}

/** A module that is ready to run, as often as one likes. */
export class Loaded {
  readonly module: WebAssembly.Module;
  /** How many program points each function has, `main` last. */
  readonly places: number[];
}

/**
 * Makes a module ready to run. `steps` limits each run: a step is a program point, a turn of a loop or a call. Throws a LoadError, the engine's
 * CompileError, or a RangeError if the limit is not a whole number from 0 on.
 */
export function load(bytes: Uint8Array | ArrayBuffer, limits?: { steps?: number | bigint | null }): Loaded;

/** Runs a module to its end. Throws a LoadError, the engine's CompileError, or a TypeError if a text has a character above 255. */
export function run(module: Loaded | Uint8Array | ArrayBuffer, invocation: Invocation, files: Files, host?: Host): End;

/** The state of a host. It serves one run. */
export class Host {
  constructor(invocation: Invocation, files: Files);
  imports(): WebAssembly.Imports;
}

/** The imports by name: letters of what each takes and gives, and the types of its words. */
export const IMPORTS: Map<string, { args: string[]; answer: string; params: number[]; results: number[] }>;

type Bytes = Uint8Array | Text;

/** Files in memory. */
export function filesInMemory(given?: {
  named?: Iterable<[Text, Bytes | (() => Source)]>;
  standard?: Bytes | (() => Source);
  output?: (bytes: Uint8Array) => void;
}): MemoryFiles;

/** A source of bytes. */
export function sourceOf(bytes: Bytes): Source;

/** The same files, with a limit on what is written to all of them together: a write past it fails after what fits. */
export function withMostOutput(files: Files, most: number): Files & { isReached(): boolean };

/** The same files, with a limit on what is read of all of them together: a read past it fails. At the limit a source is asked for one byte, to see its end. */
export function withMostInput(files: Files, most: number): Files;

/** The same files, in which the names /dev/stdin, /dev/stdout and /dev/stderr mean the standard streams, the last one `errors`. */
export function withStreams(files: Files, errors: Outlet): Files;

/** For each function of a script, and `main` last: its name, and the line of each of its program points. Of a script that `compile` refuses it may throw an Error. */
export function linesOf(script: string): { name: string; lines: number[] }[];

export function textOfBytes(bytes: Uint8Array, from?: number, to?: number): Text;
export function bytesOfText(text: Text): Uint8Array;
export function utf8(string: string): Text;
export function shown(text: Text): string;
export function isUtf8(text: Text): boolean;
