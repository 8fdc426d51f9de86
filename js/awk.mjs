#!/usr/bin/env node
// Runs a module that awkwasm compiled: node awk.mjs [OPTIONS] MODULE WORDS..

import { writeSync } from "node:fs";
import { Worker } from "node:worker_threads";

import { STACK } from "./node/start.mjs";

const { process } = globalThis;
const NO_MEMORY = 5;

const worker = new Worker(new URL("./node/cli_worker.mjs", import.meta.url), { argv: process.argv.slice(2), resourceLimits: STACK });
worker.on("exit", (status) => {
  process.exitCode ??= status;
});
worker.on("error", (error) => {
  if (error.code !== "ERR_WORKER_OUT_OF_MEMORY") throw error;
  writeSync(2, "awkwasm: NoMemory\n");
  process.exitCode = NO_MEMORY;
});
