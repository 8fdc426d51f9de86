// The worker of a run in Node.js.

import { parentPort } from "node:worker_threads";

import { runJob } from "../worker/job.mjs";

parentPort.once("message", (message) => runJob(message, (told) => parentPort.postMessage(told)));
