// The worker of a run in a browser.

import { runJob } from "../worker/job.mjs";

self.onmessage = ({ data }) => runJob(data, (told) => self.postMessage(told));
