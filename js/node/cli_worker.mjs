// The thread in which the command line runs: its stack is larger than that of the main thread.

import { main } from "./cli.mjs";

process.exit(main(process.argv.slice(2)));
