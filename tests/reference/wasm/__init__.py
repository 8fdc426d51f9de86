"""WebAssembly 1.0 with integers, read and run from its rules. `run.run_module` runs the module of a script over a world."""
