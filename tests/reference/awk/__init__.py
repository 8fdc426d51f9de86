"""awk with whole numbers, read and run from its rules. `run.run_script` runs a script over a world of `world`."""
