#!/usr/bin/env bash
#SBATCH --job-name=awkreduce
#SBATCH --ntasks=1
#SBATCH --time=10
# Adds the parts, once all tasks of the array have ended well. See submit.
set -euo pipefail
cat "$PARTS"/*.part | "$PROGRAM" exec --no-files "$REDUCE" >"$PARTS/sums.begun"
mv "$PARTS/sums.begun" "$PARTS/sums"
