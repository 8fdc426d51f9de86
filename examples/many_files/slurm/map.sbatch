#!/usr/bin/env bash
#SBATCH --job-name=awkmap
#SBATCH --ntasks=1
#SBATCH --time=10
# A task of the array: maps PER files of the list. See submit.
set -euo pipefail
mapfile -t files < <(sed -n "$((SLURM_ARRAY_TASK_ID * PER + 1)),$(((SLURM_ARRAY_TASK_ID + 1) * PER))p" "$PARTS/list")
part="$PARTS/$SLURM_ARRAY_TASK_ID"
status=0
timeout 300 "$PROGRAM" exec --only-operands "$MAP" -- "${files[@]}" >"$part.begun" 2>"$part.said" || status=$?
if [ "$status" != 0 ]; then
  [ -s "$part.said" ] || tail -n 1 "$part.begun" >"$part.said"
  echo "${files[*]}: status $status: $(cat "$part.said")" >&2
  exit 1
fi
rm "$part.said"
mv "$part.begun" "$part.part"
