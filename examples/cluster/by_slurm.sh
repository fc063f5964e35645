#!/usr/bin/env bash
# by_slurm.sh N GRAPH RECORDING JOINED [WORD..]: runs N slices of a recording as the tasks of a job array of Slurm, and
# joins their parts. The words are for sbatch, as `--partition=long`.
set -euo pipefail

here=$(dirname -- "$(realpath -- "${BASH_SOURCE[0]}")")
graph=$(realpath -- "$2")
recording=$(realpath -- "$3")
joined=$(realpath -- "$4")
mkdir -- "$joined.parts"
tasks=1-$1
# (Slurm queues the task of a lost node again, by --requeue. A task that was killed leaves no part, and is in the next
# array.)
for _ in 1 2 3; do
    sbatch --wait --requeue --chdir="$joined.parts" --array="$tasks" "${@:5}" "$here/slice.sh" "$graph" "$recording" \
        "$joined" "$1" || true
    tasks=$(for at in $(seq "$1"); do [[ -f $joined.parts/part.$at ]] || echo "$at"; done | paste -sd ,)
    [[ -n $tasks ]] || break
done
"$here/join.sh" "$joined" "$1"
