#!/usr/bin/env bash
# slice.sh GRAPH RECORDING JOINED N [J]: runs slice J of N of a recording through a graph. A task of Slurm's job array
# has J in its environment. The part is JOINED.parts/part.J, which is there once the run has ended in status 0, and
# never half. So a slice that was killed can run again.
set -euo pipefail

graph=$1 recording=$2 parts=$3.parts count=$4
at=${5-${SLURM_ARRAY_TASK_ID:?}}
# (a run on a machine that was given up may go on beside the next run of the same slice: each writes to a file of its
# own)
unfinished=$(mktemp -- "$parts/unfinished.$at.XXXXXX")
trap 'rm -f -- "$unfinished"' EXIT
flow run --one-thread --quiet --slice "$at/$count" -i "adc=$recording" -o "out=$unfinished" -- "$graph" >/dev/null
sync -- "$unfinished"
mv -- "$unfinished" "$parts/part.$at"
