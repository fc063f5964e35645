#!/usr/bin/env bash
# by_parallel.sh N GRAPH RECORDING JOINED [WORD..]: runs N slices of a recording by GNU parallel, and joins their parts.
# The words are for parallel, as `--sshloginfile machines`.
set -euo pipefail

here=$(dirname -- "$(realpath -- "${BASH_SOURCE[0]}")")
graph=$(realpath -- "$2")
recording=$(realpath -- "$3")
joined=$(realpath -- "$4")
mkdir -- "$joined.parts"
# (parallel quotes what stands behind `:::`, unless the command begins with it)
parallel "${@:5}" --retries 3 --halt soon,fail=1 'exec {1} {2} {3} {4} {5} {6}' \
    ::: "$here/slice.sh" ::: "$graph" ::: "$recording" ::: "$joined" ::: "$1" :::: <(seq "$1")
"$here/join.sh" "$joined" "$1"
