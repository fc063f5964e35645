#!/usr/bin/env bash
# measure.sh [--cpu LEVEL] PROGRAM [PART]: proves a program of benches/ with the crates below it, builds it as LLVM
# compiles it for processors of that level, as x86-64-v3, and prints what it measures, or that part of it. The part
# `instructions` of graph_bench is what instructions.py counts of it. That happens in a copy of the checkout, which
# takes over what `rt` has kept in the crates' out/, and is gone afterwards.
set -euo pipefail
# shellcheck source=tests/apart.sh
source "$(dirname -- "$(readlink -f -- "${BASH_SOURCE[0]}")")/../tests/apart.sh"

level=x86-64-v2
if [[ ${1-} == --cpu && $# -gt 1 ]]; then
    level=$2
    shift 2
fi
room=$(mktemp -d)
trap 'rm -rf -- "$room"' EXIT

if [[ $# != 1 && $# != 2 || ! -d $top/benches/$1 ]]; then
    echo "measure: it takes the name of a program in benches/, and perhaps that of a part" >&2
    exit 2
fi
put_bench tree "$1"
for crate in "$room"/tree/crates/*; do
    for kept in incremental rlib; do
        if [[ -e $top/crates/${crate##*/}/out/$kept ]]; then
            mkdir -p "$crate/out"
            cp -a -- "$top/crates/${crate##*/}/out/$kept" "$crate/out"
        fi
    done
done
cd -- "$room/tree/crates/$1"
if [[ "$1 ${2-}" == "graph_bench instructions" ]]; then
    rt run --cpu "$level" >/dev/null
    python3 "$top/benches/instructions.py" "out/$1"
else
    rt run --cpu "$level" -- measure "${@:2}"
fi
