#!/usr/bin/env bash
# join.sh JOINED N: makes JOINED of its N parts, one behind the other, if all of them are there.
set -euo pipefail

joined=$1 count=$2 parts=()
[[ $count =~ ^[1-9][0-9]*$ ]] || { echo "join.sh: there is no run in '$count' slices" >&2 && exit 2; }
for ((at = 1; at <= count; at++)); do
    parts+=("$joined.parts/part.$at")
    [[ -f ${parts[-1]} ]] || { echo "join.sh: ${parts[-1]} is missing" >&2 && exit 1; }
done
cat -- "${parts[@]}" >"$joined.parts/joined"
mv -- "$joined.parts/joined" "$joined"
