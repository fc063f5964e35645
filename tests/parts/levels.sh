#!/usr/bin/env bash
# The cases of tests/cases/kinds, and so each kernel, by the built program for each level of processors that this
# machine has, as ./build --install and --deb make them; which level it tells; and how much memory a run in pieces of a
# long stream has.
set -euo pipefail
# shellcheck source=tests/part.sh
source "$(dirname -- "$(readlink -f -- "${BASH_SOURCE[0]}")")/../part.sh"
# shellcheck source=scripts/levels.sh
source "$top/scripts/levels.sh"

list() { printf 'levels/%s\n' "${all_levels[@]}"; }

# lacks LEVEL: prints why the program for it is not tried
lacks() {
    if ! has_level "$1"; then
        echo "this machine is no $1"
    elif ! is_fresh "$program-$1" "$program_crate"; then
        echo "./build --install has not built the program for it from these sources"
    fi
}

# try_kinds LEVEL: all cases of kinds by the program for this level; fails at the first that prints something else
try_kinds() {
    local folder status words
    for folder in "$top"/tests/cases/kinds/*/; do
        mapfile -t words <"$folder/args"
        status=0
        [[ ${words[-1]} != tests/* ]] || words[-1]=$top/${words[-1]}
        (cd -- "$folder" && exec "$program-$1" "${words[@]}") >"$room/output" 2>"$room/errors" || status=$?
        if [[ $status != 0 ]] || ! cmp -s "$folder/stdout" "$room/output"; then
            echo "$folder: status $status"
            cat -- "$room/errors"
            differs output "$folder/stdout" "$room/output" || true
            return 1
        fi
    done
}

# tells_level LEVEL: that the program tells the level of processors that it is compiled for
tells_level() {
    local said
    said=$("$program-$1" --version)
    [[ $said == "flow "*" ($1)" ]] || { echo "--version says: $said" && return 1; }
}

# try_pieces LEVEL: the memory of a run in pieces of 300 MB
try_pieces() { timeout 600 python3 "$top/tests/programs/pieces_memory.py" 8 150 "$program-$1"; }

run() {
    local level said
    for level in "${all_levels[@]}"; do
        is_wanted "levels/$level" || continue
        said=$(lacks "$level")
        if [[ -n $said ]]; then
            left_out "levels/$level" <<<"$said"
        elif said=$(try_kinds "$level" && tells_level "$level" && try_pieces "$level"); then
            passed "levels/$level"
        else
            failed "levels/$level" <<<"$said"
        fi
    done
}

"$1"
