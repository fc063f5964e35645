#!/usr/bin/env bash
# That the sources of each crate are laid out as `rt fmt` lays them out. The gate refuses a crate that is not, before it
# proves anything of it, and `rt check` does not look. That all lists of kinds and of refusals have what kinds.toml and
# refusals.toml say, as `scripts/generate --check` tells; and that it tells each fact that is turned.
set -euo pipefail
# shellcheck source=tests/part.sh
source "$(dirname -- "$(readlink -f -- "${BASH_SOURCE[0]}")")/../part.sh"

crates() { find "$top/crates" -mindepth 1 -maxdepth 1 -type d -printf '%f\n' | LC_ALL=C sort; }

list() {
    crates | sed 's|^|layout/|'
    printf 'layout/%s\n' generated turned_facts
}

# sources CRATE: prints the files that are laid out, each ended by a zero byte
sources() { find -L "$top/crates/$1" -path '*/out' -prune -o -type f \( -name '*.rt' -o -name '*.antt' \) -print0; }

# try CASE COMMAND..: the command says what is wrong, if something is
try() {
    if ! is_wanted "$1"; then
        return
    fi
    if ! python3 -c 'import tomllib' 2>/dev/null && ! python3 -c 'import tomli' 2>/dev/null; then
        echo "there is no python3 with the module tomllib or tomli" | left_out "$1"
    elif PYTHONDONTWRITEBYTECODE=1 "${@:2}" >"$room/said" 2>&1; then
        passed "$1"
    else
        failed "$1" <"$room/said"
    fi
}

run() {
    local crate files kit
    try layout/generated "$top/scripts/generate" --check
    try layout/turned_facts python3 "$top/tests/turned_facts.py"
    kit=$(dirname -- "$(rt doc)")
    for crate in $(crates); do
        if ! is_wanted "layout/$crate"; then
            continue
        fi
        mapfile -d '' files < <(sources "$crate")
        if "$kit/bin/rattle" fmt --check "${files[@]}" >"$room/said" 2>&1; then
            passed "layout/$crate"
        else
            { echo "rt fmt, in crates/$crate, would change:" && cat "$room/said"; } | failed "layout/$crate"
        fi
    done
}

"$1"
