#!/usr/bin/env bash
# That the counts of docs/proof/BELIEVED.md are what `scripts/promised.py` makes of the sources, of which it can make
# all pages, that it finds what contracts rest on in two crates whose answer was worked out by hand, and that each
# relative link of the docs leads to a file and a heading.
set -euo pipefail
# shellcheck source=tests/part.sh
source "$(dirname -- "$(readlink -f -- "${BASH_SOURCE[0]}")")/../part.sh"

list() { printf 'promised/%s\n' believed closure links; }

# told CASE FILE: passed where the file is empty, else failed with what it says
told() {
    if [[ -s $2 ]]; then
        failed "$1" <"$2"
    else
        passed "$1"
    fi
}

# try_closure: what the script finds in two small crates
try_closure() {
    local here=$room/closure
    put_sources "$top/tests/promised" "$here"
    mkdir "$here/scripts"
    cp -- "$top"/scripts/{promised,source_files,spec_files}.py "$here/scripts"
    mv -- "$here/promised.txt" "$here/scripts"
    python3 "$here/scripts/promised.py" >"$room/said" 2>&1 || cat -- "$room/said" >>"$here/docs/proof/BELIEVED.md"
    {
        sed -nE 's/^ *(abbrev pub|pub (record|data|struct|enum|trait)) ([A-Za-z_]+).*/\3/p' "$here/out/promised/ask.md"
        sed -n "/^## Names of/,\$p" "$here/out/promised/ask.md"
        grep -E '^\| (`|\[)|^Together|fault' "$here/docs/proof/BELIEVED.md"
    } >"$room/found" 2>&1 || true
    differs promised/closure "$here/wanted" "$room/found" >"$room/said" || true
    told promised/closure "$room/said"
}

run() {
    local it
    if ! command -v python3 >/dev/null; then
        for it in $(<"$room/wanted"); do
            echo 'python3 is not in PATH' | left_out "$it"
        done
        return
    fi
    if is_wanted promised/believed; then
        "$top/scripts/promised.py" --check >"$room/said" 2>&1 || true
        told promised/believed "$room/said"
    fi
    if is_wanted promised/closure; then
        try_closure
    fi
    if is_wanted promised/links; then
        python3 "$top/tests/links.py" "$top" >"$room/said" 2>&1 || true
        told promised/links "$room/said"
    fi
}

"$1"
