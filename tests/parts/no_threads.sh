#!/usr/bin/env bash
# Runs in threads of which none can be started, as there is no room for its stack: each is told 61, and its plant comes
# back and settles on one thread. It compiles the tasks of tests/memory once more, so ./test tries it by its name alone.
set -euo pipefail
# shellcheck source=tests/layers.sh
source "$(dirname -- "$(readlink -f -- "${BASH_SOURCE[0]}")")/../layers.sh"
# shellcheck source=tests/memory.sh
source "$top/tests/memory.sh"

# shellcheck disable=SC2034  # They are for the script that is sourced.
folders=() libraries=("${memory_libraries[@]}") others=(memory)

list() { echo no_threads/each_run_is_told_61; }

run() {
    put
    mkdir "$room/given"
    : >"$room/given/no_threads"
    printf '%s\n' no_threads 0 >"$room/given/no_threads.args"
    # The C library gives a thread a stack of this many KiB, which are more than there are addresses. The first thread
    # of a process has its own way.
    ulimit -s 137438953472
    try_in "$own" --cases "$room/given" >"$room/output" 2>"$room/said" </dev/null || true
    if grep -q '^case=no_threads run=ended status=0 ' "$room/said" && grep -qx refused "$room/output"; then
        passed no_threads/each_run_is_told_61
    else
        cat -- "$room/said" "$room/output" | failed no_threads/each_run_is_told_61
    fi
}

"$1"
