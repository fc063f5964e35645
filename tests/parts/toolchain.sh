#!/usr/bin/env bash
# What ./flow and ./build do with the toolchain itself: one run unproved, and one build of three crates; and a program
# in a repository of its own. It takes minutes, so ./test tries it by its name alone.
set -euo pipefail
# shellcheck source=tests/part.sh
source "$(dirname -- "$(readlink -f -- "${BASH_SOURCE[0]}")")/../part.sh"

cases=(real_run_is_unproved real_build_proves_and_links real_programs_look_at_the_processor vendored_program_runs)

list() { printf 'toolchain/%s\n' "${cases[@]}"; }

run() {
    local it
    # shellcheck source=tests/newcomer/tree.sh
    source "$top/tests/newcomer/tree.sh"
    # shellcheck source=tests/newcomer/real_build.sh
    source "$top/tests/newcomer/real_build.sh"
    copy_tree
    for it in "${cases[@]}"; do
        if is_wanted "toolchain/$it"; then
            try "toolchain/$it" "$it"
        fi
    done
}

"$1"
