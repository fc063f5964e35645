#!/usr/bin/env bash
# Tests of libraries through their public calls: of those above the plant, and of files of the program in
# tests/terminal; and tasks in which an allocation fails.
set -euo pipefail
# shellcheck source=tests/layers.sh
source "$(dirname -- "$(readlink -f -- "${BASH_SOURCE[0]}")")/../layers.sh"
# shellcheck source=tests/memory.sh
source "$top/tests/memory.sh"

# (Those whose tests take longest stand first.)
# shellcheck disable=SC2034  # They are for the script that is sourced.
folders=(threads streams graph_files terminal) libraries=("${memory_libraries[@]}") others=(memory)

"$1"
