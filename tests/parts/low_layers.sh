#!/usr/bin/env bash
# Tests of libraries through their public calls: of those up to the plant; and what the programs of benches/ and those
# of examples/ print.
set -euo pipefail
# shellcheck source=tests/layers.sh
source "$(dirname -- "$(readlink -f -- "${BASH_SOURCE[0]}")")/../layers.sh"
# shellcheck source=tests/programs.sh
source "$top/tests/programs.sh"

# (The tests of plants take longest, so they are called first.)
# shellcheck disable=SC2034  # They are for the script that is sourced.
folders=(plants flowgraphs blocks kernels leaves) libraries=(pipeline slices slice_threads firing_rules kinds
    either_block) others=(programs)

"$1"
