#!/usr/bin/env bash
# What a newcomer meets who calls ./flow and ./build: in a checkout that is not built, that was edited since, from
# another folder, through a link, without the toolchain, where nothing can be written, beside another ./build, with a
# crate that is not proved; and what scripts/vendor.sh copies. tests/newcomer/rt_in_its_place stands in the place of the
# toolchain; tests/parts/toolchain.sh has what goes through that itself. Each case goes on from where the one before it
# left off, so that all up to the last that is wanted are run.
set -euo pipefail
# shellcheck source=tests/part.sh
source "$(dirname -- "$(readlink -f -- "${BASH_SOURCE[0]}")")/../part.sh"

cases=(
    vendor_brings_what_magbelu_needs
    unproved_runs_pass_all_on
    files_beside_are_refused
    failures_pass_on
    limits_are_told
    places_are_shown
    terminals_show_places
    without_rt_nothing_is_lost_but_a_line
    manual_says_what_it_needs
    edits_are_seen
    build_proves_each_crate_once
    build_makes_the_library_for_c
    edit_proves_what_stands_on_it
    build_is_for_this_processor
    install_puts_all_in_place
    install_brings_the_library_for_c
    uninstall_takes_all_away
    install_replaces_nothing_of_others
    deb_makes_packages
    crates_are_proved_side_by_side
    failed_build_leaves_no_half_program
    end_without_verdict_is_no_proof
    edits_during_a_build_are_seen
    second_build_waits
    interrupted_build_leaves_nothing
    without_writing_flow_runs
)

list() { printf 'newcomer/%s\n' "${cases[@]}"; }

run() {
    local it last
    # shellcheck source=tests/newcomer/tree.sh
    source "$top/tests/newcomer/tree.sh"
    for it in runs builds library_for_c installs stopped_builds vendored; do
        # shellcheck source=tests/newcomer/runs.sh
        source "$top/tests/newcomer/$it.sh"
    done
    copy_tree
    thin_tree
    link_tools
    last=$(tail -n 1 "$room/wanted")
    for it in "${cases[@]}"; do
        try "newcomer/$it" "$it"
        if [[ newcomer/$it == "$last" ]]; then
            break
        fi
    done
}

"$1"
