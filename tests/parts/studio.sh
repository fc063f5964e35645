#!/usr/bin/env bash
# magbelu-studio: tests/studio/cases.py has the cases. They need ./build --c's library and Python's aiohttp, and those
# in a browser chromium with its driver and Python's selenium too.
set -euo pipefail
# shellcheck source=tests/part.sh
source "$(dirname -- "$(readlink -f -- "${BASH_SOURCE[0]}")")/../part.sh"

without_browser=(wrong_token other_origin this_machine_alone refused_graphs columns slow_page pipes cut_item steps
    pages_come_and_go ended frames_a_second memory script items_over_items trigger saved texts
    fast counts works fires input_guarded graph_before_frames asked_meanwhile opens as_module)
in_browser=(sinks_as_run controls markup many_blocks server_killed dragged thousand taps transforms all_views faults
    added_and_joined dropped saves
    keys_and_contrast works_shown firings_shown watches drops_items saves_items two_pages names_with_markup readable
    receiver receives_text drawn_as_draw parameters_shown
    waits_shown pointed zoomed_and_held undrawn_told)
# (Debian's modules are there for its own Python alone.)
python=$([[ -x /usr/bin/python3 ]] && echo /usr/bin/python3 || echo python3)
export PYTHONDONTWRITEBYTECODE=1

list() { printf 'studio/%s\n' columns_without_numpy "${without_browser[@]}" "${in_browser[@]}"; }

# lacks NEED..: prints what is not here of these: the library, programs, modules of Python
lacks() {
    local it
    for it; do
        case $it in
        library) is_fresh "$c_folder/libmagbelu.so" "$c_crate" ||
            echo "./build --c has not built libmagbelu.so from these sources" ;;
        chromium | chromedriver) [[ -x /usr/bin/$it ]] || echo "there is no $it" ;;
        *) "$python" -c "import $it" 2>/dev/null || echo "python3 has no module $it" ;;
        esac
    done
}

# case_of NAME
case_of() {
    HOME=$room MAGBELU_LIBRARY=$c_folder/libmagbelu.so PYTHONPATH=${hidden-}$top/python timeout 300 "$python" \
        "$top/tests/studio/cases.py" "$1"
}

# without_numpy COMMAND..: the same where Python finds none
without_numpy() {
    mkdir -p "$room/hidden"
    echo 'raise ImportError("it is hidden")' >"$room/hidden/numpy.py"
    hidden=$room/hidden: "$@"
}

# try WHY CASE COMMAND..: the command is the case, if it is wanted, and unless there is a reason why it cannot be tried
# here
try() {
    local status=0
    if ! is_wanted "$2"; then
        return
    elif [[ -n $1 ]]; then
        left_out "$2" <<<"${1//$'\n'/, }"
        return
    fi
    # (in a condition a command would go on where it fails)
    set +e
    (set -e && "${@:3}") >"$room/said" 2>&1
    status=$?
    set -e
    if [[ $status == 0 ]]; then
        passed "$2"
    else
        # (`timeout` ends in this status, and says nothing)
        { tail -n 40 "$room/said" && { [[ $status != 124 ]] || echo "it did not end within 300 seconds"; }; } |
            failed "$2"
    fi
}

run() {
    local it why
    why=$(lacks library aiohttp)
    try "$why" studio/columns_without_numpy without_numpy case_of columns
    for it in "${without_browser[@]}"; do
        try "$why" "studio/$it" case_of "$it"
    done
    why=$(lacks library aiohttp selenium chromium chromedriver)
    for it in "${in_browser[@]}"; do
        try "$why" "studio/$it" case_of "$it"
    done
}

"$1"
