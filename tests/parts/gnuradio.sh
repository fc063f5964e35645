#!/usr/bin/env bash
# python/magbelu/gnuradio.py inside GNU Radio, where that is installed and ./build --c has built the library from these
# sources: tests/gnuradio/cases.py has the cases. tests/gnuradio/own.py, endless.py, television.py and trellises.py hold
# what stands for GNU Radio's blocks against these, modem.py the graphs of examples/receiver, and coverage.py holds the
# table of all blocks against those that are installed. Graphs that are drawn by chance run beside `flow run`, which is
# compiled here, unproved, where ./build has not built it. Which graphs are a block is tried over a stand-in for the
# library too; and that the module says what it lacks where there is no GNU Radio, everywhere.
set -euo pipefail
# shellcheck source=tests/part.sh
source "$(dirname -- "$(readlink -f -- "${BASH_SOURCE[0]}")")/../part.sh"

cases=(beside_flow beside_blocks inputs_end inputs_lack graph_ends output_ends stopped tags_after_a_stop stalls
    refused tags tag_refused settings taps fed_by_file memory companion pages)
own=(block_interleaver matrix_interleaver permutation patterned_interleaver stream_demux deinterleave puncture
    depuncture endian_swap short_to_char companding chunks encoding selector
    sample_and_hold tag_share tag_gate delay probe_signal ccsds_encoder encoders bit_orders additive_scrambler
    access_code vectors)
endless=(shift_registers noise_of_the_usrp waves uniform noise)
television=(energy branches inner_coder inner_interleaver frames packet_frames)
trellises=(encoder code viterbi_combined viterbi far)
# (Debian's GNU Radio is there for its own Python alone.)
python=$([[ -x /usr/bin/python3 ]] && echo /usr/bin/python3 || echo python3)
export PYTHONDONTWRITEBYTECODE=1

list() { printf 'gnuradio/%s\n' without_gnuradio without_library coverage modem "${own[@]/#/own/}" \
    "${endless[@]/#/endless/}" "${television[@]/#/television/}" "${trellises[@]/#/trellises/}" "${cases[@]}"; }

# lacks_gnuradio: says so where it is not here
lacks_gnuradio() {
    if ! "$python" -c 'from gnuradio import gr; import sys; sys.exit(not gr.version().startswith("3.10"))' \
        2>/dev/null; then
        echo "python3 finds no GNU Radio 3.10"
    fi
}

# lacks_library: the same of the library
lacks_library() {
    if ! is_fresh "$c_folder/libmagbelu.so" "$c_crate"; then
        echo "./build --c has not built libmagbelu.so from these sources"
    fi
}

# in_gnuradio FILE WORD..: a file of tests/gnuradio
in_gnuradio() {
    HOME=$room MAGBELU_LIBRARY=$c_folder/libmagbelu.so PYTHONPATH=$top/python timeout 300 "$python" \
        "$top/tests/gnuradio/$1" "${@:2}"
}

# with_program COMMAND..: the command, and behind it the words that start the program, which is compiled here where
# ./build has not built it
with_program() {
    start=("$program")
    if ! is_fresh; then
        if [[ ! -s $room/start ]]; then
            build_copy "$top/crates/$program_crate" -- run --one-thread -i from=program -o "to=$room/program" \
                "$top/tests/parts/copy.toml"
            printf '%s\n' "${start[@]}" >"$room/start"
        fi
        mapfile -t start <"$room/start"
    fi
    "$@" "${start[@]}"
}

# without_library: which graphs are a block
without_library() { HOME=$room PYTHONPATH=$top/python timeout 300 "$python" "$top/tests/gnuradio/alone.py"; }

# without_gnuradio: the module is imported, and says what it lacks where it is used
without_gnuradio() {
    mkdir -p "$room/hidden"
    echo 'raise ImportError("it is hidden")' >"$room/hidden/gnuradio.py"
    PYTHONPATH=$room/hidden:$top/python "$python" -c 'import magbelu.gnuradio
try:
    magbelu.gnuradio.Flowgraph("graph.toml")
except ImportError as error:
    assert str(error) == "magbelu.gnuradio needs GNU Radio 3.10 where this Python finds it: it is hidden", error
else:
    raise AssertionError("a block without GNU Radio")'
}

# try WHY CASE COMMAND..: the command is the case, if it is wanted, and unless there is a reason why it cannot be tried
# here
try() {
    if ! is_wanted "$2"; then
        return
    elif [[ -n $1 ]]; then
        left_out "$2" <<<"$1"
        return
    fi
    # (in a condition a command would go on where it fails)
    set +e
    (set -e && "${@:3}") >"$room/said" 2>&1
    local status=$?
    set -e
    if [[ $status == 0 ]]; then
        passed "$2"
    else
        # (`timeout` ends in this status, and says nothing)
        { tail -n 40 "$room/said" && { [[ $status != 124 ]] || echo "it did not end within 300 seconds"; }; } |
            failed "$2"
    fi
}

run() {
    local it why start=() words
    try '' gnuradio/without_gnuradio without_gnuradio
    why=$(lacks_gnuradio)
    try "$why" gnuradio/without_library without_library
    try "$why" gnuradio/coverage in_gnuradio coverage.py
    try "$why" gnuradio/modem with_program in_gnuradio modem.py
    for it in "${own[@]/#/own/}" "${endless[@]/#/endless/}" "${television[@]/#/television/}" \
        "${trellises[@]/#/trellises/}"; do
        try "$why" "gnuradio/$it" with_program in_gnuradio "${it%/*}.py" "${it#*/}"
    done
    why=${why:-$(lacks_library)}
    for it in "${cases[@]}"; do
        words=(in_gnuradio cases.py "$it")
        [[ $it != beside_flow ]] || words=(with_program "${words[@]}")
        try "$why" "gnuradio/$it" "${words[@]}"
    done
}

"$1"
