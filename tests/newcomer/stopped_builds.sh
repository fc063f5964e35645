# shellcheck shell=bash disable=SC2154
# For tests/parts/newcomer.sh to source: what ./build leaves where a proof fails, where a source is edited meanwhile,
# beside another ./build, and where it is stopped.

# fails_at CRATE SAYING: a ./build ends in 1, names the file in which the crate's prover says this, and leaves no
# program
fails_at() {
    calls 1 ./build_by_link
    grep -qF " $tree/crates/$1/out/build.log " "$room/errors" || wrong "a failed ./build names no file"
    grep -qx "$2" "$tree/crates/$1/out/build.log" || wrong "that file has not what the prover says"
    grep -qx "build: failed at $1: the program is not built" "$room/errors" ||
        wrong "a failed ./build does not say so at its end"
    ! grep -rqsx --include=made --include="$program_crate*" half "$tree/crates/"*/out ||
        wrong "a failed ./build leaves half of a file"
    calls 127 env PATH="$room/tools" ./flow_by_link "a failed build"
}

failed_build_leaves_no_half_program() {
    local crate above
    for crate in "${order[0]}" "$program_crate"; do
        echo "$crate" >"$room/bin/fails"
        echo "// edited" >>"$tree/crates/$crate/$(root_of "$crate")"
        fails_at "$crate" "the prover refuses $crate"
        rm "$room/bin/fails"
    done
    echo rattle-link >"$room/bin/fails"
    fails_at "$program_crate" "the linker refuses it"
    rm "$room/bin/fails"
    # What was proved before a failure stays so.
    begin_anew
    calls 0 ./build_by_link
    proved "$program_crate"
}

# A status of 0 is no verdict, and neither is a line that others follow.
end_without_verdict_is_no_proof() {
    local crate=${order[1]} above
    with_those_above "$crate"
    begin_anew
    echo "$crate" >"$room/bin/says_more"
    echo "edited" >>"$tree/crates/$crate/src/lib.rt"
    fails_at "$crate" "and something is left"
    proved "$crate"
    rm "$room/bin/says_more"
    begin_anew
    calls 0 ./build_by_link
    proved "${above[@]}"
}

# (which of both texts was proved nobody knows, so the next ./build proves the crate again, and those above it where it
# comes out as another)
edits_during_a_build_are_seen() {
    local crate above
    for crate in "$program_crate" "${order[1]}"; do
        with_those_above "$crate"
        echo "$crate" >"$room/bin/edits"
        builds_after_edit "$crate" "$(root_of "$crate")"
        is_stale_after "an edit during ./build"
        begin_anew
        calls 0 ./build_by_link
        proved "${above[@]}"
        rm "$room/bin/edits"
        begin_anew
        calls 0 ./build_by_link
        proved "$crate"
    done
}

# waits_for FOLDER LINE: a ./build waits while the folder is held, says so by the line, and then goes on
waits_for() {
    local waits
    exec {lock}<"$1"
    flock "$lock"
    : >"$room/errors"
    (cd "$elsewhere" && exec timeout 600 ./build_by_link {lock}<&-) >"$room/output" 2>"$room/errors" &
    waits=$!
    wait_for grep -q waiting "$room/errors"
    writes errors "$2"
    exec {lock}<&-
    wait "$waits" || wrong "a ./build that waited fails"
}

second_build_waits() {
    waits_for "$tree/crates" "build: another ./build works in this checkout: waiting for it"
    waits_for "$own" "build: an rt works in $own: waiting for it"
}

# ends_by SIGNAL STATUS: a ./build that gets the signal ends so, and leaves nothing running and nothing half made
ends_by() {
    local stopped began process processes status=0
    rm -f "$room/bin/hanging"
    # (what a script runs beside itself hears no INT, and what nohup runs no HUP)
    (cd "$elsewhere" && exec env --default-signal=INT,HUP ./build_by_link) &>"$room/built" &
    stopped=$!
    wait_for test -s "$room/bin/hanging"
    # ./flow waits for no ./build: it runs the sources, as long as the program is not built.
    calls 0 ./flow_by_link --help "beside a build"
    writes errors "$unproved"
    writes output "words: --help beside a build" "input: "
    kill -s "$1" "$stopped"
    began=$SECONDS
    wait "$stopped" || status=$?
    ((SECONDS - began < 30)) || wrong "a ./build that was stopped waits for the prover"
    [[ $status == "$2" ]] || wrong "a ./build that was stopped by $1 ends in $status"
    [[ -z $(find "$tree" -path "*/out/part") ]] || wrong "a ./build that was stopped leaves something half made"
    read -ra processes <"$room/bin/hanging"
    for process in "${processes[@]}"; do
        ! kill -0 "$process" 2>/dev/null || wrong "a ./build that was stopped leaves the prover running"
    done
    calls 127 env PATH="$room/tools" ./flow_by_link "a build that was stopped"
}

interrupted_build_leaves_nothing() {
    local above
    echo "${order[1]}" >"$room/bin/hangs"
    echo "edited" >>"$tree/crates/${order[1]}/src/lib.rt"
    ends_by TERM 143
    ends_by HUP 143
    ends_by INT 130
    rm "$room/bin/hangs"
    with_those_above "${order[1]}"
    begin_anew
    calls 0 ./build_by_link
    proved "${above[@]}"
}
