# shellcheck shell=bash disable=SC2154,SC2034
# For tests/parts/newcomer.sh to source: what ./flow does where nothing is built, where something is, and where it was
# edited since.

# From here on rt, with the toolchain that it names, is the one in its place. It writes its words, its input and what
# FILE holds.
unproved_runs_pass_all_on() {
    PATH=$room/bin:$PATH
    printf 'two\nlines\n' >"$room/given"
    calls 0 ../a\ checkout/flow script "a graph.toml" <"$room/given"
    writes errors "$unproved"
    writes output "words: script FILE" "$(cat "$elsewhere/a graph.toml")" "input: two lines"
    calls 0 ./flow_by_link script -- "a graph.toml" <"$room/given"
    writes output "words: script -- FILE" "$(cat "$elsewhere/a graph.toml")" "input: two lines"
    calls 0 ./flow_by_link check /dev/stdin <"$room/given"
    writes output "words: check FILE" "$(cat "$room/given")" "input: "
    calls 0 ./flow_by_link run --quiet "a graph.toml" <"$room/given"
    writes output "words: run --quiet FILE" "$(cat "$elsewhere/a graph.toml")" "input: "
    calls 0 ./flow_by_link run -q -- "a graph.toml" <"$room/given"
    writes output "words: run -q -- FILE" "$(cat "$elsewhere/a graph.toml")" "input: "
    calls 0 ./flow_by_link run "a graph.toml" -q <"$room/given"
    writes output "words: run -q FILE" "$(cat "$elsewhere/a graph.toml")" "input: "
    calls 0 ./flow_by_link run --one-thread "a graph.toml" --big-endian <"$room/given"
    writes output "words: run --one-thread --big-endian FILE" "$(cat "$elsewhere/a graph.toml")" "input: "
    calls 0 ./flow_by_link run --thread-per-block "a graph.toml" --stats <"$room/given"
    writes output "words: run --thread-per-block --stats FILE" "$(cat "$elsewhere/a graph.toml")" "input: "
    calls 0 ./flow_by_link run --stats=json "a graph.toml" <"$room/given"
    writes output "words: run --stats=json FILE" "$(cat "$elsewhere/a graph.toml")" "input: "
    calls 0 ./flow_by_link --help "a b" <"$room/given"
    writes output "words: --help a b" "input: "
}

# What a run unproved would look for below its own folder is refused before it begins.
files_beside_are_refused() {
    local word
    for word in -i --input=src=a -o --output=out=b --marks --tags=out=c --trace; do
        calls 125 ./flow_by_link run "$word" src=a "a graph.toml"
        writes errors "$beside"
        writes output
    done
}

failures_pass_on() {
    echo "flow: refused 51 Read" >"$room/bin/says"
    echo 4 >"$room/bin/status"
    calls 4 ./flow_by_link script no/such
    writes errors "$unproved" "flow: refused 51 Read"
    writes output "words: script $elsewhere/no/such" "input: "
    echo 6 >"$room/bin/no_answer"
    calls 125 ./flow_by_link script no/such
    grep -qx "run=no-answer proved=no" "$room/errors" || wrong "what rt says of no answer is lost"
    rm "$room"/bin/{says,status,no_answer}
}

# What rt says at a limit of an unproved run is one line here.
limits_are_told() {
    local told
    echo 6 >"$room/bin/no_answer"
    for told in "did not end within the time limit=60 seconds" \
        "wrote more than 1048576 bytes to standard output or to standard error, the limit on each=1 MiB of output"; do
        printf '%s\n' "a line of the program" \
            "interpreter: no-answer: the run did not finish within 20000000 steps: the program may loop forever" \
            "checked: no-answer: the program ${told%=*}" >"$room/bin/says"
        calls 125 ./flow_by_link run no/such
        writes errors "$unproved" "a line of the program" \
            "flow: the run unproved was stopped at its limit of ${told#*=}: ./build builds the program, which has none"
    done
    rm "$room"/bin/{says,no_answer}
}

# On a terminal a refusal is explained, unless the words say no, though the program itself sees none.
terminals_show_places() {
    local it
    if ! command -v script >/dev/null; then
        why_not="there is no command script to make a terminal"
        return
    fi
    for it in "check:check --explain" "check --explain=never:check --explain=never" "run -q:run --explain -q"; do
        calls 0 script -q -e -c "exec ./flow_by_link ${it%:*} 'a graph.toml' >'$room/words'" /dev/null </dev/null
        grep -qx "words: ${it#*:} FILE" "$room/words" ||
            wrong "a call of ${it%:*} on a terminal has other words: $(head -n 1 "$room/words")"
    done
}

# The flag stands on either side of the file, whose name is shown and not that of its copy.
places_are_shown() {
    calls 0 ./flow_by_link check "a graph.toml" --explain
    writes output "words: check --explain FILE" "$(cat "$elsewhere/a graph.toml")" "input: "
    calls 0 ./flow_by_link draw --explain --format mermaid "a graph.toml"
    writes output "words: draw --explain --format mermaid FILE" "$(cat "$elsewhere/a graph.toml")" "input: "
    calls 0 ./flow_by_link live -q "a graph.toml" --explain <"$room/given"
    writes output "words: live -q --explain FILE" "$(cat "$elsewhere/a graph.toml")" "input: two lines"
    touch "$room/bin/shows_place"
    calls 0 ./flow_by_link check --explain "a graph.toml"
    writes errors "$unproved" "flow: refused 41 UnknownKey top in a graph.toml" " --> a graph.toml:3:1" "3 | --> ."
    rm "$room/bin/shows_place"
}

without_rt_nothing_is_lost_but_a_line() {
    calls 127 env PATH="$room/tools" "$tree/flow" script "a graph.toml"
    writes errors "flow: $lacks"
    calls 127 env PATH="$room/tools" CDPATH=/ ./build_by_link
    writes errors "build: $lacks"
}

# It needs no rt, and nothing is made where mkdocs, or the Python that calls it, is not there.
manual_says_what_it_needs() {
    calls 127 env PATH="$room/tools" ./build_by_link --docs
    writes errors "build: --docs needs python3: install Debian's package python3"
    mkdir "$room/python"
    ln -s "$(command -v cat)" "$room/python/python3"
    calls 127 env PATH="$room/tools:$room/python" ./build_by_link --docs
    writes errors "build: --docs needs mkdocs: install Debian's package mkdocs"
    [[ ! -e $tree/out/site ]] || wrong "--docs makes something without mkdocs"
}

# is_fresh_after WHAT, is_stale_after WHAT: whether ./flow runs the program that is built, or would run the sources
is_fresh_after() {
    calls 0 env PATH="$room/tools" ./flow_by_link "$1" "a b"
    writes output "built: $1,a b"
}

is_stale_after() {
    calls 127 env PATH="$room/tools" ./flow_by_link "$1"
    touch "$built"
    # (a file system's clock goes by ticks)
    sleep 0.02
}

# put_program: a program as if built now
put_program() {
    mkdir -p "${built%/*}"
    # shellcheck disable=SC2016
    printf '#!/bin/sh\nIFS=,\necho "built: $*"\nexit "${ENDS_IN-0}"\n' >"$built"
    chmod +x "$built"
}

edits_are_seen() {
    local below=$tree/crates/${order[0]} apart
    put_program
    is_fresh_after "the build"
    calls 3 env ENDS_IN=3 ./flow_by_link fails
    writes errors
    sleep 0.02
    touch "$own/src/main.rt"
    is_stale_after "an edit of the program"
    touch "$below/specs/Lib.antt"
    is_stale_after "an edit of a definition in the lowest crate"
    touch "$below/src/passing"
    is_stale_after "a new file"
    rm "$below/src/passing"
    is_stale_after "a file that went"
    touch "$tree/crates.txt"
    is_stale_after "an edit of crates.txt"
    touch "$tree/HANDLES"
    is_stale_after "an edit of HANDLES"
    for apart in "${!uses[@]}"; do
        if [[ " ${order[*]} " != *" $apart "* ]]; then
            touch "$tree/crates/$apart/src" "$tree/crates/$apart/src/"*
        fi
    done
    touch "$tree/README.md"
    is_fresh_after "an edit of what is no part of it"
    rm -r "$own/out"
}

# Root may write whatever the bits say, so the checkout is mounted anew, to be read alone.
without_writing_flow_runs() {
    local mount=(unshare --map-root-user --mount)
    local script="mount --bind \"\$1\" \"\$1\" && mount -o remount,bind,ro \"\$1\" && shift && exec \"\$@\""
    if ! "${mount[@]}" sh -c "$script" sh "$tree" true 2>/dev/null; then
        why_not="nothing can be mounted here"
        return
    fi
    mv "$own/out" "$room/out"
    calls 0 "${mount[@]}" sh -c "$script" sh "$tree" ./flow_by_link --help
    writes errors "$unproved"
    calls 1 "${mount[@]}" sh -c "$script" sh "$tree" ./build_by_link
    writes errors "build: $tree/crates cannot be written"
    mv "$room/out" "$own/out"
    touch "$built"
    calls 0 "${mount[@]}" sh -c "$script" sh "$tree" ./flow_by_link read only
    writes output "built: read,only"
}
