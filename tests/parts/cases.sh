#!/usr/bin/env bash
# Calls of the program: those of tests/cases, those of the folders of examples/, and those that pages show, all over one
# build of it, unproved; and runs between pipes, behind redirections, beside a silent input or a full output, on a
# terminal, and with a trace; runs in slices by the scripts of examples/cluster; and the receiver of examples/receiver.
# A call is a folder as tests/README.md describes; those of examples and pages are made here. A run is made a second
# time on one thread, and has to end in the same way.
set -euo pipefail
# shellcheck source=tests/part.sh
source "$(dirname -- "$(readlink -f -- "${BASH_SOURCE[0]}")")/../part.sh"
# shellcheck source=tests/parts/shown.sh
source "$top/tests/parts/shown.sh"
# shellcheck source=tests/parts/redirected.sh
source "$top/tests/parts/redirected.sh"
# shellcheck source=tests/parts/silent.sh
source "$top/tests/parts/silent.sh"
# shellcheck source=tests/parts/full.sh
source "$top/tests/parts/full.sh"
# shellcheck source=tests/parts/clustered.sh
source "$top/tests/parts/clustered.sh"
# shellcheck source=tests/parts/sliced.sh
source "$top/tests/parts/sliced.sh"
# shellcheck source=tests/parts/received.sh
source "$top/tests/parts/received.sh"

# Of each case the folder that describes it.
declare -A folder_of=()
# One that is no call with an input that is there: the program answers a producer that waits for it.
pipes=(pipes/slow_producer pipes/slow_producer_in_pieces pipes/fifos_in_pieces pipes/slow_marks_in_pieces
    pipes/memory_of_pieces)
# Calls whose standard error is a terminal, which the command `script` makes.
terminals=(terminals/explains terminals/never terminals/place)
# What a program of Python asks, that has names of GNU Radio from flow-from-grc.
names=(names/gnu_radio)
# And live runs between pipes, with lines that are written while items stream.
spoken=(spoken/settings spoken/stop spoken/killed spoken/closes spoken/lines spoken/standard spoken/two spoken/soon
    spoken/long spoken/gone spoken/readme spoken/times spoken/times_now_and_then spoken/no_times spoken/drawn)
# And runs whose trace a program of Python reads.
traces=(traces/adaptive traces/one_thread traces/thread_per_block traces/between_files traces/live
    traces/now_and_then traces/first_events traces/picture traces/part_of_a_picture)

# add CASE FOLDER: the case, and the runs of a run on one thread and in one for each block
add() {
    local words=()
    folder_of[$1]=$2
    echo "$1"
    if [[ -e $2/args ]]; then
        mapfile -t words <"$2/args"
    fi
    if [[ ${words[0]-} == run && " ${words[*]} " != *" --one-thread "* &&
        " ${words[*]} " != *" --thread-per-block "* && " ${words[*]} " != *" --jobs "* ]]; then
        folder_of[$1/one_thread]=$2
        echo "$1/one_thread"
        # (between raw files it is refused)
        if [[ " ${words[*]} " != *=* && ! " ${words[*]} " =~ " "(-i|-o|--tags|--marks)" " ]]; then
            folder_of[$1/thread_per_block]=$2
            echo "$1/thread_per_block"
        fi
    fi
}

# list MADE: the names of all cases; what is made of examples and pages stands in the folder MADE
list() {
    local folder
    for folder in "$top"/tests/cases/*/*/; do
        folder=${folder%/}
        add "${folder#"$top/tests/"}" "$folder"
    done
    make_shown "$1"
    for folder in "${made[@]}"; do
        add "$folder" "$1/$folder"
    done
    printf '%s\n' "${pipes[@]}" "${terminals[@]}" "${names[@]}" "${sliced[@]/#/slices/}" "${spoken[@]}" "${traces[@]}" \
        "${redirected[@]/#/redirected/}" "${silent[@]/#/silent/}" "${full[@]/#/full/}" "${clustered[@]/#/cluster/}" \
        "${received[@]/#/receiver/}"
}

# word_of FOLDER WORD: prints the word as the program gets it, which runs in a folder of its own: where it is a file, or
# NAME=FILE, of the case or of tests/graphs, by its whole path
word_of() {
    local before='' file=$2
    if [[ $2 == *=* ]]; then
        before=${2%%=*}=
        file=${2#*=}
    fi
    if [[ -n $file && -f $1/$file ]]; then
        echo "$before$1/$file"
    elif [[ $file == tests/graphs/* && -f $top/$file ]]; then
        echo "$before$top/$file"
    else
        echo "$2"
    fi
}

# file_of FOLDER NAME: prints which file holds that of a case, an empty one where it has none
file_of() { [[ -e $1/$2 ]] && echo "$1/$2" || echo /dev/null; }

# build: the program, unproved
build() {
    build_copy "$top/crates/$program_crate" -- run --one-thread -i from=program -o "to=$room/program" \
        "$top/tests/parts/copy.toml"
}

# without TEXT: standard input, but for this text
# shellcheck disable=SC2001
without() { LC_ALL=C sed "s|$(sed 's/[][\\.*^$|]/\\&/g' <<<"$1")||g"; }

# call CASE: calls the program in a folder of its own and with no environment, and keeps what it writes, and its status
call() {
    local folder=${folder_of[$1]} came=$room/came/$1/came words=() at status=0
    if [[ -e $folder/args ]]; then
        mapfile -t words <"$folder/args"
    fi
    for at in "${!words[@]}"; do
        words[at]=$(word_of "$folder" "${words[at]}")
    done
    if [[ $1 == */one_thread ]]; then
        words=("${words[0]}" --one-thread "${words[@]:1}")
    elif [[ $1 == */thread_per_block ]]; then
        words=("${words[0]}" --thread-per-block "${words[@]:1}")
    fi
    mkdir -p "$came/here"
    (cd -- "$came/here" && exec env -i timeout 60 "${start[@]}" "${words[@]}") <"$(file_of "$folder" stdin)" \
        >"$came/stdout" 2>"$came/errors" || status=$?
    echo "$status" >"$came/status"
    # (a path is shown as the case names it)
    without "$folder/" <"$came/errors" | without "$top/" >"$came/stderr"
}

# is_own CASE: whether the case is a function here
is_own() { [[ $1 == @(pipes|terminals|names|slices|traces|spoken|redirected|silent|full)/* ]]; }

# call_all: as many side by side as there are processors
call_all() {
    local it lanes
    lanes=$(nproc)
    while IFS= read -r it; do
        while (($(jobs -rp | wc -l) >= lanes)); do
            wait -n || true
        done
        if [[ $it == cluster/* ]]; then
            clustered "$it" &
        elif [[ $it == receiver/* ]]; then
            received "$it" &
        elif ! is_own "$it"; then
            call "$it" &
        fi
    done <"$room/wanted"
    wait
}

# is_right CASE: whether it ended as its folder wants, and shows what differs where it did not
is_right() {
    local folder=${folder_of[$1]} came=$room/came/$1/came wanted=0 right=0
    if [[ -e $folder/status ]]; then
        wanted=$(<"$folder/status")
    fi
    if [[ $(<"$came/status") != "$wanted" ]]; then
        echo "status: wanted $wanted, and it ended in $(<"$came/status")"
        right=1
    fi
    differs stdout "$(file_of "$folder" stdout)" "$came/stdout" || right=1
    if [[ ! -e $folder/stderr.has ]]; then
        differs stderr "$(file_of "$folder" stderr)" "$came/stderr" || right=1
    else
        has_lines "$folder/stderr.has" "$came/stderr" || right=1
    fi
    has_made "$folder/made" "$came/here" || right=1
    return "$right"
}

# has_lines WANTED FILE: whether each line of the file WANTED stands in the file, as a part of a line
has_lines() {
    local line right=0
    while IFS= read -r line; do
        grep -qF -- "$line" "$2" || { echo "stderr: wanted '$line' in it, and there came" && cat -- "$2" && right=1; }
    done <"$1"
    return "$right"
}

# has_made WANTED FOLDER: whether the call made the files of the folder WANTED, where there is one, and no others there
has_made() { [[ ! -e $1 ]] || diff --text --recursive -U 3 -- "$1" "$2"; }

# answers WORD..: that a run with these words answers each line, with each byte ten more, before the next is written
answers() {
    local it answer
    coproc flow { "${start[@]}" run "$@" -i src=- -o out=- "$top/tests/graphs/plain.toml" 2>"$room/report"; }
    for it in A B C D E; do
        printf '%s\n' "$it" >&"${flow[1]}"
        if ! IFS= read -r -t 10 -N 2 -u "${flow[0]}" answer; then
            echo "no answer to the line $it"
            return 1
        fi
        if [[ $answer != "$(tr A-E K-O <<<"$it" | tr -d '\n')"$'\x14' ]]; then
            printf 'the answer to %s: %q\n' "$it" "$answer"
            return 1
        fi
    done
    exec {flow[1]}>&-
    wait "$flow_PID"
    differs stderr <(printf 'sink out 10\ndone\n') "$room/report"
}

pipes_slow_producer() { answers; }
pipes_slow_producer_in_pieces() { answers --jobs 2; }

# pipes_fifos_in_pieces: two sources that one sender writes to in turn, somewhat less at a time than a pipe holds: a run
# that read far ahead of one would never come to the other
pipes_fifos_in_pieces() {
    local folder=$room/fifos count=100000
    mkdir "$folder"
    mkfifo "$folder/a" "$folder/b" "$folder/sum"
    head -c "$count" /dev/urandom | LC_ALL=C tr '\200-\377' '\000-\177' >"$folder/left"
    head -c "$count" /dev/zero | tr '\0' '\1' >"$folder/right"
    python3 "$top/tests/programs/in_turn.py" 30000 "$folder/left" "$folder/a" "$folder/right" "$folder/b" &
    cat "$folder/sum" >"$folder/came" &
    (cd -- "$folder" && timeout 120 "${start[@]}" run --jobs 3 -i s=a -i t=b -o out=sum \
        "$top/tests/graphs/two_sources.toml") >"$folder/report" 2>&1 || return
    wait
    differs stdout <(printf 'sink out %d\ndone\n' "$count") "$folder/report" || return
    # (each byte is one more)
    cmp -- "$folder/came" <(LC_ALL=C tr '\000-\177' '\001-\200' <"$folder/left")
}

# pipes_slow_marks_in_pieces: tags are out before the next mark is waited for
pipes_slow_marks_in_pieces() {
    local folder=$room/slow_marks answer
    mkdir "$folder"
    mkfifo "$folder/marks" "$folder/tags"
    head -c 100000 /dev/zero >"$folder/in"
    (cd -- "$folder" && timeout 60 "${start[@]}" run --jobs 2 -i src=in --marks src=marks -o out=/dev/null \
        --tags out=tags "$top/tests/graphs/plain.toml") >"$folder/report" 2>&1 &
    exec 7>"$folder/marks" 8<"$folder/tags"
    printf '@1:a=1\n@90000:b=2\n' >&7
    IFS= read -r -t 30 -u 8 answer || answer=none
    exec 7>&-
    cat <&8 >"$folder/more"
    exec 8<&-
    wait
    differs tags <(printf '@1:a=1/0\n@90000:b=2/0\n') <(printf '%s\n' "$answer" && cat "$folder/more") || return
    differs stdout <(printf 'sink out 100000\ndone\n') "$folder/report"
}

# pipes_memory_of_pieces: of a stream of 16 MB, as much as the program does with its checks in half a minute
pipes_memory_of_pieces() { timeout 600 python3 "$top/tests/programs/pieces_memory.py" 3 8 "${start[@]}"; }

# on_terminal WANTED WORD..: that a call with these words, whose standard error is a terminal, writes these lines there
on_terminal() {
    local wanted=$1 shown
    shift
    script -q -c "exec $(printf '%q ' "${start[@]}" "$@") >/dev/null" "$room/shown" </dev/null >/dev/null
    # (`script` writes a first and a last line of its own)
    shown=$(grep -v '^Script ' "$room/shown" | tr -d '\r')
    differs stderr <(echo "$wanted") <(echo "$shown")
}

# A refusal is explained on a terminal, but where the words say no.
terminals_explains() {
    on_terminal $'flow: refused 51 Read no/such/file\n --> no/such/file: No such file or directory (os error 2)' \
        run no/such/file
}
terminals_never() { on_terminal 'flow: refused 51 Read no/such/file' run --explain=never no/such/file; }
terminals_place() {
    printf '[[block]]\nname = "a"\nkind = "add_cnst"\n' >"$room/place.toml"
    on_terminal "flow: refused 44 UnknownKind block 0 in $room/place.toml
 --> $room/place.toml:3:8
  |
3 | kind = \"add_cnst\"
  |        ^ there is no kind \`add_cnst\`; is \`add_const\` meant?" check "$room/place.toml"
}

# names_gnu_radio: that names of GNU Radio are answered with those that flow-from-grc writes for them
names_gnu_radio() { python3 "$top/tests/programs/gnu_radio_names.py" "${start[@]}"; }

# spoken_in CASE: a live run that lines speak to, or those of graphs that are drawn by chance
spoken_in() {
    if [[ $1 == drawn ]]; then
        python3 "$top/tests/programs/spoken_drawn.py" "${start[@]}"
    else
        python3 "$top/tests/programs/spoken.py" "$1" "${start[@]}"
    fi
}

# traced MOST WORD..: a run with these words, whose trace has room for so many turns and waits and goes with the times
# of the same run; `said` has the lines before these
traced() {
    local most=$1
    shift
    "${start[@]}" run --stats=json --trace "$room/trace" --trace-size "$most" "$@" "$top/tests/graphs/traced.toml" \
        >"$room/report" 2>"$room/times" || return
    differs stdout <(echo 'done') "$room/report" || return
    said=$(head -n -1 "$room/times")
    python3 "$top/tests/programs/trace.py" "$room/trace" "$room/times" "$most"
}

# has_all WORD..: a run with these words, of which nothing is left out
has_all() {
    local said=''
    traced 100000 "$@" || return
    if [[ -n $said ]]; then
        echo "standard error: wanted one line, and before it came: $said"
        return 1
    fi
}

traces_adaptive() { has_all; }
traces_one_thread() { has_all --one-thread; }
traces_thread_per_block() { has_all --thread-per-block; }

# traced_between_files WORD..: a run of this command that takes its items from a pipe, and writes them to a file
traced_between_files() {
    head -c 100000 /dev/zero | "${start[@]}" "$@" --stats=json --trace "$room/trace" -i src=- -o out="$room/items" \
        "$top/tests/graphs/plain.toml" >"$room/report" 2>"$room/times" || return
    differs stdout <(printf 'sink out 100000\ndone\n') "$room/report" || return
    differs items <(head -c 100000 /dev/zero | tr '\0' '\n') "$room/items" || return
    python3 "$top/tests/programs/trace.py" "$room/trace" "$room/times" 1000000 || return
    python3 -c 'import json, sys
print(*[(it["name"], it["firings"]) for it in json.load(open(sys.argv[1]))["blocks"]])' "$room/times" \
        >"$room/firings" || return
    differs firings <(echo "('src', 100000) ('a', 100000) ('out', 100000)") "$room/firings"
}

traces_between_files() { traced_between_files run; }
traces_live() { traced_between_files live --control /dev/null; }

# traces_now_and_then: the times of a run so far, of which each report is a line, while its items come in three parts
# (when each comes is up to the machine)
traces_now_and_then() {
    for _ in 1 2 3; do
        head -c 1000 /dev/zero
        sleep 1.2
    done | "${start[@]}" run --stats=json --stats-every 1 -i src=- -o out=/dev/null "$top/tests/graphs/plain.toml" \
        >"$room/report" 2>"$room/times" || return
    python3 - "$room/times" <<'END'
import json, sys
told = [json.loads(line)["blocks"][0]["firings"] for line in open(sys.argv[1])]
grows = len(told) > 1 and told == sorted(told) and told[0] > 0 and told[-1] == 3000
sys.exit(None if grows else f"the firings that were told: {told}")
END
}

# traces_first_events: of which all others are left out, which is told, unless the words say no
traces_first_events() {
    local said='' left_out count
    traced 20 --one-thread || return
    left_out=$(sed -n 's/.*"left_out":\([0-9]*\)}}$/\1/p' "$room/trace")
    count=$((left_out + 20))
    if [[ $left_out -lt 100 ||
        $said != "flow: trace: the last $left_out of $count turns and waits are left out" ]]; then
        echo "standard error: $left_out are left out, and before the times came: $said"
        return 1
    fi
    traced 20 --one-thread --quiet || return
    if [[ -n $said ]]; then
        echo "standard error: with --quiet came: $said"
        return 1
    fi
}

# traces_picture: the script that draws a trace makes XML, with a rectangle for each turn and each wait that lasts,
# beside the ground
traces_picture() {
    local said='' spans drawn
    traced 100000 --one-thread || return
    "$top/scripts/trace_picture.py" "$room/trace" >"$room/picture" || return
    python3 -c 'import sys, xml.dom.minidom; xml.dom.minidom.parse(sys.argv[1])' "$room/picture" || return
    spans=$(grep -c '"ph":"X"' "$room/trace")
    drawn=$(grep -c '^<rect ' "$room/picture")
    if ((spans < 100 || drawn != spans + 1)); then
        echo "wanted $spans rectangles and the ground, and there are $drawn"
        return 1
    fi
}

# traces_part_of_a_picture: what it draws from one time to another
traces_part_of_a_picture() { python3 "$top/tests/programs/picture.py" "$top/scripts/trace_picture.py"; }

# judge CASE WORD..: whether this command holds, which says what is wrong
judge() {
    local wrong
    if wrong=$("${@:2}"); then
        passed "$1"
    else
        failed "$1" <<<"$wrong"
    fi
}

run() {
    local it wrong start=()
    mkdir -p "$room/made"
    list "$room/made" >/dev/null
    build
    call_all
    while IFS= read -r it; do
        if [[ $it == @(names/*|traces/*|spoken/*|pipes/memory_of_pieces) ]] && ! command -v python3 >/dev/null; then
            left_out "$it" <<<"there is no python3 to read it"
        elif [[ $it == slices/* && -n $(slices_lack "${it#*/}") ]]; then
            left_out "$it" < <(slices_lack "${it#*/}")
        elif [[ $it == terminals/* ]] && ! command -v script >/dev/null; then
            left_out "$it" <<<"there is no command script to make a terminal"
        elif [[ $it == @(cluster|receiver)/* ]]; then
            tell_kept "$it"
        elif [[ $it == redirected/* ]]; then
            judge "$it" redirected "${it#*/}"
        elif [[ $it == silent/* ]]; then
            judge "$it" silent "${it#*/}"
        elif [[ $it == full/* ]]; then
            judge "$it" full "${it#*/}"
        elif [[ $it == spoken/* ]]; then
            judge "$it" spoken_in "${it#*/}"
        elif is_own "$it"; then
            judge "$it" "${it/\//_}"
        elif wrong=$(is_right "$it"); then
            passed "$it"
        else
            failed "$it" <<<"flow $(paste -sd ' ' "$(file_of "${folder_of[$it]}" args)")"$'\n'"$wrong"
        fi
    done <"$room/wanted"
}

case $1 in
list)
    made_here=$(mktemp -d)
    trap 'rm -rf -- "$made_here"' EXIT
    list "$made_here"
    ;;
run) run ;;
esac
