# shellcheck shell=bash
# For the scripts of tests/parts to source. Each of them is a part of ./test, which calls it twice: `PART.sh list`
# prints the names of its cases, a line each, and `PART.sh run ROOM` tries those that the file ROOM/wanted has, in the
# order in which it listed them, and says of each how it ended.
# shellcheck source=tests/apart.sh
source "$(dirname -- "$(readlink -f -- "${BASH_SOURCE[0]}")")/apart.sh"

room=${2-}

# passed CASE
passed() { echo "passed $1" >>"$room/results"; }

# failed CASE: standard input says what was wanted and what came
failed() {
    echo "failed $1" >>"$room/results"
    echo "FAILED $1"
    # (bytes that a terminal would take for its own)
    cat -v | sed 's/^/    /'
}

# left_out CASE: standard input says why
left_out() {
    echo "left_out $1" >>"$room/results"
    echo "left out: $1: $(cat)"
}

# differs WHAT WANTED CAME: shows how one file differs from the other
differs() { diff --text -U 3 --label "$1 wanted" --label "$1 that came" -- "$2" "$3"; }

# is_wanted CASE: whether this case is to be tried
is_wanted() { grep -qxF -- "$1" "$room/wanted"; }

# first_program PAGE: prints the first program in C that stands on a page, which ends with a brace at the front of a
# line
# shellcheck disable=SC2016
first_program() { sed -n '/^```c$/,/^```$/{//d;p}' "$1" | sed '/^}$/q'; }

# try_in FOLDER WORD..: `rt try` of the program in this folder, without the check for a hint that would double the work
try_in() { (cd -- "$1" && PATH=$top/tests/no_hint:$PATH rt try "${@:2}"); }

# build_copy FOLDER [WORD..] -- CALL..: a program, unproved, as rt compiles it with checks, as $room/program; `start`
# has the words that start it. To rt each call of a program is a second's work, to the program none: so rt runs it once,
# with these words to it and those of the call to the program, which copies the file `program` that lies where it runs,
# and all cases call the copy, as rt would.
build_copy() {
    local kit folder=$1 words=()
    shift
    while [[ $1 != -- ]]; do
        words+=("$1")
        shift
    done
    shift
    kit=$(dirname -- "$(rt doc)")
    # shellcheck disable=SC2034  # It is for the scripts that source this.
    start=("$kit/toolchain/lib/ld-linux-x86-64.so.2" --inhibit-cache --library-path "$kit/toolchain/lib"
        "$room/program")
    mkdir "$room/copy"
    : >"$room/copy/copy"
    printf '%s\n' "$@" >"$room/copy/copy.args"
    try_in "$folder" --seconds 600 "${words[@]}" --cases "$room/copy" >"$room/said" 2>&1 </dev/null || true
    if [[ ! -s $room/program ]]; then
        echo "the program is not built, or did not copy itself:"
        tail -n 40 "$room/said"
        return 1
    fi
    chmod +x "$room/program"
}
