# shellcheck shell=bash disable=SC2154
# For the scripts of tests/parts that try tests of libraries to source: those of some folders of tests/, a folder for
# each layer, are one program over the libraries under test, which is compiled once, and in which each test is a call.
# So as many run side by side as there are processors. Such a script sets `folders`, and `libraries`, the uppermost of
# those that they use. What else is over the same libraries goes into the same program: a script may source
# tests/memory.sh, or tests/programs.sh.
# shellcheck source=tests/part.sh
source "$(dirname -- "$(readlink -f -- "${BASH_SOURCE[0]}")")/part.sh"

# Seconds for one test, which has an end of its own; a busy machine may be slow to come to it.
seconds=600

own=$room/tree/crates/all_tests

# list_tests: the name of each function behind a line `#[test]`
list_tests() {
    local folder file name
    for folder in "${folders[@]}"; do
        for file in "$top/tests/$folder"/*.rs; do
            name=${file#"$top/tests/"}
            awk -v name="${name%.rs}" '
                is_test && match($0, /fn [a-z0-9_]+/) {
                    print name "/" substr($0, RSTART + 3, RLENGTH - 3)
                    is_test = 0
                }
                /^#\[test\]$/ { is_test = 1 }' "$file"
        done
    done
}

# put_folder FOLDER: a folder of tests/ as a module of the program
put_folder() {
    put_sources "$top/tests/$1" "$own/src/$1"
    mv -- "$own/src/$1/lib.rt" "$own/src/$1.rt"
    sed -i "s/^mod called;/&\nmod $1;/" "$own/src/main.rt"
}

# put_tests FOLDER: its tests, which can be called
put_tests() {
    put_folder "$1"
    sed -i 's/^mod /pub mod /' "$own/src/$1.rt"
    sed -i '/^#\[test\]$/,/^fn /{
        /^#\[test\]$/d
        s/^fn \([a-z0-9_]*\)(rt: HostRuntime)/pub fn \1<R: crate::Host>(rt: R)/
    }' "$own/src/$1"/*.rt
    if [[ $1 == terminal ]]; then
        # (these files of the program are under test there)
        cp -- "$top/crates/$command_crate/src/"{call,end_words,ends,kind_words,pace,slice,stretch,talk}.rt \
            "$top/crates/$command_crate/src/"{terminal,words}.rt "$own/src/terminal"
    fi
}

# put_calls FOLDER..: the file that calls a wanted test of these folders by its name. Where the program has tasks in
# which an allocation fails, it comes to fail before a test begins.
put_calls() {
    local it task=None begin='' other='ExitCode::from(2)'
    [[ ! -d $own/src/memory ]] || { task='crate::memory::answer(rt)' && begin='crate::memory::use_up(rt.alloc());'; }
    [[ ! -d $own/src/programs ]] || other='crate::programs::print(rt, name).unwrap_or(ExitCode::FAILURE)'
    echo 'use crate::Host;'
    (($# == 0)) || printf 'use crate::%s;\n' "$@"
    echo 'use std::process::{ExitCode, Termination};'
    echo "pub fn task<R: Host>(rt: R) -> Option<ExitCode> { $task }"
    echo "pub fn call<R: Host>(rt: R, name: &str) -> ExitCode { $begin"
    echo '    match name {'
    while IFS= read -r it; do
        [[ ! -d $own/src/${it%%/*} || $it == @(memory|programs)/* ]] ||
            echo "        \"$it\" => ${it//\//::}(rt).report(&rt),"
    done <"$room/wanted"
    echo "        _ => $other,"
    echo '    }'
    echo '}'
}

# put: the program, with what is wanted of it
put() {
    local folder it wanted=()
    for folder in "${folders[@]}"; do
        ! grep -q "^$folder/" "$room/wanted" || wanted+=("$folder")
    done
    put_apart tree all_tests "${libraries[@]}"
    mkdir -p "$own/src"
    cp -- "$top/tests/layers/main.rs" "$own/src/main.rt"
    for folder in "${wanted[@]}"; do
        put_tests "$folder"
    done
    for it in "${others[@]}"; do
        "put_$it"
    done
    put_calls "${wanted[@]}" >"$own/src/called.rt"
}

# call_test TEST: calls it, and keeps what it writes, and its status
call_test() {
    local came=$room/came/$1 status=0
    mkdir -p "${came%/*}"
    # (the shell itself would tell of one that was aborted)
    { timeout "$seconds" "${start[@]}" "$1" </dev/null >"$came.said" 2>&1 || status=$?; } 2>/dev/null
    echo "$status" >"$came.status"
}

judge_test() {
    local status
    status=$(<"$room/came/$1.status")
    if [[ $status == 0 ]]; then
        passed "$1"
    else
        { echo "wanted status 0, and there came status $status, and" && cat -- "$room/came/$1.said"; } | failed "$1"
    fi
}

# kind_of CASE: sets `kind`, by which functions a case is called and judged
kind_of() {
    case $1 in
    memory/*) kind=memory ;;
    benches/* | examples/* | pages/*) kind=program ;;
    *) kind="test" ;;
    esac
}

# call_all: as many side by side as there are processors
call_all() {
    local it kind lanes
    lanes=$(nproc)
    while IFS= read -r it; do
        while (($(jobs -rp | wc -l) >= lanes)); do
            wait -n || true
        done
        kind_of "$it"
        "call_$kind" "$it" &
    done <"$room/wanted"
    wait
}

list() {
    local it
    list_tests
    for it in "${others[@]}"; do
        "list_$it"
    done
}

run() {
    local it kind words=()
    # (what a page quotes is no call)
    if grep -qv '^pages/' "$room/wanted"; then
        put
        # (where tasks of memory are in it)
        [[ ! -d $own/src/memory ]] || words=(--fail-alloc "$refused")
        build_copy "$own" "${words[@]}" -- copy "$room/program" || return
        call_all
    fi
    while IFS= read -r it; do
        kind_of "$it"
        "judge_$kind" "$it"
    done <"$room/wanted"
}
