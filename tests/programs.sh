# shellcheck shell=bash disable=SC2154
# For the scripts of tests/parts to source that try tests of libraries: the programs of benches/, which without words
# print what was worked out by hand, and those of examples/ in Rattle, which do the same, each with what its file stdout
# has: as libraries of the one program, so that what stands below them is compiled once. And that README.md quotes that
# of examples/embed word for word.

programs=(benches/kernel_bench benches/graph_bench benches/thread_bench examples/embed examples/own_block
    examples/pipeline)

list_programs() {
    printf '%s\n' "${programs[@]}"
    echo pages/README/embed
}

# crate_of PROGRAM: prints the name of its crate, which for examples/pipeline is none of the crates that it uses
crate_of() {
    local name=${1##*/}
    echo "${name/#pipeline/pipeline_program}"
}

# put_bench_library BENCH: the bench as a library, without its `main`, which hands its runtime on to `small`
put_bench_library() {
    local own=$room/tree/crates/$1
    put_bench tree "$1"
    sed 's/^mod small;/pub mod small;/; /^use std::/,$d' "$own/src/main.rt" >"$own/src/lib.rt"
    rm -- "$own/src/main.rt"
}

# put_example EXAMPLE: a program of examples/ as a library, whose `main` takes any runtime, since only a program's own
# is given one by name
put_example() {
    local name own host="Threads + Wait + Clock + AllocGlobal + Print + Copy + Send + 'static"
    name=$(crate_of "$1")
    own=$room/tree/crates/$name
    put_apart tree "$name" magbelu
    put_sources "$top/$1" "$own"
    sed "s/^use std::alloc::Global;/&\nuse std::sync::Wait;\nuse std::thread::Threads;\nuse std::time::Clock;/
        s/^fn main(rt: HostRuntime)/pub fn main<R: $host>(rt: R)/" "$own/src/main.rt" >"$own/src/lib.rt"
    rm -- "$own/src/main.rt"
}

# put_programs: those that are wanted, as libraries of the program
put_programs() {
    local it line crates=()
    if ! grep -qE '^(benches|examples)/' "$room/wanted"; then
        return
    fi
    put_folder programs
    for it in "${programs[@]}"; do
        if [[ $it == benches/* ]]; then
            put_bench_library "${it##*/}"
        else
            put_example "$it"
        fi
        crates+=("$(crate_of "$it")")
    done
    # (its line names them, and stands below theirs)
    line=$(grep ^all_tests: "$room/tree/crates.txt")
    sed -i /^all_tests:/d "$room/tree/crates.txt"
    echo "$line ${crates[*]}" >>"$room/tree/crates.txt"
}

# call_program CASE: calls the program for what one of them prints
call_program() {
    local came=$room/came/$1
    if [[ $1 != pages/* ]]; then
        mkdir -p "${came%/*}"
        timeout "$seconds" "${start[@]}" "$1" </dev/null >"$came.stdout" 2>"$came.errors" || true
    fi
}

# judge_program CASE: whether what came is what the file has
judge_program() {
    local wanted=$top/$1/stdout came=$room/came/$1.stdout wrong
    if [[ $1 == pages/* ]]; then
        wanted=$top/examples/embed/src/main.rs came=$room/quoted
        # shellcheck disable=SC2016
        sed -n '/^```rust$/,/^```$/{//!p}' "$top/README.md" >"$came"
    fi
    if wrong=$(differs stdout "$wanted" "$came"); then
        passed "$1"
    else
        { echo "$wrong" && cat -- "$room/came/$1.errors" 2>/dev/null; } | failed "$1"
    fi
}
