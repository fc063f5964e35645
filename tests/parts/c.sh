#!/usr/bin/env bash
# The library for C, where ./build --c has built it from these sources: c/magbelu.h compiles as C99 and as C++, and over
# each example and graph file of tests/ the calls from C and C++, with the sanitizers, and from Python give what is
# expected, and where ./flow is built what it gives. Elsewhere it only compiles the headers, and tries what
# c/magbelu.hpp and python/magbelu make of their arguments and of what they find around them, and drawings, plots and
# type hints. What Python does is tried without numpy, and with numpy and matplotlib where they are installed.
set -euo pipefail
# shellcheck source=tests/part.sh
source "$(dirname -- "$(readlink -f -- "${BASH_SOURCE[0]}")")/../part.sh"

# The program that makes the calls of a case.
calls=$room/calls
warnings=(-pedantic -Wall -Wextra -Werror)
sanitizers=(-g "-fsanitize=address,undefined" -fno-sanitize-recover=undefined)

# wrong SAYING: ends the case
wrong() {
    echo "$1"
    exit 1
}

# compiles_header: as C99 and as C++, with all warnings
compiles_header() {
    printf '#include "magbelu.h"\nint main(void) { return (int)magbelu_version() - MAGBELU_VERSION; }\n' \
        >"$room/header.c"
    cc -std=c99 "${warnings[@]}" -I"$top/c" -c "$room/header.c" -o "$room/header.o"
    if command -v c++ >/dev/null; then
        c++ -x c++ -std=c++11 "${warnings[@]}" -I"$top/c" -c "$room/header.c" -o "$room/header.o"
    fi
}

# calls STATUS WORD..: the program that makes the calls ends so
calls() {
    local wanted=$1 status=0
    shift
    "$calls" "$@" >"$room/output" 2>"$room/errors" || status=$?
    [[ $status == "$wanted" ]] ||
        wrong "${calls##*/} $*: status $status in place of $wanted: $(head -n 5 "$room/errors")"
}

# as_flow WORD.. FILE: the call just made wrote what ./flow writes with these words, where that is built, but for the
# name of the file, which no library knows, and the lines that explain a stall
as_flow() {
    local line status=0
    if is_fresh; then
        "$program" "$@" >"$room/flow_output" 2>"$room/flow_said" || status=$?
        while IFS= read -r line; do
            [[ $line == "flow: stalled: "* ]] || printf '%s\n' "${line%" in ${*: -1}"}"
        done <"$room/flow_said" >"$room/flow_errors"
        if ! cmp -s "$room/output" "$room/flow_output" || ! cmp -s "$room/errors" "$room/flow_errors"; then
            wrong "flow $* writes something else"
        fi
    fi
}

# example FOLDER: what is expected of it
example() {
    local graph=$1/graph.toml
    if [[ -e $1/script ]]; then
        calls 0 script "$graph" "$1/script"
        cmp -s "$room/output" "$1/expected" || wrong "the script of $1"
    fi
    if [[ -e $1/expected_check ]]; then
        calls 0 check "$graph"
        cmp -s "$room/output" "$1/expected_check" || wrong "the check of $1"
    fi
    if [[ -e $1/expected_run ]]; then
        calls "$([[ $(tail -n 1 "$1/expected_run") == stalled ]] && echo 3 || echo 0)" run "$graph"
        cmp -s "$room/output" "$1/expected_run" || wrong "the run of $1"
    fi
}

# graph FILE: what ./flow writes of it
graph() {
    local status=0
    for call in check run; do
        "$calls" "$call" "$1" >"$room/output" 2>"$room/errors" || status=$?
        ((status < 5)) || wrong "$call $1: $(head -n 5 "$room/errors")"
        if [[ $call == run ]]; then
            as_flow run --one-thread "$1"
        else
            as_flow check "$1"
        fi
    done
}

# chain TYPE VALUE: writes the file of a graph that adds this number to each item of a type
chain() {
    cat >"$room/chain.toml" <<END
block = [{ name = "src", kind = "vector_source", type = "$1" },
    { name = "add", kind = "add_const", type = "$1", value = $2 },
    { name = "out", kind = "vector_sink", type = "$1" }]
connect = [{ from = "src", to = "add" }, { from = "add", to = "out" }]
END
}

# A thousand shorts go through a block that adds 1, with the lowest byte first and with the highest.
raw_items() {
    chain short 1
    awk 'BEGIN { for (i = 0; i < 1000; i++) printf "%c%c", 65 + i % 26, 97 + i % 26 }' >"$room/in"
    awk 'BEGIN { for (i = 0; i < 1000; i++) printf "%c%c", 66 + i % 26, 97 + i % 26 }' >"$room/low"
    awk 'BEGIN { for (i = 0; i < 1000; i++) printf "%c%c", 65 + i % 26, 98 + i % 26 }' >"$room/high"
    calls 0 items "$room/chain.toml" -i src="$room/in" -o out="$room/got"
    cmp -s "$room/got" "$room/low" || wrong "raw items with the lowest byte first"
    calls 0 items "$room/chain.toml" -b -i src="$room/in" -o out="$room/got" -t out="$room/tags"
    cmp -s "$room/got" "$room/high" || wrong "raw items with the highest byte first"
    [[ ! -s $room/tags ]] || wrong "tags that nobody fed"
    calls 0 items "$top/examples/echo/graph.toml" -t out="$room/got"
    printf '@1:mark=7/0\n@3:mark=7/0\n' | cmp -s - "$room/got" || wrong "the tags of examples/echo"
}

# files: the calls over the examples and the graph files
files() {
    local it
    for it in "$top"/examples/*/; do
        if [[ -e ${it}graph.toml ]]; then
            example "${it%/}"
        fi
    done
    for it in "$top"/tests/graphs/*.toml; do
        graph "$it"
    done
}

# tells_calls: the calls from C
tells_calls() {
    cc -std=c99 "${warnings[@]}" "${sanitizers[@]}" -pthread -I"$top/c" \
        "$top"/tests/c/{calls,plants,streams,slices,kernels}.c "$c_folder/libmagbelu.a" -o "$calls"
    calls 0 wrong
    calls 0 held
    files
    raw_items
    first_program "$top/docs/user/C.md" >"$room/page.c"
    cc -std=c99 "${warnings[@]}" "${sanitizers[@]}" -I"$top/c" "$room/page.c" "$c_folder/libmagbelu.a" -o "$room/page"
    "$room/page" <"$top/examples/echo/graph.toml" | cmp -s - "$top/examples/echo/expected_run" ||
        wrong "the program of docs/user/C.md"
}

# tells_spoken: a stream that two threads call under a lock, with the thread sanitizer
tells_spoken() {
    cc -std=c99 "${warnings[@]}" -g -fsanitize=thread -pthread -I"$top/c" "$top/tests/c/spoken.c" \
        "$c_folder/libmagbelu.a" -o "$room/spoken"
    "$room/spoken"
}

# compile_plus PROGRAM FILE..: the program of these files in C++
compile_plus() { c++ -std=c++17 "${warnings[@]}" "${sanitizers[@]}" -I"$top/c" "${@:2}" -o "$1"; }

# plus_page FILE: the program in C++ of docs/user/C.md, over this library
plus_page() {
    # shellcheck disable=SC2016
    sed -n '/^```cpp$/,/^```$/{//d;p}' "$top/docs/user/C.md" >"$room/page.cpp"
    compile_plus "$room/page_plus" "$room/page.cpp" "$1"
    chain byte 10
    "$room/page_plus" <"$room/chain.toml" | cmp -s - <(printf '%s\n' 4 11 102 103) ||
        wrong "the program in C++ of docs/user/C.md"
}

# tells_plus_alone: what c/magbelu.hpp makes of its arguments and of answers
tells_plus_alone() {
    compile_plus "$room/held_alone" "$top"/tests/c/{held,stand_in}.cpp
    "$room/held_alone"
    plus_page "$top/tests/c/stand_in.cpp"
}

# tells_plus: the calls from C++
tells_plus() {
    compile_plus "$room/held" "$top/tests/c/held.cpp" "$c_folder/libmagbelu.a"
    "$room/held"
    plus_page "$c_folder/libmagbelu.a"
    calls=$room/texts
    compile_plus "$calls" "$top/tests/c/texts.cpp" "$c_folder/libmagbelu.a"
    files
}

# python_tests FILE: the tests of python/magbelu that stand in this file
python_tests() { PYTHONDONTWRITEBYTECODE=1 MPLBACKEND=Agg PYTHONPATH=$top/python python3 "$top/tests/c/$1.py" "$top"; }

# without_numpy FILE: the same where Python finds no numpy
without_numpy() {
    mkdir -p "$room/hidden"
    echo 'raise ImportError("numpy is hidden")' >"$room/hidden/numpy.py"
    PYTHONDONTWRITEBYTECODE=1 PYTHONPATH=$room/hidden:$top/python python3 "$top/tests/c/$1.py" "$top"
}

# tells_threads: what threads of Python do with one stream, with the thread sanitizer, over what stands for the library,
# since the library is not compiled for it
tells_threads() {
    # (what a stream does not call has to be there)
    printf 'extern "C" unsigned magbelu_version() { return 1; }\n' >"$room/others.cpp"
    printf 'extern "C" void magbelu_bytes_%s() {}\n' check run script run_items >>"$room/others.cpp"
    c++ -std=c++17 "${warnings[@]}" -g -O1 -fPIC -shared -fsanitize=thread -I"$top/c" "$top/tests/c/stand_in.cpp" \
        "$room/others.cpp" -o "$room/stand_in.so"
    # (of a program that is not compiled for it, the sanitizer has to be there first, and wants addresses as they come;
    # the shims of pyenv are no program)
    PYTHONDONTWRITEBYTECODE=1 PYTHONPATH=$top/python MAGBELU_LIBRARY=$room/stand_in.so \
        LD_PRELOAD=$(cc -print-file-name=libtsan.so) TSAN_OPTIONS=exitcode=66 \
        setarch --addr-no-randomize "$(python3 -c 'import sys; print(sys.executable)')" "$top/tests/c/threads.py" "$top"
}

# over_library COMMAND..: the same over the library that is built
over_library() { MAGBELU_LIBRARY=$c_folder/libmagbelu.so "$@"; }

# tells_types: the type hints, and a program that goes by them
tells_types() {
    MYPYPATH=$top/python mypy --strict --ignore-missing-imports --cache-dir "$room/mypy" "$top/python/magbelu" \
        "$top/examples/python/whistle.py"
}

# tells_notebook: examples/python prints what its page shows, and makes its picture
tells_notebook() {
    cd -- "$room"
    PYTHONDONTWRITEBYTECODE=1 MPLBACKEND=Agg PYTHONPATH=$top/python python3 "$top/examples/python/whistle.py" \
        >"$room/output"
    # shellcheck disable=SC2016
    sed -n '/^\$ /,/^```$/{//d;p}' "$top/examples/python/README.md" | cmp -s - "$room/output" ||
        wrong "it prints $(<"$room/output")"
    [[ $(head -c 4 whistle.png | tail -c 3) == PNG ]] || wrong "there is no picture"
}

list() {
    if command -v python3 >/dev/null; then
        printf 'c/%s\n' arguments arguments_numpy surroundings pictures pictures_matplotlib types
    fi
    if command -v cc >/dev/null; then
        printf 'c/%s\n' header calls spoken
    fi
    if command -v c++ >/dev/null; then
        printf 'c/%s\n' plus_alone plus
    fi
    if command -v cc >/dev/null && command -v python3 >/dev/null; then
        printf 'c/%s\n' threads python python_numpy python_streams python_streams_numpy python_threads python_slices \
            python_slices_numpy doctests doctests_matplotlib notebook
    fi
}

# try CASE COMMAND..: the command is the case, if it is wanted
try() {
    local said status=0
    if ! is_wanted "$1"; then
        return
    fi
    # (where it fails it ends there: in a condition it would go on)
    set +e
    said=$(set -e && "${@:2}" 2>&1)
    status=$?
    set -e
    if [[ $status == 0 ]]; then
        passed "$1"
    else
        failed "$1" <<<"$said"
    fi
}

# lacks NEED..: prints what is not here of these: a library that is built, a program, modules of Python
lacks() {
    local it
    for it; do
        case $it in
        libtsan.so) [[ $(cc -print-file-name=libtsan.so) == /* ]] && command -v c++ >/dev/null &&
            command -v setarch >/dev/null || echo "there is no thread sanitizer" ;;
        libmagbelu.*) is_fresh "$c_folder/$it" "$c_crate" || echo "./build --c has not built $it from these sources" ;;
        mypy) command -v mypy >/dev/null || echo "there is no mypy" ;;
        *) python3 -c "import $it" 2>/dev/null || echo "python3 has no module $it" ;;
        esac
    done
}

# try_with "NEED.." CASE COMMAND..: the same, where all of this is here
try_with() {
    local needs why
    read -ra needs <<<"$1"
    why=$(lacks "${needs[@]}")
    if [[ -z $why ]]; then
        try "${@:2}"
    elif is_wanted "$2"; then
        left_out "$2" <<<"${why//$'\n'/, }"
    fi
}

run() {
    try c/arguments without_numpy arguments
    try_with numpy c/arguments_numpy python_tests arguments
    try c/surroundings without_numpy surroundings
    try c/pictures without_numpy pictures
    try_with matplotlib c/pictures_matplotlib python_tests pictures
    try_with mypy c/types tells_types
    try c/header compiles_header
    try c/plus_alone tells_plus_alone
    try_with libtsan.so c/threads tells_threads
    try_with libmagbelu.a c/calls tells_calls
    try_with libmagbelu.a c/spoken tells_spoken
    try_with libmagbelu.a c/plus tells_plus
    try_with libmagbelu.so c/python over_library without_numpy graphs
    try_with "libmagbelu.so numpy" c/python_numpy over_library python_tests graphs
    try_with libmagbelu.so c/python_streams over_library without_numpy streams
    try_with "libmagbelu.so numpy" c/python_streams_numpy over_library python_tests streams
    try_with libmagbelu.so c/python_threads over_library without_numpy threads
    try_with libmagbelu.so c/python_slices over_library without_numpy slices
    try_with "libmagbelu.so numpy" c/python_slices_numpy over_library python_tests slices
    try_with libmagbelu.so c/doctests over_library without_numpy doctests
    try_with "libmagbelu.so matplotlib" c/doctests_matplotlib over_library python_tests doctests
    try_with "libmagbelu.so matplotlib" c/notebook over_library tells_notebook
}

"$1"
