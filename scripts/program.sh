# shellcheck shell=bash disable=SC2034
# For ./flow, ./build and the scripts of tests/ to source: which crates are the program and the library for C, and which
# crates they stand on.

# The crate of the program, and the one that has all that its main calls.
program_crate=flow_program
command_crate=flow_command
# The crate of the static library for C.
c_crate=magbelu_c
# The minutes that a first ./build takes on four cores.
build_minutes=60

# (`cd` would go by CDPATH, and a link to a script does not stand in this checkout.)
top=$(dirname -- "$(dirname -- "$(readlink -f -- "${BASH_SOURCE[0]}")")")
program=$top/crates/$program_crate/out/built/$program_crate
# Where the library for C stands: libmagbelu.a, and libmagbelu.so.
c_folder=$top/crates/$c_crate/out/built

# The line of each crate in crates.txt, and the libraries that it names, of this repository and of the toolchain.
declare -A line_of=() uses=()
# The crates that were asked for and all crates of this repository below them, each after those that it uses.
order=()

read_crates() {
    local line name
    while IFS= read -r line || [[ -n $line ]]; do
        line=${line%%#*}
        read -r name _ <<<"${line%%:*}"
        if [[ -n $name ]]; then
            line_of[$name]=$line
            line=$line:
            line=${line#*:}
            uses[$name]=${line//[:,]/ }
        fi
    done <"$top/crates.txt"
}

# put_in_order CRATE: adds the crate to `order`, after the crates below it
put_in_order() {
    local it
    if [[ " ${order[*]} " == *" $1 "* ]]; then
        return
    fi
    for it in ${uses[$1]}; do
        if [[ -v uses[$it] ]]; then
            put_in_order "$it"
        fi
    done
    order+=("$1")
}

# is_fresh [FILE CRATE]: whether the file, or the program, is built, and newer than each file that its crate is made of,
# and each folder of them: a file may go or be renamed.
is_fresh() {
    local crate part newer made=${1-$program} sources=("$top/crates.txt")
    [[ -e $made ]] || return 1
    if (($# > 0)); then
        local order=()
        put_in_order "$2"
    fi
    for crate in "${order[@]}"; do
        for part in src specs proofs; do
            if [[ -d $top/crates/$crate/$part ]]; then
                sources+=("$top/crates/$crate/$part")
            fi
        done
    done
    if [[ -e $top/HANDLES ]]; then
        sources+=("$top/HANDLES")
    fi
    # (the program is a link to the one for this processor)
    newer=$(find -H "${sources[@]}" -newer "$made" -print -quit) && [[ -z $newer ]]
}

# needs_rt NAME: ends the script of this name where the toolchain is not to be found
needs_rt() {
    if ! command -v rt >/dev/null; then
        echo "$1: there is no rt in PATH: it is the command of the Rattle toolchain, which proves and compiles this repository" >&2
        exit 127
    fi
}

read_crates
put_in_order "$program_crate"
