# shellcheck shell=bash disable=SC2154
# For scripts to source, which have a folder `room`: crates that stand outside crates/, put together in a copy of the
# checkout with those below them, so that the gate has no proof of them to make. The copy also serves the script that
# turns definitions.
# shellcheck source=scripts/program.sh
source "$(dirname -- "$(readlink -f -- "${BASH_SOURCE[0]}")")/../scripts/program.sh"

# put_below FOLDER LIBRARY..: those of these libraries that are crates, and those below them, in the checkout
# $room/FOLDER; `order` has them then
put_below() {
    local crate here=$room/$1
    for crate in "${@:2}"; do
        if [[ -v uses[$crate] ]]; then
            put_in_order "$crate"
        fi
    done
    mkdir -p "$here/crates"
    for crate in "${order[@]}"; do
        if [[ ! -d $here/crates/$crate ]]; then
            echo "${line_of[$crate]}" >>"$here/crates.txt"
            mkdir "$here/crates/$crate"
            find "$top/crates/$crate" -mindepth 1 -maxdepth 1 ! -name out -exec cp -a -t "$here/crates/$crate" -- {} +
        fi
    done
}

# put_sources FROM TO: the files of a folder, and of those in it. The toolchain's .rt and .antt stand in crates/ alone,
# so that outside they are .rs and .agda, which editors know.
put_sources() {
    local file
    mkdir -p "$2"
    cp -a -- "$1/." "$2"
    while IFS= read -r file; do
        mv -- "$file" "${file%.rs}.rt"
    done < <(find "$2" -name '*.rs')
    while IFS= read -r file; do
        mv -- "$file" "${file%.agda}.antt"
    done < <(find "$2" -name '*.agda')
}

# put_apart FOLDER NAME LIBRARY..: in the checkout $room/FOLDER, these libraries, those below them, and the line of a
# crate NAME over all of them
put_apart() {
    local crate used order=() libraries=("${@:3}")
    put_below "$1" "${libraries[@]}"
    for crate in "${order[@]}"; do
        read -ra used <<<"${uses[$crate]}"
        libraries+=("$crate" "${used[@]}")
    done
    echo "$2: $(printf '%s\n' "${libraries[@]}" | sort -u | paste -sd ' ')" >>"$room/$1/crates.txt"
}

# put_bench FOLDER BENCH: a program of benches/ over the libraries of its line in benches/uses.txt, in the checkout
# $room/FOLDER
put_bench() {
    local order=() libraries=() own=$room/$1/crates/$2
    read -ra libraries < <(sed -n "s/^$2\( shared\)\?: //p" "$top/benches/uses.txt")
    put_below "$1" "${libraries[@]}"
    echo "$2: ${libraries[*]}" >>"$room/$1/crates.txt"
    put_sources "$top/benches/$2" "$own"
    if grep -q "^$2 shared:" "$top/benches/uses.txt"; then
        put_sources "$top/benches/shared" "$own/src"
    fi
}

