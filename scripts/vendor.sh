#!/usr/bin/env bash
# vendor.sh FOLDER: copies the crate magbelu and those below it into another Rattle repository, with their lines of
# crates.txt, so that a program there may use it; a second call puts what this checkout has now in the place of what the
# first one brought. docs/user/EMBED.md tells of it.
set -euo pipefail
# shellcheck source=scripts/program.sh
source "$(dirname -- "$(readlink -f -- "${BASH_SOURCE[0]}")")/program.sh"

# The crate that a program names.
wanted=magbelu
# The lines about those that stand in the repository's crates.txt for the crates that are brought.
first_line="# What scripts/vendor.sh of Magbelu has brought; it writes these lines anew:"
last_line="# (as far as here)"

fail() {
    echo "vendor: $1" >&2
    exit "${2-1}"
}

# of_others: prints the lines of the repository's crates.txt that no call of this has brought
of_others() { sed "/^${first_line//[.\/]/.}\$/,/^$last_line\$/d" "$to/crates.txt"; }

# names: prints the names of the crates in lines of a crates.txt
names() { sed 's/#.*//; s/:.*//' | awk 'NF { print $1 }'; }

# brought: prints the names of those that an earlier call has brought
brought() { sed -n "/^${first_line//[.\/]/.}\$/,/^$last_line\$/p" "$to/crates.txt" | names; }

# find_places: the repository, and the folder of its crates, which stand at its top where it has none for them
find_places() {
    local it
    [[ -d $1 ]] || fail "$1 is no folder"
    to=$(cd -- "$1" && pwd -P)
    [[ $to != "$(pwd -P)" ]] || fail "$1 is this checkout"
    [[ -f $to/crates.txt ]] || fail "$1 is no Rattle repository: it has no crates.txt, which may be empty"
    crates=$to/crates
    if [[ ! -d $crates ]]; then
        for it in $(names <"$to/crates.txt"); do
            [[ ! -d $to/$it ]] || crates=$to
        done
    fi
}

# test_names: ends the script where a crate of somebody else has the name of one that is to come
test_names() {
    local it
    for it in "${order[@]}"; do
        if of_others | names | grep -qxF -- "$it"; then
            fail "$to/crates.txt has a crate $it of its own: nothing is copied"
        elif [[ -e $crates/$it || -L $crates/$it ]] && ! grep -qxF -- "$it" <<<"$before"; then
            fail "$crates/$it is there already, and no vendor.sh has brought it: nothing is copied"
        fi
    done
}

# write_lines: theirs and ours, in the repository's crates.txt
write_lines() {
    local it lines
    lines=$(of_others)
    {
        [[ -z $lines ]] || printf '%s\n' "$lines"
        echo "$first_line"
        for it in "${order[@]}"; do
            echo "${line_of[$it]}"
        done
        echo "$last_line"
    } >"$to/crates.txt"
}

# copy_crates: code, definitions and proofs of each, and nothing that is made of them or tried on them; what came before
# goes
copy_crates() {
    local it part
    mkdir -p -- "$crates"
    for it in $before; do
        rm -rf -- "${crates:?}/$it"
    done
    for it in "${order[@]}"; do
        mkdir -- "$crates/$it"
        for part in src specs proofs; do
            [[ ! -d $top/crates/$it/$part ]] || cp -R -- "$top/crates/$it/$part" "$crates/$it"
        done
    done
}

# tell: what was done, and what the repository has to allow
tell() {
    echo "vendor: ${#order[@]} crates stand in $crates: a crate of yours may name $wanted in $to/crates.txt"
    if ! grep -qsw Threads "$to/HANDLES" || ! grep -qsw Wait "$to/HANDLES"; then
        echo "vendor: $to/HANDLES does not allow Threads and Wait, which its runs in threads need:" \
            "the line is '$(<"$top/HANDLES")'"
    fi
}

(($# == 1)) && [[ $1 != -* ]] || fail "its words are: FOLDER" 2
order=()
put_in_order "$wanted"
cd -- "$top" # (a relative FOLDER is that of the caller)
find_places "$([[ $1 == /* ]] && echo "$1" || echo "$OLDPWD/$1")"
before=$(brought)
test_names
write_lines
copy_crates
tell
