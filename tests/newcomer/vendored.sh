# shellcheck shell=bash disable=SC2154
# For tests/parts/newcomer.sh to source: what scripts/vendor.sh copies into another repository, and where it refuses to.
# tests/parts/toolchain.sh runs a program there.

mine=$room/elsewhere/mine

# refuses SAYING: vendor.sh says this of the repository `mine`, and changes nothing there
refuses() {
    (cd -- "$mine" && find . -type f -exec sha256sum {} + | LC_ALL=C sort) >"$room/before"
    calls 1 "$tree/scripts/vendor.sh" mine
    writes errors "vendor: $1"
    (cd -- "$mine" && find . -type f -exec sha256sum {} + | LC_ALL=C sort) | cmp -s - "$room/before" ||
        wrong "vendor.sh changes something, and refuses"
}

# has_crates CRATE..: the repository has these crates of the checkout and no others, as they are there, with their lines
has_crates() {
    local it part
    cmp -s <(printf '%s\n' "$@" | LC_ALL=C sort) <(cd -- "$mine/crates" && ls) ||
        wrong "vendor.sh brings $(cd -- "$mine/crates" && echo *), and not: $*"
    for it; do
        grep -qxF -- "$(grep "^$it:" "$tree/crates.txt")" "$mine/crates.txt" || wrong "vendor.sh brings no line of $it"
        cmp -s <(cd -- "$mine/crates/$it" && find . -mindepth 1 -maxdepth 1 | LC_ALL=C sort) \
            <(cd -- "$tree/crates/$it" && find ./src ./specs ./proofs -maxdepth 0 2>/dev/null | LC_ALL=C sort) ||
            wrong "vendor.sh brings other folders of $it"
        for part in "$mine/crates/$it"/*; do
            diff -r "$part" "$tree/crates/$it/${part##*/}" >"$room/said" || wrong "vendor.sh brings another $it"
        done
    done
}

# Over a repository made from nothing, again, and after a change here; where the names are taken, nothing is copied.
vendor_brings_what_magbelu_needs() {
    local here=$tree/crates lines
    printf '%s\n' "magbelu: items" >>"$tree/crates.txt"
    mkdir -p "$here/magbelu/"{src,must-fail,out} "$mine"
    echo "//! The crate that programs name." >"$here/magbelu/src/lib.rt"
    refuses "$mine is no Rattle repository: it has no crates.txt, which may be empty"
    echo "numbers: " >"$mine/crates.txt"
    refuses "$mine/crates.txt has a crate numbers of its own: nothing is copied"
    echo "embed: magbelu # mine" >"$mine/crates.txt"
    mkdir -p "$mine/crates/items"
    refuses "$mine/crates/items is there already, and no vendor.sh has brought it: nothing is copied"
    rm -r "$mine/crates"
    calls 0 "$tree/scripts/vendor.sh" mine
    has_crates magbelu items numbers stream_model
    grep -q "HANDLES does not allow Threads" "$room/output" || wrong "vendor.sh says nothing of HANDLES"
    cp "$tree/HANDLES" "$mine/HANDLES"
    lines=$(<"$mine/crates.txt")
    sed -i "s/^magbelu: items/magbelu: settings/" "$tree/crates.txt"
    echo "// edited" >>"$mine/crates/magbelu/src/lib.rt"
    calls 0 "$tree/scripts/vendor.sh" "$mine"
    has_crates magbelu settings stream_model
    ! grep -q HANDLES "$room/output" || wrong "vendor.sh asks for handles that are allowed"
    sed -i "s/^magbelu: settings/magbelu: items/" "$tree/crates.txt"
    calls 0 "$tree/scripts/vendor.sh" "$mine"
    [[ $(<"$mine/crates.txt") == "$lines" ]] || wrong "vendor.sh writes other lines the second time"
    calls 1 "$tree/scripts/vendor.sh" "$tree"
    writes errors "vendor: $tree is this checkout"
    calls 2 "$tree/scripts/vendor.sh"
    writes errors "vendor: its words are: FOLDER"
    rm -r "$here/magbelu"
    cp "$room/crates.txt" "$tree/crates.txt"
}
