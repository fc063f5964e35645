# shellcheck shell=bash disable=SC2154,SC2034
# For tests/parts/newcomer.sh and tests/parts/toolchain.sh to source: a checkout of a newcomer, and what tests a call of
# ./flow or ./build there.

# A name that a careless script takes apart.
tree="$room/a checkout"
elsewhere=$room/elsewhere
own=$tree/crates/$program_crate
built=$tree${program#"$top"}
later="./build proves and builds it once, in some $build_minutes minutes"
unproved="flow: not built from these sources yet: running it unproved, which compiles it each time; $later"
beside="flow: files of raw items and traces are for the built program alone: $later"
lacks="there is no rt in PATH: it is the command of the Rattle toolchain, which proves and compiles this repository"

# wrong SAYING: ends the part, since each case goes on from where the one before it left off
wrong() {
    { echo "$1" && sed 's/^/| /' "$room/output" "$room/errors"; } | failed "$this_case"
    exit 1
}

# try CASE FUNCTION: the function is the case
try() {
    this_case=$1
    why_not=
    "$2"
    if [[ -n $why_not ]]; then
        left_out "$1" <<<"$why_not"
    elif is_wanted "$1"; then
        passed "$1"
    fi
}

# thin_tree: leaves a few crates of the checkout, so that a build is short: the program, the library for C, and some
# below them, of which two stand on the lowest alone
thin_tree() {
    local it
    printf '%s\n' stream_model: "numbers: stream_model" "settings: stream_model" "items: stream_model numbers" \
        "flow_core: items settings" "$command_crate: numbers flow_core" "$program_crate: $command_crate" \
        "$c_crate staticlib: items flow_core" >"$tree/crates.txt"
    cp "$tree/crates.txt" "$room/crates.txt"
    line_of=() uses=() order=()
    top=$tree read_crates
    put_in_order "$program_crate"
    for it in "$tree"/crates/*; do
        [[ -v uses[${it##*/}] ]] || rm -r "$it"
    done
}

# copy_tree: the checkout as git would bring it
copy_tree() {
    mkdir -p "$tree" "$elsewhere" "$room/bin" "$room/tools"
    tar -C "$top" --exclude=./.git --exclude=./out --exclude="./crates/*/out" -cf - . | tar -C "$tree" -xf -
    mkdir -p "$room/bin/a kit/bin"
    cp "$top/tests/newcomer/rt_in_its_place" "$room/bin/rt"
    cp "$top/tests/newcomer/rt_in_its_place" "$room/bin/a kit/bin/rattle"
    cp "$top/tests/newcomer/rt_in_its_place" "$room/bin/a kit/bin/rattle-link"
    mkdir -p "$room/bin/a kit/toolchain/bin" "$room/bin/a kit/c"
    cp "$top/tests/newcomer/rt_in_its_place" "$room/bin/a kit/toolchain/bin/llvm-ar"
    cp "$top/tests/newcomer/rt_in_its_place" "$room/bin/cc"
    echo "the C of the system" >"$room/bin/a kit/c/libos_c.a"
    echo "the C of the heap" >"$room/bin/a kit/c/liblibc_c.a"
    echo "a toolchain" >"$room/bin/version"
    cp "$tree/examples/add_const/graph.toml" "$elsewhere/a graph.toml"
    ln -s "$tree/flow" "$elsewhere/flow_by_link"
    ln -s "$tree/build" "$elsewhere/build_by_link"
}

# Links to all commands that the scripts call, so that a PATH of these alone has no rt.
link_tools() {
    local it
    for it in bash env readlink dirname find cat head tail grep wc mktemp rm cp mv mkdir touch sort cut nproc awk \
        flock xargs sha256sum; do
        ln -s "$(command -v "$it")" "$room/tools/$it"
    done
}

# calls STATUS COMMAND..: runs the command in the folder elsewhere, for `limit` seconds at the most, and tests its
# status
calls() {
    local wanted=$1 status=0
    shift
    (cd "$elsewhere" && exec timeout "${limit-600}" "$@") >"$room/output" 2>"$room/errors" || status=$?
    [[ $status == "$wanted" ]] || wrong "$*: status $status in place of $wanted"
}

# writes FILE LINE..: tests that what the last call wrote is these lines
writes() {
    local file=$1
    shift
    cmp -s "$room/$file" <((($# == 0)) || printf '%s\n' "$@") || wrong "the last call's $file is not: $*"
}

# wait_for COMMAND..: until the command has status 0
wait_for() {
    local tries
    for ((tries = 0; tries < 600; tries++)); do
        if "$@"; then
            return
        fi
        sleep 0.1
    done
    wrong "this never came: $*"
}

: >"$room/output"
: >"$room/errors"
