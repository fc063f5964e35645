# shellcheck shell=bash disable=SC2154,SC2034
# For tests/parts/newcomer.sh to source: what ./build proves and installs, with tests/newcomer/rt_in_its_place in the
# place of rt and of the prover.

# begin_anew: forgets what was proved so far
begin_anew() { rm -f "$room/bin/proved" "$room/bin/jobs"; }

# proved CRATE..: tests that since begin_anew these were proved, each once and after those of them that it uses
proved() {
    local crate it so_far=" "
    touch "$room/bin/proved"
    cmp -s <(printf '%s\n' "$@" | sort) <(sort "$room/bin/proved") ||
        wrong "proved was $(paste -sd ' ' "$room/bin/proved"), and not: $*"
    while read -r crate; do
        for it in ${uses[$crate]}; do
            [[ " $* " != *" $it "* || $so_far == *" $it "* ]] || wrong "$crate was proved before $it"
        done
        so_far+="$crate "
    done <"$room/bin/proved"
}

# with_those_above CRATE: fills `above` with the crate and all that stand on it
with_those_above() {
    local all=("${order[@]}") crate
    local order
    above=()
    for crate in "${all[@]}"; do
        order=()
        put_in_order "$crate"
        if [[ " ${order[*]} " == *" $1 "* ]]; then
            above+=("$crate")
        fi
    done
}

# The rattle in its place fails where a crate is proved before one below it.
build_proves_each_crate_once() {
    local crate number=0
    begin_anew
    calls 0 env CDPATH="$tree" ./build_by_link
    proved "${order[@]}"
    for crate in "${order[@]}"; do
        number=$((number + 1))
        grep -qE "^[0-9]+ of ${#order[@]} $crate proved, [0-9]+ s$" "$room/errors" ||
            wrong "./build has no line of $crate"
        grep -q "^$number of " "$room/errors" || wrong "./build has no line $number"
        [[ -e $tree/crates/$crate/out/built/stamp && ! -e $tree/crates/$crate/out/part ]] ||
            wrong "./build left $crate half made"
    done
    calls 0 env PATH="$room/tools" ./flow_by_link after build
    writes output "built: after,build"
    calls 0 ./build_by_link
    proved "${order[@]}"
}

# root_of CRATE: prints the file at its root
root_of() { [[ $1 == "$program_crate" ]] && echo src/main.rt || echo src/lib.rt; }

# builds_after CRATE FILE LINE: a line more in the file of this crate
builds_after() {
    begin_anew
    mkdir -p "$(dirname -- "$tree/crates/$1/$2")"
    echo "$3" >>"$tree/crates/$1/$2"
    calls 0 ./build_by_link
}

# builds_after_edit CRATE FILE: an edit of the file of this crate leaves the others below and beside it as they are
builds_after_edit() {
    local above
    with_those_above "$1"
    builds_after "$1" "$2" "edited"
    proved "${above[@]}"
}

edit_proves_what_stands_on_it() {
    local above low=${order[0]} middle=${order[${#order[@]} / 2]}
    builds_after_edit "$low" src/lib.rt
    builds_after_edit "$middle" specs/Added.antt
    builds_after_edit "$program_crate" src/main.rt
    # What comes out as the same library leaves those above it as they are.
    builds_after "$low" src/lib.rt "// edited"
    proved "$low"
    builds_after "$middle" proofs/Added.antt "edited"
    proved "$middle"
    calls 0 env PATH="$room/tools" ./flow_by_link after build
    writes output "built: after,build"
    begin_anew
    rm "$tree/crates/$middle/specs/Added.antt"
    sed -i "s/^$program_crate:.*/& num_traits/" "$tree/crates.txt"
    touch "$tree/crates/$low/src/lib.rt" "$tree/HANDLES"
    with_those_above "$middle"
    calls 0 ./build_by_link
    proved "${above[@]}"
    cp "$room/crates.txt" "$tree/crates.txt"
    begin_anew
    calls 0 ./build_by_link
    proved "$program_crate"
    begin_anew
    echo "another toolchain" >"$room/bin/version"
    calls 0 ./build_by_link
    proved "${order[@]}"
    rm -r "$tree/crates/$middle/out"
    begin_anew
    calls 0 ./build_by_link
    proved "$middle"
}

# made_for LEVEL: ./build makes the program for this level of processors alone
made_for() {
    begin_anew
    calls 0 ./build_by_link
    proved "$program_crate"
    grep -q "^build: the program is built for $1, " "$room/errors" || wrong "./build does not say that it builds for $1"
    cmp -s <(cd -- "$(dirname -- "$built")" && echo "$program_crate"-*) <(echo "$program_crate-$1") ||
        wrong "./build makes the program for other processors than $1"
}

# The loader says which processor it is, or else Linux. Stand-ins say so here.
build_is_for_this_processor() {
    local levels="$tree/scripts/levels.sh"
    sed -i "s|^loader=.*|loader='$room/loader'|; s|^cpuinfo=.*|cpuinfo='$room/cpuinfo'|" "$levels"
    printf '%s\n' '#!/bin/sh' "cat '$room/loader_says'" >"$room/loader"
    chmod +x "$room/loader"
    rm -r "$(dirname -- "$built")"
    printf '%s\n' "  x86-64-v4" "  x86-64-v3" "  x86-64-v2 (supported, searched)" >"$room/loader_says"
    made_for x86-64-v2
    sed -i 's/v3/v3 (supported, searched)/' "$room/loader_says"
    made_for x86-64-v3
    : >"$room/loader_says"
    echo "flags		: fpu sse4_2 avx avx2 bmi1 bmi2 f16c fma movbe" >"$room/cpuinfo"
    made_for x86-64-v2
    sed -i 's/$/ abm/' "$room/cpuinfo"
    made_for x86-64-v3
    cp "$top/scripts/levels.sh" "$levels"
}

# The rattle in its place lets each of two crates that stand on the lowest alone wait until the other has begun.
crates_are_proved_side_by_side() {
    local crate below pair=()
    for crate in "${order[@]:1}"; do
        read -ra below <<<"${uses[$crate]}"
        if [[ ${below[*]} == "${order[0]}" ]]; then
            pair+=("$crate")
        fi
    done
    if ((${#pair[@]} < 2 || $(awk '/^MemAvailable:/ { print $2 }' /proc/meminfo) < 8 * 1024 * 1024)); then
        why_not="two crates side by side need such crates, and 8 GiB of memory"
        return
    fi
    printf '#!/bin/sh\necho 4\n' >"$room/bin/nproc"
    chmod +x "$room/bin/nproc"
    printf '%s\n' "${pair[@]:0:2}" >"$room/bin/meet"
    builds_after_edit "${order[0]}" src/lib.rt
    # (this one has nothing beside it)
    grep -qE "^${order[0]} [2-4]$" "$room/bin/jobs" || wrong "processors stay idle beside ${order[0]}"
    # After a failure what runs goes on to its end.
    rm "$room/bin/begun_"*
    echo "${pair[0]}" >"$room/bin/fails"
    for crate in "${pair[@]:0:2}"; do
        echo "// edited" >>"$tree/crates/$crate/src/lib.rt"
    done
    begin_anew
    fails_at "${pair[0]}" "the prover refuses ${pair[0]}"
    proved "${pair[1]}"
    rm "$room"/bin/{nproc,meet,fails}
    calls 0 ./build_by_link
}
