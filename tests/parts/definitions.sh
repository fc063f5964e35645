#!/usr/bin/env bash
# Turned definitions: each has to be refused by the laws. The gate tries an edit in its own crate alone, and these
# definitions stand below the laws that hold them, so they are tried in a copy of the crates of definitions and laws.
# That takes minutes of the prover, so ./test tries it by its name alone.
set -euo pipefail
# shellcheck source=tests/part.sh
source "$(dirname -- "$(readlink -f -- "${BASH_SOURCE[0]}")")/../part.sh"

cases=(
    unturned
    done_reader_needs_no_room
    claim_in_flight_fits
    feed_past_the_limit
    tag_an_item_early
    end_a_firing_early
    end_with_items_left
    capacity_without_the_first_step
)

list() { printf 'definitions/%s\n' "${cases[@]}"; }

# is_proved CRATE: whether the crate of the copy is proved, with all below it
is_proved() {
    (cd "$room/turned/crates/$1" && rt check >"$room/said" 2>&1 </dev/null)
}

# refuses CRATE FILE OLD NEW: whether with NEW in place of OLD, which stands once in the file, the crate is not proved;
# says what is wrong
refuses() {
    local file=$room/turned/crates/$2 whole refused=1
    whole=$(<"$file")
    if [[ $whole != *"$3"* || ${whole/"$3"/} == *"$3"* ]]; then
        echo "'$3' does not stand once in $2"
        return 1
    fi
    printf '%s\n' "${whole/"$3"/"$4"}" >"$file"
    if is_proved "$1"; then
        echo "$1 is still proved with '$4' in $2"
    elif ! grep -q '^logic=not-proved' "$room/said" || grep -qE '(is not in scope|expected the end|cannot continue)' \
        "$room/said"; then
        echo "the prover did not come to judge '$4' in $2:"
        cat "$room/said"
    else
        refused=0
    fi
    printf '%s\n' "$whole" >"$file"
    return "$refused"
}

unturned() { is_proved machine_laws || { cat "$room/said" && return 1; }; }

# Room: a done reader still counts; a claim in flight does not.
done_reader_needs_no_room() {
    refuses machine_laws stream_model/specs/Claims.antt \
        'r.done || nat_le (given_by n k) (r.taken + o.capacity)' 'nat_le (given_by n k) (r.taken + o.capacity)'
}
claim_in_flight_fits() {
    refuses machine_laws machine_laws/specs/Sound.antt \
        'Fits net caps st b (reached st b)' 'Fits net caps st b (fired st b)'
}

# Limits: what is fed is not counted.
feed_past_the_limit() {
    refuses machine_laws stream_model/specs/Machine.antt \
        'nat_lt s.longest (length s.tape + length xs)' 'nat_lt s.longest (length s.tape)'
}

# Tags: one may come an item early.
tag_an_item_early() {
    refuses stream_laws stream_model/specs/Meaning.antt \
        's / d * i ≤ m.place p s' 's / d * i ≤ m.place p s + 1'
}

# Ends: a block ends one firing before its limit; an ended input ends it while a firing still has its items.
end_a_firing_early() {
    refuses machine_laws stream_model/specs/Claims.antt \
        'not (within_limit n.meaning.limit (c.firings + 1))' 'not (within_limit n.meaning.limit (c.firings + 2))'
}
end_with_items_left() {
    refuses machine_laws stream_model/specs/Claims.antt \
        'i.ended && not (nat_le (taken_by n p k) i.written) || lacks_for_good' 'i.ended || lacks_for_good'
}

# Capacities: without the step before the first iteration.
capacity_without_the_first_step() {
    refuses graph_model graph_model/specs/Rates.antt \
        'map (ahead net q c) (below (j + 2))' 'map (λ n. ahead net q c (suc n)) (below (j + 1))'
}

run() {
    local it wrong order=()
    # (the laws of machines, and the crates of definitions and laws below them)
    put_below turned machine_laws
    for it in "${cases[@]}"; do
        if ! is_wanted "definitions/$it"; then
            continue
        fi
        if wrong=$("$it"); then
            passed "definitions/$it"
        else
            failed "definitions/$it" <<<"$wrong"
        fi
    done
}

"$1"
