# shellcheck shell=bash disable=SC2154
# For tests/parts/cases.sh to source: graphs that are drawn by chance, which are run whole and in slices; runs in slices
# that are killed, or end badly; which runs are sliced by themselves; and one in a recording of a terabyte.

sliced=(drawn killed gone_on bad_ends threads far)

# slices_drawn: that slices of graphs that are drawn by chance give what whole runs give
slices_drawn() { python3 "$top/tests/programs/slices.py" "${start[@]}"; }

# slices_killed: that runs in pieces that are killed leave a beginning, with which another run goes on to the whole
slices_killed() { python3 "$top/tests/programs/slice_ends.py" killed "${start[@]}"; }

# slices_gone_on: that runs go on with items and tags that are cut anywhere, to the whole
slices_gone_on() { python3 "$top/tests/programs/slice_ends.py" tags "${start[@]}"; }

# slices_bad_ends: that runs in pieces, and slices, end as one on one thread does, where an input, an output or marks
# are at fault
slices_bad_ends() { python3 "$top/tests/programs/slice_ends.py" bad "${start[@]}"; }

# slices_threads: which runs between files take a thread for each processor by themselves
slices_threads() { python3 "$top/tests/programs/slice_ends.py" threads "${start[@]}"; }

# slices_lack CASE: prints what is not here that the case is tried with
slices_lack() {
    if [[ $1 != far ]]; then
        command -v python3 >/dev/null || echo "there is no python3 to read it"
    elif ! truncate -s 1T -- "$room/terabyte" 2>/dev/null; then
        echo "a file of a terabyte cannot be made"
    fi
}

# slices_far: that ten items from one on that stands behind half a terabyte are those of the whole run: the sums of the
# last three of the numbers from 1 to 8, which stand there, and then of zeros
slices_far() {
    local at=$((1 << 38))
    printf '\1\0\2\0\3\0\4\0\5\0\6\0\7\0\10\0' | dd of="$room/terabyte" bs=2 seek="$at" conv=notrunc status=none ||
        return
    timeout 60 "${start[@]}" run --from "$at" --items 10 -i "in=$room/terabyte" -o "out=$room/far" \
        "$top/tests/graphs/sum_of_three.toml" >"$room/report" 2>&1
    differs stdout <(printf 'sink out 10\ndone\n') "$room/report" || return
    differs items <(echo 1 3 6 9 12 15 18 21 15 8) <(od -An -v -td2 "$room/far" | xargs)
}
