# shellcheck shell=bash disable=SC2154,SC2004
# For ./build to source: has the crates of `order` proved side by side, each after those that it uses, first those with
# the longest chain of crates behind them.

# The free memory that a check may come to need, in KiB.
memory_of_a_check=$((4 * 1024 * 1024))

# Of each crate: the crates of this repository that it uses, and the lines of the longest chain of crates from it up.
declare -A lower=() behind=()
failed=()

# How many processors the checks may use together.
count_lanes() {
    local free cores
    free=$(awk '/^MemAvailable:/ { print $2 }' /proc/meminfo)
    cores=$(nproc)
    echo $((free / memory_of_a_check < 1 ? 1 : free / memory_of_a_check < cores ? free / memory_of_a_check : cores))
}

# Fills `lower`, and `behind` from the top down.
measure() {
    local at crate it lines
    for ((at = ${#order[@]} - 1; at >= 0; at--)); do
        crate=${order[at]}
        lower[$crate]=""
        lines=$(find "$top/crates/$crate/src" -name '*.rt' -exec cat {} + | wc -l)
        behind[$crate]=$((${behind[$crate]:-0} + lines))
        for it in ${uses[$crate]}; do
            if [[ -v uses[$it] ]]; then
                lower[$crate]+=" $it"
                if ((${behind[$it]:-0} < behind[$crate])); then
                    behind[$it]=${behind[$crate]}
                fi
            fi
        done
    done
}

# Prints the crates that wait for nothing but a lane, first those with the longest chain behind them.
ready() {
    local crate it
    for crate in "${order[@]}"; do
        if [[ -v process_of[$crate] || -v stamps[$crate] ]]; then
            continue
        fi
        for it in ${lower[$crate]}; do
            if [[ ! -v stamps[$it] ]]; then
                continue 2
            fi
        done
        echo "${behind[$crate]} $crate"
    done | sort -rn | cut -d ' ' -f 2
}

# Passes over what an earlier build has proved, which may make others ready.
pass_over() {
    local crate crates has_more=1 kept
    while ((has_more)); do
        has_more=0
        mapfile -t crates < <(ready)
        for crate in "${crates[@]}"; do
            if [[ -v sums[$crate] ]]; then
                continue
            fi
            sums[$crate]=$(sum_of "$crate")
            kept=$(cat "$(out_of "$crate")/built/stamp" 2>/dev/null) || true
            if [[ ${kept% *} == "${sums[$crate]}" ]] && has_all_levels "$crate"; then
                stamps[$crate]=$kept
                echo "${#stamps[@]} of ${#order[@]} $crate is proved already" >&2
                has_more=1
            fi
        done
    done
}

# Starts what is ready. The first of them gets what the others leave of the lanes, up to four, and two of more than two
# where a longer chain waits for it than for all that run.
start_ready() {
    local crate crates idle=$lanes longest=0 own
    for crate in "${!jobs_of[@]}"; do
        idle=$((idle - jobs_of[$crate]))
        longest=$((longest < behind[$crate] ? behind[$crate] : longest))
    done
    mapfile -t crates < <(ready)
    own=$((idle - ${#crates[@]} + 1))
    for crate in "${crates[@]}"; do
        if ((idle > 0)); then
            own=$((own < 2 && lanes > 2 && behind[$crate] > longest ? 2 : own < 1 ? 1 : own > 4 ? 4 : own))
            own=$((own > idle ? idle : own))
            start "$crate" "$own"
            idle=$((idle - own))
            longest=${behind[$crate]}
            own=1
        fi
    done
}

# Waits for one crate to end, and reports it.
take_one() {
    local crate ended status=0 seconds
    wait -n -p ended "${running[@]}" || status=$?
    for crate in "${!jobs_of[@]}"; do
        if [[ ${process_of[$crate]} == "$ended" ]]; then
            break
        fi
    done
    seconds=$((SECONDS - began[$crate]))
    unset "jobs_of[$crate]"
    if [[ $status == 0 ]]; then
        keep "$crate"
        echo "${#stamps[@]} of ${#order[@]} $crate proved, $seconds s" >&2
    else
        failed+=("$crate")
        echo "build: $crate is NOT proved, $seconds s: $(out_of "$crate")/build.log has what the prover says" >&2
    fi
}

# After a failure what runs goes on to its end, since its work is kept, and nothing more is started.
prove_all() {
    local crate running
    while true; do
        if ((${#failed[@]} == 0)); then
            pass_over
            start_ready
        fi
        running=()
        for crate in "${!jobs_of[@]}"; do
            running+=("${process_of[$crate]}")
        done
        if ((${#running[@]} == 0)); then
            return
        fi
        take_one
    done
}
