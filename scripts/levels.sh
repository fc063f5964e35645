# shellcheck shell=bash disable=SC2154,SC2034
# For ./build to source: the processors that the program and the shared library are compiled for, as x86-64's levels
# name them, and which of them this machine has.

# All of them, the plainest first: it runs wherever the program does.
all_levels=(x86-64-v2 x86-64-v3)
# Those that this build makes the program for.
levels=()
# The loader, which tells what the machine has since glibc 2.33, and what Linux tells of it.
loader=/lib64/ld-linux-x86-64.so.2
cpuinfo=/proc/cpuinfo
# What a processor of the level x86-64-v3 has beside what one of x86-64-v2 has, by the names that Linux gives.
features_of_v3=(avx avx2 bmi1 bmi2 f16c fma abm movbe)

# has_level LEVEL: whether this machine has such a processor
has_level() {
    local flags it said
    if [[ $1 == "${all_levels[0]}" ]]; then
        return
    fi
    said=$("$loader" --help 2>/dev/null) || said=
    if [[ $said == *"$1"* ]]; then
        grep -qE "^ *$1 \(supported" <<<"$said"
        return
    fi
    flags=" $(sed -n 's/^flags[[:space:]]*: //p;T;q' "$cpuinfo" 2>/dev/null) "
    for it in "${features_of_v3[@]}"; do
        [[ $flags == *" $it "* ]] || return 1
    done
}

# level_here: prints the highest level that this machine has
level_here() {
    local at
    for ((at = ${#all_levels[@]} - 1; at > 0; at--)); do
        if has_level "${all_levels[at]}"; then
            break
        fi
    done
    echo "${all_levels[at]}"
}

# has_all_levels CRATE: whether what is built of the crate is built for each processor that it is wanted for
has_all_levels() {
    local it
    if [[ $1 == "$program_crate" ]]; then
        for it in "${levels[@]}"; do
            [[ -e $program-$it ]] || return 1
        done
    fi
}
