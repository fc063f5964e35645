# shellcheck shell=bash disable=SC2154
# For tests/parts/newcomer.sh to source: what ./build --c makes.

# What the program has in common with it is proved already.
build_makes_the_library_for_c() {
    local built=$tree${c_folder#"$top"} crate own=()
    local -a program_order=("${order[@]}")
    local order=()
    put_in_order "$c_crate"
    for crate in "${order[@]}"; do
        if [[ " ${program_order[*]} " != *" $crate "* ]]; then
            own+=("$crate")
        fi
    done
    # (once for each level of processors)
    own+=("$c_crate")
    begin_anew
    calls 0 ./build_by_link --c
    proved "${own[@]}"
    cmp -s "$built/glibc-hwcaps/x86-64-v3/libmagbelu.so" "$built/libmagbelu.so" ||
        wrong "there is no shared library for x86-64-v3"
    cmp -s "$built/libmagbelu.a" <(printf '%s\n' whole "the C of the heap" "the C of the system") ||
        wrong "libmagbelu.a is not all that it stands on"
    cmp -s "$built/libmagbelu.so" "$built/libmagbelu.a" || wrong "libmagbelu.so is not made of libmagbelu.a"
    calls 0 ./build_by_link --c
    proved "${own[@]}"
    # The program stays, and is what ./build without words makes.
    calls 0 env PATH="$room/tools" ./flow_by_link after build
    writes output "built: after,build"
}
