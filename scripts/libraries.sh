# shellcheck shell=bash disable=SC2154,SC2164,SC2034
# For ./build to source: has one crate proved, and made into a library, the program, or the library for C. It calls the
# toolchain's prover itself, as `rt ci` does, for libraries that hold statements and no proofs. Those of `rt lib` hold
# both, which costs each crate above them dear. They stand in crates/X/out/built, each with a stamp that tells what it
# was made of and what it came out as; rt reads none of it. A library that comes out as it was before, as after the edit
# of a comment in its code, leaves what stands on it as it is; the files of its proofs are part of it.

# Of each crate that was started: its process, and when it began; of each that runs: how many processors it was given.
declare -A process_of=() began=() jobs_of=()
# Of each crate whose turn has come: the sum of what its library is made of.
declare -A sums=()
# Of each that is proved: the stamp of its library, which is that sum, and one of the library's own files.
declare -A stamps=()

# out_of CRATE: prints the folder in which what is made of the crate stands
out_of() { echo "$top/crates/$1/out"; }

# below CRATE: fills `lower_all` with all crates of this repository that it stands on, each after those that it uses
below() {
    # (put_in_order fills this one here)
    local order=()
    put_in_order "$1"
    lower_all=("${order[@]:0:${#order[@]}-1}")
}

# sum_of CRATE: prints a sum of all that its library is made of: its own files, the libraries below, and the toolchain
sum_of() {
    local it lower_all
    below "$1"
    {
        echo "$toolchain"
        echo "${line_of[$1]}"
        if [[ $1 == "$c_crate" ]]; then
            shared_name
        fi
        for it in "${lower_all[@]}"; do
            echo "$it ${stamps[$it]#* }"
        done
        cd -- "$top/crates/$1"
        for it in src specs proofs; do
            if [[ -d $it ]]; then
                find -L "$it" -type f -print0
            fi
        done | LC_ALL=C sort -z | xargs -0 sha256sum
    } | sha256sum | cut -d ' ' -f 1
}

# sum_of_made FOLDER: prints a sum of the files in it
sum_of_made() {
    (cd -- "$1" && find . -type f -print0 | LC_ALL=C sort -z | xargs -0 sha256sum | sha256sum | cut -d ' ' -f 1)
}

# words_of CRATE: fills `words` with those that name the crate and all that it stands on to the prover
words_of() {
    local it root=lib lower_all
    if [[ $1 == "$program_crate" ]]; then
        root=main
    fi
    words=(--crate-name "$1" "src/$root.rt" --extern "std=$kit/rlibs/std.rlib" -L "dependency=$kit/rlibs")
    for it in ${uses[$1]}; do
        if [[ -v uses[$it] ]]; then
            words+=(--extern "$it=$(out_of "$it")/built/$it.rlib")
        else
            words+=(--extern "$it=$kit/rlibs/$it.rlib")
        fi
    done
    below "$1"
    for it in "${lower_all[@]}"; do
        words+=(-L "dependency=$(out_of "$it")/built")
    done
    words+=(--antt-project "$kit/rattle/logic/antt-project.json" --logic-built "$kit/logic_built" --links "$1=")
}

# prove_it FILE WORD..: has the prover make the file, which it does where the crate is proved
prove_it() {
    "$kit/bin/rattle" build "${words[@]}" "${@:2}" -o "$1" &>>"$log"
    # (a status of 0 is no verdict)
    [[ $(tail -n 1 "$log") == "logic=proved "* ]]
}

# make CRATE JOBS: has the crate proved, with so many processors, and made into a library or the program, in out/part
make() {
    local log made words
    log=$(out_of "$1")/build.log
    made=$(out_of "$1")/part/$1
    : >"$log"
    words_of "$1"
    words+=(--jobs "$2")
    cd -- "$top/crates/$1"
    if [[ $1 == "$program_crate" ]]; then
        make_programs "$made"
    elif [[ $1 == "$c_crate" ]]; then
        make_archives "$(out_of "$1")/part"
    else
        prove_it "$made.rlib" --statements
    fi
}

# make_programs FILE: the program for each processor that it is wanted for, FILE-LEVEL, and FILE, the best of them that
# this machine runs. The crate is checked once for each: of the crates below it the prover takes what was proved.
make_programs() {
    local level words_to_link
    for level in "${levels[@]}"; do
        prove_it "$1-$level.o" --cpu "$level" --toolchain "$kit/toolchain" --backend llvm
        words_to_link=(--target x86_64-unknown-linux-gnu --toolchain "$kit/toolchain" -o "$1-$level" "$1-$level.o")
        "$kit/bin/rattle-link" "${words_to_link[@]}" "$kit/c/libos_c.a" "$kit/c/liblibc_c.a" &>>"$log"
        rm -- "$1-$level.o"
    done
    # (a link, so that the program knows by its file which of them it is)
    ln -s -- "${1##*/}-$(level_here)" "$1"
}

# make_archives FOLDER: the library for C, for every processor; and where there is a C compiler the shared library for
# the higher levels, where glibc looks for it. (A static library does not look at the processor, so there is one.)
make_archives() {
    local level place
    words+=(--crate-type staticlib --toolchain "$kit/toolchain" --backend llvm)
    for level in "${all_levels[@]}"; do
        place=$1
        if [[ $level != "${all_levels[0]}" ]]; then
            command -v cc >/dev/null || break
            place=$1/glibc-hwcaps/$level
            mkdir -p -- "$place"
        fi
        prove_it "$place/$c_crate.a" --cpu "$level"
        (make_libraries "$place") &>>"$log"
        [[ $place == "$1" ]] || rm -- "$place"/*.a
    done
}

# make_libraries FOLDER: of the static library in it one that needs no other archive, and where there is a C compiler a
# shared one, which shows only what c/magbelu.h declares, by the name of the calls' version
make_libraries() {
    local name
    cd -- "$1"
    # (its scripts know no quotes)
    cp -- "$kit/c/libos_c.a" "$kit/c/liblibc_c.a" .
    printf '%s\n' "create libmagbelu.a" "addlib $c_crate.a" "addlib liblibc_c.a" "addlib libos_c.a" save end |
        "$kit/toolchain/bin/llvm-ar" -M
    rm -- libos_c.a liblibc_c.a
    if command -v cc >/dev/null; then
        name=$(shared_name)
        echo '{ global: magbelu_*; local: *; };' >exports
        cc -shared -Wl,-soname,"$name" -Wl,-z,relro,-z,now -Wl,--version-script=exports \
            -Wl,--whole-archive "$c_crate.a" -Wl,--no-whole-archive \
            libmagbelu.a -o libmagbelu.so
        rm -- exports
        # (by this name a program looks for it that was linked with it)
        ln -s libmagbelu.so "$name"
    fi
}

# start CRATE JOBS: begins to make the crate, in a group of processes, so that all of them can be ended
start() {
    local out
    out=$(out_of "$1")
    rm -rf -- "$out/part"
    mkdir -p "$out/part"
    # (it may have waited long)
    sums[$1]=$(sum_of "$1")
    began[$1]=$SECONDS
    jobs_of[$1]=$2
    set -m
    make "$1" "$2" </dev/null &
    set +m
    process_of[$1]=$!
}

# keep CRATE: takes what was made to its place, with its stamp
keep() {
    local out sum
    out=$(out_of "$1")
    sum=$(sum_of "$1") || true
    if [[ $sum != "${sums[$1]}" ]]; then
        # (what was proved nobody knows)
        sum=edited
    fi
    stamps[$1]="$sum $(sum_of_made "$out/part")"
    echo "${stamps[$1]}" >"$out/part/stamp"
    rm -rf -- "$out/built"
    mv -- "$out/part" "$out/built"
}
