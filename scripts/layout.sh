# shellcheck shell=bash disable=SC2154
# For ./build to source: where each file of an installation stands under its root, which is a prefix or the /usr of a
# package.

# The root, the folders of libraries, of Python's packages and of completions for zsh under it, and the file that gets a
# line for each file and each folder that is made: a folder's ends in a slash.
root=
lib_folder=lib
python_folder=
zsh_folder=share/zsh/site-functions
list=/dev/null
# The pages and pictures of docs/ for users.
pages=(
    user/{C,COMMANDS,COVERAGE,FILES,FOR_GNU_RADIO_USERS,KINDS,REFUSALS,SPEED,STUDIO,TUTORIAL}.md contribute/GLOSSARY.md
    user/{echo,trace}.svg user/studio_{file,signal}.png
    user/tutorial_{step_{1,2,3,4,5,6},filter,frequency,levels,frames,text,errors}.svg
)
# Whether /usr/bin/flow is left to Debian's alternatives, which the package's script sets.
has_alternatives=0
# Whether places are only tested; and the file that has to go where the script ends now.
only_tests=0
half_made=

# version_of_calls: prints the version of the library's calls, which is that of its soname
version_of_calls() { sed -n 's/^#define MAGBELU_VERSION //p' "$top/c/magbelu.h"; }

# version_of_all: prints the version of the program, and of all that is installed with it
version_of_all() { sed -n 's/^pub const VERSION: &str = "\(.*\)";$/\1/p' "$top/crates/$command_crate/src/words.rt"; }

# shared_name: prints the name of the library that programs load, by which those that were linked with it look for it
shared_name() { echo "libmagbelu.so.$(version_of_calls)"; }

# make_folder PLACE: the folder, and those above it
make_folder() {
    if [[ $1 != . && ! -d $root/$1 ]]; then
        make_folder "$(dirname -- "$1")"
        mkdir -- "$root/$1"
        echo "$1/" >>"$list"
    fi
}

# test_place PLACE: ends the script where something stands there that the list does not have, so somebody else's, or
# where a file stands for a folder above it
test_place() {
    local above=$1
    if [[ -e $root/$1 || -L $root/$1 ]] && ! grep -qsxF -- "$1" "$list"; then
        fail "$root/$1 is not replaced: no ./build --install has put it there"
    fi
    while [[ $above == */* ]]; do
        above=${above%/*}
        if [[ ! -d $root/$above && (-e $root/$above || -L $root/$above) ]]; then
            fail "$root/$above is no folder"
        fi
    done
}

# put_by PLACE COMMAND..: what the command makes of the place. (It is listed once it is there: whatever the list has is
# taken away later.)
put_by() {
    test_place "$1"
    if ((only_tests)); then
        return
    fi
    make_folder "$(dirname -- "$1")"
    half_made=$root/$1
    "${@:2}" "$half_made"
    echo "$1" >>"$list"
    half_made=
}

# put MODE FILE PLACE: the file
put() { put_by "$3" install -m "$1" -- "$2"; }

# put_link TARGET PLACE: a link to the target
put_link() { put_by "$2" ln -s -- "$1"; }

# put_all FOLDER PLACE: all files below the folder, but for what Python has compiled
put_all() {
    local file mode
    while IFS= read -r file; do
        mode=644
        if [[ -x $1/$file ]]; then
            mode=755
        fi
        put "$mode" "$1/$file" "$2/$file"
    done < <(cd -- "$1" && find . -type f ! -name '*.pyc' -printf '%P\n' | LC_ALL=C sort)
}

# put_documents_of_all: the pages for users, and the examples but for the programs in Rattle, which need a checkout
put_documents_of_all() {
    local it
    for it in "${pages[@]}"; do
        put 644 "$top/docs/$it" "share/doc/magbelu/${it##*/}"
    done
    for it in "$top"/examples/*/; do
        it=$(basename -- "$it")
        if [[ ! -d $top/examples/$it/src ]]; then
            put_all "$top/examples/$it" "share/doc/magbelu/examples/$it"
        fi
    done
}

# put_program: flow for each processor, flow-from-grc and magbelu-studio, with their man pages, completions, documents
# and examples
put_program() {
    local level
    for level in "${all_levels[@]}"; do
        put 755 "$program-$level" "lib/magbelu/$level/flow"
    done
    ((has_alternatives)) || put_link "../lib/magbelu/$(level_here)/flow" bin/flow
    put 755 "$top/flow-from-grc" bin/flow-from-grc
    put 755 "$top/magbelu-studio" bin/magbelu-studio
    put_all "$top/share/man" share/man
    put_all "$top/share/bash-completion" share/bash-completion
    put_all "$top/share/zsh/site-functions" "$zsh_folder"
    put_all "$top/share/fish" share/fish
    put_all "$top/python/flow_from_grc" share/magbelu/flow_from_grc
    put_documents_of_all
}

# put_shared: the library that programs load, and the same for higher levels of processors, among which glibc chooses
put_shared() {
    local it
    put 644 "$c_folder/libmagbelu.so" "$lib_folder/$(shared_name)"
    for it in "$c_folder"/glibc-hwcaps/*/libmagbelu.so; do
        if [[ -e $it ]]; then
            it=${it#"$c_folder/"}
            put 644 "$c_folder/$it" "$lib_folder/$(dirname -- "$it")/$(shared_name)"
        fi
    done
}

# put_development PREFIX: what programs in C are compiled with, where the root will be at PREFIX
put_development() {
    local file
    for file in "$top"/c/magbelu.h*; do
        put 644 "$file" "include/${file##*/}"
    done
    put 644 "$c_folder/libmagbelu.a" "$lib_folder/libmagbelu.a"
    if [[ -e $c_folder/libmagbelu.so ]]; then
        put_link "$(shared_name)" "$lib_folder/libmagbelu.so"
    fi
    put 644 <(write_pc "$1") "$lib_folder/pkgconfig/magbelu.pc"
}

# write_pc PREFIX: prints what pkg-config reads
write_pc() {
    printf '%s\n' "prefix=$1" "libdir=\${prefix}/$lib_folder" "includedir=\${prefix}/include" '' "Name: magbelu" \
        "Description: flowgraphs of signal blocks, on the thread of the caller" "Version: $(version_of_all)" \
        "Cflags: -I\"\${includedir}\"" \
        "Libs: -L\"\${libdir}\" -lmagbelu"
}

# put_python: the package for Python, and what GNU Radio Companion reads of it
put_python() {
    put_all "$top/python/magbelu" "$python_folder/magbelu"
    put_all "$top/share/gnuradio" share/gnuradio
}
