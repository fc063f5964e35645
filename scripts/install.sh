# shellcheck shell=bash disable=SC2154,SC2034
# For ./build to source: puts what was built under a prefix, where shells, compilers and Python find it, and takes it
# away again.

# The list of what was installed, under the prefix.
installed=share/magbelu/installed

# python_folder_of PREFIX: prints the folder under the prefix in which Python looks for packages, or would if it were
# told to look there: one beside the library where there is one, since the package looks for it there
python_folder_of() {
    python3 - "$1" "$lib_folder" <<'END'
import os, site, sys

prefix, lib = (os.path.join(it, "") for it in sys.argv[1:])
own = [it[len(prefix):] for it in [*site.getsitepackages(), site.getusersitepackages()] if it.startswith(prefix)]
own.sort(key=lambda it: not it.startswith(lib))
print(own[0] if own else lib + "python%d.%d/site-packages" % sys.version_info[:2])
END
}

# begin_list: an empty list, but for itself and the folders that are made for it
begin_list() {
    local folder made=()
    mkdir -p -- "$root"
    for folder in share share/magbelu; do
        if [[ ! -d $root/$folder ]]; then
            mkdir -- "$root/$folder"
            made+=("$folder/")
        fi
    done
    printf '%s\n' "${made[@]}" "$installed" >"$list"
}

# put_everything: the program, and the library for C with what compilers and Python need of it, where it is built from
# these sources
put_everything() {
    python_folder=
    put_program
    if ! is_fresh "$c_folder/libmagbelu.a" "$c_crate"; then
        return
    fi
    if [[ -e $c_folder/libmagbelu.so ]]; then
        put_shared
    fi
    put_development "$root"
    if [[ -e $c_folder/libmagbelu.so ]] && python_folder=$(python_folder_of "$root" 2>/dev/null); then
        put_python
    fi
}

# tell_installed: what was put where
tell_installed() {
    echo "build: installed $root/bin/flow, with its man page, completions for bash, zsh and fish, and examples in $root/share/doc/magbelu" >&2
    if [[ :$PATH: != *":$root/bin:"* ]]; then
        echo "build: $root/bin is not in PATH" >&2
    fi
    if ! grep -qxF -- "$lib_folder/libmagbelu.a" "$list"; then
        echo "build: the library for C is not installed: ./build --c has not built it from these sources" >&2
        return
    fi
    echo "build: installed $root/$lib_folder/libmagbelu.a, with its headers, as magbelu of pkg-config" >&2
    if [[ -n $python_folder ]]; then
        echo "build: installed $root/$python_folder/magbelu for Python, and $root/share/gnuradio/grc/blocks for GNU Radio Companion" >&2
    fi
}

# test_places PREFIX: ends the script where something would be replaced there that no earlier call has brought
test_places() {
    root=$1
    list=$root/$installed
    only_tests=1
    test_place "$installed"
    put_everything
    only_tests=0
}

# install_to PREFIX: all that is built, in place of what an earlier call brought there
install_to() {
    test_places "$1"
    if [[ -e $list ]]; then
        take_away "$root"
    fi
    begin_list
    put_everything
    tell_installed
}

# take_away PREFIX: the files of its list, and those of its folders that nobody else has put something into. (The list
# itself goes last but for its folders.)
take_away() {
    local place places=() at
    mapfile -t places <"$1/$installed"
    for ((at = ${#places[@]} - 1; at >= 0; at--)); do
        place=$1/${places[at]}
        if [[ $place == */ ]]; then
            rmdir -- "$place" 2>/dev/null || true
        else
            rm -f -- "$place"
        fi
        if [[ $place == *.py ]]; then
            take_compiled "$(dirname -- "$place")/__pycache__" "$(basename -- "$place" .py)"
        fi
    done
}

# take_compiled FOLDER MODULE: what Python has compiled of a module that is taken away
take_compiled() {
    rm -f -- "$1/$2".*.pyc
    rmdir -- "$1" 2>/dev/null || true
}

# uninstall_from PREFIX
uninstall_from() {
    [[ -e $1/$installed ]] || fail "$1 has no $installed: ./build --install has put nothing there"
    take_away "$1"
    echo "build: took away what was installed under $1" >&2
}
