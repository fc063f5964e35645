# shellcheck shell=bash disable=SC2154
# For tests/parts/newcomer.sh to source: what ./build installs, and takes away again.

# What Companion reads of the package for Python.
companion=share/gnuradio/grc/blocks/magbelu_flowgraph.block.yml

# brings PLACE FILE: the file stands at this place under the prefix
brings() { cmp -s "$2" "$elsewhere/a prefix/$1" || wrong "--install brings no $1"; }

# Prints what stands under the prefix.
under_prefix() { (cd -- "$elsewhere/a prefix" && find . | LC_ALL=C sort); }

# The program, its man page and its completions stand where a shell looks, under a prefix or under home; other words are
# refused.
install_puts_all_in_place() {
    local file
    begin_anew
    calls 0 ./build_by_link --install "a prefix"
    # (so far it was made for the processor of this machine, and an installation brings it for each)
    proved "$program_crate" "$program_crate"
    begin_anew
    calls 0 ./build_by_link --install "a prefix"
    [[ ! -e $room/bin/proved ]] || wrong "--install proves again what was proved"
    brings lib/magbelu/x86-64-v2/flow "$built-x86-64-v2"
    brings lib/magbelu/x86-64-v3/flow "$built-x86-64-v3"
    grep -qx "build: the library for C is not installed: ./build --c has not built it from these sources" \
        "$room/errors" || wrong "--install says nothing of C"
    # (the block for Companion comes with the package for Python)
    (cd -- "$top/share" && find . -path ./gnuradio -prune -o -type f -print) >"$room/files"
    while IFS= read -r file; do
        brings "share/$file" "$top/share/$file"
    done <"$room/files"
    brings share/doc/magbelu/FILES.md "$top/docs/user/FILES.md"
    brings share/doc/magbelu/examples/echo/graph.toml "$top/examples/echo/graph.toml"
    [[ -x $elsewhere/a\ prefix/share/doc/magbelu/examples/signal/make.py ]] ||
        wrong "--install brings a script of the examples that cannot be called"
    calls 0 env PATH="$room/tools" "$elsewhere/a prefix/bin/flow" by itself
    writes output "built: by,itself"
    if python3 -c 'import yaml' 2>/dev/null; then
        calls 0 "$elsewhere/a prefix/bin/flow-from-grc" "$top/examples/grc/rates.grc"
        cmp -s "$room/output" "$top/examples/grc/rates.toml" ||
            wrong "flow-from-grc as --install brings it writes something else"
    fi
    calls 0 env HOME="$room/home" ./build_by_link --install
    [[ -x $room/home/.local/bin/flow ]] || wrong "--install without a prefix brings nothing to ~/.local"
    calls 2 ./build_by_link --fast
    writes errors "build: its words are: [--install [PREFIX] | --uninstall [PREFIX] | --c | --deb | --docs]"
}

# Over what was installed without it. (What is built for C here is no library, so that nothing is linked or loaded.)
install_brings_the_library_for_c() {
    local built=$tree${c_folder#"$top"} lib="$elsewhere/a prefix/lib" name
    name=libmagbelu.so.$(sed -n 's/^#define MAGBELU_VERSION //p' "$top/c/magbelu.h")
    calls 0 ./build_by_link --c
    calls 0 ./build_by_link --install "a prefix"
    brings bin/flow "$tree${program#"$top"}"
    brings include/magbelu.h "$top/c/magbelu.h"
    brings include/magbelu.hpp "$top/c/magbelu.hpp"
    brings lib/libmagbelu.a "$built/libmagbelu.a"
    brings "lib/$name" "$built/libmagbelu.so"
    [[ $(readlink "$lib/libmagbelu.so") == "$name" ]] || wrong "libmagbelu.so is no link to $name"
    [[ $(readlink "$built/$name") == libmagbelu.so ]] || wrong "in the checkout there is no $name"
    if command -v pkg-config >/dev/null; then
        calls 0 env PKG_CONFIG_PATH="$lib/pkgconfig" pkg-config --cflags --libs magbelu
        # (a shell that reads this has two words)
        eval "set -- $(<"$room/output")"
        [[ $# == 3 && $1 == "-I$elsewhere/a prefix/include" && $2 == "-L$lib" && $3 == -lmagbelu ]] ||
            wrong "pkg-config gives other words"
        calls 0 env PKG_CONFIG_PATH="$lib/pkgconfig" pkg-config --modversion magbelu
        writes output "$(sed -n 's/^.TH FLOW 1 "" "flow \(.*\)" .*/\1/p' "$top/share/man/man1/flow.1")"
    fi
    if command -v python3 >/dev/null; then
        is_found_by_python
        brings "$companion" "$top/$companion"
        # (beside the library, too, where Python looks into lib64 first)
        mkdir "$room/lib64"
        printf '%s\n' "import site, sys" "sys.platlibdir = 'lib64'" "site.PREFIXES[:] = ['$elsewhere/a prefix']" \
            >"$room/lib64/sitecustomize.py"
        calls 0 env PYTHONPATH="$room/lib64" ./build_by_link --install "a prefix"
        is_found_by_python
    fi
}

# The package for Python looks for the library of its own prefix, where it lies in no folder of its own.
is_found_by_python() {
    local package level
    # shellcheck source=scripts/levels.sh
    level=$(source "$top/scripts/levels.sh" && level_here)
    level=$([[ $level == x86-64-v2 ]] || echo "glibc-hwcaps/$level/")
    package=$(cd -- "$elsewhere" && find "a prefix/lib" -path '*/magbelu/__init__.py')
    # (what Python compiles here has to go with the rest)
    calls 0 env -u PYTHONDONTWRITEBYTECODE PYTHONPATH="$elsewhere/${package%/magbelu/__init__.py}" python3 -c '
import os, magbelu, magbelu._library as it
print(magbelu.__file__)
print(os.path.realpath(next(filter(os.path.exists, it._places()))))'
    writes output "$elsewhere/$package" "$lib/$level$name"
}

# What others have put there stays. It needs no rt, and tells where nothing was installed.
uninstall_takes_all_away() {
    touch "$elsewhere/a prefix/bin/other"
    calls 0 env PATH="$room/tools:/usr/bin:/bin" ./build_by_link --uninstall "a prefix"
    cmp -s <(under_prefix) <(printf '%s\n' . ./bin ./bin/other) ||
        wrong "--uninstall leaves $(under_prefix | paste -sd ' ')"
    calls 1 ./build_by_link --uninstall "a prefix"
    writes errors "build: $elsewhere/a prefix has no share/magbelu/installed: ./build --install has put nothing there"
    calls 0 env HOME="$room/home" ./build_by_link --uninstall
    [[ -z $(find "$room/home/.local" -mindepth 1) ]] ||
        wrong "--uninstall without a prefix takes nothing away from ~/.local"
}

# leaves FILE..: --uninstall leaves these files of others in bin/, which then go but for `other`
leaves() {
    calls 0 ./build_by_link --uninstall "a prefix"
    cmp -s <(under_prefix) <(printf '%s\n' . ./bin "${@/#/./bin/}") ||
        wrong "--uninstall leaves $(under_prefix | paste -sd ' '), and not bin/ with $*"
    find "$elsewhere/a prefix/bin" -type f ! -name other -delete
}

# is_refused_for PLACE: what stands at this place, which is somebody else's, ends --install before anything is changed
is_refused_for() {
    under_prefix >"$room/before"
    calls 1 ./build_by_link --install "a prefix"
    writes errors "build: $elsewhere/a prefix/$1 is not replaced: no ./build --install has put it there"
    under_prefix | cmp -s - "$room/before" || wrong "--install changes something, and refuses $1"
}

# installs_beside PATTERN COMMAND: --install fails where the command is run as a file is copied to a place of this
# pattern, which is `place` in it
# shellcheck disable=SC2016
installs_beside() {
    printf '%s\n' '#!/bin/bash' 'place=${*: -1}' "[[ \$place != $1 ]] || { $2; }" "exec $(command -v install) \"\$@\"" \
        >"$room/bin/install"
    chmod +x "$room/bin/install"
    calls 1 ./build_by_link --install "a prefix"
    rm "$room/bin/install"
}

# What others have put there stays, and --uninstall does not take it away either.
# shellcheck disable=SC2016
install_replaces_nothing_of_others() {
    local it list="$elsewhere/a prefix/share/magbelu/installed"
    for it in bin/flow lib/libmagbelu.so share/man/man1/flow.1 share/magbelu/installed; do
        mkdir -p "$(dirname -- "$elsewhere/a prefix/$it")"
        ln -s nowhere "$elsewhere/a prefix/$it"
        is_refused_for "$it"
        rm "$elsewhere/a prefix/$it"
    done
    # (a list has itself)
    echo bin/other >"$list"
    is_refused_for share/magbelu/installed
    rm -r "$elsewhere/a prefix"/{lib,share}
    touch "$elsewhere/a prefix/share"
    calls 1 ./build_by_link --install "a prefix"
    writes errors "build: $elsewhere/a prefix/share is no folder"
    rm "$elsewhere/a prefix/share"
    # What an earlier call brought stays too.
    calls 0 ./build_by_link --install "a prefix"
    sed -i '\|^bin/flow-from-grc$|d' "$list"
    is_refused_for bin/flow-from-grc
    leaves flow-from-grc other
    # What comes while it copies, and what comes in the place of a copy that failed.
    installs_beside '*/x86-64-v3/flow' \
        'mkdir -p "${place%/lib/*}/bin" && echo "no flow" >"${place%/lib/*}/bin/flow-from-grc"'
    leaves flow-from-grc other
    installs_beside '*/bin/flow-from-grc' 'echo half >"$place"; exit 1'
    [[ ! -e $elsewhere/a\ prefix/bin/flow-from-grc ]] || wrong "--install leaves half a file"
    echo "no flow" >"$elsewhere/a prefix/bin/flow-from-grc"
    leaves flow-from-grc other
}

# has_files PACKAGE FILE..: a package has these files, and its documents, and no others
has_files() {
    local package=$1 it
    shift
    for it in changelog.gz copyright; do
        set -- "$@" "usr/share/doc/$package/$it"
    done
    printf '%s\n' "$@" | LC_ALL=C sort >"$room/files"
    rm -rf -- "$room/unpacked"
    dpkg-deb -x "$tree/out/$package"_*.deb "$room/unpacked"
    (cd -- "$room/unpacked" && find . ! -type d -printf '%P\n') | LC_ALL=C sort | cmp -s - "$room/files" ||
        wrong "$package has other files"
    [[ -z $(dpkg-deb -c "$tree/out/$package"_*.deb | grep -v ' root/root ') ]] ||
        wrong "$package has files that are not root's"
}

# program_files: prints those of the package of the program, but for its documents of Debian
program_files() {
    local it
    printf 'usr/%s\n' lib/magbelu/x86-64-v{2,3}/flow bin/{flow-from-grc,magbelu-studio} \
        share/man/man1/{flow{,-from-grc},magbelu-studio}.1.gz share/bash-completion/completions/flow{,-from-grc} \
        share/zsh/vendor-completions/_flow{,-from-grc} share/fish/vendor_completions.d/flow{,-from-grc}.fish
    (cd -- "$top/python" && find flow_from_grc -name '*.py' -printf 'usr/share/magbelu/%p\n')
    # (dpkg wants long pages compressed, but for examples and pictures)
    printf 'usr/share/doc/magbelu/%s\n' \
        {C,COMMANDS,COVERAGE,FILES,FOR_GNU_RADIO_USERS,GLOSSARY,KINDS,REFUSALS,SPEED,STUDIO,TUTORIAL}.md.gz \
        {echo,trace}.svg studio_{file,signal}.png \
        tutorial_{step_{1,2,3,4,5,6},filter,frequency,levels,frames,text,errors}.svg
    (cd -- "$top" && find examples \( -path examples/embed -o -path examples/own_block -o -path examples/pipeline \) \
        -prune -o -type f ! -name '*.pyc' -printf 'usr/share/doc/magbelu/%p\n')
}

# says PACKAGE FIELD TEXT: its control file
says() { [[ $(dpkg-deb -f "$tree/out/$1"_*.deb "$2") == "$3" ]] ||
    wrong "$1 has another $2: $(dpkg-deb -f "$tree/out/$1"_*.deb "$2")"; }

# package_chooses: the scripts of the package set Debian's alternatives for the processors that the loader says the
# machine has, and take both away
package_chooses() {
    local folder=/usr/lib/magbelu second="--remove flow /usr/lib/magbelu/x86-64-v3/flow"
    if /lib64/ld-linux-x86-64.so.2 --help | grep -q '^ *x86-64-v3 (supported'; then
        second="--install /usr/bin/flow flow $folder/x86-64-v3/flow 30"
    fi
    rm -rf -- "$room/unpacked"
    dpkg-deb -e "$tree/out"/magbelu_*.deb "$room/unpacked"
    printf '%s\n' '#!/bin/sh' 'echo "$*"' >"$room/bin/update-alternatives"
    chmod +x "$room/bin/update-alternatives"
    calls 0 "$room/unpacked/postinst" configure
    writes output "--install /usr/bin/flow flow $folder/x86-64-v2/flow 20" "$second"
    calls 0 "$room/unpacked/prerm" upgrade
    writes output
    calls 0 "$room/unpacked/prerm" remove
    writes output "--remove flow $folder/x86-64-v2/flow" "--remove flow $folder/x86-64-v3/flow"
    rm "$room/bin/update-alternatives"
}

# (what is built here needs no C library, so that no version of it is told)
deb_makes_packages() {
    local built=$tree${c_folder#"$top"} lib=usr/lib/x86_64-linux-gnu version files=()
    if ! command -v dpkg-deb >/dev/null; then
        why_not="there is no dpkg-deb"
        return
    fi
    version=$(sed -n 's/^.TH FLOW 1 "" "flow \(.*\)" .*/\1/p' "$top/share/man/man1/flow.1")
    mkdir -p "$tree/out"
    touch "$tree/out/magbelu_0.0.1_amd64.deb"
    calls 0 ./build_by_link --deb
    [[ $(cd -- "$tree/out" && echo *) \
        == "libmagbelu-dev_${version}_amd64.deb libmagbelu1_${version}_amd64.deb magbelu_${version}_amd64.deb python3-magbelu_${version}_all.deb" ]] ||
        wrong "--deb makes other packages"
    has_files libmagbelu1 "$lib"/{,glibc-hwcaps/x86-64-v3/}libmagbelu.so.1
    cmp -s "$room/unpacked/$lib/libmagbelu.so.1" "$built/libmagbelu.so" || wrong "the package has another library"
    says libmagbelu1 Depends libc6
    has_files libmagbelu-dev usr/include/magbelu.h{,pp} "$lib"/{libmagbelu.a,libmagbelu.so,pkgconfig/magbelu.pc} \
        usr/share/doc/libmagbelu-dev/C.md.gz
    grep -qx "prefix=/usr" "$room/unpacked/$lib/pkgconfig/magbelu.pc" || wrong "magbelu.pc has another prefix"
    says libmagbelu-dev Depends "libmagbelu1 (= $version), libc6-dev"
    mapfile -t files < <(cd -- "$top/python/magbelu" &&
        find . -type f ! -name '*.pyc' -printf 'usr/lib/python3/dist-packages/magbelu/%P\n')
    has_files python3-magbelu "${files[@]}" "usr/$companion" usr/share/doc/python3-magbelu/C.md.gz
    says python3-magbelu Depends "libmagbelu1 (>= $version), python3:any (>= 3.9)"
    mapfile -t files < <(program_files)
    has_files magbelu "${files[@]}"
    says magbelu Depends "libc6, python3:any (>= 3.9), python3-yaml"
    [[ $("$room/unpacked/usr/lib/magbelu/x86-64-v2/flow" a b) == "built: a,b" ]] ||
        wrong "the package has another program"
    gzip -dc "$room/unpacked/usr/share/man/man1/flow.1.gz" | cmp -s - "$top/share/man/man1/flow.1" ||
        wrong "the package has another man page"
    package_chooses
}
