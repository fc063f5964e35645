# shellcheck shell=bash disable=SC2154,SC2034,SC2016
# For ./build to source: packages for Debian of what was built, by dpkg-deb and without root. scripts/debian has what
# their control files are made of.

# Where the packages are put.
packages=$top/out
debian=$top/scripts/debian
maintainer="Magbelu maintainers <maintainers@users.noreply.magbelu.example>"

# can_pack: ends this script where no package can be made
can_pack() {
    local it
    for it in dpkg-deb cc; do
        command -v "$it" >/dev/null || fail "--deb needs $it"
    done
}

# filled FILE: prints a file of scripts/debian with what its ${..} stand for
filled() {
    sed -e "s/\${version}/$(version_of_all)/; s/\${maintainer}/$maintainer/; s/\${libc}/$(libc_of_built)/" \
        -e "s/\${date}/$(LC_ALL=C date --utc --date="@$SOURCE_DATE_EPOCH" '+%a, %d %b %Y %T %z')/" "$1"
}

# libc_of_built: prints the package of the C library in the version that the program and the shared library need
libc_of_built() {
    local version
    version=$(
        { objdump -T "$program"-x86-64-v* "$c_folder/libmagbelu.so" "$c_folder"/glibc-hwcaps/*/libmagbelu.so ||
            true; } 2>/dev/null |
            { grep -oE 'GLIBC_[0-9.]+' || true; } | sort -Vu | tail -n 1
    )
    echo "libc6${version:+ (>= ${version#GLIBC_})}"
}

# is_binary FILE: whether it is a program, a library or an archive
is_binary() { head -c 7 -- "$1" | LC_ALL=C grep -qaE $'^(\x7fELF|!<arch>)'; }

# finish_files: man pages and long documents are compressed, symbols that nobody calls go, and scripts have the Python
# of the system
finish_files() {
    local file
    while IFS= read -r file; do
        gzip -9n -- "$file"
    done < <(find "$root" -type f \( -path "$root/share/man/*" -o \
        -path "$root/share/doc/*.md" ! -path '*/examples/*' -size +4096c \))
    while IFS= read -r file; do
        if ! is_binary "$file"; then
            [[ ! -x $file ]] || sed -i '1s|^#!/usr/bin/env python3$|#!/usr/bin/python3|' "$file"
        elif command -v strip >/dev/null; then
            strip --strip-unneeded --remove-section=.comment -- "$file"
        fi
    done < <(find "$root" -type f)
}

# put_documents PACKAGE: its copyright and its changelog, and the page of the calls where they are made from another
# language
put_documents() {
    local at=$root/share/doc/$1
    put 644 "$debian/copyright" "share/doc/$1/copyright"
    filled "$debian/changelog" | gzip -9n >"$at/changelog.gz"
    if [[ $1 == *-dev || $1 == python3-* ]]; then
        gzip -9n <"$top/docs/user/C.md" >"$at/C.md.gz"
    fi
}

# write_control PACKAGE: what dpkg reads of it
write_control() {
    local at=$root/../DEBIAN file
    mkdir -- "$at"
    {
        awk -v RS= -v name="$1" '$2 == name' "$debian/control"
        printf '%s\n' 'Version: ${version}' 'Maintainer: ${maintainer}' "Priority: optional" \
            "Installed-Size: $(du -sk --apparent-size -- "$root" | cut -f 1)"
    } >"$at/raw"
    filled "$at/raw" >"$at/control"
    rm -- "$at/raw"
    (cd -- "$root/.." && find usr -type f -print0 | LC_ALL=C sort -z | xargs -0 md5sum) >"$at/md5sums"
    for file in "$debian/$1".*; do
        if [[ -e $file ]]; then
            filled "$file" >"$at/${file##*.}"
        fi
    done
    for file in "$at"/p*inst "$at"/p*rm; do
        [[ ! -e $file ]] || chmod 755 -- "$file"
    done
}

# make_package PACKAGE COMMAND..: the package of what the command puts under the root
make_package() {
    local stage
    stage=$(mktemp -d)
    root=$stage/usr
    chmod 755 -- "$stage"
    mkdir -- "$root"
    "${@:2}"
    finish_files
    put_documents "$1"
    write_control "$1"
    dpkg-deb --root-owner-group --build "$stage" "$packages" >&2
    rm -rf -- "$stage"
}

# make_packages: all of them, in place of those of another version
make_packages() {
    umask 022
    # (by this dpkg-deb dates all files, so that the same sources give the same packages)
    SOURCE_DATE_EPOCH=${SOURCE_DATE_EPOCH-$(git -C "$top" log -1 --format=%ct 2>/dev/null || date +%s)}
    export SOURCE_DATE_EPOCH
    has_alternatives=1
    lib_folder=lib/x86_64-linux-gnu
    python_folder=lib/python3/dist-packages
    zsh_folder=share/zsh/vendor-completions
    mkdir -p -- "$packages"
    rm -f -- "$packages"/*.deb
    make_package magbelu put_program
    make_package "libmagbelu$(version_of_calls)" put_shared
    make_package libmagbelu-dev put_development /usr
    make_package python3-magbelu put_python
}
