#!/usr/bin/env bash
# The packages for Debian that ./build --deb has made of these sources, in a fresh Debian of their own without the
# toolchain: README's first command on the example that they bring, the program and the library for this processor, the
# program of docs/user/C.md in C, the package for Python, the receiver in the page of magbelu-studio, the block of GNU
# Radio, and that nothing of them stays. It takes root, debootstrap and some minutes of a network, so ./test tries it by
# its name alone. What debootstrap brings is kept at $MAGBELU_DEBIAN for a next run, where that names a folder.
set -euo pipefail
# shellcheck source=tests/part.sh
source "$(dirname -- "$(readlink -f -- "${BASH_SOURCE[0]}")")/../part.sh"

cases=(lintian_is_silent first_command_runs processor_decides program_in_c_runs python_runs drawing_is_converted
    page_shows_the_receiver block_of_gnuradio_runs nothing_stays)
# What the machine itself has, of which a fresh system may be made.
suite=$(sed -n 's/^VERSION_CODENAME=//p' /etc/os-release)

list() { printf 'packages/%s\n' "${cases[@]}"; }

# lacks: prints what is not here that the packages are tried with
lacks() {
    local it
    if [[ $(id -u) != 0 ]]; then
        echo "a fresh system is for root alone"
    elif ! command -v debootstrap >/dev/null; then
        echo "there is no debootstrap"
    elif [[ -z $suite ]]; then
        echo "this machine is no Debian"
    fi
    for it in "$top"/out/*.deb; do
        if [[ ! -e $it ]] || ! is_fresh "$it" "$program_crate" || ! is_fresh "$it" "$c_crate" ||
            [[ -n $(find "$top"/{c,docs,examples,python,scripts,share} -type f ! -name '*.pyc' -newer "$it") ]]; then
            echo "./build --deb has made no packages of these sources"
            return
        fi
    done
}

# What a command has around it in the fresh system.
around=(env -i PATH=/usr/sbin:/usr/bin:/sbin:/bin HOME=/root LC_ALL=C DEBIAN_FRONTEND=noninteractive)

# inside COMMAND..: runs the command in the fresh system
inside() { chroot "$system" "${around[@]}" "$@"; }

# beside_processes COMMAND..: the same where the processes and the devices of the machine are seen, which a browser
# looks for
# shellcheck disable=SC2016
beside_processes() { unshare --mount sh -c \
    'mount --rbind /proc "$0/proc" && mount --rbind /dev "$0/dev" && exec chroot "$0" "$@"' "$system" "${around[@]}" \
    "$@"; }

# make_system: a fresh system, with a compiler and Python and nothing else
make_system() {
    local kept=${MAGBELU_DEBIAN-}
    if [[ -n $kept && -d $kept/usr ]]; then
        cp -a -- "$kept" "$system"
    else
        debootstrap --variant=minbase --include=gcc,libc6-dev,pkg-config,python3-minimal "$suite" "$system"
        [[ -z $kept ]] || cp -a -- "$system" "$kept"
    fi
    cp -- /etc/resolv.conf "$system/etc/resolv.conf"
    # (debootstrap brings no file of hosts, and the driver of a browser is looked for at this name)
    echo "127.0.0.1 localhost" >"$system/etc/hosts"
}

# install_all: the packages, with what they need of Debian
install_all() {
    mkdir -- "$system/packages"
    cp -- "$top"/out/*.deb "$system/packages"
    inside sh -c 'apt-get update && apt-get install --yes --no-install-recommends /packages/*.deb'
}

# gives WANTED COMMAND..: the command writes just this in the fresh system
gives() {
    local came
    came=$(inside "${@:2}" 2>&1) || true
    if [[ $came != "$1" ]]; then
        echo "${*:2}: wanted"$'\n'"$1"$'\n'"and it gives"$'\n'"$came"
        return 1
    fi
}

lintian_is_silent() {
    local said
    if ! command -v lintian >/dev/null; then
        why_not="there is no lintian"
        return
    fi
    said=$(lintian --allow-root "$top"/out/*.deb 2>&1) || true
    [[ -z $said ]] || { echo "$said" && return 1; }
}

# As docs/user/FOR_GNU_RADIO_USERS.md has it; and the script among the examples that makes a recording.
first_command_runs() {
    local examples=/usr/share/doc/magbelu/examples
    grep -qxF "\$ flow run $examples/echo/graph.toml" "$top/docs/user/FOR_GNU_RADIO_USERS.md"
    gives "$(<"$top/examples/echo/expected_run")" flow run "$examples/echo/graph.toml"
    gives "$(grep -h recording "$top/examples/signal/SHA256SUMS")" sh -c \
        "cd /root && $examples/signal/make.py recording recording.s16 && sha256sum recording.s16"
}

# The program tells the level of this machine's processor, and the loader takes the library for it.
processor_decides() {
    local level said library=libmagbelu.so.1
    # shellcheck source=scripts/levels.sh
    level=$(source "$top/scripts/levels.sh" && level_here)
    [[ $level == x86-64-v2 ]] || library=glibc-hwcaps/$level/$library
    said=$(beside_processes flow --version)
    [[ $said == "flow "*" ($level)" ]] || { echo "--version says: $said" && return 1; }
    said=$(beside_processes python3 -c 'import magbelu
magbelu.Graph(magbelu.EXAMPLE)
print(open("/proc/self/maps").read())')
    [[ $said == *"/x86_64-linux-gnu/$library"* ]] || { echo "Python loads another library: $said" && return 1; }
}

program_in_c_runs() {
    first_program "$top/docs/user/C.md" >"$system/root/program.c"
    # shellcheck disable=SC2016
    inside sh -c 'cd /root && cc program.c $(pkg-config --cflags --libs magbelu) -o program'
    gives "$(<"$top/examples/echo/expected_run")" sh -c '/root/program </usr/share/doc/magbelu/examples/echo/graph.toml'
}

python_runs() {
    gives "[4, 11]" python3 -c 'import magbelu
graph = magbelu.Graph(magbelu.EXAMPLE)
graph.feed("src", [250, 1]), graph.settle()
print(graph.read("out")[0].tolist())'
}

drawing_is_converted() {
    cp -- "$top/examples/grc/rates.grc" "$system/root"
    gives "$(<"$top/examples/grc/rates.toml")" sh -c 'flow-from-grc /root/rates.grc 2>/dev/null'
}

# The receiver of the examples in the page of magbelu-studio: its spectrum, waterfall and bits within three seconds of
# the command, and a filter that is turned. The pictures of before and after go to out/.
page_shows_the_receiver() {
    inside apt-get install --yes --no-install-recommends chromium chromium-driver python3-aiohttp python3-selenium
    cp -r -- "$top/tests/studio" "$system/root/studio"
    beside_processes python3 /root/studio/receiver.py /root /usr/bin/magbelu-studio \
        /usr/share/doc/magbelu/examples/receiver
    cp -- "$system"/root/receiver_{before,after}.png "$top/out"
}

# The program that docs/user/FOR_GNU_RADIO_USERS.md begins with, and a drawing with the block of Companion.
block_of_gnuradio_runs() {
    inside apt-get install --yes --no-install-recommends gnuradio
    mkdir -p -- "$system/root/examples"
    cp -r -- "$top/examples/filter" "$system/root/examples"
    cp -- "$top"/tests/gnuradio/{drawing.grc,graph.toml} "$system/root"
    # shellcheck disable=SC2016
    sed -n '/^```python$/,/^```$/{//d;p}' "$top/docs/user/FOR_GNU_RADIO_USERS.md" |
        sed '/^print/q' >"$system/root/program.py"
    gives "[1, 6, 14] done" sh -c 'cd /root && python3 program.py'
    gives "[101, 102, 103] [-2, -4]" sh -c 'cd /root && grcc drawing.grc >said 2>&1 && python3 -c "
import drawing
top = drawing.drawing()
top.run()
print(list(top.summed.data()), list(top.kept.data()))" || cat said'
}

nothing_stays() {
    inside sh -c 'apt-get purge --yes magbelu libmagbelu1 libmagbelu-dev python3-magbelu && rm -r /packages /root/*'
    gives "" find / -xdev -name '*magbelu*' ! -path '/proc/*' ! -path '/var/lib/apt/*'
}

run() {
    local it why why_not said
    system=$room/system
    why=$(lacks)
    if [[ -z $why ]] && ! { make_system && install_all; } >"$room/said" 2>&1; then
        tail -n 40 "$room/said" | failed "packages/${cases[0]}"
        exit
    fi
    for it in "${cases[@]}"; do
        why_not=$why
        if ! is_wanted "packages/$it"; then
            continue
        elif [[ -n $why ]]; then
            left_out "packages/$it" <<<"$why"
        elif ! "$it" >"$room/said" 2>&1; then
            failed "packages/$it" <"$room/said"
        elif [[ -n $why_not ]]; then
            left_out "packages/$it" <<<"$why_not"
        else
            passed "packages/$it"
        fi
    done
}

"$1"
