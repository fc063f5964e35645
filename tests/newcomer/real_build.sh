# shellcheck shell=bash disable=SC2154,SC2034
# For tests/parts/toolchain.sh to source: what ./flow does with the toolchain itself, and what ./build does, in a
# checkout of two low crates and a program over them.

# By the toolchain, through a link, with a relative path, CDPATH, and input that comes later than rt try waits for it.
real_run_is_unproved() {
    # (beside others, on two slow processors)
    local limit=3600
    (sleep 2.5 && cat "$tree/examples/add_const/script") |
        calls 0 env CDPATH="$room:$tree" ./flow_by_link script "a graph.toml"
    cmp -s "$room/output" "$tree/examples/add_const/expected" || wrong "a real run unproved writes something else"
    writes errors "$unproved"
}

small=$room/small

# writes_program BODY: the program of the small checkout, with this body of a function that gives the greatest byte
writes_program() {
    cat >"$small/crates/$program_crate/src/main.rt" <<END
//! Prints the greatest byte.
#![tactic(auto)]
ghost use Rattle.std.specs.Prelude.{◌≡◌, pos};

use numbers::range::greatest;
use stream_model::ItemType;

fn greatest_byte() -> i64
    ensures { result ≡ pos 255 }
{
    $1
}

fn main(rt: HostRuntime) {
    let byte = greatest_byte();
    let _ = println!(rt; "{byte}");
}
END
}

copy_low_crates() {
    local it
    mkdir -p "$small/crates/$program_crate/src"
    for it in build scripts HANDLES; do
        cp -r -- "$top/$it" "$small/"
    done
    for it in stream_model numbers; do
        tar -C "$top" --exclude="./crates/$it/out" -cf - "./crates/$it" | tar -C "$small" -xf -
    done
    printf '%s\n' stream_model: "numbers: stream_model" "$program_crate: stream_model numbers" >"$small/crates.txt"
}

# The program is refused where its clause is false, and built and linked where it is true; a second build proves
# nothing.
real_build_proves_and_links() {
    local limit=3600 it built=$small/crates/$program_crate/out/built/$program_crate
    copy_low_crates
    writes_program "greatest(ItemType::Short)"
    calls 1 "$small/build"
    grep -q "^build: $program_crate is NOT proved" "$room/errors" || wrong "a false clause is proved"
    [[ ! -e $built ]] || wrong "a program is built that is not proved"
    writes_program "greatest(ItemType::Byte)"
    calls 0 "$small/build"
    for it in stream_model numbers; do
        grep -q " $it is proved already$" "$room/errors" || wrong "$it is proved again"
    done
    grep -q " $program_crate proved, " "$room/errors" || wrong "the program is not proved"
    calls 0 "$built"
    writes output 255
    calls 0 "$small/build"
    grep -q " $program_crate is proved already$" "$room/errors" || wrong "the program is proved again"
}

# The program for x86-64-v3 ends with 127 where the processor is none, and the one for x86-64-v2 runs there. An emulator
# has such processors.
real_programs_look_at_the_processor() {
    local limit=3600 qemu built=$small/crates/$program_crate/out/built/$program_crate
    qemu=$(command -v qemu-x86_64-static || command -v qemu-x86_64) || qemu=
    if [[ -z $qemu ]]; then
        why_not="there is no qemu-x86_64-static"
        return
    fi
    sed -i "s|^loader=.*|loader=false|; s|^cpuinfo=.*|cpuinfo='$room/cpuinfo'|" "$small/scripts/levels.sh"
    : >"$room/cpuinfo"
    calls 0 "$small/build"
    calls 0 "$qemu" -cpu Nehalem "$built-x86-64-v2"
    writes output 255
    echo "flags		: avx avx2 bmi1 bmi2 f16c fma abm movbe" >"$room/cpuinfo"
    calls 0 "$small/build"
    calls 127 "$qemu" -cpu Nehalem "$built-x86-64-v3"
    calls 0 "$qemu" -cpu Haswell "$built-x86-64-v3"
    writes output 255
}

# As docs/user/EMBED.md has it, line by line, with this checkout where the page has one.
vendored_program_runs() {
    local limit=3600 it
    ln -s "$tree" "$elsewhere/magbelu"
    sed -n '/^```$/,/^```$/{//d;p}' "$tree/docs/user/EMBED.md" >"$room/shown"
    # (the check for a hint would take as long again)
    calls 0 env PATH="$top/tests/no_hint:$PATH" bash -euc "$(sed -n 's/^\$ //p' "$room/shown")"
    grep -v '^\$ ' "$room/shown" | cmp -s - "$top/examples/embed/stdout" ||
        wrong "docs/user/EMBED.md shows something else than the program prints"
    for it in 1 2; do
        grep -qxF -- "$(sed -n "${it}p" "$top/examples/embed/stdout")" "$room/output" ||
            wrong "the program prints something else"
    done
}
