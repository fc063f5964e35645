#!/usr/bin/env bash
# gate_cost.sh [CRATE..]: prints a table of what the gate pays for each crate, or for these: processor seconds (user +
# sys) of its proof from nothing, of its tests' proof from nothing, and of its must-fail edits. It works on a copy, one
# crate after another with one job, so that nothing but the crate itself is in its figure. Not in it: what the gate
# compiles, links and runs.
set -euo pipefail
# shellcheck source=scripts/program.sh
source "$(dirname -- "$(readlink -f -- "${BASH_SOURCE[0]}")")/../scripts/program.sh"

room=$(mktemp -d)
trap 'rm -rf -- "$room"' EXIT
tree=$room/tree
log=$room/log
# As rt looks for tests.
test_attribute='#[[:space:]]*\[[^]]*\<test\>'

fail() {
    tail -n 30 "$log" >&2
    echo "gate_cost: $1" >&2
    exit 1
}

# there FOLDER COMMAND..: runs the command in the folder
there() {
    (cd -- "$1" && "${@:2}") </dev/null &>"$log"
}

# cost FOLDER COMMAND..: prints the processor seconds that the command and its children took there
cost() {
    local spent TIMEFORMAT='%U %S'
    spent=$({ time there "$@"; } 2>&1) || fail "this fails in $1: ${*:2}"
    awk '{ print $1 + $2 }' <<<"$spent"
}

# bring CRATE: its library for those above, which is not measured, and so taken from the checkout where it is there
bring() {
    if [[ -e $top/crates/$1/out/rlib/stamp ]]; then
        mkdir -p "$tree/crates/$1/out"
        cp -a -- "$top/crates/$1/out/rlib" "$tree/crates/$1/out/"
    fi
    cost "$tree/crates/$1" rt lib >/dev/null
}

# proof CRATE, tests CRATE, edits CRATE: print what each takes
proof() {
    local verb=lib
    if [[ -e $tree/crates/$1/src/main.rt ]]; then
        verb=check
    fi
    cost "$tree/crates/$1" rt "$verb" --jobs 1
}

tests() {
    if grep -rq "$test_attribute" "$tree/crates/$1/src"; then
        rm -rf -- "$tree/crates/$1/out/incremental"
        cost "$tree/crates/$1" rt check --test --jobs 1
    else
        echo 0
    fi
}

edits() {
    if (($2 > 0)); then
        cost "$tree" rt must-fail "$1"
    else
        echo 0
    fi
}

# row CRATE: prints the crate's figures: proof, tests, edits and how many edits
row() {
    local number of_proof of_tests of_edits
    number=$(find "$tree/crates/$1" -path '*/must-fail/*.edit' | wc -l)
    of_proof=$(proof "$1")
    of_tests=$(tests "$1")
    of_edits=$(edits "$1" "$number")
    rm -rf -- "$tree/crates/$1/out/incremental"
    echo "$1 $of_proof $of_tests $of_edits $number"
}

# Makes the table of the rows.
table() {
    echo "| crate | proof | tests | edits | number of edits | total |"
    echo "|---|---:|---:|---:|---:|---:|"
    awk '{ print $0, $2 + $3 + $4 }' | sort -k 6 -rn | awk '
        function row(name, proof, tests, edits, number, total) {
            printf "| %s | %.0f | %s | %s | %s | %.0f |\n", name, proof, tests ? sprintf("%.0f", tests) : "-",
                number ? sprintf("%.0f", edits) : "-", number ? number : "-", total
        }
        { row("`" $1 "`", $2, $3, $4, $5, $6); proof += $2; tests += $3; edits += $4; number += $5; total += $6 }
        END { row("all", proof, tests, edits, number, total) }'
    echo
    echo "Processor seconds (user + sys), measured on $(date +%Y-%m-%d) with $(rt version) by \`tests/gate_cost.sh\`."
}

main() {
    local crate measured=("$@")
    needs_rt gate_cost
    if (($# == 0)); then
        measured=("${!uses[@]}")
    fi
    order=()
    for crate in "${measured[@]}"; do
        [[ -v uses[$crate] ]] || { : >"$log"; fail "crates.txt has no $crate"; }
        put_in_order "$crate"
    done
    mkdir "$tree"
    tar -C "$top" --exclude=./.git --exclude='./crates/*/out' -cf - . | tar -C "$tree" -xf -
    for crate in "${order[@]}"; do
        if [[ " ${measured[*]} " == *" $crate "* ]]; then
            echo "gate_cost: $crate" >&2
            row "$crate" >>"$room/rows"
        else
            bring "$crate"
        fi
    done
    table <"$room/rows"
}

main "$@"
