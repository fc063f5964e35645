#!/usr/bin/env bash
# What a long run of the program shows on a terminal, and elsewhere. It takes the program that ./build made, since `rt
# try` gives a program no terminal: where that one is missing, or older than its sources, nothing is tried.
set -euo pipefail
# shellcheck source=scripts/program.sh
source "$(dirname -- "$(readlink -f -- "${BASH_SOURCE[0]}")")/../scripts/program.sh"

if ! is_fresh; then
    echo "terminal: left out, since the program is not built from these sources"
    exit 0
fi
room=$(mktemp -d)
trap 'rm -rf -- "$room"' EXIT
count=300000
wanted=$'sink out 2 7 8\ndone'

wrong() {
    echo "terminal: $1" >&2
    exit 1
}

# A graph whose sources are fed with so many items, each of which goes on as twenty thousand.
write_graph() {
    cat <<'END'
block = [
    { name = "many", kind = "vector_source", type = "byte" },
    { name = "more", kind = "repeat", type = "byte", n = 1000 },
    { name = "most", kind = "repeat", type = "byte", n = 20 },
    { name = "none", kind = "null_sink", type = "byte" },
    { name = "two", kind = "vector_source", type = "byte" },
    { name = "out", kind = "vector_sink", type = "byte" },
]
connect = [{ from = "many", to = "more" }, { from = "more", to = "most" }, { from = "most", to = "none" },
    { from = "two", to = "out" }]
END
    printf 'feed = [{ source = "two", items = [7, 8] }, { source = "many", items = ['
    head -n "$((count - 2))" < <(yes 5,) | tr -d '\n'
    echo ']}]'
}

# on_terminal WORD..: runs the program with these words on a terminal of its own. What it shows is in `shown`, its
# output in the file `output`
on_terminal() {
    local status=0
    script -q -e -c "exec $(printf '%q ' "$program" "$@") >$(printf '%q' "$room/output")" "$room/shown" </dev/null \
        >/dev/null || status=$?
    [[ $status == 0 ]] || wrong "$*: status $status on a terminal"
    [[ $(cat "$room/output") == "$wanted" ]] || wrong "$*: another output on a terminal"
    # (`script` writes a first and a last line of its own)
    shown=$(grep -v '^Script ' "$room/shown" || true)
}

write_graph >"$room/long.toml"
"$program" run "$room/long.toml" >"$room/output" 2>"$room/errors" || wrong "status $? elsewhere"
[[ $(cat "$room/output") == "$wanted" ]] || wrong "another output elsewhere"
[[ ! -s $room/errors ]] || wrong "a run shows something where there is no terminal"

on_terminal run "$room/long.toml"
[[ $shown =~ ^($'\r'"flow: "[0-9]+" of $count items")+$'\r\e[K'$ ]] || wrong "a run shows: $(printf '%q' "$shown")"
on_terminal run --quiet "$room/long.toml"
[[ -z $shown ]] || wrong "a quiet run shows: $(printf '%q' "$shown")"
# The tags of a long stream that has none: the terminal shows what comes of it, and no line between.
cat >"$room/plain.toml" <<'END'
block = [{ name = "src", kind = "vector_source", type = "byte" }, { name = "out", kind = "vector_sink", type = "byte" }]
connect = [{ from = "src", to = "out" }]
END
flow=$(printf '%q ' "$program" run -i src=- -o out=/dev/null --tags out=- "$room/plain.toml")
script -q -e -c "head -c 1000000000 /dev/zero | $flow" "$room/shown" </dev/null >/dev/null ||
    wrong "status $? of a stream on a terminal"
shown=$(grep -v '^Script ' "$room/shown" || true)
[[ $shown == $'sink out 1000000000\r\ndone\r' ]] || wrong "a stream on a terminal shows: $(printf '%q' "$shown")"
echo "terminal: a long run shows how far it is; a quiet one does not, nor one whose items or tags go there"
