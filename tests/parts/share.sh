#!/usr/bin/env bash
# That the man pages and the completions of share/ have the words of `flow` and `flow-from-grc`: of each command the
# options that its help has, with the words that may stand behind one, and no others, and what the help says of them;
# that the man page has the keys of a graph file and the commands of a script; and what bash, zsh and fish offer for a
# line. The help is that of tests/cases/words, which are held against the program. And that all places that name a
# version name the same, and that docs/user/echo.svg shows what the program draws, and docs/contribute/crates.svg the
# crates.
set -euo pipefail
# shellcheck source=tests/part.sh
source "$(dirname -- "$(readlink -f -- "${BASH_SOURCE[0]}")")/../part.sh"
commands=(check draw kinds new run live script)
share=$top/share
# The cases beside those of the commands, each a function.
others=(flow_from_grc graph_file script_lines man_pages lines_in_bash lines_in_zsh lines_in_fish versions picture
    picture_of_crates)

# options TEXT: prints the options that stand in a text, each once
options() { grep -oE -- '(^|[^a-z-])(-[a-zA-Z]|--[a-z-]+[a-z])' <<<"$1" | grep -oE -- '-+[a-zA-Z-]+' |
    LC_ALL=C sort -u | paste -sd ' '; }

# are_options WHERE COMMAND TEXT: a text has the options of this command's help
are_options() {
    local wanted found
    wanted=$(options "$help")
    found=$(options "$3")
    [[ $found == "$wanted" ]] || wrong "$1 has other options: wanted $wanted, and it has $found"
}

# between FILE FROM TO: the lines of a file from the one that matches FROM to the one that matches TO
between() { sed -n "/$2/,/$3/p" "$share/$1" | sed 's/\\-/-/g'; }

# Each line of help behind a column of words: what it says, to the dot or the bracket that ends it
sayings() { sed -nE 's/^  +-.*[^ ]  +([A-Z][^[]*[a-z]).*$/\1/p' <<<"$1"; }

# wrong SAYING: adds it to what is wrong with the words of a command
wrong() { faults+=("$1"); }

# has_values COMMAND: that the words which its help allows behind an option stand in each completion and in the man page
has_values() {
    local line option values it
    while IFS= read -r line; do
        option=$(grep -oE -- '--[a-z-]+' <<<"$line" | head -n 1)
        values=$(sed -E 's/.*\[possible values: ([^]]*)\].*/\1/; s/, / /g' <<<"$line")
        [[ $(_flow_values "$option") == "$values" ]] ||
            wrong "the completion for bash has other words behind $option than: $values"
        grep -qE -- "$option(=-?)?\[.*:\($values\)" <<<"$zsh_words" ||
            wrong "the completion for zsh has other words behind $option than: $values"
        grep -qE -- "__flow_is [a-z ]*\b$1\b.* -l ${option#--} .*-a '$values'" <<<"$fish_words" ||
            wrong "the completion for fish has other words behind $option of $1 than: $values"
        for it in $values; do
            between man/man1/flow.1 "^\.SS $1\$" '^\.S[SH] ' | grep -qE "^\.BR? $it\b" ||
                wrong "the man page has no $it behind $option"
        done
    done < <(grep -F '[possible values: ' <<<"$help")
}

# in_fish COMMAND: prints the options that the completion for fish has for a command
in_fish() {
    { grep -E -- "__flow_is [a-z ]*\b$1\b" <<<"$fish_words"; grep -F -- 'not __flow_is help' <<<"$fish_words"; } |
        grep -oE -- ' -[sl] [a-zA-Z-]+' |
        sed -E 's/ -s /-/; s/ -l /--/' | LC_ALL=C sort -u | paste -sd ' '
}

# words_of COMMAND: tests those of the command
words_of() {
    local help saying option
    help=$(<"$top/tests/cases/words/$1_call_for_help/stdout")
    are_options "the man page" "$1" "$(between man/man1/flow.1 "^\.SS $1\$" '^\.S[SH] ' | sed 1d)"
    are_options "the completion for bash" "$1" "$(_flow_options "$1")"
    are_options "the completion for fish" "$1" "$(in_fish "$1")"
    has_values "$1"
    # (what zsh shows is tried by reading: its options stand in lists that are shared)
    while IFS= read -r saying; do
        grep -qF "[$saying]" <<<"$zsh_words" || wrong "the completion for zsh lacks: $saying"
        grep -qF -- "-d '$saying'" <<<"$fish_words" || wrong "the completion for fish lacks: $saying"
        grep -qF "$saying" "$share/man/man1/flow.1" || wrong "the man page lacks: $saying"
    done < <(sayings "$help")
    for option in $(options "$help"); do
        grep -qE -- "[*,{' )]$option\b" <<<"$zsh_words" || wrong "the completion for zsh lacks $option"
    done
    saying=$(sed -n 1p <<<"$help")
    grep -qE "^ +'$1:$saying'\$" <<<"$zsh_words" || wrong "the completion for zsh lacks what $1 does: $saying"
    grep -qxF "complete -c flow -n __flow_is -a $1 -d '$saying'" <<<"$fish_words" ||
        wrong "the completion for fish lacks what $1 does: $saying"
}

# flow_from_grc: its options stand in its man page and its completions
flow_from_grc() {
    local help saying
    if ! help=$(COLUMNS=100 "$top/flow-from-grc" --help 2>&1); then
        why_not=$help
        return
    fi
    are_options "the man page" "" "$(between man/man1/flow-from-grc.1 '^\.SH OPTIONS' '^\.SH EXIT')"
    are_options "the completion for bash" "" "$(sed -n 's/.*compgen -W "\([^"]*\)".*/\1/p' \
        "$share/bash-completion/completions/flow-from-grc")"
    are_options "the completion for zsh" "" "$(sed 's/[{},+=]/ /g; s/ -g / /' \
        "$share/zsh/site-functions/_flow-from-grc")"
    are_options "the completion for fish" "" "$(sed -E 's/ -[cdfkarF]\b//g; s/ -s ([a-z])/ -\1/; s/ -l ([a-z])/ --\1/' \
        "$share/fish/vendor_completions.d/flow-from-grc.fish")"
    while IFS= read -r saying; do
        grep -qF -- "[$saying]" "$share/zsh/site-functions/_flow-from-grc" ||
            wrong "the completion for zsh lacks: $saying"
        grep -qF -- "-d '$saying'" "$share/fish/vendor_completions.d/flow-from-grc.fish" ||
            wrong "the completion for fish lacks: $saying"
    done < <(between man/man1/flow-from-grc.1 '^\.SH OPTIONS' '^\.SH EXIT' | grep '^[A-Z][a-z]* ')
}

# graph_file: the man page has each key that docs/user/FILES.md has
graph_file() {
    local key text
    text=$(between man/man1/flow.1 '^\.SH GRAPH FILE' '^\.SH SCRIPTS')
    while IFS= read -r key; do
        grep -qE "^\.BR? ([a-z_]+ \", \" )?$key\b" <<<"$text" || wrong "the man page lacks the key $key"
    done < <(sed -n '/^Keys of `block`:/,/^Blocks and connections/p' "$top/docs/user/FILES.md" | grep -E '^- `' |
        sed 's/:.*//' | grep -oE '[a-z_]+')
}

# script_lines: the man page has each command of a script, and how a mark is written
script_lines() {
    local command text
    text=$(between man/man1/flow.1 '^\.SH SCRIPTS' '^\.SH SEE ALSO')
    while IFS= read -r command; do
        grep -qE "^\.BI? $command\b" <<<"$text" || wrong "the man page lacks the command $command"
    done < <(sed -n '/^| command | what it does/,/^$/p' "$top/docs/user/FILES.md" | sed -nE 's/^\| `([a-z]+).*/\1/p')
    grep -qF '@\fIOFFSET\fR:\fIKEY\fR=\fIVALUE\fR' <<<"$text" || wrong "the man page lacks how a mark is written"
}

# man_pages: groff has nothing to say of them, and each tells of the other
man_pages() {
    local page said
    for page in "$share"/man/man1/*.1; do
        grep -q '^\.SH SEE ALSO$' "$page" || wrong "$page has no SEE ALSO"
        if command -v groff >/dev/null && said=$(groff -man -ww -z "$page" 2>&1) && [[ -n $said ]]; then
            wrong "$said"
        fi
    done
}

# bash_offers LINE: prints what bash offers to complete the line with, of which readline parts the words at `=`
bash_offers() {
    local word COMP_LINE=$1 COMP_POINT=${#1} COMP_CWORD COMP_WORDS=() COMPREPLY=() completed=_flow
    for word in $1; do
        mapfile -t -O "${#COMP_WORDS[@]}" COMP_WORDS < <(sed 's/=/\n=\n/g' <<<"$word" | sed '/^$/d')
    done
    [[ $1 != *' ' ]] || COMP_WORDS+=('')
    COMP_CWORD=$((${#COMP_WORDS[@]} - 1))
    [[ $1 != flow-from-grc* ]] || completed=_flow_from_grc
    "$completed"
    printf '%s\n' "${COMPREPLY[@]}"
}

# fish_offers LINE: the same of fish, which offers a word whole
fish_offers() {
    env HOME="$room" fish --no-config -c "for it in \$argv[2..]; source \$it; end; complete -C \$argv[1]" "$1" \
        "$share"/fish/vendor_completions.d/*.fish | cut -f 1
}

# zsh_offers LINE
zsh_offers() { env HOME="$room" timeout 60 zsh -f "$top/tests/completed.zsh" "$share/zsh/site-functions" "$1"; }

# offers LINE WORD..: what the shell offers for the line is these words, in any order, behind what stands before their
# last `=` already
offers() {
    local came wanted
    came=$(cd -- "$room/offered" && "${shell}_offers" "$1" | sed -E 's/^--[a-z]+=//; s/^[a-z]+=(.)/\1/' |
        LC_ALL=C sort | paste -sd ' ')
    wanted=$(printf '%s\n' "${@:2}" | LC_ALL=C sort | paste -sd ' ')
    [[ $came == "$wanted" ]] || wrong "for '$1' comes '$came', and not '$wanted'"
}

# lines_in SHELL: what it offers in a folder with a graph file, whose blocks are written in each way, and two more files
lines_in() {
    local shell=$1
    if ! command -v "$shell" >/dev/null; then
        why_not="there is no $shell"
        return
    fi
    mkdir -p "$room/offered"
    touch "$room/offered/"{input.raw,a.grc}
    printf '%s\n' '[[block]] # "a"' 'name = "src"' 'kind = "vector_source"' '[[block]]' "kind = 'vector_sink'" \
        "name = 'out'" '[[connect]]' 'from = "src"' \
        '[[feed]]' 'source = "src"' >"$room/offered/graph.toml"
    printf '%s\n' 'block = [{ name = "one", kind = "vector_source" }, {' 'kind="vector_source",' \
        'name="two" }, { name = "three", kind = "vector_sink" }]' >"$room/offered/flat.toml"
    offers 'flow r' run
    offers 'flow run --one' --one-thread
    offers 'flow run --stats=' text json
    offers 'flow run --stats=j' json
    offers 'flow draw --format ' dot mermaid
    offers 'flow draw --format=m' mermaid
    offers 'flow run graph.toml -i ' src=
    offers 'flow run graph.toml --marks ' src=
    offers 'flow run graph.toml --output=' out=
    offers 'flow run --one-thread flat.toml --input ' one= two=
    offers 'flow run -o graph.toml flat.toml --tags ' three=
    offers 'flow run graph.toml -i src=in' input.raw
    offers 'flow run -i ' ''
    offers 'flow check g' graph.toml
    offers 'flow kinds moving' moving_sum
    offers 'flow new g' graph.toml
    offers 'flow new more.toml mov' moving_sum
    offers 'flow-from-grc --ou' --output
    offers 'flow-from-grc a' a.grc
    offers 'flow-from-grc -o inp' input.raw
}

lines_in_bash() { lines_in bash; }
lines_in_zsh() { lines_in zsh; }
lines_in_fish() { lines_in fish; }

# is_version OF WANTED WHERE CAME: a place names the version of this
is_version() { [[ $2 == "$4" ]] || wrong "$3 has version '$4' of $1, and it is '$2'"; }

# versions_of_all: the version of the program, and of all that is installed with it
versions_of_all() {
    local it wanted
    wanted=$(version_of_all)
    for it in "$share"/man/man1/*.1; do
        is_version "the program" "$wanted" "${it#"$top/"}" "$(sed -nE '1s/^\.TH .* "flow ([^"]*)".*/\1/p' "$it")"
    done
    is_version "the program" "$wanted" tests/cases/words/call_for_the_version \
        "$(sed -n 's/^flow //p' "$top/tests/cases/words/call_for_the_version/stdout")"
    is_version "the program" "$wanted" "the newest part of CHANGELOG.md" \
        "$(sed -n '/^## /{s///p;q}' "$top/CHANGELOG.md")"
}

# versions_of_calls: the version of the library's calls
versions_of_calls() {
    local wanted
    wanted=$(version_of_calls)
    is_version "the calls" "$wanted" crates/magbelu_c \
        "$(sed -n 's/^const VERSION: u32 = \(.*\);$/\1/p' "$top/crates/$c_crate/src/calls.rt")"
    is_version "the calls" "$wanted" python/magbelu "$(sed -n 's/^_VERSION = //p' "$top/python/magbelu/_library.py")"
    is_version "the calls" "$wanted" "the package of Debian" \
        "$(sed -n 's/^Package: libmagbelu\([0-9]*\)$/\1/p' "$top/scripts/debian/control")"
    is_version "the calls" "$wanted" "the newest part of CHANGELOG.md" \
        "$(sed -nE '/^The calls of the library for C: version (.*)\.$/{s//\1/p;q}' "$top/CHANGELOG.md")"
}

# versions: of all
versions() {
    # shellcheck source=scripts/layout.sh
    source "$top/scripts/layout.sh"
    versions_of_all
    versions_of_calls
}

# picture: README's is that of the text which the program writes for examples/echo
picture() {
    local said
    if ! command -v python3 >/dev/null; then
        why_not="there is no python3 to read it"
    elif ! said=$(python3 "$top/tests/drawn.py" "$top/examples/echo/expected_draw" "$top/docs/user/echo.svg" 2>&1); then
        wrong "$said"
    fi
}

# picture_of_crates: that of docs/contribute/ARCHITECTURE.md is that of crates.txt, in which no crate uses one of a
# layer above
picture_of_crates() {
    local said
    if ! command -v python3 >/dev/null; then
        why_not="there is no python3 to read it"
    elif ! said=$("$top/scripts/crates_picture.py" --text 2>&1 >"$room/crates.dot" &&
        python3 "$top/tests/drawn.py" "$room/crates.dot" "$top/docs/contribute/crates.svg" 2>&1); then
        wrong "$said"
        wrong "scripts/crates_picture.py draws docs/contribute/crates.svg"
    fi
}

# try CASE FUNCTION WORD..: the function is the case
try() {
    local faults=() why_not=''
    "${@:2}"
    if [[ -n $why_not ]]; then
        left_out "$1" <<<"$why_not"
    elif ((${#faults[@]} == 0)); then
        passed "$1"
    else
        printf '%s\n' "${faults[@]}" | failed "$1"
    fi
}

list() { printf 'share/%s\n' "${commands[@]}" "${others[@]}"; }

run() {
    local it zsh_words fish_words
    for it in "$share"/bash-completion/completions/*; do
        # shellcheck source=share/bash-completion/completions/flow
        source "$it"
    done
    zsh_words=$(<"$share/zsh/site-functions/_flow")
    fish_words=$(<"$share/fish/vendor_completions.d/flow.fish")
    for it in "${commands[@]}"; do
        if is_wanted "share/$it"; then
            try "share/$it" words_of "$it"
        fi
    done
    for it in "${others[@]}"; do
        if is_wanted "share/$it"; then
            try "share/$it" "$it"
        fi
    done
}

"$1"
