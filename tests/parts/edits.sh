#!/usr/bin/env bash
# What holds the edits that must fail: each can be made of the sources as they stand, `mutants/held` refuses an edit
# that names another clause than the log of `rt ci`, `mutants/try` ends as the prover does on the mutants that it lays
# into a copy, by a stand-in for `rt` that says which it was given, `mutants/lay` leaves edits out, and `mutants/bare`
# ends as the prover does without the answers of a function.
set -euo pipefail
# shellcheck source=tests/part.sh
source "$(dirname -- "$(readlink -f -- "${BASH_SOURCE[0]}")")/../part.sh"

mode=${1-}
results=$room
room=$(mktemp -d)
trap 'rm -rf -- "$room"' EXIT

# expect NAME STATUS TEXT COMMAND..: the command ends with the status, and what it says has the text, or is nothing
# where the text is empty
expect() {
    local status=0 name=edits/${1// /_}
    if [[ $mode == list ]]; then
        echo "$name"
        return
    fi
    if ! room=$results is_wanted "$name"; then
        return
    fi
    "${@:4}" >"$room/said" 2>&1 || status=$?
    if [[ $status == "$2" ]] &&
        { [[ -n $3 ]] && grep -qF -- "$3" "$room/said" || [[ -z $3 && ! -s $room/said ]]; }; then
        room=$results passed "$name"
    else
        { echo "wanted status $2 and '$3', and it was $status and this:" && cat "$room/said"; } |
            room=$results failed "$name"
    fi
}

# fits FOLDER EDIT..: each old text of the edits stands once in a file of the crate in that folder, as the earlier ones
# left it
fits() {
    local edit line key text file='' old=''
    for edit in "${@:2}"; do
        local -A whole=()
        while IFS= read -r line || [[ -n $line ]]; do
            key=${line%%:*} text=${line#*: }
            case $key in
            file)
                file=$text
                if [[ ! -e $1/$file ]]; then
                    echo "$edit: there is no $file"
                    return 1
                fi
                whole[$file]=${whole[$file]-$(<"$1/$file")}
                ;;
            old) old=$text ;;
            new)
                if [[ ${whole[$file]} != *"$old"* || ${whole[$file]/"$old"/} == *"$old"* ]]; then
                    echo "$edit: '$old' does not stand once in $file"
                    return 1
                fi
                whole[$file]=${whole[$file]/"$old"/"${line#new:}"}
                ;;
            esac
        done <"$edit"
    done
}

for folder in "$top"/crates/*/must-fail "$top"/mutants/*/; do
    kind=${folder#"$top/"} kind=${kind%/}
    crate=${kind#*/}
    expect "$kind" 0 '' fits "$top/crates/${crate%%/*}" "$folder"/*.edit
done

# A checkout of one crate with one edit.
mkdir -p "$room/checkout/mutants" "$room/checkout/crates/small/"{src,must-fail}
cp -- "$top/mutants/held" "$room/checkout/mutants"
cat >"$room/checkout/crates/small/src/pair.rt" <<'END'
impl<T: Number> Adds<u8, T> for Pair<T> {
    #[inline]
    fn sum(&self) -> T
        ensures whole { result ≡ self.now.a + self.now.b }
    {
        self.a + self.b
    }
}
END

# log MESSAGE: the log of a run in which the prover says this of the edit
log() {
    printf 'rt: small: trying its must-fail edits (1)\nrt: must-fail small/half.edit: %s\n1 passed, 0 failed\n' "$1" \
        >"$room/log"
}

# holds NAME STATUS TEXT LINE: `held` of that log and an edit with this line
holds() {
    printf '%s\nfile: src/pair.rt\nold: self.a + self.b\nnew: self.a\n' "$4" \
        >"$room/checkout/crates/small/must-fail/half.edit"
    expect "$1" "$2" "$3" "$room/checkout/mutants/held" "$room/log"
}

note='note: src/pair.rt:2:5: it is not proved that what the function ensures holds when it returns'
# shellcheck disable=SC2016  # The quotes are the log's.
log "refused, as it must be: $note (\`returns-clause-whole\`); the facts known there allow values"
holds 'the clause' 0 '' '# refused by: PairAddsU8::sum ensures whole'
holds 'another clause' 1 "and the prover 'PairAddsU8::sum ensures whole'" '# refused by: PairAddsU8::sum ensures half'
holds 'another function' 1 "and the prover 'PairAddsU8::sum ensures whole'" \
    '# refused by: PairAddsU8::double ensures whole'
holds 'no line' 1 "it names ''" '# It lacks one.'
log "refused, as it must be: $note (\`returns\`); the facts known there allow values"
holds 'a clause without a name' 0 '' '# refused by: PairAddsU8::sum ensures'
# shellcheck disable=SC2016  # The quotes are the log's.
log 'refused, as it must be: note: src/pair.rt:6:9: it is not proved that what `add` requires holds at this call '\
'(`add-requires`); the facts known'
holds 'a goal in the body' 0 '' '# refused by: PairAddsU8::sum goal add-requires'
# shellcheck disable=SC2016  # The quotes are the log's.
log 'refused, as it must be: ./proofs/pair/PairAddsU8/sum/Answers.antt:5:23: error: `returns-clause-whole`: '\
'as printed, the two types differ'
holds 'an answer' 0 '' '# refused by: PairAddsU8::sum ensures whole'
log 'refused, as it must be'
holds 'a refusal without a reason' 1 'the log names no clause' '# refused by: PairAddsU8::sum ensures whole'
log 'NOT REFUSED: the crate is still proved with this edit'
holds 'an edit that is let through' 1 'NOT REFUSED' '# refused by: PairAddsU8::sum ensures whole'
log 'BAD EDIT: it changes nothing'
holds 'a bad edit' 1 'BAD EDIT' '# refused by: PairAddsU8::sum ensures whole'
echo >"$room/log"
holds 'an edit that was not tried' 1 'it has nothing of the edit' '# refused by: PairAddsU8::sum ensures whole'

# The stand-in says which edits it finds, and lets one through where it is told to.
mkdir -p "$room/bin" "$room/checkout/scripts" "$room/checkout/mutants/"{small,wide} \
    "$room/checkout/crates/"{wide,flow_program}
cp -- "$top/mutants/try" "$room/checkout/mutants"
cp -- "$top/scripts/program.sh" "$room/checkout/scripts"
touch "$room/checkout/mutants/"{small/a,small/b,wide/c}.edit "$room/checkout/HANDLES"
{
    echo small:
    echo wide: small low{1..6}
    echo flow_program: small
    printf 'low%s:\n' {1..6}
} >"$room/checkout/crates.txt"
cat >"$room/bin/rt" <<'END'
#!/usr/bin/env bash
echo "rt $*:" crates/*/must-fail/*
exit "$LETS_THROUGH"
END
chmod +x "$room/bin/rt"

# tries NAME STATUS TEXT LETS_THROUGH WORD..: `try` of these words
tries() {
    expect "$1" "$2" "$3" env PATH="$room/bin:$PATH" LETS_THROUGH="$4" "$room/checkout/mutants/try" "${@:5}"
}

tries 'the mutants of a crate, in place of its edits' 0 \
    'rt must-fail small: crates/small/must-fail/a.edit crates/small/must-fail/b.edit' 0 small
tries 'the mutants of all crates' 0 \
    "rt must-fail small wide: $(echo crates/small/must-fail/{a,b}.edit) crates/wide/must-fail/c.edit" 0
tries 'a mutant that is let through' 1 'rt must-fail wide: crates/wide/must-fail/c.edit' 1 wide
tries 'a crate without mutants' 2 'there is no mutants/flow_program' 0 flow_program
git -C "$room/checkout" init -q
git -C "$room/checkout" -c user.name=a -c user.email=a@b commit -q --allow-empty -m one
tries 'in turn, of crates above few others' 0 'try: the mutants of small' 0 --in-turn

# A checkout of the crates whose edits are always tried, and of another.
mkdir -p "$room/whole/mutants" "$room/whole/scripts" "$room/laid"
cp -- "$top/mutants/lay" "$room/whole/mutants"
cp -- "$top/scripts/program.sh" "$room/whole/scripts"
mkdir -p "$room/whole/crates/"{lane_filters,ring_readers,script_text,tags,wide}/{src,must-fail,out}
touch "$room/whole/crates/"{lane_filters,ring_readers,script_text,tags,wide}/{src/lib.rt,must-fail/own.edit,out/made} \
    "$room/whole/HANDLES"
echo flow_program: >"$room/whole/crates.txt"

# lays: which files of `tags` and `wide` are laid
# shellcheck disable=SC2317  # It is called by expect.
lays() { "$room/whole/mutants/lay" "$room/laid" &&
    (cd -- "$room/laid" && find crates/tags crates/wide -type f | LC_ALL=C sort | tr '\n' ' '); }

expect 'few edits where nothing is kept' 0 \
    'crates/tags/must-fail/own.edit crates/tags/src/lib.rt crates/wide/src/lib.rt' lays
expect 'a folder to lay into' 2 'its word is an empty folder' "$top/mutants/lay"

# A checkout of a crate with an edit of a function that has answers of its own. The stand-in says what it finds, and
# proves the function where it is told to.
mkdir -p "$room/bare/mutants/small" "$room/bare/crates/small/src" "$room/bare/crates/small/proofs/pair/PairAddsU8/sum"
cp -- "$top/mutants/bare" "$room/bare/mutants"
cp -- "$room/checkout/HANDLES" "$room/checkout/crates.txt" "$room/bare"
cp -- "$room/checkout/crates/small/src/pair.rt" "$room/bare/crates/small/src"
touch "$room/bare/crates/small/proofs/pair/PairAddsU8/sum/Answers.antt"
printf 'file: src/pair.rt\nold: self.a + self.b\nnew: self.a\n' >"$room/bare/mutants/small/half.edit"
cat >"$room/bin/rt" <<'END'
#!/usr/bin/env bash
echo "goal: rt $*, $(grep -c 'self.a$' src/pair.rt) edited, $(find proofs -name Answers.antt | wc -l) answers"
exit "$REFUSES"
END

# bares NAME STATUS TEXT REFUSES: `bare` of that crate
bares() {
    expect "$1" "$2" "$3" env PATH="$room/bin:$PATH" REFUSES="$4" "$room/bare/mutants/bare" small
}

bares 'a wrong body without its answers' 0 \
    'small/half.edit: refused: goal: rt check --only pair::PairAddsU8::sum, 1 edited, 0 answers' 1
bares 'a wrong body that the clauses let through' 1 'small/half.edit: LET THROUGH' 0
expect 'bare of no crate' 2 'it takes names of crates' "$room/bare/mutants/bare" none
