# shellcheck shell=bash disable=SC2154
# For cases.sh to source, behind silent.sh, whose words it uses: runs with outputs of which one is not taken for a
# while, and what a run says that waits. Each runs in a folder of its own, as those of silent.sh.

full=(
    beside_another_chain
    the_second_before_the_first
    tags_beside_items
    lines_are_answered
    a_reader_goes_away
    nobody_reads_and_nothing_comes
    pipes_of_nothing
    says_which_input
    says_which_output
)

# full NAME: tries a case, and tells what is wrong
full() {
    local told here=$room/full/$1 flow='' to_a to_b to_m
    mkdir -p "$here"
    cd -- "$here" || return
    mkfifo a b m oa ob
    exec {told}>&1 {to_a}<>a {to_b}<>b {to_m}<>m
    sed 's/"byte"/"int"/; s/10/0/' "$chains" >ints.toml
    "$1"
}

# input COUNT: so many bytes are the file `in`
input() { head -c "$1" "${start[-1]}" >in; }

# says LINE: standard error of the run has this line before thirty seconds are over
says() {
    local _
    for _ in {1..300}; do
        ! grep -qxF -- "$1" errors || return 0
        sleep 0.1
    done
    { echo "standard error: wanted the line '$1', and there came" && cat errors; } >&"$told"
    return 1
}

# The other chain goes on to its end meanwhile.
beside_another_chain() {
    local kept
    input 250000
    exec {kept}<>oa
    rm ob
    go -i a=in -i b=in -o oa=oa -o ob=ob ints.toml
    comes ob 250000 || return
    kill -0 "$flow" || { echo "it ended before its output was taken" && return 1; } >&"$told"
    timeout 90 head -c 250000 <&"$kept" >came
    ended 0 'sink oa 62500\nsink ob 62500\ndone\n' && is came in && is ob in && has errors ''
}

# (a program with checks takes seconds for so much, which is more than a pipe and two writes hold; and nobody opens the
# first before all of the second has come)
the_second_before_the_first() {
    input 250000
    go -i a=in -i b=in -o oa=oa -o ob=ob ints.toml
    timeout 90 bash -c 'cat ob >rb; cat oa >ra' || { echo "the reader ended in $?" && return 1; } >&"$told"
    ended 0 'sink oa 62500\nsink ob 62500\ndone\n' && is ra in && is rb in && has errors ''
}

tags_beside_items() {
    local it
    input 160000
    for ((it = 0; it < 20000; it++)); do
        printf '@%d:k=%d\n' "$it" "$it"
    done >marks
    go -i a=in --marks a=marks -o oa=oa --tags oa=ob ints.toml
    timeout 90 bash -c '(sleep 1; cat ob >rb) & cat oa >ra; wait' ||
        { echo "a reader ended in $?" && return 1; } >&"$told"
    ended 0 'sink oa 40000\nsink ob 0\ndone\n' && is ra in && is rb <(sed 's:$:/0:' marks) && has errors ''
}

# A live run answers, and what a stop writes comes when it is taken.
lines_are_answered() {
    local kept from_oa count
    input 250000
    exec {kept}<>oa
    rm ob
    timeout 100 "${start[@]}" live --control m --replies said -i a=in -i b=in -o oa=oa -o ob=ob ints.toml >report \
        2>errors {kept}>&- {to_a}>&- {to_b}>&- {to_m}>&- &
    flow=$!
    comes ob 250000 && echo levels >&"$to_m" && comes_to said 6 && echo stop >&"$to_m" && comes_to said 7 || return
    exec {from_oa}<oa {kept}>&-
    timeout 90 cat <&"$from_oa" >came
    count=$(($(stat -c %s came) / 4))
    ended 0 "sink oa $count\nsink ob 62500\nstopped\n" && is came <(head -c $((4 * count)) in) && has errors ''
}

# comes_to FILE COUNT: so many lines stand in the file before thirty seconds are over
comes_to() {
    local _
    for _ in {1..300}; do
        [[ ! -e $1 || $(wc -l <"$1") != "$2" ]] || return 0
        sleep 0.1
    done
    { echo "$1: wanted $2 lines, and it has" && cat -- "$1"; } >&"$told"
    return 1
}

a_reader_goes_away() {
    input 250000
    go -i a=in -i b=in -o oa=oa -o ob=ob ints.toml
    cat ob >rb &
    head -c 1000 <oa >ra
    ended 141 '' && has errors 'flow: nobody reads oa any more\n' && is ra <(head -c 1000 in) &&
        is <(head -c "$(stat -c %s rb)" in) rb
}

# (of the inputs neither ends, and nothing comes of them)
nobody_reads_and_nothing_comes() {
    go -i a=a -i b=b -o oa=oa -o ob=ob ints.toml
    cat ob >rb &
    true <oa
    printf 'ABCD' >&"$to_a"
    ended 141 '' && has errors 'flow: nobody reads oa any more\n' && has rb ''
}

# Its readers come to an end, also of tags that are written at the end of the run.
pipes_of_nothing() {
    printf '\1\0\0\0\2\0\0\0' >in
    printf '@1:k=5\n' >marks
    mkfifo tags
    go -i a=/dev/null -i b=in --marks b=marks -o oa=oa --tags oa=ob --tags ob=tags ints.toml
    cat ob >rb &
    cat tags >tags_came &
    timeout 90 cat oa >ra || { echo "the reader ended in $?" && return 1; } >&"$told"
    ended 0 'sink oa 0\nsink ob 2 1 2 @1:k=5/1\ndone\n' && has ra '' && has rb '' && has tags_came '@1:k=5/1\n' &&
        has errors ''
}

says_which_input() {
    go --explain -i s=a -i t=b -o out=o "$top/tests/graphs/two_sources.toml"
    printf '\1\2\3' >&"$to_a" && says 'flow: waits for input of t' && printf '\1' >&"$to_a" &&
        says 'flow: input of s is held back' && printf '\1\1\1\1' >&"$to_b" && exec {to_a}>&- {to_b}>&- || return
    ended 0 'sink out 4\ndone\n' && has o '\2\3\4\2'
}

says_which_output() {
    local kept
    input 250000
    exec {kept}<>oa
    go --explain -i a=in -i b=in -o oa=oa -o ob=/dev/null ints.toml
    says 'flow: output of oa takes nothing' || return
    timeout 90 head -c 250000 <&"$kept" >came
    ended 0 'sink oa 62500\nsink ob 62500\ndone\n' && is came in && has errors 'flow: output of oa takes nothing\n'
}
