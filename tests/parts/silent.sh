# shellcheck shell=bash disable=SC2154
# For cases.sh to source, behind redirected.sh, whose words it uses: runs with several inputs of which one is silent for
# a while. Each runs in a folder of its own, with the pipes `a`, `b` and `m`.

silent=(
    one_of_two_pipes
    one_producer
    one_producer_that_opens_both
    a_pipe_that_ends
    a_pipe_that_ends_within_an_item
    a_pipe_that_is_empty
    standard_input
    a_file_beside_a_pipe
    marks_from_a_pipe
    no_marks_from_a_pipe
    no_marks_for_pieces
    a_sum_waits
    an_input_that_fails
    done_before_the_end
    each_pair_of_chains
    an_output_that_is_full
)

chains=$top/tests/graphs/two_chains.toml

# silent NAME: tries a case, and tells what is wrong
silent() {
    local told here=$room/silent/$1 flow='' to_a to_b to_m
    mkdir -p "$here"
    cd -- "$here" || return
    mkfifo a b m
    # (a pipe that is open for both holds up nobody who opens it)
    exec {told}>&1 {to_a}<>a {to_b}<>b {to_m}<>m
    "$1"
}

# go WORD..: starts a run with these words
go() {
    # (it is to have no pipe open but those that it opens)
    timeout 100 "${start[@]}" run "$@" >report <&0 2>errors {to_a}>&- {to_b}>&- {to_m}>&- &
    flow=$!
}

# ended STATUS REPORT: the run ends so
ended() {
    local status=0
    wait "$flow" || status=$?
    [[ $status == "$1" ]] || { echo "status: wanted $1, and it ended in $status" && cat errors && return 1; } >&"$told"
    has report "$2"
}

# comes FILE COUNT: so many bytes stand in the file before thirty seconds are over
comes() {
    local _
    for _ in {1..300}; do
        [[ ! -e $1 || $(stat -c %s -- "$1") != "$2" ]] || return 0
        sleep 0.1
    done
    echo "$1: wanted $2 bytes, and it has $(stat -c %s -- "$1")" >&"$told"
    return 1
}

# Byte by byte, first beside the one, then beside the other.
one_of_two_pipes() {
    local _
    for _ in 1 2 3; do
        go -i a=a -i b=b -o oa=oa -o ob=ob "$chains"
        printf A >&"$to_b" && comes ob 1 && printf B >&"$to_b" && comes ob 2 && comes oa 0 || return
        printf C >&"$to_a" && comes oa 1 && printf D >&"$to_a" && comes oa 2 || return
        printf E >&"$to_b" && comes ob 3 && exec {to_a}>&- {to_b}>&- && ended 0 'sink oa 2\nsink ob 3\ndone\n' || return
        has oa MN && has ob KLO && has errors '' || return
        exec {to_a}<>a {to_b}<>b
    done
}

# produced COMMAND: to each pipe more than a pipe and a read hold, by this command, first to `a` and then to `b`
produced() {
    sed 's/"byte"/"int"/; s/10/0/' "$chains" >ints.toml
    head -c 160000 "${start[-1]}" >in
    # (a run that opened a pipe while it was held open here would see its end once it is let go)
    exec {to_a}>&- {to_b}>&-
    go --quiet -i a=a -i b=b -o oa=oa -o ob=ob ints.toml
    timeout 60 bash -c "$1" || { echo "the producer ended in $?" && return 1; } >&"$told"
    ended 0 'sink oa 40000\nsink ob 40000\ndone\n' && is oa in && is ob in && has errors ''
}

one_producer() { produced 'cat in >a; cat in >b'; }
one_producer_that_opens_both() { produced 'exec 3>a 4>b; cat in >&3; exec 3>&-; cat in >&4'; }

a_pipe_that_ends() {
    go -i a=a -i b=b -o oa=oa -o ob=ob "$chains"
    printf ABC >&"$to_b" && comes ob 3 && exec {to_b}>&- && printf A >&"$to_a" && comes oa 1 && printf A >&"$to_a" &&
        comes oa 2 || return
    exec {to_a}>&-
    ended 0 'sink oa 2\nsink ob 3\ndone\n' && has oa KK && has ob KLM && has errors ''
}

a_pipe_that_ends_within_an_item() {
    sed 's/"byte"/"short"/' "$chains" >shorts.toml
    go -i a=a -i b=b -o oa=oa -o ob=ob shorts.toml
    printf AB >&"$to_b" && comes ob 2 && printf ABC >&"$to_a" && comes oa 2 && exec {to_a}>&- &&
        printf CD >&"$to_b" && comes ob 4 && exec {to_b}>&- || return
    ended 1 'sink oa 1\nsink ob 2\ndone\n' && has oa KB && has ob KBMD &&
        has errors 'flow: refused 53 CutItem input 0 in a=a\n'
}

a_pipe_that_is_empty() {
    go -i a=a -i b=b -o oa=oa -o ob=ob "$chains"
    printf A >&"$to_b" && comes ob 1 && exec {to_a}>&- && printf B >&"$to_b" && comes ob 2 && exec {to_b}>&- || return
    ended 0 'sink oa 0\nsink ob 2\ndone\n' && has oa '' && has ob KL && has errors ''
}

standard_input() {
    go -i a=- -i b=b -o oa=oa -o ob=ob "$chains" <a
    printf A >&"$to_b" && comes ob 1 && printf B >&"$to_b" && comes ob 2 && printf C >&"$to_a" && comes oa 1 &&
        printf D >&"$to_b" && comes ob 3 || return
    exec {to_a}>&- {to_b}>&-
    ended 0 'sink oa 1\nsink ob 3\ndone\n' && has oa M && has ob KLN && has errors ''
}

a_file_beside_a_pipe() {
    head -c 100000 "${start[-1]}" >in
    go -i a=a -i b=in -o oa=oa -o ob=ob "$chains"
    comes ob 100000 && printf A >&"$to_a" && comes oa 1 && exec {to_a}>&- || return
    ended 0 'sink oa 1\nsink ob 100000\ndone\n' && has oa K && has errors ''
}

# (the second line is that of an item behind those that came first, so that these are fed)
marks_from_a_pipe() {
    go -i a=a --marks a=m -i b=b -o oa=oa --tags oa=t -o ob=ob "$chains"
    printf A >&"$to_b" && comes ob 1 && printf '@1:k=5\n@3:k=6\n' >&"$to_m" && printf ABC >&"$to_a" && comes oa 3 &&
        comes t 9 || return
    printf B >&"$to_b" && comes ob 2 && exec {to_m}>&- && printf D >&"$to_a" && comes oa 4 &&
        exec {to_a}>&- {to_b}>&- || return
    ended 0 'sink oa 4\nsink ob 2\ndone\n' && has oa KLMN && has t '@1:k=5/0\n@3:k=6/0\n' && has errors ''
}

# (no mark comes, and none of the items waits for one; without `until` all of them would, as the last does)
no_marks_from_a_pipe() {
    go -i a=a --marks a=m -i b=b -o oa=oa --tags oa=t -o ob=ob "$chains"
    printf 'until 2\n' >&"$to_m" && printf A >&"$to_a" && comes oa 1 && printf B >&"$to_a" && comes oa 2 &&
        printf 'until 3\r\nuntil 4\n' >&"$to_m" && printf C >&"$to_a" && comes oa 3 || return
    printf A >&"$to_b" && comes ob 1 && printf D >&"$to_a" && comes oa 4 && printf E >&"$to_a" && sleep 1 &&
        comes oa 4 && printf '@4:k=5\n' >&"$to_m" && sleep 1 && comes oa 4 && printf 'until 9\n' >&"$to_m" &&
        comes oa 5 && comes t 9 && exec {to_a}>&- {to_b}>&- {to_m}>&- || return
    ended 0 'sink oa 5\nsink ob 1\ndone\n' && has oa KLMNO && has ob K && has t '@4:k=5/0\n' && has errors ''
}

# (the same of slices on threads, of which a piece may be as long as what was read)
no_marks_for_pieces() {
    head -c 100000 /dev/zero >in
    go --jobs 2 -i src=in --marks src=m -o out=o --tags out=t "$top/tests/graphs/plain.toml"
    printf '@7:k=1\nuntil 100000\n' >&"$to_m" && comes o 100000 && comes t 9 && exec {to_m}>&- || return
    ended 0 'sink out 100000\ndone\n' && has t '@7:k=1/0\n' && has errors ''
}

a_sum_waits() {
    go -i s=a -i t=b -o out=o "$top/tests/graphs/two_sources.toml"
    printf '\1\2\3' >&"$to_a" && comes o 0 && sleep 1 && comes o 0 && has errors '' || return
    printf '\1' >&"$to_b" && comes o 1 && printf '\1\1\1' >&"$to_b" && comes o 3 && exec {to_a}>&- {to_b}>&- || return
    ended 0 'sink out 3\ndone\n' && has o '\2\3\4' && has errors ''
}

an_input_that_fails() {
    go -i a=a -i b=. -o oa=oa -o ob=ob "$chains"
    ended 4 '' && has errors 'flow: refused 51 Read input 1 in b=.\n'
}

# (the run is over, though one pipe is silent and of neither the end has come)
done_before_the_end() {
    sed 's/kind = "add_const", type = "byte", value = 10/kind = "head", type = "byte", n = 3/' "$chains" >heads.toml
    go -i a=a -i b=b -o oa=oa -o ob=ob heads.toml
    printf ABC >&"$to_b" && comes ob 3 && printf ABCD >&"$to_a" || return
    ended 0 'sink oa 3\nsink ob 3\ndone\n' && has oa ABC && has ob ABC && has errors ''
}

# Of three chains each pair goes on beside the third, whose pipe is silent.
each_pair_of_chains() {
    local stuck it
    for stuck in a b m; do
        rm -f oa ob om
        local -A to=([a]=$to_a [b]=$to_b [m]=$to_m)
        go -i a=a -i b=b -i m=m -o oa=oa -o ob=ob -o om=om "$top/tests/graphs/three_chains.toml"
        for it in 1 2 3; do
            pair_goes_on "$stuck" "$it" || return
        done
        printf A >&"${to[$stuck]}" && comes "o$stuck" 1 || return
        exec {to_a}>&- {to_b}>&- {to_m}>&-
        ended 0 "$(report_beside "$stuck")" && has errors '' || return
        exec {to_a}<>a {to_b}<>b {to_m}<>m
    done
}

# pair_goes_on STUCK COUNT: an item more of each chain but this is out, so that there are so many
pair_goes_on() {
    local it
    for it in a b m; do
        [[ $it == "$1" ]] || { printf A >&"${to[$it]}" && comes "o$it" "$2" && comes "o$1" 0; } || return
    done
}

# report_beside STUCK: what is said of a run of which this chain had one item, and each other three
report_beside() {
    local it
    for it in a b m; do
        printf 'sink o%s %d\\n' "$it" "$([[ $it == "$1" ]] && echo 1 || echo 3)"
    done
    printf 'done\\n'
}

# An output that nobody takes for a while holds up what leads to it, and nothing is lost.
an_output_that_is_full() {
    local full
    sed 's/"byte"/"int"/; s/10/0/' "$top/tests/graphs/plain.toml" >ints.toml
    head -c 160000 "${start[-1]}" >in
    mkfifo full
    # (opened for both, so that the run opens it too)
    exec {full}<>full
    go -i src=in -o out=full ints.toml
    # (a pipe holds no more than 65,536 bytes, and the run waits for the others to be taken)
    sleep 5
    kill -0 "$flow" || { echo "it ended before its output was taken" && return 1; } >&"$told"
    timeout 100 head -c 160000 <&"$full" >came
    ended 0 'sink out 40000\ndone\n' && is came in && has errors ''
}
