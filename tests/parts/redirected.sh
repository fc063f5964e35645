# shellcheck shell=bash disable=SC2154
# For cases.sh to source: calls of the program whose standard streams a shell has led to files and pipes, or has closed.
# Each runs in a folder of its own, in which the file `in` has a thousand bytes, `marks` a mark, and `wanted` what comes
# of the bytes in tests/graphs/plain.toml, which adds ten to each.

redirected=(
    report_beside_items_in_its_file
    report_beside_items_in_its_pipe
    report_beside_items_behind_others
    report_beside_tags
    nothing_is_written_to_standard_error
    trace_in_the_file_of_the_report
    devices_are_shared
    two_outputs_in_a_pipe
    closed_input
    closed_output
    closed_errors
    closed_streams
    closed_input_is_no_empty_one
    links_to_no_file
    link_to_a_file_that_is_made
    nobody_reads_items
    nobody_reads_a_fifo
    nobody_reads_pieces
    full_device_for_pieces
    pieces_of_a_broken_pipe
    nobody_reads_a_report
    nobody_reads_a_report_of_a_traced_run
    full_device
)

plain=$top/tests/graphs/plain.toml

# ends STATUS WORD..: calls the program with these words, and tells where it ends in another status
ends() {
    local status=0
    timeout 60 "${start[@]}" "${@:2}" || status=$?
    [[ $status == "$1" ]] || { echo "status: wanted $1, and flow ${*:2} ended in $status" && return 1; } >&"$told"
}

# has FILE TEXT: tells where a file is not as `printf` writes this text
# shellcheck disable=SC2059
has() { differs "$1" <(printf "$2") "$1" >&"$told"; }

# is FILE WANTED: tells where two files of bytes differ
is() { cmp -- "$1" "$2" >&"$told" 2>&1; }

# refused FILE WHAT: tells where a file has not what is said of words that are refused
refused() { has "$1" "error: $2\n\nUsage: flow <COMMAND>\n\nFor more information, try '--help'.\n"; }

# redirected NAME: tries a case, and tells what is wrong
redirected() {
    local told here=$room/redirected/$1
    mkdir -p "$here"
    cd -- "$here" || return
    yes | head -c 1000 >in
    yes | head -c 1000 | tr 'y\n' '\203\024' >wanted
    echo '@0:a=1' >marks
    exec {told}>&1
    "$1"
}

report_beside_items_in_its_file() {
    local path
    ln -s so link
    for path in so ./so link /dev/stdout /dev/fd/1; do
        ends 0 run -i src=in -o out="$path" "$plain" >so 2>errors || return
        is so wanted && has errors 'sink out 1000\ndone\n' || return
    done
}

report_beside_items_in_its_pipe() {
    local path
    for path in - /dev/stdout /dev/fd/1; do
        ends 0 run -i src=in -o out="$path" "$plain" 2>errors | cat >so || return
        is so wanted && has errors 'sink out 1000\ndone\n' || return
    done
}

# (a file that is made is emptied, and one that a shell writes behind what it has is not)
report_beside_items_behind_others() {
    ends 0 run -i src=in -o out=so "$plain" >>so 2>errors && is so wanted && has errors 'sink out 1000\ndone\n' ||
        return
    ends 0 run -i src=in -o out=- "$plain" >>so 2>errors && has errors 'sink out 1000\ndone\n' || return
    cat wanted wanted >twice
    is so twice
}

report_beside_tags() {
    ends 0 run -i src=in --marks src=marks -o out=x --tags out=t "$plain" >t 2>errors || return
    is x wanted && has t '@0:a=1/0\n' && has errors 'sink out 1000\ndone\n' || return
    ends 0 run -i src=marks --marks src=marks --tags out=t "$plain" >t 2>errors || return
    has t '@0:a=1/0\n' && has errors 'sink out 7 74 58 68 107 71 59 20 @0:a=1/0\ndone\n'
}

nothing_is_written_to_standard_error() {
    local said='items, tags or a trace would go to standard error, which tells how the run ended'
    ends 2 run -i src=in -o out=- --tags out=t "$plain" >so 2>t && refused t "$said" && has so '' || return
    ends 2 run -i src=in -o out=e "$plain" >so 2>e && refused e "$said" && has so '' || return
    ends 2 run -i src=in -o out=/dev/stderr "$plain" 2>&1 >so | cat >e
    refused e "$said" && has so '' || return
    ends 2 run -i src=in -o out=- "$plain" >both 2>&1 && refused both "$said" || return
    ends 2 run --trace e "$plain" >so 2>e && refused e "$said" && has so ''
}

trace_in_the_file_of_the_report() {
    local path
    for path in t ./t /dev/stdout; do
        ends 2 run --trace "$path" "$plain" >t 2>errors || return
        refused errors 'a trace would go to standard output, which has the report of the run' && has t '' || return
    done
}

devices_are_shared() {
    ends 0 run -i src=in -o out=/dev/null --tags out=/dev/null "$plain" >/dev/null 2>/dev/null || return
    ends 0 run -i src=in -o out=/dev/null "$plain" >/dev/null 2>errors && has errors '' || return
    ends 0 run --trace /dev/null --stats "$plain" >/dev/null 2>/dev/null
}

two_outputs_in_a_pipe() {
    ends 2 run -i src=in -o out=- --tags out=/dev/stdout "$plain" 2>errors | cat >so
    refused errors 'a file that is written is named twice' && has so ''
}

closed_input() {
    ends 0 run -i src=in -o out=o "$plain" <&- >so 2>errors && is o wanted && has so 'sink out 1000\ndone\n' &&
        has errors ''
}

closed_output() {
    ends 4 run -i src=- -o out=o "$plain" <in 2>errors 1>&- && is o wanted && has errors 'flow: refused 52 Write\n'
}

closed_errors() {
    ends 0 run -i src=- -o out=o "$plain" <in >so 2>&- && is o wanted && has so 'sink out 1000\ndone\n' || return
    head -c 3 in >cut
    ends 1 run -i src=cut -o out=o "$top/tests/graphs/longer.toml" >so 2>&- && has so 'sink out 1\ndone\n'
}

closed_streams() {
    local words=(run -i src=in -o out=o --tags out=t)
    ends 0 "${words[@]}" "$plain" <&- >so 2>&- && is o wanted && has so 'sink out 1000\ndone\n' || return
    ends 4 "${words[@]}" "$plain" <&- 2>errors 1>&- && is o wanted && has errors 'flow: refused 52 Write\n' || return
    ends 4 "${words[@]}" "$plain" <in 1>&- 2>&- && is o wanted && has t '' || return
    ends 4 "${words[@]}" "$plain" <&- 1>&- 2>&- && is o wanted && has t '' || return
    ends 4 run --trace o "$plain" <&- 1>&- 2>&- && has o ''
}

closed_input_is_no_empty_one() {
    ends 4 run -i src=- -o out=o "$plain" <&- >so 2>errors && has errors 'flow: refused 51 Read input 0 in src=-\n' &&
        has so ''
}

links_to_no_file() {
    local one
    mkdir apart
    ln -s real link
    ln -s "$PWD/real" whole
    ln -s ../real apart/link
    ln -s apart/link over
    ln -s round round
    for one in link ./link whole apart/link over; do
        ends 2 run -i src=in -o out="$one" --tags out=real "$plain" >so 2>errors &&
            refused errors 'a file that is written is named twice' || return
        ends 2 run -i src=in -o out="$one" "$plain" >real 2>real &&
            refused real 'items, tags or a trace would go to standard error, which tells how the run ended' || return
        rm real
    done
    ends 4 run -i src=in -o out=round "$plain" >so 2>errors &&
        has errors 'flow: refused 52 Write output 0 in out=round\n'
}

link_to_a_file_that_is_made() {
    ln -s real link
    ends 0 run -i src=in -o out=link --tags out=other "$plain" >so 2>errors && is real wanted &&
        has so 'sink out 1000\ndone\n'
}

# unread: `nobody` is a pipe from which nobody reads
unread() {
    local reader
    mkfifo pipe
    : <pipe &
    reader=$!
    exec {nobody}>pipe
    wait "$reader"
}

nobody_reads_items() {
    local status
    yes 2>/dev/null | { timeout 60 "${start[@]}" run -i src=- -o out=- "$plain" || echo "$?" >status; } 2>errors |
        head -c 1000 >so
    is so wanted && has errors 'flow: nobody reads standard output any more\n' && has status '141\n' || return
    unread
    ends 141 run --quiet -i src=in -o out=- "$plain" >&"$nobody" 2>errors && has errors '' || return
    ends 141 run --explain -i src=in --marks src=marks -o out=o --tags out=- "$plain" >&"$nobody" 2>errors || return
    is o wanted && has errors 'flow: nobody reads standard output any more\n --> out=-: Broken pipe (os error 32)\n'
}

nobody_reads_a_fifo() {
    local reader
    mkfifo fifo
    head -c 1000 <fifo >so &
    reader=$!
    yes 2>/dev/null | ends 141 run -i src=- -o out=fifo "$plain" >report 2>errors
    wait "$reader"
    is so wanted && has errors 'flow: nobody reads fifo any more\n' && has report ''
}

# It ends at once, also where its sender waits, so that the read that is under way does not end.
nobody_reads_pieces() {
    local status=0 sender
    # (more than a pipe holds, and no more, since a slice of a full piece is slow in a program with checks)
    yes 2>/dev/null | head -c 150000 | { timeout 60 "${start[@]}" run --jobs 2 -i src=- -o out=- "$plain" ||
        echo "$?" >status; } 2>errors | head -c 1000 >so
    is so wanted && has errors 'flow: nobody reads standard output any more\n' && has status '141\n' || return
    unread
    mkfifo slow
    (cat in && exec sleep 50) >slow &
    sender=$!
    timeout 20 "${start[@]}" run --jobs 2 --quiet -i src=- -o out=- "$plain" <slow >&"$nobody" 2>errors || status=$?
    kill "$sender"
    echo "$status" >status
    has status '141\n' && has errors ''
}

full_device_for_pieces() {
    ends 4 run --jobs 2 -i src=in -o out=- "$plain" >/dev/full 2>errors &&
        has errors 'flow: refused 52 Write output 0 in out=-\n' || return
    ends 4 run --jobs 2 -i src=in --marks src=marks -o out=o --tags out=/dev/full "$plain" >so 2>errors &&
        has so '' || return
    has errors 'flow: refused 52 Write tags 0 in out=/dev/full\n'
}

# A sender that ends in the midst of an item: what came before it is written, and then it is told, as without pieces.
pieces_of_a_broken_pipe() {
    sed 's/"byte"/"short"/' "$plain" >shorts.toml
    printf 'a\0b\0c' | ends 1 run -i src=- -o out=whole shorts.toml >report 2>wanted_errors || return
    { printf 'a\0' && sleep 0.2 && printf 'b\0c'; } | ends 1 run --jobs 2 -i src=- -o out=o shorts.toml >so \
        2>errors || return
    is o whole && has so 'sink out 2\ndone\n' && is errors wanted_errors && has o 'k\0l\0'
}

nobody_reads_a_report() {
    local words
    unread
    for words in check 'check --feeds' draw run 'run --one-thread' 'run -o out=o' live; do
        # shellcheck disable=SC2086
        ends 141 $words "$plain" </dev/null >&"$nobody" 2>errors &&
            has errors 'flow: nobody reads standard output any more\n' || return
    done
    ends 141 kinds >&"$nobody" 2>errors && has errors 'flow: nobody reads standard output any more\n' || return
    ends 141 script "$plain" <<<settle >&"$nobody" 2>errors &&
        has errors 'flow: nobody reads standard output any more\n' || return
    ends 141 run --quiet "$plain" >&"$nobody" 2>errors && has errors ''
}

# (the run is over, and what was measured of it is told)
nobody_reads_a_report_of_a_traced_run() {
    unread
    ends 141 run --trace trace --stats=json "$plain" >&"$nobody" 2>errors || return
    [[ -s trace && $(head -n 1 errors) == 'flow: nobody reads standard output any more' && $(wc -l <errors) == 2 ]] ||
        { echo "a trace, and then the times, were wanted" && cat errors; } >&"$told"
}

full_device() {
    ends 4 run -i src=in -o out=o "$plain" >/dev/full 2>errors && is o wanted &&
        has errors 'flow: refused 52 Write\n' || return
    ends 4 run -i src=in -o out=- "$plain" >/dev/full 2>errors &&
        has errors 'flow: refused 52 Write output 0 in out=-\n' || return
    ends 4 run -i src=in -o out=/dev/full "$plain" >so 2>/dev/full && has so ''
}
