# shellcheck shell=bash disable=SC2154
# For tests/parts/cases.sh to source: cases of what is shown elsewhere, each made as a folder like those of tests/cases:
# the files of examples/, the calls of `flow` on examples that README.md, docs/ and the examples show behind a `$`, each
# with what it writes, and the graph of the man page.

# Of each case that was made its name, which is its folder below that of all.
made=()

# make CASE STDOUT STDERR STATUS WORD..: a case, in the folder of all, `shown`
make() {
    local folder=$shown/$1
    made+=("$1")
    mkdir -p "$folder"
    printf '%s\n' "${@:5}" >"$folder/args"
    echo "$4" >"$folder/status"
    [[ -z $2 ]] || printf '%s\n' "$2" >"$folder/stdout"
    [[ -z $3 ]] || printf '%s\n' "$3" >"$folder/stderr"
}

# end_of OUTPUT: prints the status of a call that writes this: one that stalls says so in its last line
end_of() { [[ ${1##*$'\n'} == stalled ]] && echo 3 || echo 0; }

# make_example FOLDER: what `check`, `draw`, `run`, its script or its live run, whichever it has a file for, writes for
# its graph file
make_example() {
    local name file wanted errors it
    name=examples/$(basename -- "$1")
    for it in check draw run script live; do
        file=$1/expected_$it
        if [[ $it == script ]]; then
            file=$1/expected
        fi
        if [[ ! -e $file ]]; then
            continue
        fi
        wanted=$(<"$file")
        errors=''
        if [[ $it == run && -e $1/expected_stall ]]; then
            errors=$(<"$1/expected_stall")
        fi
        make "$name/$it" "$wanted" "$errors" "$(end_of "$wanted")" "$it" graph.toml
        cp -- "$1/graph.toml" "$shown/$name/$it"
        if [[ -e $1/$it ]]; then
            cp -- "$1/$it" "$shown/$name/$it/stdin"
        fi
    done
}

# make_recording: the recording of examples/signal through its filter, beside what make.py computes from the filter's
# equation. The files have the sums that the example shows.
make_recording() {
    local maker=$top/examples/signal/make.py name=examples/signal/recorded wanted
    mkdir -p "$shown/$name"
    "$maker" recording "$shown/$name/recording.s16"
    "$maker" filtered "$shown/$name/filtered.s16"
    if ! (cd -- "$shown/$name" && sha256sum --check --quiet "$top/examples/signal/SHA256SUMS") >&2; then
        echo "examples/signal/make.py makes other files" >&2
        exit 1
    fi
    wanted="sink out 10002 $(od -An -v -td2 "$shown/$name/filtered.s16" |
        xargs) @0:rx_rate=480000/0 @2:lead=20/0"$'\n'done
    make "$name" "$wanted" '' 0 run -i adc=recording.s16 graph.toml
    cp -- "$top/examples/signal/graph.toml" "$shown/$name"
}

# make_call CASE OUTPUT WORD..: a call as a page shows it, with < FILE for its standard input. What it says of a stall
# goes to standard error
make_call() {
    local name=$1 output=$2 words=() graph='' input='' errors
    shift 2
    while (($# > 0)); do
        case $1 in
        '<') input=$2 && shift ;;
        examples/*.toml | /usr/share/doc/magbelu/examples/*.toml) graph=${1#/usr/share/doc/magbelu/} &&
            words+=(graph.toml) ;;
        *) words+=("$1") ;;
        esac
        shift
    done
    errors=$(grep '^flow: stalled: ' <<<"$output" || true)
    output=$(grep -v '^flow: stalled: ' <<<"$output" || true)
    make "$name" "$output" "$errors" "$(end_of "$output")" "${words[@]}"
    cp -- "$top/$graph" "$shown/$name/graph.toml"
    if [[ -n $input ]]; then
        cp -- "$top/$input" "$shown/$name/stdin"
    fi
}

# make_raw_call CASE RECORDING OUTPUT WORD..: a call between raw files as a page shows it, behind a line that makes the
# recording: the items that it writes are those that make.py computes, and the tags those that the example shows
make_raw_call() {
    local folder=$shown/$1 signal=$shown/examples/signal/recorded it file
    if [[ ! -e $signal/filtered.s16 ]]; then
        return
    fi
    make_call "$1" "${@:3}"
    mkdir -p "$folder/made"
    for it in "${@:4}"; do
        file=${it#*=}
        case $it in
        adc=*)
            if [[ $file != "$2" ]]; then
                echo "$1: no line above the call makes $file" >&2
                exit 1
            fi
            cp -- "$signal/recording.s16" "$folder/$file"
            ;;
        out=*.tags) printf '@0:rx_rate=480000/0\n@2:lead=20/0\n' >"$folder/made/$file" ;;
        out=*) cp -- "$signal/filtered.s16" "$folder/made/$file" ;;
        esac
    done
}

# make_pipe CASE OUTPUT BYTES WORD..: a call between pipes as a page shows it, with what printf is given for its
# standard input; the numbers of the bytes that od shows stand behind the report
make_pipe() {
    local name=$1 bytes
    bytes=$(grep '^ ' <<<"$2" | xargs printf '\\x%x')
    make_call "$name" '' "${@:4}"
    rm -f -- "$shown/$name/stdout"
    printf '%b' "$bytes" >"$shown/$name/stdout"
    printf "$3" >"$shown/$name/stdin"
    grep -v '^ ' <<<"$2" >"$shown/$name/stderr"
}

# make_calls_of FILE: the calls that a page shows; in a fence without a language each runs from its `$` to the next, or
# to the end of the fence
make_calls_of() {
    local line page call='' words=() output='' recording='' in_fence=0 number=0
    page=${1#"$top"/}
    page=pages/${page%.md}
    while IFS= read -r line || [[ -n $line ]]; do
        if [[ $line == '```'* || $line == '$ '* ]]; then
            if [[ $call =~ ^(\./)?flow\ ([a-z].*)$ && $call == *examples/* ]]; then
                number=$((number + 1))
                read -ra words <<<"${BASH_REMATCH[2]}"
                if [[ $call == *' -o '* ]]; then
                    make_raw_call "$page/$number" "$recording" "${output%$'\n'}" "${words[@]}"
                else
                    make_call "$page/$number" "${output%$'\n'}" "${words[@]}"
                fi
            elif [[ $call =~ ^examples/signal/make\.py\ recording\ ([^ /]+)$ ]]; then
                recording=${BASH_REMATCH[1]}
            elif [[ $call =~ ^printf\ \'(.*)\'\ \|\ \./flow\ (run\ .*)\ \|\ od\ -An\ -tu1$ ]]; then
                number=$((number + 1))
                read -ra words <<<"${BASH_REMATCH[2]}"
                make_pipe "$page/$number" "${output%$'\n'}" "${BASH_REMATCH[1]}" "${words[@]}"
            fi
            call='' output=''
        fi
        if [[ $line == '```' ]]; then
            in_fence=$((in_fence == 0)) recording=''
        elif [[ $line == '```'* ]]; then
            in_fence=2
        elif [[ $in_fence == 1 && $line == '$ '* ]]; then
            call=${line#'$ '}
        elif [[ -n $call ]]; then
            output+=$line$'\n'
        fi
    done <"$1"
    if [[ $page =~ ^pages/(README|docs/user/COMMANDS)$ ]] && ((number == 0)); then
        echo "$1 shows no call of flow" >&2
        exit 1
    fi
}

# of_man_page N: prints the Nth of the texts of the man page's example
of_man_page() { sed -n '/^\.SS An example$/,/^\.SH /p' "$top/share/man/man1/flow.1" |
    awk -v wanted="$1" '/^\.fi$/ { shows = 0 } shows && at == wanted; /^\.nf$/ { shows = 1; at++ }'; }

# make_man_page: the graph that the man page shows, with what a run of it prints
make_man_page() {
    make pages/man "$(of_man_page 2)" '' 0 run graph.toml
    of_man_page 1 >"$shown/pages/man/graph.toml"
}

# make_shown FOLDER: all of these, in the folder
make_shown() {
    local folder page shown=$1
    for folder in "$top"/examples/*/; do
        # (what a folder without one has is run by another test)
        if [[ -e ${folder}graph.toml ]]; then
            make_example "${folder%/}"
        fi
    done
    if command -v python3 >/dev/null; then
        make_recording
    else
        echo "left out: the recording of examples/signal, since there is no python3" >&2
    fi
    make_man_page
    for page in "$top"/README.md "$top"/docs/*/*.md "$top"/examples/*/README.md; do
        # (that page's calls go on from one another, so received.sh runs them)
        if [[ $page != */TUTORIAL.md ]]; then
            make_calls_of "$page"
        fi
    done
}
