# shellcheck shell=bash disable=SC2154
# For the scripts of tests/parts to source that try tests of libraries: calls of a plant, runs in threads with a caller
# and without, commands of the program on graph files with lines, runs between raw streams, a pipeline, and the reading
# of the program's words and file, in each of which one allocation fails: a case for each allocation. The program ends
# with status 0 each time. And rounds of a plant in which no allocation is made, so that none of them comes to fail.
# Tried are each eighth allocation, beginning with that of MEMORY_EIGHTH, 0 to 7, or of the day of the month, or with
# MEMORY_EIGHTH=all each one.

# The uppermost libraries that the tasks and these files of the program use.
# shellcheck disable=SC2034  # They are for the scripts that source this.
memory_libraries=(flow_runs run_stats pipeline helper_threads request_box reader_threads writer_threads clap diagnostics)

eighth=${MEMORY_EIGHTH:-$(($(date +%-d) % 8))}
# The allocation that is refused. The program makes so many others before its own that each of its own comes to be this
# one.
refused=400
# Of each task, a few more than the allocations that are made up to its end (in threads the schedule changes their
# number), and how many of the first are left out, since another task makes them too: `check` reads and tests a file as
# all do that take one, and `calls` opens a plant as `live` does before its run. The bounds are near, since each case
# takes its time; the cases at the bounds, which are always tried, test them.
file=130
declare -A most=([calls]=171 [live]=171 [live_adaptive]=171 [launch]=365 [whole_run]=365 [start]=366
    [launch_nothing]=14 [adaptive]=365 [pool]=365 [check]=172 [feeds]=210 [draw]=168 [run]=236 [per_block]=254
    [alone]=232 [chain]=195 [script]=244 [lines]=235 [tags]=260 [settings]=215 [fork]=245 [raw]=208 [piped]=260
    [helped]=320 [stall]=220 [words]=26 [call]=330 [file]=24 [steady]=183)
declare -A left_out=([calls]=0 [live]=102 [live_adaptive]=102 [launch]=264 [whole_run]=264 [start]=264
    [launch_nothing]=0 [adaptive]=264 [pool]=264 [check]=0 [feeds]=$file [draw]=$file [run]=$file [per_block]=$file
    [alone]=$file [chain]=0 [script]=$file [lines]=$file [tags]=$file [settings]=$file [fork]=$file [raw]=$file
    [piped]=$file [helped]=$file [stall]=$file [words]=0 [call]=0 [file]=0 [steady]=175)

# list_memory: each case has the number of the allocation of its task that is refused
list_memory() {
    local task at
    for task in $(printf '%s\n' "${!most[@]}" | LC_ALL=C sort); do
        for ((at = left_out[$task] + 1; at <= most[$task]; at++)); do
            if [[ $eighth == all ]] || ((at % 8 == eighth || at == left_out[$task] + 1 || at == most[$task])); then
                echo "memory/$task/$at"
            fi
        done
        if [[ $eighth == all ]]; then
            echo "memory/$task/sum"
        fi
    done
}

# said_of CASE: prints what the program said in it: whether the allocation that failed was one of those of the task
said_of() { head -n 1 "$room/came/$1.stdout"; }

# wanted_of TASK AT: prints what it has to say, as a pattern. At the greatest number none of its own is refused any
# more. At the least one is already, or none is yet, where nothing else makes its first ones. In steady rounds none is
# made: the one that is refused comes before them or behind them.
wanted_of() {
    local first='(inside|outside)'
    case $1 in
    calls | check | live | live_adaptive | launch | whole_run | start | launch_nothing) first=outside ;;
    adaptive | pool | chain | words | call | file) first=outside ;;
    steady) first=early ;;
    *) first=inside ;;
    esac
    if (($2 == most[$1])); then
        echo outside
    elif (($2 == left_out[$1] + 1)); then
        echo "$first"
    elif [[ $1 == steady ]]; then
        echo '(early|outside)'
    else
        echo '(inside|outside)'
    fi
}

# least_of TASK: prints how many allocations of its own it has at least: `calls` and `check` as many as others leave out
least_of() {
    case $1 in
    calls) echo "${left_out[live]}" ;;
    check) echo "$file" ;;
    steady) echo 0 ;;
    *) echo 1 ;;
    esac
}

# sum TASK: whether it had so many refused
sum() {
    local own
    own=$(cat -- "$room/came/memory/$1/"*.stdout | grep -cx inside || true)
    if ((own >= $(least_of "$1"))); then
        passed "memory/$1/sum"
    else
        failed "memory/$1/sum" <<<"wanted $(least_of "$1") allocations of its own at least, and there were $own"
    fi
}

# judge_allocation TASK AT: whether a case ended well, and said what it has to
judge_allocation() {
    local name=memory/$1/$2 said wanted status
    said=$(said_of "$name")
    wanted=$(wanted_of "$1" "$2")
    status=$(<"$room/came/$name.status")
    if [[ $status == 0 && $said =~ ^$wanted$ ]]; then
        passed "$name"
    else
        {
            echo "allocation $2 of $1 fails: wanted status 0 and ${wanted//|/ or },"
            echo "and there came status $status, \"$said\" and"
            cat -- "$room/came/$name.errors"
        } | failed "$name"
    fi
}

# put_memory: its tasks as a module of the program, with those of the program's own files that read its words, and the
# file that they read
put_memory() {
    if grep -qE '^(memory|no_threads)/' "$room/wanted"; then
        echo "memory: MEMORY_EIGHTH=$eighth"
        put_folder memory
        cp -- "$top/crates/$command_crate/src/"{call,end_words,ends,kind_words,slice,stretch,talk,words}.rt \
            "$own/src/memory"
        printf '%3000s' '' >"$room/file"
    fi
}

# call_memory CASE: calls the program so that this allocation of the task fails, and keeps what it writes, and its
# status
call_memory() {
    local task at came=$room/came/$1 words status=0
    IFS=/ read -r _ task at <<<"$1"
    if [[ $at == sum ]]; then
        return
    fi
    mkdir -p "$came"
    words=("$task" $((refused - at)))
    if [[ $task == @(words|call|file) ]]; then
        words+=("$room/file")
    fi
    env -i timeout 60 "${start[@]}" "${words[@]}" </dev/null >"$came.stdout" 2>"$came.errors" || status=$?
    echo "$status" >"$came.status"
}

judge_memory() {
    local task at
    IFS=/ read -r _ task at <<<"$1"
    if [[ $at == sum ]]; then
        sum "$task"
    else
        judge_allocation "$task" "$at"
    fi
}
