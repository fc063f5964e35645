# shellcheck shell=bash disable=SC2154
# For cases.sh to source: the scripts of examples/cluster, by hand and by GNU parallel, Dask and Slurm, where these are
# installed: a scheduler, its workers and daemons are started by the case, on loopback and on ports that are free, and
# ended by it. What has to come are the samples that examples/signal/make.py computes from the filter's equation,
# without the two that its silence gives; each case runs in a folder of a name that wants quotes.

clustered=(
    by_hand
    by_hand_as_tasks
    killed_slice
    slice_at_work_twice
    failed_slice
    missing_part
    by_parallel
    by_parallel_with_a_killed_job
    by_dask
    by_dask_with_a_killed_program
    by_dask_with_a_killed_worker
    by_slurm
    by_slurm_with_a_killed_task
    by_slurm_with_a_lost_node
)

cluster=$top/examples/cluster
# The status of a case whose engine does not start here.
not_here=77
# (Debian's modules are there for its own Python alone.)
system_python=$([[ -x /usr/bin/python3 ]] && echo /usr/bin/python3 || echo python3)

# cluster_lacks CASE: prints what is not here that the case is tried with
cluster_lacks() {
    local it
    if [[ ! -e $room/made/examples/signal/recorded/recording.s16 ]]; then
        echo "there is no python3 to make a recording"
    elif [[ $1 == by_parallel* ]] && ! parallel --version 2>/dev/null | grep -q '^GNU parallel '; then
        echo "there is no GNU parallel"
    elif [[ $1 == by_dask* ]] && ! "$system_python" -c 'import distributed' 2>/dev/null; then
        echo "python3 has no module distributed"
    elif [[ $1 == by_slurm* ]]; then
        for it in slurmctld slurmd sbatch munged; do
            PATH=$PATH:/usr/sbin command -v "$it" >/dev/null || { echo "there is no $it" && return; }
        done
    fi
}

# clustered CASE: tries it, where what it needs is here, and keeps what it says, and its status
clustered() {
    local came=$room/came/$1/came status=0
    mkdir -p "$came"
    cluster_lacks "${1#*/}" >"$came/stdout"
    if [[ -s $came/stdout ]]; then
        status=$not_here
    else
        (in_its_folder "${1#*/}") >"$came/stdout" 2>&1 || status=$?
    fi
    echo "$status" >"$came/status"
}

# tell_kept CASE: says how a case ended whose words and status are kept
tell_kept() {
    local came=$room/came/$1/came
    case $(<"$came/status") in
    0) passed "$1" ;;
    "$not_here") left_out "$1" <"$came/stdout" ;;
    *) failed "$1" <"$came/stdout" ;;
    esac
}

# in_its_folder CASE: the case, in a process of its own, which ends all that it began
in_its_folder() {
    local signal=$room/made/examples/signal/recorded own=$room/cluster/$1 words=()
    local engine=$own/engine here="$own/a 'name' \"of\" {1} %a \$(a) *"
    mkdir -p "$here" "$own/bin" "$engine"
    cp -- "$top/tests/cluster/"* "$own/bin"
    printf '%s\n' "${start[@]}" >"$own/bin/start"
    cp -- "$signal/recording.s16" "$here/recording"
    tail -c +5 "$signal/filtered.s16" >"$here/wanted"
    cp -- "$cluster/graph.toml" "$here/graph"
    cd -- "$here" || return
    export PATH=$own/bin:$PATH:/usr/sbin HOME=$own
    trap end_all EXIT
    "$1"
}

# begin NAME COMMAND..: a process that goes on beside the case; what it says stands in the file engine/NAME.said
begin() { "${@:2}" >"$engine/$1.said" 2>&1 </dev/null & }

# end_all: ends what was begun and still runs, the last first
end_all() {
    local it tries
    for it in $(jobs -rp | tac); do
        kill "$it"
        for ((tries = 0; tries < 50; tries++)); do
            kill -0 "$it" 2>/dev/null || continue 2
            sleep 0.1
        done
        kill -9 "$it"
    done
    wait
}

# await SECONDS COMMAND..: calls the command until it holds
await() {
    local until=$((SECONDS + $1))
    until "${@:2}" >/dev/null 2>&1; do
        ((SECONDS < until)) || return
        sleep 0.2
    done
}

# holds WHAT COMMAND..: the command holds, or the case fails and tells what did not
holds() { "${@:2}" || { echo "it does not hold that $1" && return 1; }; }

# in_time COMMAND..: the command, for five minutes at most; what it says stands in the file said
in_time() {
    timeout 300 "$@" >said 2>&1 </dev/null &
    wait "$!"
}

# well COMMAND..: the command ends in status 0
well() {
    local status=0
    in_time "$@" || status=$?
    [[ $status == 0 ]] || { echo "status $status of $*:" && cat said && return 1; }
}

# badly COMMAND..: the command ends in another status, and by itself
badly() {
    local status=0
    in_time "$@" || status=$?
    [[ $status != 0 && $status != 124 ]] || { echo "status $status of $*:" && cat said && return 1; }
}

# joins COMMAND..: the script, which gets `words` behind its own, joins eight slices to what is wanted
joins() { well "$@" 8 graph recording joined "${words[@]}" && cmp joined wanted 2>&1; }

# joins_and_refuses COMMAND..: the same; called once more it is refused, since the parts are there; and it makes nothing
# of a graph that is not cut
joins_and_refuses() {
    joins "$@" && badly "$@" 8 graph recording joined &&
        badly "$@" 8 "$top/examples/signal/graph.toml" recording uncut || return
    holds "nothing is made of a graph that is not cut" [ ! -e uncut ]
}

# with_a_kill KILLS COMMAND..: the first run of slice 3 is killed, with so many of its parents, and the script joins
# what is wanted
with_a_kill() {
    export KILLED=$here/killed KILLS=$1
    joins "${@:2}" && holds "slice 3 was killed" [ -d killed ]
}

# slices_by_hand COMMAND..: each slice, by a command that gets its number behind these words
slices_by_hand() {
    local at
    mkdir joined.parts
    well flow run --one-thread --quiet -i adc=recording -o out=whole graph && cmp whole wanted 2>&1 || return
    for at in {1..8}; do
        "$@" "$at" || return
    done
    well "$cluster/join.sh" joined 8 && cmp joined wanted 2>&1
}

by_hand() { slices_by_hand well "$cluster/slice.sh" graph recording joined 8; }

slurm_task() { SLURM_ARRAY_TASK_ID=$1 well "$cluster/slice.sh" graph recording joined 8; }
by_hand_as_tasks() { slices_by_hand slurm_task; }

# is_third FILE: whether the file is the part of slice 3, which is 2500 bytes of the 20000
is_third() { cmp -- "$1" <(tail -c +5001 wanted | head -c 2500) 2>&1; }

# third_of_eight: the slice is run
third_of_eight() { well "$cluster/slice.sh" graph recording joined 8 3 && is_third joined.parts/part.3; }

# a slice that is killed leaves the beginning of its part under another name, and one that is called again makes the
# part
killed_slice() {
    mkdir joined.parts
    KILLED=$here/killed KILLS=1 badly "$cluster/slice.sh" graph recording joined 8 3 || return
    cmp joined.parts/unfinished.3.* <(tail -c +5001 wanted | head -c 1024) 2>&1 || return
    holds "there is no half part" [ ! -e joined.parts/part.3 ] && third_of_eight
}

# one that goes on, as on a machine that was given up, makes the whole part, though another is killed that began
# meanwhile
slice_at_work_twice() {
    local first
    mkdir joined.parts
    HELD=$here/goes_on begin first timeout 300 "$cluster/slice.sh" graph recording joined 8 3
    first=$!
    await 60 eval 'is_third joined.parts/unfinished.3*' &&
        KILLED=$here/killed KILLS=1 badly "$cluster/slice.sh" graph recording joined 8 3 || return
    holds "slice 3 was killed" [ -d killed ] && touch goes_on && wait "$first" && is_third joined.parts/part.3
}

# one whose run fails leaves nothing
failed_slice() {
    mkdir joined.parts
    KILLED=$here/killed KILLS=0 badly "$cluster/slice.sh" graph recording joined 8 3 || return
    holds "slice 3 was killed" [ -d killed ] &&
        badly "$cluster/slice.sh" "$top/examples/signal/graph.toml" recording joined 8 1 || return
    holds "the slice is refused" grep -q '^flow: refused 64 NoCut ' said &&
        holds "nothing is left" [ -z "$(ls -A joined.parts)" ] && third_of_eight
}

# without one of the parts nothing is joined, and a file that is there stays as it is
missing_part() {
    mkdir joined.parts
    echo before >joined
    touch joined.parts/part.{1,2,3,4,6,7,8}
    badly "$cluster/join.sh" joined 8 && holds "the part is named" grep -q 'joined.parts/part.5 is missing$' said ||
        return
    badly "$cluster/join.sh" joined 0 && holds "the file stays" [ "$(<joined)" = before ]
}

by_parallel() { joins_and_refuses "$cluster/by_parallel.sh"; }
# (on two machines, which tests/cluster/ssh leads to)
by_parallel_with_a_killed_job() {
    words=(--sshlogin "1/near,1/far")
    with_a_kill 1 "$cluster/by_parallel.sh"
}

# dask_address: prints where the scheduler listens
dask_address() {
    "$system_python" -c 'import json, sys; print(json.load(open(sys.argv[1]))["address"])' "$engine/file" 2>/dev/null
}

# start_dask: a scheduler and two workers on ports that the system chooses
start_dask() {
    local at module=distributed.cli
    begin scheduler "$system_python" -m "$module.dask_scheduler" --host 127.0.0.1 --port 0 \
        --dashboard-address 127.0.0.1:0 --scheduler-file "$engine/file"
    await 120 dask_address ||
        { echo "no scheduler of Dask comes up: $(tail -n 1 "$engine/scheduler.said")" && return 1; }
    DASK_SCHEDULER_ADDRESS=$(dask_address)
    export DASK_SCHEDULER_ADDRESS
    for at in 1 2; do
        begin "worker.$at" "$system_python" -m "$module.dask_worker" "$DASK_SCHEDULER_ADDRESS" --host 127.0.0.1 \
            --no-nanny --nthreads 1 --no-dashboard --local-directory "$engine"
    done
}

by_dask() { start_dask && joins_and_refuses "$system_python" "$cluster/by_dask.py"; }
by_dask_with_a_killed_program() { KILLED=$here/killed KILLS=0 start_dask &&
    with_a_kill 0 "$system_python" "$cluster/by_dask.py"; }
by_dask_with_a_killed_worker() {
    KILLED=$here/killed KILLS=2 start_dask && with_a_kill 2 "$system_python" "$cluster/by_dask.py" || return
    holds "the scheduler and one worker are left" [ "$(jobs -rp | wc -l)" = 2 ]
}

# write_slurm_conf PORT PORT PORT: a cluster of two nodes, both this machine, which tracks processes without cgroups,
# gives up a node that is silent for ten seconds, and begins a task anew only where it is asked to
write_slurm_conf() {
    local host
    host=$(hostname -s)
    cat >"$SLURM_CONF" <<CONF
ClusterName=cluster
SlurmctldHost=$host(127.0.0.1)
SlurmUser=$(id -un)
SlurmdUser=$(id -un)
AuthInfo=socket=$engine/socket,cred_expire=5
SlurmctldPort=$1
StateSaveLocation=$engine/state
SlurmdSpoolDir=$engine/%n
SlurmctldPidFile=$engine/slurmctld.pid
SlurmdPidFile=$engine/%n.pid
SlurmdTimeout=10
ReturnToService=2
ProctrackType=proctrack/pgid
JobRequeue=0
SchedulerParameters=batch_sched_delay=0,sched_interval=1
NodeName=one NodeHostname=$host NodeAddr=127.0.0.1 Port=$2
NodeName=two NodeHostname=$host NodeAddr=127.0.0.1 Port=$3
PartitionName=all Nodes=ALL Default=YES State=UP
CONF
}

# are_idle: whether both nodes wait for work
are_idle() { [[ $(timeout 5 sinfo --noheader --format %D:%T) == 2:idle ]]; }

# start_slurm: munged, slurmctld and a slurmd for each node, as the user who runs this
start_slurm() {
    local ports it
    export SLURM_CONF=$engine/slurm.conf
    words=(--time=5)
    read -ra ports < <("$system_python" -c 'import socket
ends = [socket.create_server(("127.0.0.1", 0)) for _ in range(3)]
print(*(end.getsockname()[1] for end in ends))')
    mkdir -- "$engine/state" "$engine/one" "$engine/two"
    head -c 128 /dev/urandom >"$engine/key"
    chmod 600 "$engine/key"
    write_slurm_conf "${ports[@]}"
    # (others cannot reach its socket, which --force allows)
    begin munged munged --force --foreground --key-file="$engine/key" --socket="$engine/socket" \
        --pid-file="$engine/munged.pid" --log-file="$engine/munged.log" \
        --seed-file="$engine/seed"
    await 20 munge --no-input --socket="$engine/socket" ||
        { echo "no munged comes up: $(tail -n 1 "$engine/munged.said")" && return "$not_here"; }
    begin slurmctld slurmctld -D
    for it in one two; do
        begin "$it" slurmd -D -N "$it"
    done
    await 60 are_idle || {
        echo "no cluster of Slurm comes up: $(tail -qn 1 "$engine"/{slurmctld,one,two}.said | paste -sd ,)"
        return "$not_here"
    }
}

# submitted COUNT: whether so many arrays were submitted
submitted() { holds "$1 arrays were submitted" [ "$(grep -c '^Submitted batch job ' said)" = "$1" ]; }

by_slurm() { start_slurm && joins "$cluster/by_slurm.sh" && submitted 1 &&
    badly "$cluster/by_slurm.sh" 8 graph recording joined; }
by_slurm_with_a_killed_task() { start_slurm && with_a_kill 1 "$cluster/by_slurm.sh" && submitted 2; }

# lose_node: once a slice was killed on a node, kills the daemon of this node
lose_node() { await 60 compgen -G 'killed/*' && kill -9 "$(<"$engine/$(ls killed).pid")"; }

# a node that is lost is given up, and its task begins anew on the other one
by_slurm_with_a_lost_node() {
    start_slurm || return
    begin loss lose_node
    with_a_kill 2 "$cluster/by_slurm.sh" && submitted 1
}
