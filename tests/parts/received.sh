# shellcheck shell=bash disable=SC2034,SC2154
# For cases.sh to source: examples/receiver and the page docs/user/TUTORIAL.md, whose commands are run as they stand.
# What has to come is computed by numpy.

received=(page errors pictures)

# receiver_lacks CASE: prints what is not here that the case is tried with
receiver_lacks() {
    if [[ $1 == pictures ]]; then
        "$system_python" -c '' 2>/dev/null || echo "there is no python3 to read them"
    elif ! "$system_python" -c 'import numpy, tomllib' 2>/dev/null; then
        echo "there is no Python 3.11 with the module numpy to make a recording"
    fi
}

# received CASE: tries it, where what it needs is here, and keeps what it says, and its status
received() {
    local came=$room/came/$1/came status=0
    mkdir -p "$came"
    receiver_lacks "${1#*/}" >"$came/stdout"
    if [[ -s $came/stdout ]]; then
        status=$not_here
    else
        PYTHONDONTWRITEBYTECODE=1 "$system_python" "$top/tests/programs/receiver.py" "${1#*/}" "$top" "${start[@]}" \
            >"$came/stdout" 2>&1 </dev/null || status=$?
    fi
    echo "$status" >"$came/status"
}
