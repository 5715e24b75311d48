#!/bin/sh
# Serves snapshots of a journal's copy, each in place of the one before, in turn on two ports:
#
#     standby.sh COPY FIRST_PORT SECOND_PORT SECONDS
#
# COPY is what follow.py writes. The snapshots are COPY.FIRST_PORT and COPY.SECOND_PORT. A new one is taken that many
# seconds after the last one answered; the server before ends once the new one answers. The program is `registry`, or what
# PROGRAM names. Ends with status 1 where a snapshot isn't served.
set -u
[ $# -eq 4 ] || {
    echo "usage: standby.sh COPY FIRST_PORT SECOND_PORT SECONDS" >&2
    exit 2
}
copy=$1 port=$2 other=$3 seconds=$4
program=${PROGRAM:-registry}
serving=
trap 'kill $serving 2> /dev/null; exit 0' INT TERM

# whether the server of this process answers on the port, once it does or has ended
answers() {
    until curl -s -o /dev/null -m 1 "http://127.0.0.1:$port/"; do
        kill -0 "$1" 2> /dev/null || return 1
        sleep 0.1
    done
}

while :; do
    cp "$copy" "$copy.$port" || exit 1
    "$program" "$copy.$port" serve "$port" &
    new=$!
    answers "$new" || {
        echo "standby.sh: $copy.$port isn't served" >&2
        kill $serving 2> /dev/null
        exit 1
    }
    [ -z "$serving" ] || kill "$serving"
    serving=$new
    next=$port port=$other other=$next
    sleep "$seconds" &
    wait $!
done
