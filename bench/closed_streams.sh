#!/bin/sh
# Runs the built program with standard input, output or error closed, in each way that makes it say something there, and
# looks whether the journal is as it has to be: the same to the byte, or with the command that was accepted. Ends with
# status 1 where one isn't. It also says which statuses came. It needs python3, /dev/null and /dev/full.
#
#     bench/closed_streams.sh
set -u
cd "$(dirname "$0")/.." || exit 1
program=${PROGRAM:-$(pwd)/crates/registry/out/registry}
[ -x "$program" ] || { echo "closed_streams: no $program: run ./quickstart.sh first" >&2; exit 1; }
folder=$(mktemp -d) || exit 1
trap 'rm -rf "$folder"' EXIT
cd "$folder" || exit 1
wrong=0

# same TITLE FILE: after the run before, whose status was kept, the journal has to be as FILE
same() {
    if cmp -s journal "$2"; then
        echo "$1: status $status, the journal as it has to be"
    else
        echo "$1: status $status, THE JOURNAL IS OTHERWISE"
        wrong=1
    fi
    cp before journal
}

line='{"by":"g:isa/GrouperSystem","op":"subject.add","subject":"uni/ann"}'
further='{"by":"g:isa/GrouperSystem","op":"subject.add","subject":"uni/bob"}'
"$program" journal init && echo "$line" | "$program" journal apply > replies || exit 1
cp journal before
head -c 20 before > damaged
exec 2> notes

"$program" journal check >&-; status=$?; same "check, output closed" before
"$program" journal members staff >&-; status=$?; same "members, output closed" before
"$program" journal history staff >&-; status=$?; same "history, output closed" before
echo "$line" | "$program" journal apply >&-; status=$?; same "apply of a refused line, output closed" before
"$program" journal apply <&- > replies; status=$?; same "apply, input closed" before
"$program" journal load nightly <&- > replies; status=$?; same "load, input closed" before
"$program" journal init 2>&-; status=$?; same "init over a journal, errors closed" before
echo "$line" | "$program" journal apply 2>&- > /dev/full; status=$?; same "apply, errors closed, a full output" before
"$program" journal check <&- >&- 2>&-; status=$?; same "check, all closed" before
python3 - "$program" <<'EOF'
import socket, subprocess, sys
with socket.socket() as taken:
    taken.bind(("127.0.0.1", 0))
    taken.listen(1)
    sys.exit(subprocess.call(["sh", "-c", 'exec "$0" journal serve "$1" 2>&-', sys.argv[1], str(taken.getsockname()[1])]))
EOF
status=$?; same "serve on a taken port, errors closed" before
cp damaged journal
"$program" journal check 2>&-; status=$?; same "check of a damaged journal, errors closed" damaged

# an accepted command is kept, whoever hears of it: its bytes stand behind those from before, under a later moment
echo "$further" | "$program" journal apply >&-
status=$?
case $("$program" journal check) in
    "commands 2 "*) echo "apply of an accepted line, output closed: status $status, both commands are kept" ;;
    *)
        echo "apply of an accepted line, output closed: status $status, THE JOURNAL IS OTHERWISE"
        wrong=1
        ;;
esac
exit $wrong
