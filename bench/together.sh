#!/bin/sh
# Starts two of the built program together on one journal, 50 times. One of them has the file locked, and the other
# ends with status 4 and the note `disk`, or comes after it. Every acknowledged command must be in the journal then.
# Where strace is installed, it also counts the syncs of a run: two for each command, one at the opening, and one of
# the folder.
set -u
cd "$(dirname "$0")/.." || exit 1
program=${PROGRAM:-$(pwd)/crates/registry/out/registry}
[ -x "$program" ] || { echo "together: no $program: run ./quickstart.sh first" >&2; exit 1; }
runs=${1:-50}
folder=$(mktemp -d)
trap 'rm -rf "$folder"' EXIT
python3 - "$program" "$folder/journal" "$runs" <<'EOF'
import os, shutil, subprocess, sys

program, journal, runs = sys.argv[1], sys.argv[2], int(sys.argv[3])
LINES = 100


def lines(name, count):
    text = '{"by":"g:isa/GrouperSystem","op":"subject.add","subject":"uni/%s%d"}\n'
    return "".join(text % (name, n) for n in range(count)).encode()


def start(*command):
    return subprocess.Popen(command, stdin=subprocess.PIPE, stdout=subprocess.PIPE, stderr=subprocess.PIPE)


def acknowledged(replies):
    return replies.count(b'"ok":true}\n')


def kept():
    return int(subprocess.run([program, journal, "check"], stdout=subprocess.PIPE, check=True).stdout.split()[1])


def begin():
    if os.path.exists(journal):
        os.remove(journal)
    subprocess.run([program, journal, "init"], check=True)


def together():
    """Two programs at once: how many commands they acknowledged, and how many programs were turned away."""
    begin()
    both = [start(program, journal, "apply") for _ in range(2)]
    for name, process in zip("ab", both):
        try:
            process.stdin.write(lines(name, LINES))
            process.stdin.close()
        except BrokenPipeError:
            pass
    count = away = 0
    for process in both:
        # behind the note a second line says why
        replies, note = process.stdout.read(), process.stderr.read().split(b"\n")[0]
        status = process.wait()
        if (status, note, replies) == (4, b"disk", b""):
            away += 1
        elif (status, note, acknowledged(replies)) != (0, b"", LINES):
            sys.exit("a program ended with status %d and the note %r after %d replies" % (status, note, acknowledged(replies)))
        count += acknowledged(replies)
    return count, away


def syncs(count):
    """Counts the syncs of one run of so many commands."""
    begin()
    trace = journal + ".trace"
    subprocess.run(["strace", "-f", "-e", "trace=fdatasync,fsync", "-o", trace, program, journal, "apply"],
                   input=lines("s", count), stdout=subprocess.PIPE, check=True)
    with open(trace) as file:
        text = file.read()
    return text.count("fdatasync("), text.count(" fsync(")


looked = lost = turned = 0
for _ in range(runs):
    count, away = together()
    looked += count
    lost += abs(count - kept())
    turned += away
print("%d pairs, %d programs turned away, %d acknowledged commands looked at, %d lost" % (runs, turned, looked, lost))
good = lost == 0 and turned > 0
if shutil.which("strace"):
    files, folders = syncs(10)
    print("10 commands: %d syncs of the file, %d of its folder" % (files, folders))
    good = good and (files, folders) == (21, 1)
sys.exit(0 if good else 1)
EOF
