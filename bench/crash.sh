#!/bin/sh
# Feeds the built program by a slow writer and kills it at a random moment, 200 times. After each kill
# `check` must open the journal, and every acknowledged line must be in it, with at most one more. Prints how many
# acknowledged commands were looked at, and how many were lost. With TOGETHER=N up to N lines are answered together, by
# a writer that doesn't wait, and at most N more may be in it. PROGRAM names another program.
set -u
cd "$(dirname "$0")/.." || exit 1
program=${PROGRAM:-$(pwd)/crates/registry/out/registry}
[ -x "$program" ] || { echo "crash: build the program first: (cd crates/registry && rt run -- FILE check)" >&2; exit 1; }
runs=${1:-200}
folder=$(mktemp -d)
trap 'rm -rf "$folder"' EXIT
python3 - "$program" "$folder/journal" "$runs" "${TOGETHER:-0}" <<'EOF'
import os, random, signal, subprocess, sys, threading, time

program, journal, runs, together = sys.argv[1], sys.argv[2], int(sys.argv[3]), int(sys.argv[4])
words = ["apply"] + (["--together", str(together)] if together else [])
random.seed(7)
looked = lost = 0


def line(n):
    return b'{"by":"g:isa/GrouperSystem","op":"subject.add","subject":"uni/p%d"}\n' % n


def write(pipe):
    try:
        for n in range(100000):
            pipe.write(line(n))
            if not together:
                pipe.flush()
                time.sleep(random.random() / 1000)
    except (BrokenPipeError, ValueError, OSError):
        pass


for run in range(runs):
    if os.path.exists(journal):
        os.remove(journal)
    subprocess.run([program, journal, "init"], check=True)
    process = subprocess.Popen([program, journal, *words], stdin=subprocess.PIPE, stdout=subprocess.PIPE)
    writer = threading.Thread(target=write, args=(process.stdin,), daemon=True)
    writer.start()
    threading.Timer(0.02 + random.random() * 0.3, lambda: os.kill(process.pid, signal.SIGKILL)).start()
    replies = process.stdout.read()
    process.wait()
    writer.join()
    acknowledged = replies[: replies.rfind(b"\n") + 1].count(b'"ok":true}\n')
    check = subprocess.run([program, journal, "check"], stdout=subprocess.PIPE)
    if check.returncode != 0:
        print("run %d: the journal doesn't open, status %d" % (run, check.returncode))
        sys.exit(1)
    kept = int(check.stdout.split()[1])
    looked += acknowledged
    lost += max(0, acknowledged - kept)
    if kept > acknowledged + max(1, together):
        print("run %d: %d commands are kept, and %d were answered" % (run, kept, acknowledged))
        sys.exit(1)
print("%d kills, %d acknowledged commands looked at, %d lost" % (runs, looked, lost))
sys.exit(0 if lost == 0 else 1)
EOF
