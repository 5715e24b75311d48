#!/bin/sh
# Runs the gate, or `rt ci NAME..`, and prints what it cost: for each crate the processor seconds of its check, of its
# tests and of its must-fail edits, and the most memory of one process; then, for each crate that has an `out` folder
# here, the functions whose borrow checker's part of the proof is the largest, in MB (1 to 2 seconds each, roughly).
# With nothing kept (--anew) it takes as long as the gate on a new machine. PARTS sets how many functions are listed.
set -u
cd "$(dirname "$0")/.." || exit 1
exec python3 - "${PARTS:-3}" "$@" <<'PYTHON'
import collections
import os
import re
import subprocess
import sys
import time

parts, names = int(sys.argv[1]), sys.argv[2:]
tick = os.sysconf("SC_CLK_TCK")


def words_of(pid):
    with open("/proc/%s/cmdline" % pid, "rb") as file:
        return file.read().decode(errors="replace").split("\0")


def kind_of(pid):
    """The crate that a process works on, and what for; None for a process of something else."""
    words = words_of(pid)
    if "--crate-name" not in words:
        return None
    crate = words[words.index("--crate-name") + 1]
    if "--test" in words:
        return crate, "tests"
    return crate, "edits" if "rt-edit" in os.readlink("/proc/%s/cwd" % pid) else "check"


def processes():
    """Of each process its parent, its processor seconds so far and its memory."""
    found = {}
    for pid in os.listdir("/proc"):
        if pid.isdigit():
            try:
                with open("/proc/%s/stat" % pid) as file:
                    fields = file.read().rsplit(")", 1)[1].split()
            except OSError:
                continue
            found[int(pid)] = (int(fields[1]), (int(fields[11]) + int(fields[12])) / tick, int(fields[21]) * 4096)
    return found


def sample(root, kinds, used, most):
    """Adds what the processes below `root` have used so far; a process without a crate counts to its parent's."""
    found = processes()

    def kind(pid):
        if pid in kinds or pid == root or pid not in found:
            return kinds.get(pid)
        try:
            own = kind_of(pid)
        except OSError:
            return None
        above = own or kind(found[pid][0])
        if above:
            kinds[pid] = above
        return above

    def is_below(pid):
        while pid in found and pid != root:
            pid = found[pid][0]
        return pid == root

    for pid, (_, seconds, memory) in found.items():
        what = kind(pid) if is_below(pid) else None
        if what:
            used[what, pid] = max(used.get((what, pid), 0), seconds)
            most[what[0]] = max(most[what[0]], memory)


def table(used, most):
    sums = collections.defaultdict(float)
    for (kind, _), seconds in used.items():
        sums[kind] += seconds
    crates = sorted({crate for crate, _ in sums})
    print("%-14s %8s %8s %8s %10s" % ("crate", "check", "tests", "edits", "memory"))
    for crate in crates:
        print("%-14s %8.0f %8.0f %8.0f %7.1f GB" % (crate, sums[crate, "check"], sums[crate, "tests"],
                                                   sums[crate, "edits"], most[crate] / 1e9))
    print("%-14s %8.0f %8.0f %8.0f" % (("all",) + tuple(sum(sums[crate, what] for crate in crates)
                                                        for what in ("check", "tests", "edits"))))
    print("processor minutes  %.0f" % (sum(sums.values()) / 60))


def largest(crate):
    """The functions with the largest parts of the borrow checker, in MB."""
    sizes = collections.Counter()
    for place, _, files in os.walk("crates/%s/out" % crate):
        for name in files:
            found = re.match(r"Rattle-%s-proofs\.(.*)\.oantt" % crate, name)
            if found and not place.endswith("records") and ".Lts" in name:
                function = found.group(1).split(".Lts")[0]
                sizes[function] += os.stat(os.path.join(place, name)).st_size / 1e6
    return sizes.most_common(parts)


before = time.time()
gate = subprocess.Popen(["rt", "ci", *names])
kinds, used, most = {}, {}, collections.defaultdict(int)
while gate.poll() is None:
    sample(gate.pid, kinds, used, most)
    time.sleep(0.5)
table(used, most)
print("minutes            %.0f, on %d processors" % ((time.time() - before) / 60, os.cpu_count()))
for crate in sorted(os.listdir("crates")):
    for function, size in largest(crate):
        print("%-14s %6.1f MB  %s" % (crate, size, function))
sys.exit(gate.returncode)
PYTHON
