#!/bin/sh
# Acknowledged commands a second through `apply`, beside the machine's own rate of what one command
# needs: two small writes, each synced, to a file that grows as a journal does. The lines come from a
# file in memory and the replies go to one, so that no other process takes part; beside it stands the
# rate with this script at the other end of two pipes, which each reply wakes. Prints the medians of nine
# turns and their ratio, of which 0.9 is wanted, and the machine's own rate over bytes that the file has
# already. Then the time and the memory that opening a journal of many commands takes.
set -u
cd "$(dirname "$0")/.." || exit 1
program=$(pwd)/crates/registry/out/registry
[ -x "$program" ] || { echo "durable: build the program first: (cd crates/registry && rt run -- FILE check)" >&2; exit 1; }
folder=$(mktemp -d "${1:-/tmp}/durable.XXXXXX")
trap 'rm -rf "$folder"' EXIT
python3 - "$program" "$folder" <<'EOF'
import os, random, resource, statistics, struct, subprocess, sys, time

program, folder = sys.argv[1], sys.argv[2]
# turns long enough that one slow sync doesn't decide a turn
TURNS, COUNT, MANY = 9, 10000, 100000


def line(n):
    return b'{"by":"g:isa/GrouperSystem","op":"subject.add","subject":"uni/p%d"}\n' % n


def removed(path):
    if os.path.exists(path):
        os.remove(path)
    return path


# over the file as it stands, or over none
def own_rate(path):
    file = os.open(path, os.O_RDWR | os.O_CREAT)
    at, payload = 9, b"x" * 46
    os.pwrite(file, b"GRPREG2\n\0", 0)
    os.fdatasync(file)
    before = time.time()
    for n in range(COUNT):
        os.pwrite(file, payload, at)
        os.fdatasync(file)
        os.pwrite(file, b"\1", at - 1)
        os.fdatasync(file)
        at += len(payload)
    rate = COUNT / (time.time() - before)
    os.close(file)
    return rate


def new_journal():
    journal = removed(folder + "/journal")
    subprocess.run([program, journal, "init"], check=True)
    return journal


def in_memory(name, content):
    file = os.fdopen(os.memfd_create(name), "w+b")
    file.write(content)
    file.seek(0)
    return file


def rate_of(seconds, replies):
    assert replies.count(b'"ok":true') == COUNT
    return COUNT / seconds


# over files in memory
def program_rate():
    journal = new_journal()
    with in_memory("lines", LINES) as lines, in_memory("replies", b"") as replies:
        before = time.time()
        subprocess.run([program, journal, "apply"], stdin=lines, stdout=replies, check=True)
        seconds = time.time() - before
        replies.seek(0)
        return rate_of(seconds, replies.read())


# over pipes
def piped_rate():
    journal = new_journal()
    before = time.time()
    done = subprocess.run([program, journal, "apply"], input=LINES, stdout=subprocess.PIPE, check=True)
    return rate_of(time.time() - before, done.stdout)


LINES = b"".join(line(n) for n in range(COUNT))
measured = {
    "own": lambda: own_rate(removed(folder + "/own")),
    "over": lambda: own_rate(folder + "/full"),
    "ours": program_rate,
    "piped": piped_rate,
}
own_rate(folder + "/full")
rates = {name: [] for name in measured}
for turn in range(TURNS):
    # in another order each turn, so that none always follows the same
    for name in random.sample(list(measured), len(measured)):
        rates[name].append(measured[name]())
medians = {name: statistics.median(found) for name, found in rates.items()}
own, over, ours, piped = (medians[name] for name in ("own", "over", "ours", "piped"))
print("own rate %.0f a second, acknowledged commands %.0f a second, ratio %.2f (0.9 is wanted)" % (own, ours, ours / own))
print("over pipes, acknowledged commands %.0f a second, ratio %.2f" % (piped, piped / own))
print("own rate over bytes that the file has already %.0f a second" % over)

# a journal of many commands, written here as the format says
caller = b"g:isa/GrouperSystem"
frames = []
for n in range(MANY):
    subject = b"uni/p%d" % n
    payload = struct.pack("<Q", 1756684800000000 + n) + struct.pack("<H", len(caller)) + caller + b"\0\5" + struct.pack("<H", len(subject)) + subject + struct.pack("<H", 0)
    frames.append(b"\1" + struct.pack("<I", len(payload)) + payload)
with open(folder + "/many", "wb") as file:
    file.write(b"GRPREG2\n" + b"".join(frames) + b"\0")
before = time.time()
done = subprocess.run([program, folder + "/many", "check"], stdout=subprocess.PIPE, check=True)
seconds = time.time() - before
memory = resource.getrusage(resource.RUSAGE_CHILDREN).ru_maxrss / 1024
assert done.stdout.startswith(b"commands %d " % MANY), done.stdout
print("a journal of %d commands, %.1f MB, opens in %.2f seconds with %.0f MB (1 second and 60 MB are wanted)" % (MANY, os.path.getsize(folder + "/many") / 1e6, seconds, memory))
EOF
