#!/bin/sh
# Refuses the built program each of its requests for memory in turn: the k-th alone, and the k-th with all behind it,
# for k from 1 until a run makes fewer requests. It does so over the first commands of a registry, nesting with a
# composite, dates that come, loads, two connections of `serve`, and the words that only read. After each run it looks:
#
# - The journal opens, and is to the byte what the same run with ample memory makes of the requests that were answered
#   otherwise than by {"fault":"memory"}; so each acknowledged command is in it, and none that was answered so. The
#   command behind the last reply may be there though nothing of its own reply was written.
# - Each other reply is the one of that run with ample memory, whole, and the status is its own or 3.
#
# Then each sync of a run fails in turn, with ample memory behind it and with none: the status has to be 4, the reply
# {"fault":"disk"}, and the command may be in the journal or not.
#
# A small library, which is preloaded, does the refusing. It also gives the program a clock that tells a second more
# at each look, or to `serve` one that stands, so that runs are alike to the byte. The journals lie in memory.
#
# It needs python3 and a C compiler over the GNU C library; without a compiler it says so, and ends with status 0.
# Prints how many runs it made, and what was wrong in any. Ends with status 1 where something was kept, lost or told
# wrongly.
#
#     bench/memory.sh
#
# PROGRAM names another program.
set -u
cd "$(dirname "$0")/.." || exit 1
program=${PROGRAM:-$(pwd)/crates/registry/out/registry}
[ -x "$program" ] || { echo "memory: no $program: run ./quickstart.sh first" >&2; exit 1; }
command -v cc > /dev/null || { echo "not tried: no C compiler"; exit 0; }
folder=$(mktemp -d -p /dev/shm 2> /dev/null || mktemp -d) || exit 1
trap 'rm -rf "$folder"' EXIT
cc -shared -fPIC -O1 -o "$folder/refusing.so" -x c - <<'C' || exit 1
/* Refuses memory and fails a sync as the environment says:
   REFUSED: a file of two numbers, in which the requests for memory and the syncs are counted
   REFUSE_AT: the request for memory that is refused, from 1; FAIL_AT: the sync that fails, from 1
   REFUSE_ON: with 1, all memory behind it is refused too
   CLOCK_FROM, CLOCK_STEP: the clock's first moment and how much more each look tells, in seconds */
#define _GNU_SOURCE
#include <errno.h>
#include <fcntl.h>
#include <stdlib.h>
#include <sys/mman.h>
#include <sys/syscall.h>
#include <time.h>
#include <unistd.h>

extern void *__libc_malloc(size_t);
extern void *__libc_calloc(size_t, size_t);
extern void *__libc_realloc(void *, size_t);
extern void *__libc_memalign(size_t, size_t);

static unsigned long *counts;
static unsigned long refuse_at, fail_at, clock_now, clock_step;
static int goes_on, is_dry;

static unsigned long number(const char *name) {
    const char *text = getenv(name);
    return text ? strtoul(text, 0, 10) : 0;
}

__attribute__((constructor)) static void begin(void) {
    const char *path = getenv("REFUSED");
    int file = path ? open(path, O_RDWR) : -1;
    void *map = file < 0 ? MAP_FAILED : mmap(0, 16, PROT_READ | PROT_WRITE, MAP_SHARED, file, 0);
    if (map == MAP_FAILED) _exit(99);
    close(file);
    refuse_at = number("REFUSE_AT");
    fail_at = number("FAIL_AT");
    goes_on = number("REFUSE_ON") == 1;
    clock_now = number("CLOCK_FROM");
    clock_step = number("CLOCK_STEP");
    counts = map;
}

static int is_refused(void) {
    if (!counts) return 0;
    counts[0]++;
    if (counts[0] == refuse_at) is_dry = goes_on;
    if (counts[0] != refuse_at && !is_dry) return 0;
    errno = ENOMEM;
    return 1;
}

void *malloc(size_t size) { return is_refused() ? 0 : __libc_malloc(size); }
void *calloc(size_t count, size_t size) { return is_refused() ? 0 : __libc_calloc(count, size); }
void *realloc(void *old, size_t size) { return is_refused() ? 0 : __libc_realloc(old, size); }
void *memalign(size_t align, size_t size) { return is_refused() ? 0 : __libc_memalign(align, size); }
void *aligned_alloc(size_t align, size_t size) { return memalign(align, size); }

int posix_memalign(void **made, size_t align, size_t size) {
    void *found = memalign(align, size);
    if (!found) return ENOMEM;
    *made = found;
    return 0;
}

int fdatasync(int file) {
    counts[1]++;
    if (counts[1] == fail_at) {
        is_dry = goes_on;
        errno = EIO;
        return -1;
    }
    return syscall(SYS_fdatasync, file);
}

int clock_gettime(clockid_t clock, struct timespec *now) {
    if (clock != CLOCK_REALTIME) return syscall(SYS_clock_gettime, clock, now);
    clock_now += clock_step;
    now->tv_sec = clock_now;
    now->tv_nsec = 0;
    return 0;
}
C
PYTHONDONTWRITEBYTECODE=1 PYTHONPATH=bench PROGRAM=$program python3 - "$program" "$folder" <<'PYTHON'
import json
import os
import struct
import subprocess
import sys
import time

from serving import SYSTEM, Answers, connect, free_port, message

program, folder = sys.argv[1:]
MEMORY, DISK = b'{"fault":"memory"}', b'{"fault":"disk"}'
EMPTY = b"GRPREG2\n\0"
# 2026-01-01T00:00:00Z: what is there before a run is made from then on, and the run a day later
BEFORE, DURING = 1767225600, 1767312000
# in the place of a request that was answered that there was no memory: it is refused, and reads the clock once
NOTHING = {}
CHECKED = {}


def frames_of(journal):
    """The frames before the first closed gate; None where the journal is damaged."""
    if journal is None or journal[:8] != EMPTY[:8]:
        return None
    at, frames = 8, []
    while at < len(journal):
        if journal[at] != 1:
            return frames
        end = at + 5 + int.from_bytes(journal[at + 1:at + 5], "little")
        frames.append(journal[at:end])
        at = end
    return None


def journal_of(frames):
    return EMPTY[:8] + b"".join(frames) + b"\0"


def is_accepted(reply):
    return "number" in json.loads(reply)


class Refusal:
    """What is refused to a run: the request for memory or the sync of a number, and whether all memory behind it."""

    def __init__(self, at=0, sync=0, on=False):
        self.at, self.sync, self.on = at, sync, on

    def __str__(self):
        what = "sync %d fails" % self.sync if self.sync else "request %d for memory refused" % self.at
        return what + (", and all memory behind it" if self.on else "")


NONE = Refusal()


class Run:
    """What a run came to: its status, its replies in order, the journal, and the requests and syncs that it made."""

    def __init__(self, status, replies, journal):
        self.status, self.replies, self.journal = status, replies, journal
        with open(folder + "/counts", "rb") as counts:
            self.requests, self.syncs = struct.unpack("<QQ", counts.read())


def in_folder(name, content=None):
    """Writes a file of the folder, or takes it away, and gives its path."""
    path = os.path.join(folder, name)
    if content is not None:
        with open(path, "wb") as file:
            file.write(content)
    elif os.path.exists(path):
        os.remove(path)
    return path


def content_of(path):
    if not os.path.exists(path):
        return None
    with open(path, "rb") as file:
        return file.read()


def environment(refusal, start, step):
    return dict(os.environ, LD_PRELOAD=folder + "/refusing.so", REFUSED=in_folder("counts", bytes(16)),
                REFUSE_AT=str(refusal.at), FAIL_AT=str(refusal.sync), REFUSE_ON=str(int(refusal.on)),
                CLOCK_FROM=str(start), CLOCK_STEP=str(step))


def run_words(words, sent, journal, refusal=NONE, start=DURING):
    path = in_folder("journal", journal)
    done = subprocess.run([program, path, *words], input=sent, stdout=subprocess.PIPE, stderr=subprocess.PIPE,
                          env=environment(refusal, start, 1), timeout=60)
    *replies, rest = done.stdout.split(b"\n")
    if rest:
        raise ValueError("a reply is cut short: %r" % rest)
    # a note for which there is no memory is left out
    if done.returncode in (0, 3, 11) and done.stderr not in (b"", b"memory\n" if done.returncode == 3 else b""):
        raise ValueError("status %d with the note %r" % (done.returncode, done.stderr))
    return Run(done.returncode, replies, content_of(path))


def lines_of(commands):
    return b"".join(json.dumps({"by": SYSTEM, **c} if c else c).encode() + b"\n" for c in commands)


def made(commands):
    """The journal of a new registry's commands."""
    journal = run_words(["init"], b"", None, start=BEFORE).journal
    run = run_words(["apply"], lines_of(commands), journal, start=BEFORE)
    assert run.status == 0 and all(is_accepted(reply) for reply in run.replies), run.replies
    return run.journal


def checked(journal):
    """What `check` says of a journal; of equal ones it is asked once."""
    if journal not in CHECKED:
        done = subprocess.run([program, in_folder("copy", journal), "check"], stdout=subprocess.PIPE,
                              stderr=subprocess.PIPE)
        CHECKED[journal] = done.returncode, done.stdout
    return CHECKED[journal]


def opens(journal, frames):
    """Whether a journal opens to these frames, by its bytes and by `check`."""
    status, said = checked(journal)
    return frames_of(journal) == frames and status == 0 and said.startswith(b"commands %d moment " % len(frames))


class Trial:
    """Requests that are answered over a journal from before, with how they are sent."""

    def __init__(self, title, before):
        self.title, self.before, self.references = title, before, {}

    def reference(self, key):
        if key not in self.references:
            self.references[key] = self.ample(key)
        return self.references[key]


class Lines(Trial):
    """Lines of `apply`."""

    def __init__(self, title, before, commands):
        super().__init__(title, before)
        self.commands = commands

    def run(self, refusal):
        return run_words(["apply"], lines_of(self.commands), self.before, refusal)

    def ample(self, lost):
        """The run with ample memory, but for the lines that were lost."""
        commands = [NOTHING if n in lost else command for n, command in enumerate(self.commands)]
        run = run_words(["apply"], lines_of(commands), self.before)
        assert run.status == 0 and len(run.replies) == len(commands), run.replies
        return run

    def judged(self, run):
        """What is wrong with a run; None where nothing is."""
        lost = frozenset(n for n, reply in enumerate(run.replies) if reply == MEMORY)
        reference = self.reference(lost)
        told, all_told = run.replies, reference.replies
        for n, reply in enumerate(told):
            if n not in lost and reply != all_told[n]:
                return "line %d is answered %r, and with ample memory %r" % (n + 1, reply, all_told[n])
        frames = frames_of(reference.journal)
        kept = len(frames_of(self.before)) + sum(is_accepted(reply) for reply in all_told[:len(told)])
        if run.status == 0:
            may_keep = {kept} if len(told) == len(self.commands) else set()
        elif run.status != 3:
            return "status %d" % run.status
        elif told and told[-1] == MEMORY:
            may_keep = {kept}
        else:
            # nothing was written of the last command, which is kept; or the journal wasn't opened
            unsaid = len(told) < len(all_told) and is_accepted(all_told[len(told)])
            may_keep = ({kept + 1} if unsaid else set()) | (set() if told else {kept})
        found = frames_of(run.journal)
        if found is None or len(found) not in may_keep:
            return "status %d after %d replies, and %s commands are kept, not %s" % (
                run.status, len(told), found and len(found), sorted(may_keep))
        exact = run.journal == journal_of(found)
        return None if exact and opens(run.journal, frames[:len(found)]) else "the journal has other bytes"

    def disk_judged(self, run):
        told, all_told = run.replies, self.reference(frozenset()).replies
        if run.status != 4 or not told or told[-1] != DISK or told[:-1] != all_told[:len(told) - 1]:
            return "status %d, and the replies end with %r" % (run.status, told[-1:])
        kept = len(frames_of(self.before)) + sum(is_accepted(reply) for reply in told[:-1])
        frames = frames_of(self.reference(frozenset()).journal)
        if not any(opens(run.journal, frames[:count]) for count in (kept, kept + 1)):
            return "the journal doesn't open to what was answered"
        return None


class Words(Trial):
    """One task in words, with at most one reply."""

    def __init__(self, title, before, words, sent=b""):
        super().__init__(title, before)
        self.words, self.sent = words, sent

    def run(self, refusal):
        return run_words(self.words, self.sent, self.before, refusal)

    def ample(self, _):
        return self.run(NONE)

    def judged(self, run):
        reference = self.reference(None)
        if run.journal is not None and run.journal != self.before and not opens(run.journal, frames_of(run.journal)):
            return "the journal doesn't open"
        if run.replies == reference.replies and run.status == reference.status:
            return None if run.journal == reference.journal else "the journal isn't what the reply says"
        if run.status != 3 or run.replies not in ([], [MEMORY]):
            return "status %d and the replies %r" % (run.status, run.replies)
        # a command of which nothing was written may be kept
        may_keep = [self.before] if run.replies else [self.before, reference.journal]
        return None if run.journal in may_keep else "the journal isn't what it was"

    def disk_judged(self, run):
        if run.status != 4 or run.replies != [DISK]:
            return "status %d and the replies %r" % (run.status, run.replies)
        may_keep = (self.before, self.reference(None).journal)
        if not any(opens(run.journal, frames_of(journal)) for journal in may_keep):
            return "the journal doesn't open to what was answered"
        return None


class Answered:
    """A connection's responses, and how many messages were sent over it: one more where it then ended."""

    def __init__(self):
        self.responses, self.sent = [], 0

    def bodies(self):
        """The replies, each of which an LF ends."""
        bodies = [response.body for response in self.responses]
        if not all(body.endswith(b"\n") for body in bodies):
            raise ValueError("a body has no LF: %r" % bodies)
        return [body[:-1] for body in bodies]


class Connections(Trial):
    """Messages over connections of `serve`, each sent once the one before was answered."""

    def __init__(self, title, before, connections):
        super().__init__(title, before)
        self.connections = connections

    def serve(self, connections, refusal):
        """The run, whose replies are those of its connections together."""
        for _ in range(5):
            path, port = in_folder("journal", self.before), free_port()
            words = [program, path, "serve", str(port), "--connections", str(len(connections))]
            # a clock that stands, since a message that isn't read doesn't look at it
            process = subprocess.Popen(words, stdin=subprocess.DEVNULL, stdout=subprocess.DEVNULL,
                                       stderr=subprocess.DEVNULL, env=environment(refusal, DURING, 0))
            try:
                answers = [self.answered(process, port, messages) for messages in connections]
                status = process.wait(timeout=60)
            finally:
                process.kill()
                process.wait()
            # the port may have been taken meanwhile: another one is tried
            if status != 8:
                break
        run = Run(status, [reply for answered in answers for reply in answered.bodies()], content_of(path))
        run.answers = answers
        return run

    def connected(self, process, port):
        """A connection to the program; None where it ended."""
        while process.poll() is None:
            try:
                return connect(port)
            except OSError:
                time.sleep(0.002)
        return None

    def answered(self, process, port, messages):
        answered, conn = Answered(), self.connected(process, port)
        if conn is None:
            return answered
        with conn:
            answers = Answers(conn)
            for sent in messages:
                answered.sent += 1
                try:
                    conn.sendall(sent)
                    response = answers.next()
                except ConnectionError:
                    response = None
                if answers.bytes:
                    raise ValueError("a response is cut short: %r" % answers.bytes)
                if response is None:
                    break
                answered.responses.append(response)
        return answered

    def run(self, refusal):
        return self.serve(self.connections, refusal)

    def ample(self, plan):
        """The run with ample memory of the messages that a plan says: sent, put in the place of one, or left out."""
        nothing = message("POST", "/requests", body=b"{}")
        connections = [[sent if say == "sent" else nothing for sent, say in zip(messages, says)]
                       for messages, says in zip(self.connections, plan)]
        run = self.serve(connections, NONE)
        assert run.status == 0 and [len(a.responses) for a in run.answers] == [len(says) for says in plan]
        return run

    def plans(self, run):
        """What the run may have done: each message that was answered is sent, or was lost; one that was sent and not
        answered may be either."""
        plans = [()]
        for answered in run.answers:
            says = tuple("lost" if body == MEMORY else "sent" for body in answered.bodies())
            ways = [says] if answered.sent == len(says) else [says + ("sent",), says + ("lost",)]
            plans = [plan + (way,) for plan in plans for way in ways]
        return plans

    def told_as(self, run, plan):
        """Whether each response that was given, but of what was lost, is the one of the plan with ample memory."""
        return all(say == "lost" or a.bytes == b.bytes
                   for answered, says, other in zip(run.answers, plan, self.reference(plan).answers)
                   for a, say, b in zip(answered.responses, says, other.responses))

    def judged(self, run):
        responses = [response for answered in run.answers for response in answered.responses]
        all_answered = len(responses) == sum(len(messages) for messages in self.connections)
        if run.status not in (0, 3) or run.status == 3 and all_answered and run.replies[-1] != MEMORY:
            return "status %d" % run.status
        if any(response.status != 503 for response, body in zip(responses, run.replies) if body == MEMORY):
            return "that there was no memory is told with another status"
        told = [plan for plan in self.plans(run) if self.told_as(run, plan)]
        if not told:
            return "a response is another one: %r" % run.replies
        if not any(run.journal == self.reference(plan).journal for plan in told):
            return "the journal isn't what the responses say: %r" % run.replies
        return None if opens(run.journal, frames_of(run.journal)) else "the journal doesn't open"

    def disk_judged(self, run):
        if run.status != 4 or run.replies[-1:] != [DISK] or run.replies.count(DISK) != 1:
            return "status %d, and the responses end with %r" % (run.status, run.replies[-1:])
        frames = frames_of(self.reference(self.whole()).journal)
        kept = len(frames_of(self.before)) + sum(is_accepted(reply) for reply in run.replies[:-1])
        if not any(opens(run.journal, frames[:count]) for count in (kept, kept + 1)):
            return "the journal doesn't open to what was answered"
        return None

    def whole(self):
        return tuple(("sent",) * len(messages) for messages in self.connections)


def op(name, **fields):
    return {"op": name, **fields}


def add(group, *members):
    return [op("member.add", group=group, member=member) for member in members]


FIRST = [
    op("folder.add", folder="law", display="Law"), op("group.add", group="law:staff"),
    op("group.add", group="law:staff"), op("subject.add", subject="uni/ann", display="Ann"),
    *add("law:staff", "uni/ann", "uni/zed"), op("members", group="law:staff"), NOTHING,
    op("group.rename", group="law:staff", extension="people"), op("rows", group="law:people"),
    op("folder.list", folder="law"), op("grant.add", object="law:people", privilege="READ", holder="uni/ann"),
]
PERSONS = [op("subject.add", subject="uni/" + name) for name in ("ann", "bob", "cid")]
NESTING = [
    *(op("group.add", group=name) for name in ("staff", "team", "suspended", "active")),
    *add("staff", "uni/ann", "g:gsa/team"), *add("team", "uni/bob", "uni/cid", "g:gsa/staff"),
    op("composite.set", group="active", kind="complement", left="staff", right="suspended"),
    op("members", group="active"), *add("suspended", "uni/bob"), op("members", group="active"),
    op("member.remove", group="staff", member="g:gsa/team"), op("groups", subject="uni/cid"),
    op("composite.clear", group="active"), op("group.delete", group="suspended"),
]
REASONS = [
    *PERSONS, *(op("group.add", group=name) for name in ("staff", "team", "suspended", "active")),
    *add("staff", "uni/ann", "g:gsa/team"), *add("team", "uni/ann", "uni/bob"), *add("suspended", "uni/bob"),
    op("composite.set", group="active", kind="complement", left="staff", right="suspended"),
]
# the clock tells a second more for each line: the ends come while the lines go on
DATES = [
    op("group.add", group="staff"), op("group.add", group="keys"),
    op("rule.remove_lost", check="staff", owner="keys"), *add("keys", "uni/ann", "uni/bob"),
    op("member.add", group="staff", member="uni/ann", until="2026-01-02T00:00:09Z"),
    op("member.add", group="staff", member="uni/bob", **{"from": "2026-01-02T00:00:08Z"},
       until="2026-01-02T00:00:11Z"),
    op("members", group="staff"), op("members", group="staff"), op("members", group="keys"),
    op("consumer.add", consumer="doors"), op("members", group="keys"), op("log", consumer="doors", max=50),
    op("history", group="staff"), op("members", group="keys", at="2026-01-02T00:00:08Z"),
]
JOBS = [
    *PERSONS, op("folder.add", folder="courses"), op("group.add", group="courses:art"), *add("courses:art", "uni/cid"),
    op("job.list", job="nightly", folder="courses", source="uni", min_size=5, max_percent=50),
]
TABLE = "GROUP_NAME,SUBJECT_ID\ncourses:law,ann\ncourses:law,bob\ncourses:art,ann\ncourses:art,zed\nother,bob\n"
LOADS = [op("load", job="nightly", table=TABLE), op("members", group="courses:law"),
         op("load", job="nightly", table="SUBJECT_ID\nann\n"), op("load", job="nightly", table=TABLE[:-10]),
         op("admin")]


def posted(**command):
    return message("POST", "/requests", body=json.dumps(command).encode())


def trials():
    persons, jobs, reasons = made(PERSONS), made(JOBS), made(REASONS)
    return [
        Words("init", None, ["init"]),
        Lines("first commands", EMPTY, FIRST),
        Lines("nesting with a composite", persons, NESTING),
        Lines("dates that come", persons, DATES),
        Lines("loads by lines", jobs, LOADS),
        Words("load", jobs, ["load", "nightly"], TABLE.encode()),
        Words("check", jobs, ["check"]),
        Words("members", jobs, ["members", "courses:art"]),
        Words("history of no group", jobs, ["history", "courses:none"]),
        Words("why", reasons, ["why", "uni/ann", "active"]),
        Words("why as it was", reasons, ["why", "uni/bob", "active", "--at", "2026-01-02T00:00:00Z"]),
        Connections("two connections", jobs, [
            [posted(op="group.add", group="courses:new"), message("GET", "/groups/courses:art/members"),
             posted(op="member.add", group="courses:new", member="uni/bob")],
            [message("POST", "/jobs/nightly/load", body=TABLE.encode()), message("GET", "/groups/courses:law/members"),
             posted(op="group.add", group="courses:new")],
        ]),
    ]


class Tally:
    def __init__(self):
        self.runs, self.ended, self.lost, self.acknowledged, self.wrong = 0, 0, 0, 0, 0

    def take(self, trial, refusal, judge):
        """Makes a run and judges it."""
        self.runs += 1
        try:
            run = trial.run(refusal)
            found = judge(run)
        except (ValueError, OSError, subprocess.TimeoutExpired) as error:
            run, found = None, str(error)
        if found:
            self.wrong += 1
            print("WRONG: %s, %s: %s" % (trial.title, refusal, found))
            return run
        self.ended += run.status == 3
        self.lost += run.replies.count(MEMORY)
        self.acknowledged += sum(is_accepted(reply) for reply in run.replies if reply.startswith(b"{"))
        return run


def refuse_each(tally, trial, on):
    """Refuses each request for memory in turn; how many there are at most."""
    at = 1
    while True:
        run = tally.take(trial, Refusal(at=at, on=on), trial.judged)
        if run is None or run.requests < at:
            return at - 1
        at += 1


def finds(trial, replies, journal):
    """Whether the judge finds a run with ample memory wrong once these stand in place of its own."""
    run = trial.run(NONE)
    assert run.requests > 0, "the library isn't asked for memory"
    assert trial.judged(run) is None, trial.judged(run)
    run.replies, run.journal = replies or run.replies, journal or run.journal
    return trial.judged(run) is not None


def judges_are_strict(lines, load, connections):
    """The judges have to find wrong: a command that was lost, one that was answered that there was no memory and is
    kept, another reply."""
    for trial in (lines, load, connections):
        kept = frames_of(trial.run(NONE).journal)
        assert finds(trial, None, journal_of(kept[:-1])), "a lost command isn't found"
    told = lines.run(NONE).replies
    last = max(n for n, reply in enumerate(told) if is_accepted(reply))
    assert finds(lines, told[:last] + [MEMORY] + told[last + 1:], None), "a kept command isn't found"
    assert finds(lines, [told[0].replace(b"1", b"2")] + told[1:], None), "another reply isn't found"


tally, tried = Tally(), trials()
by_title = {trial.title: trial for trial in tried}
FAILING = [by_title[title] for title in ("first commands", "load", "two connections")]
judges_are_strict(*FAILING)
for trial in tried:
    alone, on = (refuse_each(tally, trial, on) for on in (False, True))
    print("%s: %d requests for memory, each refused; %d with all behind it" % (trial.title, alone, on), flush=True)
print("%d runs, of which %d ended with status 3; %d replies that there was no memory, %d acknowledged commands "
      "looked at; %d runs wrong" % (tally.runs, tally.ended, tally.lost, tally.acknowledged, tally.wrong))

syncs = Tally()
for trial in FAILING:
    # the first sync is the opening's
    for sync in range(2, trial.run(NONE).syncs + 1):
        for on in (False, True):
            syncs.take(trial, Refusal(sync=sync, on=on), trial.disk_judged)
print("%d runs in which a sync fails, %d wrong" % (syncs.runs, syncs.wrong))
sys.exit(1 if tally.wrong or syncs.wrong else 0)
PYTHON
