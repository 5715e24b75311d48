#!/bin/sh
# Traces the writes, the syncs and the output of the built program once, while it does `init` and answers the lines of
# a worked example, of a removal with rules (crates/worked/data/rules.md). From the trace it makes images of the journal
# that a crash could leave at each event. Of the writes since the last sync, one is cut behind each of its bytes, and
# each of the others is there or not; a gate that was written last may be any byte; and until the folder was synced
# there may be no file. `check` opens each image, of equal ones once, and says how many commands it holds:
#
# - at least those whose replies were begun to be written by then, and at most one more;
# - no others than the first so many of the accepted ones, to the byte, and the last one's moment;
# - before `init` ended the image may be damaged too, and then `init` has to begin over it.
#
# At last one sync is left out of the trace, in two ways: of each something has to be found missing.
#
# It needs python3 and strace (Debian's package has it); without strace it says so, and ends with status 0. The images
# lie in memory. Prints how many events and images it tried. Ends with status 1 where a command is missing, or one is
# there that can't be.
#
#     bench/stops.sh
#
# PROGRAM names another program.
set -u
cd "$(dirname "$0")/.." || exit 1
program=${PROGRAM:-$(pwd)/crates/registry/out/registry}
[ -x "$program" ] || { echo "stops: no $program: run ./quickstart.sh first" >&2; exit 1; }
command -v strace > /dev/null || { echo "not tried: no strace"; exit 0; }
folder=$(mktemp -d -p /dev/shm 2> /dev/null || mktemp -d) || exit 1
trap 'rm -rf "$folder"' EXIT
python3 - "$program" "$folder" crates/worked/data/rules.md <<'PYTHON'
import datetime
import itertools
import json
import os
import re
import subprocess
import sys

program, folder, document = sys.argv[1:]
EXAMPLE = "Who loses a group by a rule may lose another by the next"
JOURNAL, IMAGE = folder + "/journal", folder + "/image"
HEADER = b"GRPREG2\n"
# what a call may do to the journal without changing it
READS = ("read", "pread64", "flock", "fstat", "newfstatat", "statx", "lseek", "fcntl", "close")


def worked_example():
    """The lines of the example, and the replies that are numbers, by their lines."""
    with open(document) as file:
        parts = file.read().split("\n## " + EXAMPLE + "\n")
    assert len(parts) == 2, "the example isn't there"
    sent, numbers = [], {}
    for line in parts[1].split("\n## ")[0].split("\n"):
        line = line.strip()
        if line.startswith("+ {"):
            sent.append('{"by":"g:isa/GrouperSystem",' + line[3:])
        elif line.startswith("ok "):
            numbers[len(sent) - 1] = '{"number":%s,"ok":true}' % line[3:]
        elif line.startswith("< ") and '"number":' in line and '"entries"' not in line:
            numbers[len(sent) - 1] = line[2:]
    return sent, numbers


class Write:
    def __init__(self, at, content):
        self.at, self.content = at, content


class Output:
    def __init__(self, content):
        self.content = content


class Sync:
    pass


class FolderSync:
    pass


class Ended:
    pass


def traced(words, sent):
    """The events of a run of the program over the journal."""
    trace = folder + "/trace"
    done = subprocess.run(["strace", "-f", "-xx", "-s", "1000000", "-o", trace, "-e", "trace=%desc,%file", program,
                           JOURNAL, *words], input=sent.encode(), stdout=subprocess.PIPE)
    if done.returncode != 0:
        sys.exit("the traced program ended with status %d" % done.returncode)
    with open(trace) as file:
        events = list(events_of(file))
    said = b"".join(event.content for event in events if isinstance(event, Output))
    assert said == done.stdout, "the trace lacks output"
    return [*events, Ended()]


def content_in(text):
    return bytes.fromhex("".join(re.findall(r'\\x(..)', text)))


def events_of(lines):
    """What the calls of a trace do to the journal, to its folder and to the output."""
    journal, listing = None, None
    for line in lines:
        call = re.match(r"\d+ +(\w+)\((.*)\) += (-?\d+)", line)
        if not call:
            assert "unfinished" not in line, "calls at the same time: " + line
            continue
        name, words, result = call[1], call[2], int(call[3])
        first = words.split(",")[0]
        path = content_in(words.split(",")[1]).decode() if name == "openat" and result >= 0 else None
        if path == JOURNAL:
            journal = result
        elif path == folder:
            listing = result
        elif path is not None or result < 0 or not first.isdigit():
            continue
        elif int(first) == journal:
            yield from journal_event(name, words, result)
        elif int(first) == listing and name == "fsync":
            yield FolderSync()
        elif int(first) == 1 and name == "write":
            yield Output(content_in(words)[:result])


def journal_event(name, words, result):
    if name == "pwrite64":
        yield Write(int(words.rsplit(",", 1)[1]), content_in(words)[:result])
    elif name in ("fdatasync", "fsync"):
        yield Sync()
    elif name not in READS:
        sys.exit("the journal is changed by %s, of which this bench knows nothing" % name)


def put(content, at, part):
    """The content with a part written at a place; what lies between its end and the place is 0."""
    if not part:
        return content
    content = content.ljust(at, b"\0")
    return content[:at] + part + content[at + len(part):]


def images(durable, writes):
    """What a crash may leave of these writes since the last sync."""
    for here in itertools.product((False, True), repeat=len(writes)):
        for torn, write in enumerate(writes):
            for count in range(len(write.content) + 1):
                image = durable
                for n, other in enumerate(writes):
                    if n == torn:
                        image = put(image, write.at, write.content[:count])
                    elif here[n]:
                        image = put(image, other.at, other.content)
                yield image
    if writes and len(writes[-1].content) == 1:
        for write in writes[:-1]:
            durable = put(durable, write.at, write.content)
        for gate in range(256):
            yield put(durable, writes[-1].at, bytes([gate]))
    if not writes:
        yield durable


def frames_of(journal):
    """The frames before the first closed gate."""
    at, frames = len(HEADER), []
    while journal[at] == 1:
        end = at + 5 + int.from_bytes(journal[at + 1:at + 5], "little")
        frames.append(journal[at:end])
        at = end
    return frames


def moment_of(frames):
    micros = int.from_bytes(frames[-1][5:13], "little") if frames else 0
    moment = datetime.datetime(1970, 1, 1) + datetime.timedelta(microseconds=micros)
    return moment.strftime("%Y-%m-%dT%H:%M:%S.%fZ")


class Images:
    """The images that were tried, with what `check` said of each."""

    def __init__(self):
        self.said = {}

    def run(self, *words):
        return subprocess.run([program, IMAGE, *words], stdout=subprocess.PIPE, stderr=subprocess.DEVNULL)

    def lay(self, image):
        if image is not None:
            with open(IMAGE, "wb") as file:
                file.write(image)
        elif os.path.exists(IMAGE):
            os.remove(IMAGE)

    def check(self, image):
        """How many commands an image holds, and the last one's moment; None where it is damaged."""
        if image not in self.said:
            self.lay(image)
            done = self.run("check")
            said = done.stdout.decode().split()
            self.said[image] = (int(said[1]), said[3]) if done.returncode == 0 else None
            if done.returncode not in (0, 7):
                sys.exit("check ends with status %d" % done.returncode)
        return self.said[image]

    def begins(self, image):
        """Whether `init` begins a journal over an image."""
        self.lay(image)
        return self.run("init").returncode == 0 and self.run("check").stdout.startswith(b"commands 0 ")


class Disk:
    """What the events up to some one did: what a crash leaves for sure, and the writes since the last sync."""

    def __init__(self):
        self.durable, self.writes, self.output = b"", [], b""
        self.has_begun = self.is_listed = False

    def take(self, event):
        if isinstance(event, Write):
            self.writes.append(event)
        elif isinstance(event, Output):
            self.output += event.content
        elif isinstance(event, FolderSync):
            self.is_listed = True
        elif isinstance(event, Ended):
            self.has_begun = True
        else:
            for write in self.writes:
                self.durable = put(self.durable, write.at, write.content)
            self.writes = []

    def images(self):
        """Each image that a crash may leave now, once. None is no file."""
        return {*images(self.durable, self.writes), *([] if self.is_listed else [None])}


class Trial:
    """A trace's events, and the frames of the journal that the run left."""

    def __init__(self, events, frames):
        self.events, self.frames = events, frames
        self.begun_over = set()

    def wrong_with(self, tried, image, answered, has_begun):
        """What is wrong with an image; None where nothing is."""
        found = tried.check(image)
        if found is None and not has_begun and answered == 0:
            if image in self.begun_over:
                return None
            self.begun_over.add(image)
            return None if tried.begins(image) else "init doesn't begin over it"
        if found is None:
            return "%d commands missing: the journal doesn't open" % answered
        count, moment = found
        if count < answered:
            return "%d commands missing" % (answered - count)
        if count > answered + 1 or frames_of(image) != self.frames[:count]:
            return "a command is there that can't be"
        return None if moment == moment_of(self.frames[:count]) else "the last moment is another one"

    def wrongs(self, tried, since=0):
        """What is wrong with the images at each event from one on."""
        disk = Disk()
        for n, event in enumerate(self.events):
            disk.take(event)
            if n < since:
                continue
            answered = self.answered(disk.output)
            for image in disk.images():
                wrong = self.wrong_with(tried, image, answered, disk.has_begun)
                if wrong:
                    yield "event %d, %s: %s" % (n + 1, type(event).__name__, wrong)

    def answered(self, output):
        """How many commands were answered with a number, with a reply of which a byte stands in the output."""
        whole = replies_in(self.events)
        begun = output.count(b"\n") + (output != b"" and not output.endswith(b"\n"))
        return sum("number" in json.loads(reply) for reply in whole[:begun])


def replies_in(events):
    return b"".join(event.content for event in events if isinstance(event, Output)).decode().split("\n")[:-1]


def without_sync(trial, back):
    """The trial without the sync that is so many back from the end, and the place where it was."""
    syncs = [n for n, event in enumerate(trial.events) if isinstance(event, Sync)]
    at = syncs[-back]
    return Trial(trial.events[:at] + trial.events[at + 1:], trial.frames), at


sent, numbers = worked_example()
events = traced(["init"], "") + traced(["apply"], "\n".join(sent) + "\n")
replies = replies_in(events)
assert len(replies) == len(sent) and all(replies[n] == reply for n, reply in numbers.items()), replies
with open(JOURNAL, "rb") as file:
    frames = frames_of(file.read())
assert len(frames) == len(numbers), "the journal holds other commands than were answered"

trial, tried = Trial(events, frames), Images()
wrongs = list(trial.wrongs(tried))
for wrong in wrongs[:20]:
    print("WRONG: " + wrong)
print("%d commands, %d events, %d images, of which %d are damaged and begun over; wrong at %d" % (
    len(frames), len(events), len(tried.said), len(trial.begun_over), len(wrongs)), flush=True)
unseen = 0
for back, title in ((1, "behind the last gate"), (2, "before it")):
    planted, since = without_sync(trial, back)
    found = list(planted.wrongs(Images(), since))
    unseen += not found
    print("without the sync %s: %d wrong, as %s" % (title, len(found), found[:1]))
sys.exit(1 if wrongs or unseen else 0)
PYTHON
