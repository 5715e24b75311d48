"""Runs the built program's `apply` over requests, for the benchmarks beside this file."""
import json
import os
import resource
import shutil
import subprocess
import threading
import time

SYSTEM = "g:isa/GrouperSystem"


def peak_of(process):
    """The most memory that the process has had resident so far, in kB, as Linux counts it."""
    try:
        with open("/proc/%d/status" % process.pid) as file:
            for line in file:
                if line.startswith("VmHWM:"):
                    return int(line.split()[1])
    except OSError:
        pass
    return 0


def encoded(request):
    return json.dumps({"by": SYSTEM, **request}, separators=(",", ":")).encode() + b"\n"


def feed(pipe, place, until, last):
    """Writes the lines of a file, waits for a moment, and writes one line more."""
    with open(place, "rb") as file:
        shutil.copyfileobj(file, pipe)
    pipe.flush()
    time.sleep(max(0.0, until - time.time()))
    pipe.write(encoded(last))
    pipe.close()


class Measured:
    """One run of a command over a file of input: its exit status, the seconds, those of a processor, and the peak in
    kB."""

    def __init__(self, words, into, out):
        start = resource.getrusage(resource.RUSAGE_CHILDREN)
        before = time.time()
        with open(into, "rb") as source, open(out, "wb") as sink:
            process = subprocess.Popen(words, stdin=source, stdout=sink)
            self.peak = 0
            while process.poll() is None:
                self.peak = max(self.peak, peak_of(process))
                time.sleep(0.002)
        self.status = process.returncode
        self.seconds = time.time() - before
        used = resource.getrusage(resource.RUSAGE_CHILDREN)
        self.processor = used.ru_utime + used.ru_stime - start.ru_utime - start.ru_stime


class Applied:
    """How many lines went in, the exit status, the replies, the seconds, those of a processor, the peak in kB, and the
    seconds that writing the lines to a file took. The program may be started no earlier than a moment, and a last
    line may come later, at another, both in seconds."""

    def __init__(self, program, journal, requests, place, begin=0, until=0, last=None):
        into, out = os.path.join(place, "lines"), os.path.join(place, "replies")
        self.count = 0 if last is None else 1
        before = time.time()
        with open(into, "wb") as file:
            for line in requests:
                file.write(encoded(line))
                self.count += 1
        start = resource.getrusage(resource.RUSAGE_CHILDREN)
        self.writing = time.time() - before
        time.sleep(max(0.0, begin - time.time()))
        before = time.time()
        with open(into, "rb") as source, open(out, "wb") as sink:
            given = source if last is None else subprocess.PIPE
            process = subprocess.Popen([program, journal, "apply"], stdin=given, stdout=sink)
            if last is not None:
                threading.Thread(target=feed, args=(process.stdin, into, until, last)).start()
            self.peak = 0
            while process.poll() is None:
                self.peak = max(self.peak, peak_of(process))
                time.sleep(0.02)
            self.status = process.returncode
        self.seconds = time.time() - before
        used = resource.getrusage(resource.RUSAGE_CHILDREN)
        self.processor = used.ru_utime + used.ru_stime - start.ru_utime - start.ru_stime
        with open(out) as file:
            self.replies = [json.loads(line) for line in file]
        self.accepted = sum("number" in reply for reply in self.replies)
