#!/usr/bin/env python3
"""Runs `rt ci NAME` for each crate of a copy of the repository, several beside one another, each once those below it
passed, and of those that may begin first the one behind which the most waits. What passes is kept for all copies.

    bench/chain.py COPY [--jobs N] [--hold CRATE..]

A copy without the folders must-fail tries no edits. Crates that are held, and those above them, wait until they are
named in a line of standard input, as when another session has them ready. Prints a line as each begins and ends; a
log of each is COPY.log/NAME. Ends with status 1 where one failed.
"""
import argparse
import functools
import os
import re
import selectors
import subprocess
import sys
import time


def crates_of(copy: str) -> dict[str, list[str]]:
    """Each crate with those of the repository that it uses."""
    used: dict[str, list[str]] = {}
    with open(f"{copy}/crates.txt", encoding="utf-8") as file:
        for line in file:
            name, colon, names = line.split("#")[0].partition(":")
            if colon:
                used[name.split()[0]] = names.split()
    return {name: [it for it in names if it in used] for name, names in used.items()}


def costs_of(copy: str) -> dict[str, int]:
    """The seconds of each crate by docs/GATE.md."""
    with open(f"{copy}/docs/GATE.md", encoding="utf-8") as file:
        return {name: int(cost.replace(",", "")) for name, cost in re.findall(r"`(\w+)` (?:some )?([\d,]+)", file.read())}


def told(message: str) -> None:
    print(time.strftime("%H:%M:%S"), message, flush=True)


def main() -> int:
    words = argparse.ArgumentParser(usage="bench/chain.py COPY [--jobs N] [--hold CRATE..]")
    words.add_argument("copy")
    words.add_argument("--jobs", type=int, default=os.cpu_count() or 2)
    words.add_argument("--hold", nargs="*", default=[])
    given = words.parse_args()
    used, costs = crates_of(given.copy), costs_of(given.copy)
    above = {name: [it for it in used if name in used[it]] for name in used}

    @functools.cache
    def behind(name: str) -> int:
        return costs.get(name, 200) + max((behind(it) for it in above[name]), default=0)

    held, left, done, failed = set(given.hold), set(used), set(), set()
    running: dict[str, tuple[subprocess.Popen, float]] = {}
    os.makedirs(f"{given.copy}.log", exist_ok=True)
    input_ready = selectors.DefaultSelector()
    if held:
        input_ready.register(sys.stdin, selectors.EVENT_READ)
    while running or any(not set(used[it]) & failed for it in left):
        for name, (process, began) in list(running.items()):
            if process.poll() is not None:
                del running[name]
                (failed if process.returncode else done).add(name)
                told(f"{name} {'failed' if process.returncode else 'passed'} after {time.time() - began:.0f} s")
        ready = [it for it in left if it not in held and set(used[it]) <= done]
        for name in sorted(ready, key=behind, reverse=True)[: max(0, given.jobs - len(running))]:
            left.discard(name)
            with open(f"{given.copy}.log/{name}", "w", encoding="utf-8") as log:
                running[name] = subprocess.Popen(["rt", "ci", name], cwd=given.copy, stdout=log,
                                                 stderr=subprocess.STDOUT, start_new_session=True), time.time()
            told(f"{name} begins")
        if not running and not ready and not (left & held):
            break
        if input_ready.get_map() and input_ready.select(1):
            line = sys.stdin.readline()
            held -= set(line.split())
            if not line:
                input_ready.unregister(sys.stdin)
        elif not input_ready.get_map():
            time.sleep(1)
    for name in sorted(left):
        told(f"{name} wasn't tried")
    return 1 if failed or left else 0


if __name__ == "__main__":
    sys.exit(main())
