#!/usr/bin/env python3
"""Keeps the members of the groups that a person of the registry may READ in an LDAP server (docs/PROVISIONING.md).

    provision.py JOURNAL CONSUMER SUBJECT BASE SPOOL [--max N] -- WORDS OF ldapmodify

Runs `registry JOURNAL provision CONSUMER SUBJECT N` again and again until the consumer's place doesn't move, and has
`ldapmodify` carry out its lines. Group 7 is the groupOfNames cn=g7,ou=groups,BASE, and uni/ann in it the member
uid=uni/ann,ou=people,BASE. Such a group is never empty, so cn=nobody,BASE is in each. BASE is ASCII, and has ou=groups.

Killed at any moment and started again, it goes on. The word writes into SPOOL, where each write is on the disk before the
consumer's place moves, and the word alone moves it. What stands in SPOOL is carried out, from its first line on, before
the word runs again: to do a batch twice, or a part of it and then all, is harmless. SPOOL stays locked also by what a
killed run left running, and is waited for.

The program is `registry`, or what PROGRAM names. Ends with status 1 where it or the server fails."""
from __future__ import annotations

import argparse
import fcntl
import itertools
import json
import os
import re
import subprocess
import sys
import tempfile
from typing import Any, Iterable, Iterator, Optional

Line = dict[str, Any]
# how many operations one `ldapmodify` has
PIECE = 1000
# what the server says where a group, or a member, is there already, and where a member isn't
ENTRY_EXISTS, VALUE_EXISTS, NO_SUCH_VALUE = 68, 20, 16


class Failed(Exception):
    """The server, or the program that speaks with it, didn't do what it was told."""


def escaped(text: str) -> str:
    """A text as the value of a DN's part."""
    return re.sub(rb"[^A-Za-z0-9/._@-]", lambda found: b"\\%02x" % found[0][0], text.encode()).decode()


class Target:
    """The groups of an LDAP server below a base."""

    def __init__(self, base: str, words: list[str], spool: int) -> None:
        self.base, self.words, self.spool = base, words, spool

    def group(self, number: int) -> str:
        return "dn: cn=g%d,ou=groups,%s\n" % (number, self.base)

    def entry(self, number: int) -> str:
        """The record that makes a group with nobody in it."""
        return "%schangetype: add\nobjectClass: groupOfNames\ncn: g%d\nmember: cn=nobody,%s\n\n" % (
            self.group(number), number, self.base)

    def change(self, line: Line) -> str:
        """The record of an operation."""
        what = {"add": "add", "remove": "delete"}[line["do"]]
        member = "uid=%s,ou=people,%s" % (escaped(line["subject"]), self.base)
        return "%schangetype: modify\n%s: member\nmember: %s\n-\n\n" % (self.group(line["group"]), what, member)

    def send(self, records: Iterable[str], harmless: set[int]) -> None:
        """Has these records carried out one after another; some failures of a record are none."""
        with tempfile.TemporaryFile("w+", encoding="ascii") as file:
            # whole before it is read: of a record that is cut off a wrong member might be made
            file.writelines(records)
            file.seek(0)
            done = subprocess.run(["ldapmodify", "-c", *self.words], stdin=file, stdout=subprocess.DEVNULL,
                                  stderr=subprocess.PIPE, pass_fds=[self.spool])
        told = {int(code) for code in re.findall(rb"^ldap_\w+: .* \((-?\d+)\)$", done.stderr, re.MULTILINE)}
        if (told | {done.returncode}) - harmless - {0}:
            raise Failed("ldapmodify: status %d\n%s" % (done.returncode, done.stderr.decode(errors="replace")))

    def carry_out(self, lines: list[Line]) -> None:
        """Does these operations. Each may be done already."""
        groups = sorted({line["group"] for line in lines})
        if lines:
            self.send(map(self.entry, groups), {ENTRY_EXISTS})
            self.send(map(self.change, lines), {VALUE_EXISTS, NO_SUCH_VALUE})


class Spool:
    """The file into which the word writes. This program has it alone."""

    def __init__(self, path: str) -> None:
        self.path = path
        self.file = os.open(path, os.O_RDWR | os.O_CREAT | os.O_DSYNC, 0o600)
        fcntl.flock(self.file, fcntl.LOCK_EX)
        folder = os.open(os.path.dirname(os.path.abspath(path)), os.O_RDONLY)
        os.fsync(folder)
        os.close(folder)

    def lines(self) -> Iterator[Line]:
        """What stands in it; a last line that is cut short is none."""
        with open(self.path, encoding="ascii") as file:
            yield from (json.loads(line) for line in file if line.endswith("\n"))

    def replace(self, text: str) -> None:
        os.ftruncate(self.file, 0)
        os.lseek(self.file, 0, os.SEEK_SET)
        os.write(self.file, text.encode())

    def settle(self, target: Target) -> Optional[Line]:
        """Carries out what stands in it. Tells the word's last line, which stays, if it came so far."""
        last: Optional[Line] = None
        lines = self.lines()
        while piece := list(itertools.islice(lines, PIECE)):
            target.carry_out([line for line in piece if "do" in line])
            last = piece[-1]
        told = None if last is None or "do" in last else last
        self.replace("" if told is None else json.dumps(told) + "\n")
        return told

    def fill(self, words: list[str]) -> int:
        """Runs the word, and tells its status."""
        self.replace("")
        return subprocess.run(words, stdin=subprocess.DEVNULL, stdout=self.file).returncode


def words() -> argparse.Namespace:
    found = argparse.ArgumentParser(description=__doc__.split("\n", 1)[0])
    for name in ("journal", "consumer", "subject", "base", "spool"):
        found.add_argument(name)
    found.add_argument("--max", type=int, default=100000, help="entries of the change log that a batch goes through")
    found.add_argument("ldapmodify", nargs="+", help="behind --: where the server is, and who speaks with it")
    return found.parse_args()


def main() -> None:
    asked = words()
    spool = Spool(asked.spool)
    target = Target(asked.base, asked.ldapmodify, spool.file)
    word = [os.environ.get("PROGRAM", "registry"), asked.journal, "provision", asked.consumer, asked.subject, str(asked.max)]
    before = spool.settle(target)
    while True:
        status = spool.fill(word)
        now = spool.settle(target)
        if status != 0 or now is None:
            raise Failed("%s: status %d, %s" % (" ".join(word), status, json.dumps(now)))
        if now == before:
            break
        before = now


if __name__ == "__main__":
    try:
        main()
    except (OSError, Failed) as failure:
        sys.exit(str(failure))
