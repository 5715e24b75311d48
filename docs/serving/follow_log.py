#!/usr/bin/env python3
"""Keeps a mirror of the members of all groups, by the change log of a registry that is served.

    follow_log.py URL CONSUMER MIRROR [--every SECONDS] [--max ENTRIES] [--caller ENTITY] [--cacert F] [--cert F --key F]

Until it has caught up, or again and again. MIRROR is a file of JSON: under `groups` the members of each group by its
name, a line for each; under `place` the number of the entry up to which it goes. An entry shows present names, so it only
says where to look (docs/FOLLOWING.md): the lists that may have changed are read anew, MIRROR is replaced, and then the
consumer's place is acknowledged. Killed at any moment and started again, it goes on. Where MIRROR's place isn't the
consumer's, all is read anew: so it begins, and so it mends what it can't know. The consumer is made where it isn't there.
CONSUMER is this mirror's alone, and the caller has to be root. Each round that had something to do prints a line. A round
that fails is noted on standard error and tried again after the pause; without `--every` it ends with status 1."""
from __future__ import annotations

import argparse
import fcntl
import http.client
import json
import os
import ssl
import sys
import time
import urllib.parse
from typing import Any, Iterable, Optional, TextIO

Lists = dict[str, list[str]]
MEMBERS = ("member.begin", "member.end")
NAMES = ("folder", "group")
# a load, or a journal that is being opened, may keep the registry so long
SECONDS = 60


class Refused(Exception):
    """A request that the registry refused, or couldn't carry out."""

    def __init__(self, op: str, reply: Any) -> None:
        super().__init__("%s: %s" % (op, json.dumps(reply)))
        self.name = reply.get("refused")


FAILURES = (OSError, http.client.HTTPException, Refused)


class Registry:
    """A registry that is served. It answers one connection after another, so at its own port there is one for each
    message; a front end keeps one for a round."""

    def __init__(self, url: str, caller: str, cacert: Optional[str], cert: Optional[str], key: Optional[str]) -> None:
        place = urllib.parse.urlsplit(url)
        self.headers = {"X-Registry-Caller": caller, "Content-Type": "application/json"}
        self.connection: http.client.HTTPConnection
        if place.scheme == "https":
            context = ssl.create_default_context(cafile=cacert)
            if cert:
                context.load_cert_chain(cert, key)
            self.connection = http.client.HTTPSConnection(place.netloc, timeout=SECONDS, context=context)
        else:
            self.headers["Connection"] = "close"
            self.connection = http.client.HTTPConnection(place.netloc, timeout=SECONDS)

    def ask(self, op: str, **fields: Any) -> dict[str, Any]:
        """The reply to a request."""
        try:
            self.connection.request("POST", "/requests", json.dumps({"op": op, **fields}), self.headers)
            response = self.connection.getresponse()
            body = response.read()
        except BaseException:
            self.connection.close()
            raise
        try:
            reply = json.loads(body)
        except ValueError:
            # a front end without its registry, say
            reply = {"status": response.status}
        if not reply.get("ok"):
            raise Refused(op, reply)
        return reply

    def find(self, op: str, **fields: Any) -> Optional[dict[str, Any]]:
        """The reply to a question; None where what it names doesn't stand."""
        try:
            return self.ask(op, **fields)
        except Refused as refused:
            if refused.name == "NotFound":
                return None
            raise

    def close(self) -> None:
        self.connection.close()


def names_of_groups(registry: Registry) -> set[str]:
    """The names of all groups, folder by folder."""
    names, folders = set(), [":"]
    while folders:
        shown = registry.find("folder.list", folder=folders.pop())
        if shown:
            names.update(shown["groups"])
            folders.extend(shown["folders"])
    return names


def read_lists(registry: Registry, names: Iterable[str], groups: Lists) -> None:
    """Reads the members of these groups anew; one that doesn't stand any more is dropped."""
    for name in names:
        found = registry.find("members", group=name)
        if found:
            groups[name] = found["members"]
        else:
            groups.pop(name, None)


def at_or_below(name: str, tops: set[str]) -> bool:
    """Whether an object of this name is one of these, or stands below one."""
    parts = name.split(":")
    return any(":".join(parts[:count]) in tops for count in range(1, len(parts) + 1))


def groups_behind(registry: Registry, groups: Lists, entries: list[dict[str, Any]]) -> tuple[Lists, int]:
    """The lists behind these entries, and how many of them were read for it.

    Not all that is read is behind these entries alone: each list is the one of the moment at which it is read."""
    begun = {entry["object"] for entry in entries if entry["kind"] in MEMBERS}
    named = {entry["object"] for entry in entries if entry["kind"].split(".")[0] in NAMES}
    if named:
        names = names_of_groups(registry)
        # a name that stood before may be another group's now
        begun |= {name for name in names if name not in groups or at_or_below(name, named)}
    else:
        names = set(groups)
    kept = {name: members for name, members in groups.items() if name in names}
    # of a name that isn't among these an entry of a folder or a group is still to come, or has been
    wanted = begun & names
    read_lists(registry, wanted, kept)
    return kept, len(wanted)


class Mirror:
    """The file, and what it holds. Nothing is at no place."""

    def __init__(self, path: str, consumer: str) -> None:
        self.path, self.consumer = path, consumer
        self.place, self.groups = -1, Lists()
        if not os.path.exists(path):
            return
        try:
            with open(path, encoding="ascii") as file:
                held = json.load(file)
            if held["consumer"] == consumer:
                self.place, self.groups = held["place"], held["groups"]
        except (ValueError, KeyError, TypeError):
            sys.exit("%s is no mirror" % path)

    def replace(self, place: int, groups: Lists) -> None:
        """Writes the file beside, and puts it in place of the one before: a crash leaves one of the two."""
        lists = ("%s: %s" % (json.dumps(name), json.dumps(groups[name])) for name in sorted(groups))
        with open(self.path + ".new", "w", encoding="ascii") as file:
            file.write('{"consumer": %s, "place": %d, "groups": {\n' % (json.dumps(self.consumer), place))
            file.write(",\n".join(lists) + "\n}}\n")
            file.flush()
            os.fsync(file.fileno())
        os.replace(self.path + ".new", self.path)
        folder = os.open(os.path.dirname(os.path.abspath(self.path)), os.O_RDONLY)
        os.fsync(folder)
        os.close(folder)
        self.place, self.groups = place, groups


class Follower:
    """Brings a mirror up to the log, round by round."""

    def __init__(self, registry: Registry, mirror: Mirror, most: int) -> None:
        self.registry, self.mirror, self.most = registry, mirror, most

    def log(self, most: int) -> dict[str, Any]:
        return self.registry.ask("log", consumer=self.mirror.consumer, max=most)

    def first_log(self) -> dict[str, Any]:
        """The log behind the consumer's place. A consumer that isn't there is made, which root alone may."""
        try:
            return self.log(self.most)
        except Refused as refused:
            if refused.name != "NotFound":
                raise
        self.registry.ask("consumer.add", consumer=self.mirror.consumer)
        return self.log(self.most)

    def round(self) -> bool:
        """One look at the log, and all that follows from it: whether there was more."""
        shown = self.first_log()
        entries, place = shown["entries"], shown["place"]
        if place != self.mirror.place:
            seq, groups = shown["last"], Lists()
            read_lists(self.registry, names_of_groups(self.registry), groups)
            self.keep(place, seq, groups, "all read anew, lists %d" % len(groups))
            return False
        if not entries:
            return False
        seq = entries[-1]["seq"]
        groups, count = groups_behind(self.registry, self.mirror.groups, entries)
        self.keep(place, seq, groups, "entries %d, lists read %d" % (len(entries), count))
        return seq < shown["last"]

    def keep(self, place: int, seq: int, groups: Lists, told: str) -> None:
        """Replaces the mirror first, and acknowledges then."""
        # who isn't root any more has been told of groups as of what doesn't stand: that ends here
        self.log(1)
        self.mirror.replace(seq, groups)
        if seq > place:
            self.registry.ask("consumer.ack", consumer=self.mirror.consumer, seq=seq)
        print("place %d: %s" % (seq, told), flush=True)


def lock(path: str) -> TextIO:
    """Keeps a second follower from the mirror as long as this program runs."""
    file = open(path + ".lock", "w", encoding="ascii")
    try:
        fcntl.flock(file, fcntl.LOCK_EX | fcntl.LOCK_NB)
    except OSError:
        sys.exit("another program follows for this mirror")
    return file


def words() -> argparse.Namespace:
    found = argparse.ArgumentParser(description=__doc__.split("\n", 1)[0])
    found.add_argument("url", help="http://127.0.0.1:8080, say, or https://registry.example.org")
    found.add_argument("consumer")
    found.add_argument("mirror")
    found.add_argument("--every", type=float, help="seconds between two rounds; left out, it ends once it has caught up")
    found.add_argument("--max", type=int, default=1000, help="entries of the log at once, from 1 to 1,000")
    found.add_argument("--caller", default="g:isa/GrouperSystem", help="who asks; a front end puts its own client there")
    found.add_argument("--cacert", help="whom to trust for the front end's certificate")
    found.add_argument("--cert", help="the client's certificate")
    found.add_argument("--key", help="its key")
    asked = found.parse_args()
    url = urllib.parse.urlsplit(asked.url)
    if url.scheme not in ("http", "https") or not url.netloc:
        found.error("the URL is none of http or https")
    return asked


def main() -> None:
    asked = words()
    locked = lock(asked.mirror)
    registry = Registry(asked.url, asked.caller, asked.cacert, asked.cert, asked.key)
    follower = Follower(registry, Mirror(asked.mirror, asked.consumer), asked.max)
    while True:
        more = False
        try:
            more = follower.round()
        except FAILURES as failure:
            if asked.every is None:
                sys.exit(str(failure))
            print(failure, file=sys.stderr, flush=True)
        if more:
            continue
        if asked.every is None:
            break
        registry.close()
        time.sleep(asked.every)
    locked.close()


if __name__ == "__main__":
    main()
