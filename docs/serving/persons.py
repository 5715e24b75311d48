#!/usr/bin/env python3
"""Adds the persons of a table to the registry: CSV with a header that has SUBJECT_ID and NAME, on standard input.

    persons.py SOURCE < people.csv | registry journal apply      # lines for `apply`, by GrouperSystem
    persons.py SOURCE http://127.0.0.1:8080 < people.csv         # to the port of a registry, by client.py beside this file

A person that stands already is Taken, and keeps its display text. With a URL every other refusal is printed, and the program
ends with status 1 where there was one."""
from __future__ import annotations

import csv
import json
import sys
from typing import Iterator

from client import Refused, Registry

SYSTEM = "g:isa/GrouperSystem"


def requests(source: str) -> Iterator[dict[str, str]]:
    for record in csv.DictReader(sys.stdin):
        yield {"op": "subject.add", "subject": source + "/" + record["SUBJECT_ID"], "display": record["NAME"]}


def send(source: str, url: str) -> int:
    registry, refusals = Registry(url, fields={"X-Registry-Caller": SYSTEM}), 0
    for request in requests(source):
        try:
            registry.request(request)
        except Refused as refused:
            if refused.reply.get("refused") != "Taken":
                refusals += 1
                print(request["subject"], refused.reply)
    return refusals


def main() -> None:
    if len(sys.argv) not in (2, 3):
        sys.exit(__doc__)
    sys.stdin.reconfigure(encoding="utf-8-sig", newline="")  # type: ignore[union-attr]
    if len(sys.argv) == 3:
        sys.exit(1 if send(*sys.argv[1:]) else 0)
    for request in requests(sys.argv[1]):
        print(json.dumps({"by": SYSTEM, **request}))


if __name__ == "__main__":
    main()
