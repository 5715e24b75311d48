#!/usr/bin/env python3
"""Sends every example of docs/openapi.yaml to the running server, in the order in which they stand, over one connection,
and then every message of docs/serving/messages.yaml, each over its own; compares each response to the byte. Then plays the
examples through docs/serving/client.py to a server of its own, and compares each reply. Fails on any difference. Build the
program first (./quickstart.sh). It needs PyYAML (Debian: python3-yaml)."""
import json
import os
import re
import sys
import tempfile
import urllib.parse

import yaml

from serving import Answers, Server, commands_in, connect, message, needs_program, write_journal

DOCS = os.path.join(os.path.dirname(os.path.dirname(os.path.abspath(__file__))), "docs")
sys.path.append(os.path.join(DOCS, "serving"))
from client import Refused, Registry


def read(name):
    with open(os.path.join(DOCS, name)) as file:
        return yaml.safe_load(file)


def at(document, value):
    """The value, or what it refers to."""
    while "$ref" in value:
        found = document
        for part in value["$ref"].split("/")[1:]:
            found = found[part]
        value = found
    return value


def compact(value):
    """The text of a reply: ascending keys, and nothing between them."""
    return json.dumps(value, sort_keys=True, separators=(",", ":"), ensure_ascii=False).encode() + b"\n"


def body_of(operation):
    """The type of an operation's body, and what is said of it; None where it has no body."""
    if "requestBody" not in operation:
        return None
    ((kind, media),) = operation["requestBody"]["content"].items()
    return kind, media


class Example:
    """An example of an operation: what is sent, and what has to come back."""

    def __init__(self, document, path, method, operation, name, status, reply):
        self.title = "%s %s, %s" % (method.upper(), path, name)
        self.status, self.reply = int(status), compact(reply)
        self.call, self.arguments, self.fields = operation["operationId"], {}, {}
        target, query, caller = path, [], None
        for parameter in (at(document, p) for p in operation["parameters"]):
            value = parameter.get("examples", {}).get(name, {}).get("value")
            if value is None:
                value = at(document, parameter["schema"]).get("example")
            if parameter["in"] == "path":
                target = target.replace("{%s}" % parameter["name"], urllib.parse.quote(value, safe=""))
            elif parameter["in"] == "query" and value is not None:
                query.append((parameter["name"], value))
            elif parameter["in"] == "header":
                caller = value
                self.fields = {parameter["name"]: value}
            if parameter["in"] != "header":
                self.arguments[parameter["name"]] = value
        body = None
        if body_of(operation):
            kind, media = body_of(operation)
            value = media["examples"][name]["value"]
            body = (json.dumps(value) if kind == "application/json" else value).encode()
            self.arguments["request" if kind == "application/json" else "table"] = value if kind == "application/json" else body
        if query:
            target += "?" + urllib.parse.urlencode(query)
        self.sent = message(method.upper(), target, caller, body)


def named(operation):
    """The names of an operation's examples, in the order in which they stand."""
    if body_of(operation):
        return list(body_of(operation)[1]["examples"])
    names = []
    for response in operation["responses"].values():
        for media in response.get("content", {}).values():
            names += media.get("examples", {})
    return names


def examples_of(document):
    for path, methods in document["paths"].items():
        for method, operation in methods.items():
            replies = {}
            for status, response in operation["responses"].items():
                for media in response.get("content", {}).values():
                    for name, example in media.get("examples", {}).items():
                        if name in replies:
                            sys.exit("%s %s has two replies to %s" % (method, path, name))
                        replies[name] = status, example["value"]
            for name in named(operation):
                yield Example(document, path, method, operation, name, *replies.pop(name))
            if replies:
                sys.exit("%s %s has replies to no request: %s" % (method, path, ", ".join(replies)))


def beginning(document):
    """The commands that the examples begin with; one with `times` stands for so many."""
    for command in document["x-begin"]:
        for n in range(1, command.get("times", 1) + 1):
            yield {key: value.replace("{n}", str(n)) for key, value in command.items() if key != "times"}


def ask(answers, example):
    """What differs in the response to an example, or None."""
    answers.conn.sendall(example.sent)
    response = answers.next()
    if response is None:
        return "the connection ended"
    fields = {"Content-Type": "application/json", "Content-Length": str(len(example.reply))}
    wanted = ("HTTP/1.1", example.status, fields, example.reply)
    found = (response.version, response.status, response.fields, response.body)
    return None if found == wanted else "wanted %r\n  found  %r" % (wanted, found)


def play(port, example):
    """What differs in what the client gives of an example, or None."""
    registry = Registry("http://127.0.0.1:%d" % port, fields=example.fields)
    try:
        found = 200, getattr(registry, example.call)(**example.arguments)
    except Refused as refused:
        found = refused.status, refused.reply
    wanted = example.status, json.loads(example.reply)
    return None if found == wanted else "wanted by the client %r\n  found  %r" % (wanted, found)


def exchange(port, sent, ends):
    """What comes back to bytes, up to a whole response, or to the connection's end where it ends by itself."""
    with connect(port) as conn:
        conn.sendall(sent)
        answers = Answers(conn)
        if ends:
            while answers.more():
                pass
            return answers.bytes
        while not re.search(rb"\r\n\r\n.*\n$", answers.bytes, re.S):
            if not answers.more():
                return answers.bytes + b" and the connection ended"
        return answers.bytes


def main():
    needs_program()
    document, messages = read("openapi.yaml"), read("serving/messages.yaml")["messages"]
    wrong = count = 0
    with tempfile.TemporaryDirectory() as folder:
        journal = os.path.join(folder, "journal")
        commands = list(beginning(document))
        write_journal(journal, commands)
        if commands_in(journal) != len(commands):
            sys.exit("the journal that the examples begin with doesn't open to its commands")
        with Server(journal) as server:
            with connect(server.port) as conn:
                answers = Answers(conn)
                for count, example in enumerate(examples_of(document), 1):
                    differs = ask(answers, example)
                    if differs:
                        wrong += 1
                        print("%s:\n  %s" % (example.title, differs))
            for raw in messages:
                sent = re.sub(r"\{(\d+) ([^}])\}", lambda m: m[2] * int(m[1]), raw["send"]).encode("latin-1")
                found = exchange(server.port, sent, raw.get("closes", False))
                if found != raw["back"].encode():
                    wrong += 1
                    print("%s\n  wanted %r\n  found  %r" % (raw["says"], raw["back"].encode(), found))
        write_journal(journal, commands)
        with Server(journal) as server:
            for played, example in enumerate(examples_of(document), 1):
                differs = play(server.port, example)
                if differs:
                    wrong += 1
                    print("%s:\n  %s" % (example.title, differs))
    print("%d examples and %d messages sent, %d examples played by the client, %d answered otherwise" % (
        count, len(messages), played, wrong))
    sys.exit(1 if wrong or not count else 0)


if __name__ == "__main__":
    main()
