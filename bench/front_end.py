#!/usr/bin/env python3
"""Tries the front end of docs/serving/nginx.conf before a served registry: who calls is who has the certificate, whatever
the client says; a command from a page of another site, and one of another type, is refused and not carried out; a client
that sends half a message, and one that doesn't read a response of 6 MB, keep no other waiting; 200 clients at once are all
answered; a chunked body is taken, and one that is too long refused; where the registry breaks off, a question goes on to a
standby and a command doesn't; where a kept connection ends, a question is sent again, and no command goes over one. Each
answer is JSON that nobody stores. Then docs/serving/auditors.conf: an auditor reads as root, and nobody else and nothing else
gets through. Beside that, how long the same two slow clients keep others waiting at the registry's own port. It needs nginx,
openssl and PyYAML.
Build the program first (./quickstart.sh). PERSONS sets how many make the 6 MB."""
import json
import os
import shutil
import socket
import ssl
import sys
import tempfile
import threading
import time

from fronting import SERVING, FrontEnd
from http_examples import at, read
from serving import Answers, Server, ask, connect, free_port, message, needs_program, write_journal

sys.path.append(SERVING)
from client import Refused, Registry

PERSONS, CLIENTS, HELD = int(os.environ.get("PERSONS", 60000)), 200, 2.0
AT = "2025-09-01T08:00:00Z"
wrong, stored = [], []
CROSS_SITE, MEDIA_TYPE = (403, {"code": 41, "refused": "CrossSite"}), (415, {"code": 42, "refused": "MediaType"})
NO_CREDENTIALS, TOO_LONG = (401, {"code": 40, "refused": "NoCredentials"}), (413, {"code": 1, "limit": 8388608, "refused": "TooLong"})
UNREACHABLE, TIMEOUT = (502, {"fault": "unreachable"}), (504, {"fault": "timeout"})
JSON, OWN = "Content-Type: application/json", "Origin: https://localhost"


def commands():
    yield {"at": AT, "op": "subject.add", "subject": "uni/ann"}
    yield {"at": AT, "op": "folder.add", "folder": "own"}
    yield {"at": AT, "op": "grant.add", "object": "own", "privilege": "create", "holder": "uni/ann"}
    for group in ("small", "large"):
        yield {"at": AT, "op": "group.add", "group": group}
        yield {"at": AT, "op": "grant.add", "object": group, "privilege": "READ", "holder": "uni/ann"}
    for n in range(PERSONS):
        person = "u" * 32 + "/" + "%064d" % n
        yield {"at": AT, "op": "subject.add", "subject": person}
        yield {"at": AT, "op": "member.add", "group": "large", "member": person}


def expect(title, found, wanted):
    if found != wanted:
        wrong.append(title)
    print("%-60s %s" % (title, "as wanted" if found == wanted else "%r and not %r" % (found, wanted)))


def told(response):
    """The status and the reply of a response, which has to be JSON that isn't stored."""
    if (response.fields.get("Content-Type"), response.fields.get("Cache-Control")) != ("application/json", "no-store"):
        stored.append(response.bytes[:300])
    return response.status, json.loads(response.body)


def slow_reader(conn, sent):
    """Asks for much, and reads none of it."""
    conn.setsockopt(socket.SOL_SOCKET, socket.SO_RCVBUF, 4096)
    conn.sendall(sent)
    return conn


def slow_sender(conn, sent):
    """Sends a part of a message, and then nothing."""
    conn.sendall(sent[:len(sent) // 2])
    return conn


def held(conn, asks):
    """How long another client waits while this connection stands open, for so long at most."""
    time.sleep(0.3)
    before = time.perf_counter()
    closing = threading.Timer(HELD, conn.close)
    closing.start()
    asks()
    waited = time.perf_counter() - before
    closing.cancel()
    conn.close()
    return waited


def try_slow(title, opened, asks):
    waited = held(opened, asks)
    print("%-60s another waits %.3f seconds" % (title, waited))
    return waited


def try_many(front, sent, body):
    """Many clients at once, each message over a connection of its own: how many messages had which answer."""
    found = []

    def client():
        for _ in range(5):
            try:
                response = front.ask(sent)
                if response is None:
                    found.append("ended")
                else:
                    found.append("right" if (response.status, response.body) == (200, body) else response.status)
            except (OSError, ValueError) as fault:
                found.append(type(fault).__name__)

    threads = [threading.Thread(target=client) for _ in range(CLIENTS)]
    for thread in threads:
        thread.start()
    for thread in threads:
        thread.join()
    return {answer: found.count(answer) for answer in found}


def try_callers(front):
    small = front.message("GET", "/groups/small/members")
    members = (200, {"members": [], "ok": True})
    expect("the certificate's person is the caller", told(front.ask(small)), members)
    forged = small[:-2] + b"X-Registry-Caller: g:isa/GrouperSystem\r\nX-REGISTRY-CALLER: uni/bob\r\n\r\n"
    expect("a caller that the client names is ignored", told(front.ask(forged)), members)
    body = b'{"op":"group.add","group":"mine"}'
    denied = (403, {"code": 7, "object": ":", "privilege": "create", "refused": "Denied"})
    fields = ["X-Registry-Caller: g:isa/GrouperSystem", JSON]
    expect("and may do nothing by it", told(front.ask(front.message("POST", "/requests", fields, body))), denied)
    coded = front.message("GET", "/subjects/uni%2Fann/groups")
    expect("a path reaches the registry as it came", told(front.ask(coded)), (200, {"groups": [], "ok": True}))
    chunked = b"%x\r\n%s\r\n0\r\n\r\n" % (len(body), body)
    sent = front.message("POST", "/requests", [JSON, "Transfer-Encoding: chunked"]) + chunked
    expect("a chunked body reaches the registry", told(front.ask(sent)), denied)
    sent = front.message("POST", "/requests", [JSON, "Content-Length: 8388609"])
    expect("a body that is too long is refused", told(front.ask(sent)), TOO_LONG)
    no_caller = (403, {"code": 5, "refused": "NoCaller"})
    expect("an organisation's name names no caller", told(front.ask(small, "carl")), no_caller)
    response = front.ask(small, None)
    expect("who has neither certificate nor password is refused", told(response), NO_CREDENTIALS)
    expect("and asked for a password", response.fields.get("WWW-Authenticate"), 'Basic realm="registry"')


def try_sites(front):
    """What a page of another site may send, and what isn't: each a group of its own, of which those alone are made that the
    front end let through."""
    cases = [
        ("another site's page", ["Origin: https://elsewhere.example", JSON], CROSS_SITE),
        ("a page without an origin", ["Origin: null", JSON], CROSS_SITE),
        ("the own origin with a further port", [OWN + ":8443", JSON], CROSS_SITE),
        ("the own origin without TLS", ["Origin: http://localhost", JSON], CROSS_SITE),
        ("Sec-Fetch-Site: cross-site", ["Sec-Fetch-Site: cross-site", JSON], CROSS_SITE),
        ("Sec-Fetch-Site: same-site, the own origin", ["Sec-Fetch-Site: same-site", OWN, JSON], CROSS_SITE),
        ("no Content-Type", [], MEDIA_TYPE),
        ("Content-Type: text/plain", ["Content-Type: text/plain;application/json"], MEDIA_TYPE),
        ("a form", ["Content-Type: application/x-www-form-urlencoded", OWN], MEDIA_TYPE),
        ("Content-Type: application/jsonp", ["Content-Type: application/jsonp"], MEDIA_TYPE),
        ("no field but JSON's", [JSON + "; charset=utf-8"], None),
        ("the own page", [OWN, "Sec-Fetch-Site: same-origin", JSON], None),
        ("Sec-Fetch-Site: none", ["Sec-Fetch-Site: none", JSON], None),
    ]
    made = []
    for n, (title, fields, wanted) in enumerate(cases):
        body = b'{"op":"group.add","group":"own:g%d"}' % n
        status, reply = told(front.ask(front.message("POST", "/requests", fields, body)))
        expect("POST, " + title, (status, reply) if wanted else status, wanted or 200)
        if not wanted:
            made.append("own:g%d" % n)
    listed = (200, {"attributes": [], "definitions": [], "folders": [], "groups": made, "ok": True})
    foreign = front.message("GET", "/folders/own", ["Origin: https://elsewhere.example", "Sec-Fetch-Site: cross-site"])
    expect("a question is answered, and those groups alone stand", told(front.ask(foreign)), listed)
    table = front.message("POST", "/jobs/nightly/load", ["Content-Type: text/csv"], b"SUBJECT_ID\n")
    expect("a table reaches the registry", told(front.ask(table)), (404, {"code": 6, "object": "nightly", "refused": "NotFound"}))


class Breaking:
    """A server that answers so many messages of each connection, takes one more, waits, and ends the connection without an
    answer: how many messages it had."""

    def __init__(self, seconds=0.0, answered=0):
        self.seconds, self.answered, self.count = seconds, answered, 0
        self.socket = socket.create_server(("127.0.0.1", 0))
        self.port = self.socket.getsockname()[1]
        threading.Thread(target=self.run, daemon=True).start()

    def run(self):
        while True:
            conn, _ = self.socket.accept()
            threading.Thread(target=self.serve, args=(conn,), daemon=True).start()

    def serve(self, conn):
        with conn:
            for _ in range(self.answered):
                if not self.takes(conn):
                    return
                conn.sendall(b"HTTP/1.1 200 OK\r\nContent-Type: application/json\r\nContent-Length: 12\r\n\r\n{\"ok\":true}\n")
            if self.takes(conn):
                time.sleep(self.seconds)

    def takes(self, conn):
        taken = conn.recv(1 << 16) != b""
        self.count += taken
        return taken


def try_faults(folder, standby):
    """What the front end says of a registry that isn't there, breaks off, or is late."""
    body = b'{"op":"group.add","group":"own:once"}'
    with FrontEnd(folder, free_port()) as front:
        post = front.message("POST", "/requests", [JSON], body)
        small = front.message("GET", "/groups/small/members")
        expect("no registry", told(front.ask(small)), UNREACHABLE)
    breaking, slow, kept = Breaking(), Breaking(5.0), Breaking(answered=1)
    with FrontEnd(folder, breaking.port, (standby, free_port())) as front:
        members = (200, {"members": [], "ok": True})
        expect("the registry breaks off, and a standby answers", told(front.ask(small)), members)
        expect("a command isn't sent to it", told(front.ask(post)), UNREACHABLE)
        expect("nor twice to the registry", breaking.count, 2)
    with FrontEnd(folder, kept.port) as front, front.connect() as conn:
        answers, fine = Answers(conn), (200, {"ok": True})
        for sent, title in ((small, "a question opens a connection, which is kept"), (small, "it ends, and the question is sent again"),
                            (post, "a command opens its own"), (post, "which isn't kept")):
            conn.sendall(sent)
            expect(title, told(answers.next()), fine)
        expect("each command was sent once", kept.count, 5)
    with FrontEnd(folder, slow.port, changes=[("proxy_read_timeout 60s", "proxy_read_timeout 1s")]) as front:
        expect("the registry is late", told(front.ask(post)), TIMEOUT)
        expect("a command is sent once", slow.count, 1)


def try_auditors(folder, standby):
    with FrontEnd(folder, standbys=(free_port(), standby), config="auditors.conf") as front:
        admin, forged = front.message("GET", "/admin"), ["X-Registry-Caller: g:isa/GrouperSystem"]
        nothing = (200, {"consumers": [], "gone": [], "jobs": [], "ok": True, "rules": []})
        expect("an auditor asks what root alone may", told(front.ask(admin, "dora")), nothing)
        no_caller, no_method = (403, {"code": 5, "refused": "NoCaller"}), (405, {"code": 31, "refused": "NoMethod"})
        expect("Ann doesn't", told(front.ask(front.message("GET", "/admin", forged), "ann")), no_caller)
        expect("an organisation's name names no auditor", told(front.ask(admin, "carl")), no_caller)
        with front.connect(None) as conn:
            conn.sendall(admin)
            expect("nor does who has no certificate", Answers(conn).next().status, 400)
        for method in ("POST", "PUT", "DELETE", "PATCH", "OPTIONS"):
            sent = front.message(method, "/requests", [JSON], b'{"op":"group.add","group":"audit"}')
            expect("an auditor's %s is refused" % method, told(front.ask(sent, "dora")), no_method)


def try_client(front):
    context = ssl.create_default_context(cafile=front.folder + "/server.pem")
    anonymous = Registry("https://localhost:%d" % front.port, context)
    try:
        found = anonymous.admin()
    except Refused as refused:
        found = refused.status, refused.reply
    expect("client.py without a certificate", found, NO_CREDENTIALS)
    context.load_cert_chain(front.folder + "/ann.pem", front.folder + "/ann.key")
    ann = Registry("https://localhost:%d" % front.port, context)
    expect("client.py asks", ann.members("small"), {"members": [], "ok": True})
    expect("client.py commands", ann.request({"op": "group.add", "group": "own:client"})["ok"], True)


def replies(document, operation, status):
    """What the responses of an operation with a status may say in place of an answer."""
    schema = at(document, operation["responses"].get(str(status), {}))["content"]["application/json"]["schema"]
    found = [at(document, each)["properties"] for each in schema.get("oneOf", [schema])]
    return [word for each in found for word in each.get("refused", each.get("fault"))["enum"]]


def try_listed():
    """Whether openapi.yaml has what the front end answers itself at each operation."""
    document = read("openapi.yaml")
    for path, methods in document["paths"].items():
        for method, operation in methods.items():
            own = [NO_CREDENTIALS, TOO_LONG, UNREACHABLE, TIMEOUT] + ([CROSS_SITE, MEDIA_TYPE] if method == "post" else [])
            for status, reply in own:
                word = reply.get("refused", reply.get("fault"))
                if word not in replies(document, operation, status):
                    expect("%s %s lists %d" % (method, path, status), "no " + word, word)


def main():
    needs_program()
    with tempfile.TemporaryDirectory() as folder:
        journal = os.path.join(folder, "journal")
        write_journal(journal, commands())
        with Server(journal) as server, FrontEnd(folder, server.port) as front:
            try_callers(front)
            try_sites(front)
            try_client(front)
            small, large = front.message("GET", "/groups/small/members"), front.message("GET", "/groups/large/members")
            first = front.ask(small)
            whole = front.ask(large)
            expect("the large response is whole", (whole.status, len(json.loads(whole.body)["members"])), (200, PERSONS))
            post = front.message("POST", "/requests", [JSON, "Content-Length: 1000"])
            waits = [try_slow("front end, one sends half a message", slow_sender(front.connect(), post), lambda: front.ask(small)),
                     try_slow("front end, one reads nothing of %d bytes" % len(whole.body), slow_reader(front.connect(), large), lambda: front.ask(small))]
            expect("neither keeps others waiting", max(waits) < HELD / 2, True)
            plain, much = message("GET", "/groups/small/members"), message("GET", "/groups/large/members")
            try_slow("the registry's own port, one sends half a message", slow_sender(connect(server.port), plain), lambda: ask(server.port, plain))
            try_slow("the registry's own port, one reads nothing", slow_reader(connect(server.port), much), lambda: ask(server.port, plain))
            expect("%d clients at once, each asks 5 times" % CLIENTS, try_many(front, small, first.body), {"right": CLIENTS * 5})
        copy = shutil.copyfile(journal, os.path.join(folder, "copy"))
        with Server(copy) as standby:
            try_faults(folder, standby.port)
            try_auditors(folder, standby.port)
        try_listed()
        expect("each answer is JSON that nobody stores", stored, [])
    sys.exit(1 if wrong else 0)


if __name__ == "__main__":
    main()
