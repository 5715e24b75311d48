#!/usr/bin/env python3
"""Sends 10,000 hostile messages to the running server: random bytes, random bytes behind a real beginning, and real messages
with bytes changed, taken out, put in or cut off; alone or several over one connection, in pieces that are cut at random,
ended by shutting the writing side, by closing at once, or by a reset. The server has to answer a plain question as before
after every hundred, each response has to be a whole one of a status that the registry gives, and in the end the journal's
bytes have to be those from before: who calls may do nothing. Prints what was sent and what came back.
Build the program first (./quickstart.sh). Words: how many messages, and a seed."""
import json
import os
import random
import struct
import socket
import sys
import tempfile
import time

from serving import Answers, Server, ask, commands_in, connect, message, needs_program, write_journal

COUNT = int(sys.argv[1]) if len(sys.argv) > 1 else 10000
SEED = int(sys.argv[2]) if len(sys.argv) > 2 else 7
STATUSES = {200, 400, 403, 404, 405, 409, 411, 413, 431, 501}
AT = "2025-09-01T08:00:0%dZ"
BEGIN = [
    {"at": AT % 0, "op": "folder.add", "folder": "app"},
    {"at": AT % 1, "op": "subject.add", "subject": "uni/ann"},
    {"at": AT % 2, "op": "subject.add", "subject": "uni/eve"},
    {"at": AT % 3, "op": "group.add", "group": "app:staff", "display": "Staff"},
    {"at": AT % 4, "op": "member.add", "group": "app:staff", "member": "uni/ann"},
    {"at": AT % 5, "op": "consumer.add", "consumer": "sync"},
]
PLAIN = message("GET", "/groups/app%3Astaff/members")
# Eve may do nothing: whatever command comes of these is refused, or changes what only root may change
EVE = "uni/eve"
TARGETS = ["/groups/app%3Astaff", "/groups/app:staff/members?at=2025-09-01T08:00:04Z", "/groups/app%3Astaff/rows",
           "/groups/app%3Astaff/history", "/folders/:", "/subjects/uni%2Fann/groups", "/objects/app%3Astaff/grants",
           "/objects/app/privileges?entity=uni%2Feve", "/consumers/sync/log?max=10", "/admin", "/nothing/at/all"]
BODIES = [{"op": "folder.add", "folder": "eve", "key": "k1"}, {"op": "group.add", "group": "app:eve", "display": "E"},
          {"op": "member.add", "group": "app:staff", "member": "uni/eve", "until": "2031-01-01T00:00:00Z"},
          {"op": "subject.add", "subject": "uni/new"}, {"op": "group.delete", "group": "app:staff"},
          {"op": "consumer.ack", "consumer": "sync", "seq": 1}, {"op": "members", "group": "app:staff"},
          {"op": "grant.add", "object": "app", "privilege": "create", "holder": "uni/eve"}]
PARTS = [b"\r\n", b"\n", b"\r\n\r\n", b" ", b":", b"%", b"%00", b"\0", b"?", b"&at=", b"Host: y\r\n", b"Content-Length: 7\r\n",
         b"Transfer-Encoding: chunked\r\n", b"X-Registry-Caller: uni/ann\r\n", b"Connection: close\r\n", b"{", b"\"", b"\\u0000",
         b"9" * 30, b"A" * 20000, b"HTTP/1.0", b"Content-Length: 8388608\r\n", b"\xff\xfe", b"X: y\r\n" * 70]


def real(chance):
    if chance.random() < 0.5:
        return message("GET", chance.choice(TARGETS), EVE, close=chance.random() < 0.2)
    return message("POST", "/requests", EVE, json.dumps(chance.choice(BODIES)).encode(), close=chance.random() < 0.2)


def mutated(chance):
    found = bytearray(real(chance))
    for _ in range(chance.randint(1, 6)):
        place, way = chance.randrange(len(found) + 1), chance.randrange(5)
        if way == 0:
            found[place:place + 1] = bytes([chance.randrange(256)])
        elif way == 1:
            del found[place:place + chance.randint(1, 20)]
        elif way == 2:
            found[place:place] = chance.choice(PARTS)
        elif way == 3:
            found[place:place] = found[max(0, place - chance.randint(1, 40)):place]
        else:
            found[place:place] = chance.randbytes(chance.randint(1, 8))
    return bytes(found)


KINDS = {
    "random bytes": lambda chance: chance.randbytes(int(10 ** chance.uniform(0, 4.6))),
    "random bytes behind a real beginning": lambda chance: (lambda whole: whole[:chance.randrange(len(whole))] + chance.randbytes(chance.randint(1, 2000)))(real(chance)),
    "real ones, changed": mutated,
    "real ones, cut short": lambda chance: (lambda whole: whole[:chance.randrange(len(whole))])(real(chance)),
    "several, changed, in one": lambda chance: b"".join(mutated(chance) if chance.random() < 0.5 else real(chance) for _ in range(chance.randint(2, 5))),
}


def sends(conn, chance, sent):
    """Sends bytes in pieces that are cut at random. Whether the other side still takes them."""
    at = 0
    try:
        while at < len(sent):
            size = chance.choice([1, 2, 7, 60, 500, 5000, len(sent)])
            conn.sendall(sent[at:at + size])
            at += size
            if chance.random() < 0.02:
                time.sleep(0.0005)
    except OSError:
        return False
    return True


def responses(conn):
    """The statuses of the responses up to the connection's end."""
    answers, found = Answers(conn), []
    while True:
        try:
            response = answers.next()
        except ConnectionError:
            # it was closed with bytes unread, so what was still under way is lost
            return found
        if response is None:
            return found
        reply = json.loads(response.body)
        whole = json.dumps(reply, sort_keys=True, separators=(",", ":"), ensure_ascii=False).encode() + b"\n"
        if response.status not in STATUSES or whole != response.body or "number" in reply and "ok" in reply:
            sys.exit("a response that the registry doesn't give: %r" % response.bytes)
        found.append(response.status)


def send_hostile(port, chance, sent):
    """Sends one message and ends the connection in some way: the statuses that came back, if it waits for them."""
    with connect(port, 30) as conn:
        whole = sends(conn, chance, sent)
        way = chance.random()
        if way < 0.7:
            try:
                conn.shutdown(socket.SHUT_WR)
            except OSError:
                whole = False
            return responses(conn) if whole else []
        if way < 0.85:
            conn.setsockopt(socket.SOL_SOCKET, socket.SO_LINGER, struct.pack("ii", 1, 0))
    return []


def main():
    needs_program()
    chance = random.Random(SEED)
    counts, statuses = dict.fromkeys(KINDS, 0), {}
    with tempfile.TemporaryDirectory() as folder:
        journal = os.path.join(folder, "journal")
        write_journal(journal, BEGIN)
        with open(journal, "rb") as file:
            before = file.read()
        with Server(journal) as server:
            plain = ask(server.port, PLAIN).bytes
            for n in range(1, COUNT + 1):
                kind = chance.choice(list(KINDS))
                counts[kind] += 1
                for status in send_hostile(server.port, chance, KINDS[kind](chance)):
                    statuses[status] = statuses.get(status, 0) + 1
                if n % 100 == 0 and ask(server.port, PLAIN).bytes != plain:
                    sys.exit("after %d messages a plain question is answered otherwise" % n)
            if server.process.poll() is not None:
                sys.exit("the server ended with status %d and the note %r" % server.ended())
        with open(journal, "rb") as file:
            same = file.read() == before
        kept = commands_in(journal)
    for kind, count in counts.items():
        print("%6d %s" % (count, kind))
    print("responses: %s" % ", ".join("%d of %d" % (statuses[status], status) for status in sorted(statuses)))
    print("%d messages, the server answers as before, the journal's bytes are %s, %d commands" % (
        COUNT, "those from before" if same else "OTHERS", kept))
    sys.exit(0 if same and kept == len(BEGIN) else 1)


if __name__ == "__main__":
    main()
