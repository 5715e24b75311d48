"""Runs the built program's `serve` over a journal, and speaks HTTP with it, for the benchmarks beside this file."""
import datetime
import os
import signal
import socket
import struct
import subprocess
import sys
import time

SYSTEM = "g:isa/GrouperSystem"
PROGRAM = os.environ.get("PROGRAM") or os.path.join(
    os.path.dirname(os.path.dirname(os.path.abspath(__file__))), "crates/registry/out/registry")


def needs_program():
    # so that a server that was started is ended also where this is
    signal.signal(signal.SIGTERM, lambda *_: sys.exit(1))
    if not os.access(PROGRAM, os.X_OK):
        sys.exit("no %s: run ./quickstart.sh first" % PROGRAM)


def free_port():
    with socket.socket() as found:
        found.bind(("127.0.0.1", 0))
        return found.getsockname()[1]


def connect(port, seconds=10.0):
    """A connection to a port of this machine, whose small pieces are sent at once."""
    conn = socket.socket()
    conn.settimeout(seconds)
    try:
        conn.connect(("127.0.0.1", port))
    except OSError:
        conn.close()
        raise
    conn.setsockopt(socket.IPPROTO_TCP, socket.TCP_NODELAY, 1)
    return conn


def init(journal):
    subprocess.run([PROGRAM, journal, "init"], check=True)


def commands_in(journal):
    """How many commands a journal holds, as `check` says."""
    found = subprocess.run([PROGRAM, journal, "check"], stdout=subprocess.PIPE, check=True)
    return int(found.stdout.split()[1])


class Server:
    """The program, serving a journal. It answers once this is made; `stop` ends it."""

    def __init__(self, journal, port=None, words=()):
        self.port = port or free_port()
        self.process = subprocess.Popen([PROGRAM, journal, "serve", str(self.port), *words], stderr=subprocess.PIPE)
        while True:
            try:
                connect(self.port).close()
                return
            except OSError:
                if self.process.poll() is not None:
                    raise SystemExit("serve ended with status %d and the note %r" % self.ended())
                time.sleep(0.01)

    def ended(self):
        return self.process.wait(), self.process.stderr.read()

    def stop(self):
        self.process.kill()
        self.ended()

    def __enter__(self):
        return self

    def __exit__(self, *_):
        self.stop()


def message(method, target, caller=SYSTEM, body=None, close=False):
    """The bytes of a message."""
    lines = ["%s %s HTTP/1.1" % (method, target), "Host: registry"]
    if caller is not None:
        lines.append("X-Registry-Caller: " + caller)
    if close:
        lines.append("Connection: close")
    if body is not None:
        lines.append("Content-Length: %d" % len(body))
    return "\r\n".join([*lines, "", ""]).encode() + (body or b"")


class Response:
    """A response: its status, its phrase, its header fields by name, its body, and its bytes."""

    def __init__(self, head):
        first, *fields = head.decode().split("\r\n")
        self.version, status, self.phrase = first.split(" ", 2)
        self.status, self.body, self.bytes = int(status), b"", b""
        self.fields = dict(field.split(": ", 1) for field in fields)


class Answers:
    """The responses that come over a connection, one after another."""

    def __init__(self, conn):
        self.conn, self.bytes = conn, b""

    def more(self):
        piece = self.conn.recv(1 << 16)
        self.bytes += piece
        return piece != b""

    def take(self, count):
        taken, self.bytes = self.bytes[:count], self.bytes[count:]
        return taken

    def next(self):
        """The next response; None where the connection ended before it began."""
        while b"\r\n\r\n" not in self.bytes:
            if not self.more():
                if self.bytes:
                    raise ValueError("a response is cut short: %r" % self.bytes)
                return None
        head = self.take(self.bytes.index(b"\r\n\r\n") + 4)[:-4]
        response = Response(head)
        length = int(response.fields["Content-Length"])
        while len(self.bytes) < length:
            if not self.more():
                raise ValueError("a body is cut short: %r" % self.bytes)
        response.body = self.take(length)
        response.bytes = head + b"\r\n\r\n" + response.body
        return response


def ask(port, sent):
    """The response to one message, on a connection of its own."""
    with connect(port) as conn:
        conn.sendall(sent)
        return Answers(conn).next()


# The journal's format (docs/JOURNAL.md), written apart from the program.
CODES = {"folder.add": 1, "subject.add": 5, "group.add": 6, "member.add": 10, "member.remove": 11, "grant.add": 15,
         "inherit.add": 17, "job.list": 33, "consumer.add": 36}
WORDS = {"folder": 1, "group": 2, "definition": 3, "ONE": 1, "SUB": 2, "UPDATE": 2, "READ": 3, "VIEW": 4, "create": 10}


def micros(moment):
    """The microseconds of a moment's text."""
    form = "%Y-%m-%dT%H:%M:%S.%fZ" if "." in moment else "%Y-%m-%dT%H:%M:%SZ"
    since = datetime.datetime.strptime(moment, form) - datetime.datetime(1970, 1, 1)
    return since // datetime.timedelta(microseconds=1)


def text(value):
    value = value.encode()
    return struct.pack("<H", len(value)) + value


def date(moment):
    return b"\0" if moment is None else b"\1" + struct.pack("<Q", micros(moment))


def word(value):
    return bytes([WORDS[value]])


def number(value):
    return struct.pack("<Q", value)


# the fields of each op that the journals here hold, and how each is written
FIELDS = {
    "folder.add": [("folder", text), ("display", text)],
    "subject.add": [("subject", text), ("display", text)],
    "group.add": [("group", text), ("display", text)],
    "member.add": [("group", text), ("member", text), ("from", date), ("until", date)],
    "member.remove": [("group", text), ("member", text)],
    "grant.add": [("object", text), ("privilege", word), ("holder", text), ("from", date), ("until", date)],
    "inherit.add": [("folder", text), ("kind", word), ("scope", word), ("privilege", word), ("holder", text)],
    "job.list": [("job", text), ("folder", text), ("source", text), ("min_size", number), ("max_percent", number)],
    "consumer.add": [("consumer", text)],
}


HEADER, OLD_HEADER = b"GRPREG2\n", b"GRPREG1\n"
# what stands behind the caller, and that a grant has no dates
NO_KEY, A_KEY, NO_DATES = b"\0", b"\1", b"\0\0"


def command_bytes(command):
    """The code of a command and its fields."""
    left_out = {"display": "", "from": None, "until": None}
    op = command["op"]
    return bytes([CODES[op]]) + b"".join(write(command.get(name, left_out.get(name))) for name, write in FIELDS[op])


def payload(at, command, by=SYSTEM):
    """The payload of a command at a moment's text, under its key if it has one."""
    key = A_KEY + text(command["key"]) if "key" in command else NO_KEY
    return struct.pack("<Q", micros(at)) + text(by) + key + command_bytes(command)


def old_payload(at, command, by=SYSTEM):
    """The same in format 1, which has no keys, and of a grant no dates."""
    kept = command_bytes(command)
    if command["op"] == "grant.add":
        kept = kept.removesuffix(NO_DATES)
    return struct.pack("<Q", micros(at)) + text(by) + kept


def framed(payload):
    """A payload behind an open gate and its length."""
    return b"\1" + struct.pack("<I", len(payload)) + payload


def write_journal(path, commands):
    """Writes a journal of commands, each with its moment under `at`."""
    with open(path, "wb") as file:
        file.write(HEADER + b"".join(framed(payload(command["at"], command)) for command in commands) + b"\0")
