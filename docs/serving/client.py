"""A client of the registry, in Python's standard library alone, for Python from 3.9 on.

    context = ssl.create_default_context(cafile="server.pem")
    context.load_cert_chain("ann.pem", "ann.key")
    registry = Registry("https://localhost", context)
    registry.members("app:staff")["members"]

A call sends one message over a connection of its own, and gives the reply (`REQUESTS.md`, `openapi.yaml`) or raises
`Refused`. With an `OSError` or an `http.client.HTTPException` no answer came, and a command may have been kept: send the
same one again, with the same `key` in it."""
from __future__ import annotations

import http.client
import json
import ssl
from typing import Any, Mapping, Optional
from urllib.parse import quote, urlencode, urlsplit

Reply = dict[str, Any]


class Refused(Exception):
    """A status other than 200. `reply` is the refusal, as `{"code": 13, "refused": "NoSuch"}`, or the fault."""

    def __init__(self, status: int, reply: Reply) -> None:
        super().__init__(status, reply)
        self.status = status
        self.reply = reply


class Registry:
    """The registry behind a URL. `fields` stand in the head of each message: `Authorization` for who has a password and no
    certificate, or `X-Registry-Caller` where the URL is the registry's own port."""

    def __init__(self, url: str, context: Optional[ssl.SSLContext] = None, fields: Mapping[str, str] = {},
                 seconds: float = 60.0) -> None:
        self.url, self.context, self.seconds = urlsplit(url), context, seconds
        self.fields = {**fields, "Connection": "close"}

    def connect(self) -> http.client.HTTPConnection:
        host, port = self.url.hostname or "", self.url.port
        if self.url.scheme == "https":
            return http.client.HTTPSConnection(host, port, timeout=self.seconds, context=self.context)
        return http.client.HTTPConnection(host, port, timeout=self.seconds)

    def send(self, method: str, target: str, body: Optional[bytes] = None, kind: str = "") -> Reply:
        connection = self.connect()
        try:
            connection.request(method, target, body, {**self.fields, **({"Content-Type": kind} if kind else {})})
            response = connection.getresponse()
            text = response.read()
        finally:
            connection.close()
        try:
            reply: Reply = json.loads(text)
        except ValueError:
            reply = {"fault": text.decode(errors="replace")}
        if response.status != 200:
            raise Refused(response.status, reply)
        return reply

    def ask(self, *path: str, **query: Any) -> Reply:
        """A question, by the segments of its path and those parameters of the query that aren't None."""
        target = "".join("/" + quote(segment, safe="") for segment in path)
        pairs = urlencode({key: value for key, value in query.items() if value is not None})
        return self.send("GET", target + ("?" + pairs if pairs else ""))

    def request(self, request: Mapping[str, Any]) -> Reply:
        """Any command or query: a request of `REQUESTS.md` without `by`."""
        return self.send("POST", "/requests", json.dumps(request).encode(), "application/json")

    def load(self, job: str, table: bytes) -> Reply:
        return self.send("POST", "/jobs/%s/load" % quote(job, safe=""), table, "text/csv")

    def group_get(self, group: str) -> Reply:
        return self.ask("groups", group)

    def members(self, group: str, at: Optional[str] = None) -> Reply:
        return self.ask("groups", group, "members", at=at)

    def rows(self, group: str) -> Reply:
        return self.ask("groups", group, "rows")

    def history(self, group: str) -> Reply:
        return self.ask("groups", group, "history")

    def folder_list(self, folder: str) -> Reply:
        return self.ask("folders", folder)

    def groups(self, subject: str, at: Optional[str] = None) -> Reply:
        return self.ask("subjects", subject, "groups", at=at)

    def grants(self, object: str, at: Optional[str] = None) -> Reply:
        return self.ask("objects", object, "grants", at=at)

    def may(self, object: str, entity: str, at: Optional[str] = None) -> Reply:
        return self.ask("objects", object, "privileges", entity=entity, at=at)

    def attributes(self, object: str, at: Optional[str] = None) -> Reply:
        return self.ask("objects", object, "attributes", at=at)

    def log(self, consumer: str, max: int) -> Reply:
        return self.ask("consumers", consumer, "log", max=max)

    def admin(self) -> Reply:
        return self.ask("admin")
