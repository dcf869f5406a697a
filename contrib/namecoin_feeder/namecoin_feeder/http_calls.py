"""JSON-RPC over HTTP: calls whose replies are read later, so that a node can work on several at once."""
import base64
import contextlib
import http.client
import json
import pathlib
import socket
import time
import typing
import urllib.parse

from .troubles import Denied, NodeTrouble

# A connection that was idle for longer is made anew: the node may have closed it.
IDLE_SECONDS = 5
FAULTS = (OSError, http.client.HTTPException)
WARMING_UP = -28


class Cookie(typing.NamedTuple):
    """The node writes its cookie anew at each start, so it is read for each connection."""

    path: pathlib.Path

    def read(self):
        try:
            return self.path.read_bytes().strip()
        except OSError as fault:
            raise NodeTrouble(f"the cookie {self.path} can't be read: {fault.strerror}; is the node running?") from None


class Password(typing.NamedTuple):
    user: str
    password: str

    def read(self):
        return f"{self.user}:{self.password}".encode()


class RpcError(Exception):
    """The node answered a call with an error of its own."""

    def __init__(self, error):
        error = error if isinstance(error, dict) else {}
        self.code, self.text = error.get("code"), str(error.get("message"))
        super().__init__(f"the node answers with error {self.code}: {self.text}")


class TooLong(Exception):
    """The reply has more bytes than may be held at once."""


class Line:
    """A connection to the node, with its name and password."""

    def __init__(self, address, seconds, authorization):
        self.connection = http.client.HTTPConnection(*address, timeout=seconds)
        self.headers = {"Authorization": authorization, "Content-Type": "application/json"}
        self.last_used = time.monotonic()

    @property
    def is_stale(self):
        return time.monotonic() - self.last_used > IDLE_SECONDS


class Call:
    """Requests that were sent in one message and not answered yet."""

    def __init__(self, calls, line, requests):
        self.calls, self.line, self.count = calls, line, len(requests)
        body = json.dumps([{"id": i, "method": method, "params": list(words)} for i, (method, *words) in enumerate(requests)])
        try:
            line.connection.request("POST", calls.path, body, line.headers)
        except FAULTS as fault:
            raise self.lost(fault) from None

    def drop(self):
        """Forgets the call, and closes its connection."""
        self.line.connection.close()

    def lost(self, fault):
        self.drop()
        text = "no answer in time" if isinstance(fault, socket.timeout) else getattr(fault, "strerror", None) or str(fault)
        return NodeTrouble(f"the node at {self.calls.name} gives no whole answer: {text}")

    def results(self, most):
        """The results in order, an RpcError in the place of a refused one. The message may have so many bytes at most."""
        try:
            # Closed here and not where it is let go of: Python forgets an interrupt that comes within that.
            with contextlib.closing(self.line.connection.getresponse()) as response:
                length, status = response.length, response.status
                text = response.read(most + 1) if length is None or length <= most else None
        except FAULTS as fault:
            raise self.lost(fault) from None
        if text is None or len(text) > most:
            self.drop()
            raise TooLong
        if length is not None and len(text) < length:
            raise self.lost(http.client.IncompleteRead(text, length - len(text)))
        return self.read(status, text)

    def read(self, status, text):
        if status in (401, 403):
            self.drop()
            raise Denied(f"the node at {self.calls.name} refuses the name and the password (HTTP status {status})")
        if status == 503:
            self.drop()
            raise NodeTrouble(f"the node at {self.calls.name} has too much to do (HTTP status 503)")
        try:
            answers = json.loads(text)
            if isinstance(answers, dict):
                self.drop()
                raise NodeTrouble(str(RpcError(answers.get("error"))))
            by_number = {answer["id"]: answer for answer in answers}
            ordered = [by_number[i] for i in range(self.count)]
            found = [RpcError(it["error"]) if it.get("error") else it["result"] for it in ordered]
        except (ValueError, LookupError, TypeError, AttributeError, RecursionError):
            self.drop()
            raise NodeTrouble(f"the node at {self.calls.name} gives an answer that can't be read (HTTP status {status})") from None
        self.calls.give_back(self.line)
        for it in found:
            if isinstance(it, RpcError) and it.code == WARMING_UP:
                raise NodeTrouble(f"the node is starting: {it.text}")
        return found


class Calls:
    """Makes calls to a node, each on a connection that no other call waits on."""

    def __init__(self, url, credentials, seconds):
        parts = urllib.parse.urlsplit(url)
        self.address, self.path = (parts.hostname, parts.port), parts.path or "/"
        self.name = "{}:{}".format(*self.address)
        self.credentials, self.seconds = credentials, seconds
        self.idle = []

    def start(self, requests):
        """Sends requests, each a method with its words, as one message."""
        return Call(self, self.line(), requests)

    def line(self):
        while self.idle:
            line = self.idle.pop()
            if not line.is_stale:
                return line
            line.connection.close()
        authorization = "Basic " + base64.b64encode(self.credentials.read()).decode()
        return Line(self.address, self.seconds, authorization)

    def give_back(self, line):
        line.last_used = time.monotonic()
        self.idle.append(line)

    def close(self):
        while self.idle:
            self.idle.pop().connection.close()
