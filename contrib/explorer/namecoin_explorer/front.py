"""HTTP on 127.0.0.1, for strangers: one request a connection, bounded in bytes, time and number; nothing but GET and HEAD.

One thread reads and writes all connections. A request that is whole and well formed becomes a job of the asking thread; any other is
answered here. Where all places are taken, the user with most connections loses the oldest of them.
"""
import collections
import contextlib
import errno
import re
import selectors
import socket
import threading
import time
import typing

from namecoin_feeder.measures import HERE
from namecoin_feeder.troubles import Stop

from .asking import Job
from .layout import PLAIN_HEADERS, Response, refusal
from .statuses import Status
from .users import users_of

MOST_LINES, BACKLOG = 64, 128
# Bytes up to the end of the headers, of the target, and how many headers there may be.
MOST_HEAD, MOST_TARGET, MOST_HEADERS = 8192, 2048, 64
# Seconds to send a request, to wait for its answer, to take the answer, and to go.
READING, ASKED, WRITING, LEAVING = "reading", "asked", "writing", "leaving"
SECONDS = {READING: 10.0, ASKED: 30.0, WRITING: 20.0, LEAVING: 1.0}
# What a client still sends while it goes is read up to so many bytes.
MOST_LATE, PIECE = 1 << 18, 65_536
PAUSE = 1.0
# Seconds from one line for the operator to the next.
QUIET = 600.0
END = b"\r\n\r\n"
TOKEN = re.compile(rb"[!#$%&'*+.^_`|~0-9A-Za-z-]+")
FIRST_LINE = re.compile(rb"([!#$%&'*+.^_`|~0-9A-Za-z-]{1,32}) ([\x21-\x7e]+) HTTP/1\.[01]")
HOST = re.compile(r"(127\.0\.0\.1|localhost)(:[0-9]{1,5})?", re.IGNORECASE)
METHODS = ("GET", "HEAD")


class Request(typing.NamedTuple):
    """`is_own` is false where a browser says that another site's page leads here."""

    method: str
    path: str
    words: str
    is_own: bool
    user: typing.Optional[int]


class Refused(Exception):
    """The request is answered with this response at once."""

    def __init__(self, status, text, **headers):
        super().__init__(text)
        self.response = refusal(status, text, **headers)


def request_of(head):
    """The request of a head without its end; its user isn't known yet."""
    first, *lines = head.split(b"\r\n")
    if len(first) > MOST_TARGET:
        raise Refused(414, "The address is too long.")
    if len(lines) > MOST_HEADERS:
        raise Refused(431, "The request has too many headers.")
    parts = FIRST_LINE.fullmatch(first)
    if parts is None:
        raise Refused(400, "This is no request that is understood here.")
    headers = headers_of(lines)
    check_host(headers["host"])
    method, target = parts[1].decode(), parts[2].decode()
    if method not in METHODS:
        raise Refused(405, "Pages can be read here, and nothing else: GET and HEAD.", Allow="GET, HEAD")
    if headers["transfer-encoding"] or any(it != "0" for it in headers["content-length"]):
        raise Refused(400, "A request has no body here.")
    if not target.startswith("/"):
        raise Refused(400, "This is no address of a page here.")
    path, _, words = target.partition("?")
    return Request(method, path, words, is_own(headers), None)


def headers_of(lines):
    """The values of each header by its name in lower case."""
    found = collections.defaultdict(list)
    for line in lines:
        name, colon, value = line.partition(b":")
        if not colon or not TOKEN.fullmatch(name) or b"\r" in value or b"\n" in value or b"\0" in value:
            raise Refused(400, "This is no request that is understood here.")
        found[name.decode().lower()].append(value.decode("latin-1").strip(" \t"))
    return found


def check_host(hosts):
    """Any other host is a page of another site, whose name was made to lead to this machine."""
    if len(hosts) != 1:
        raise Refused(400, "A request names one host here.")
    if not HOST.fullmatch(hosts[0]):
        raise Refused(421, "This is read at http://127.0.0.1 or http://localhost alone.")


def is_own(headers):
    """Whether no other site's page leads here, as far as the browser says. As a part of another site's page nothing is given."""
    site, mode = ([*headers[it], ""][0].lower() for it in ("sec-fetch-site", "sec-fetch-mode"))
    is_other = site in ("cross-site", "same-site")
    if is_other and mode != "navigate":
        raise Refused(403, "Pages of other sites get nothing from here.")
    return not is_other


class Line:
    """A connection."""

    def __init__(self, line, address, now):
        self.socket, self.address, self.begun = line, address, now
        self.state, self.until = READING, now + SECONDS[READING]
        self.text, self.left, self.late = bytearray(), b"", 0
        self.user = self.job = None
        self.knows_user = self.is_head = False

    def becomes(self, state, now):
        self.state, self.until = state, now + SECONDS[state]


class Front:
    """`work` makes the response to a request, on the asking thread."""

    def __init__(self, port, work, asker, say, clock=time.monotonic):
        self.work, self.asker, self.say, self.clock = work, asker, say, clock
        try:
            self.listener = socket.create_server((HERE, port), backlog=BACKLOG)
        except (OSError, OverflowError) as fault:
            raise Stop(Status.WORDS, f"port {port} can't be had: {getattr(fault, 'strerror', None) or fault}") from None
        self.port = self.listener.getsockname()[1]
        self.selector, self.lines = selectors.DefaultSelector(), []
        self.waker, self.woken = socket.socketpair()
        # Responses that came of jobs.
        self.made, self.is_over, self.deaf_until, self.quiet_until = collections.deque(), False, 0.0, clock()
        for item in (self.listener, self.waker, self.woken):
            item.setblocking(False)
        self.selector.register(self.listener, selectors.EVENT_READ)
        self.selector.register(self.woken, selectors.EVENT_READ)
        self.thread = None

    def start(self, fails):
        def serve():
            try:
                self.serve()
            except BaseException as fault:
                fails(fault)

        self.thread = threading.Thread(target=serve, name="front", daemon=True)
        self.thread.start()

    def end(self, seconds):
        """Closes the port and all connections."""
        self.is_over = True
        self.wake()
        if self.thread is not None:
            self.thread.join(seconds)
        for line in list(self.lines):
            line.socket.close()
        for item in (self.listener, self.waker, self.woken, self.selector):
            item.close()

    def wake(self):
        with contextlib.suppress(OSError):
            self.waker.send(b"\0")

    def serve(self):
        while not self.is_over:
            for key, _ in self.selector.select(self.seconds_left()):
                if key.fileobj is self.listener:
                    self.accept()
                elif key.fileobj is self.woken:
                    with contextlib.suppress(OSError):
                        self.woken.recv(4096)
                elif key.data in self.lines:
                    self.attend(key.data)
            while self.made:
                self.answer(*self.made.popleft())
            self.expire()

    def seconds_left(self):
        now = self.clock()
        times = [it.until for it in self.lines] + ([self.deaf_until] if self.deaf_until else [])
        return max(0.0, min(times) - now) if times else None

    def expire(self):
        now = self.clock()
        for line in [it for it in self.lines if it.until <= now]:
            if line.state == ASKED:
                line.job.is_dropped = True
                self.tell(f"a reader had no page within {SECONDS[ASKED]:g} seconds: the program has much to do, or doesn't answer")
                self.answer(line, refusal(503, "The program has too much to do for an answer now. Try again in a moment.", **{"Retry-After": "5"}))
            else:
                self.close(line)
        if self.deaf_until and self.deaf_until <= now:
            self.deaf_until = 0.0
            self.selector.register(self.listener, selectors.EVENT_READ)

    def tell(self, text):
        """Tells the operator, but not often: any reader can be the cause."""
        if self.clock() >= self.quiet_until:
            self.quiet_until = self.clock() + QUIET
            self.say(text)

    # Coming and going

    def accept(self):
        try:
            item, address = self.listener.accept()
        except OSError as fault:
            if fault.errno in (errno.EMFILE, errno.ENFILE, errno.ENOBUFS, errno.ENOMEM):
                # No number is left for a connection: another time.
                self.selector.unregister(self.listener)
                self.deaf_until = self.clock() + PAUSE
                self.tell(f"no connection can be taken: {fault.strerror}; it is tried again each second")
            return
        item.setblocking(False)
        line = Line(item, address, self.clock())
        self.lines.append(line)
        if len(self.lines) > MOST_LINES:
            self.close(self.victim())
        if line in self.lines:
            self.selector.register(item, selectors.EVENT_READ, line)

    def know(self, lines):
        """Finds out whose the connections are, where that isn't known."""
        unknown = [it for it in lines if not it.knows_user]
        for line, user in zip(unknown, users_of([(it.address, (HERE, self.port)) for it in unknown])):
            line.user, line.knows_user = user, True

    def victim(self):
        """The connection that gives its place to a new one: the oldest of the user who has most, and one without a whole request
        before any other."""
        self.know(self.lines)
        counts = collections.Counter(it.user for it in self.lines)
        most = max(counts.values())
        return min((it for it in self.lines if counts[it.user] == most), key=lambda it: (it.state in (ASKED, WRITING), it.begun))

    def close(self, line):
        if line.job is not None:
            line.job.is_dropped = True
        self.lines.remove(line)
        with contextlib.suppress(KeyError, ValueError):
            self.selector.unregister(line.socket)
        line.socket.close()

    # A connection

    def attend(self, line):
        try:
            {READING: self.read, WRITING: self.write, LEAVING: self.hear}[line.state](line)
        except (BlockingIOError, InterruptedError):
            pass
        except OSError:
            self.close(line)

    def read(self, line):
        piece = line.socket.recv(MOST_HEAD + len(END) - len(line.text))
        line.text += piece
        if END in line.text:
            return self.asks(line, bytes(line.text.partition(END)[0]))
        if not piece:
            return self.close(line)
        if len(line.text) >= MOST_HEAD:
            is_first = b"\r\n" not in line.text
            self.answer(line, refusal(*((414, "The address is too long.") if is_first else (431, "The request is too long."))))

    def asks(self, line, head):
        """A head has come whole."""
        line.text, line.is_head = bytearray(), head[:5] == b"HEAD "
        try:
            request = request_of(head)
        except Refused as refused:
            return self.answer(line, refused.response)
        self.know([line])
        line.becomes(ASKED, self.clock())
        self.selector.unregister(line.socket)
        work = self.work
        line.job = Job(line.user, lambda: work(request._replace(user=line.user)), lambda made: self.give(line, made))
        self.asker.add(line.job)

    def give(self, line, response):
        """On the asking thread: a response was made."""
        self.made.append((line, response))
        self.wake()

    def answer(self, line, response: Response):
        if line not in self.lines or line.state in (WRITING, LEAVING):
            return
        line.left = memoryview(written(response, line.is_head))
        is_registered = line.state == READING
        line.becomes(WRITING, self.clock())
        (self.selector.modify if is_registered else self.selector.register)(line.socket, selectors.EVENT_WRITE, line)
        self.attend(line)

    def write(self, line):
        line.left = line.left[line.socket.send(line.left) :]
        if not line.left:
            # What the client still sends is read for a moment: otherwise the system may drop the answer.
            line.left = b""
            line.socket.shutdown(socket.SHUT_WR)
            line.becomes(LEAVING, self.clock())
            self.selector.modify(line.socket, selectors.EVENT_READ, line)

    def hear(self, line):
        piece = line.socket.recv(PIECE)
        line.late += len(piece)
        if not piece or line.late > MOST_LATE:
            self.close(line)


def written(response, is_head):
    headers = {**PLAIN_HEADERS, **response.headers, "Content-Length": str(len(response.body)), "Connection": "close"}
    head = f"HTTP/1.1 {response.status} {response.reason}\r\n" + "".join(f"{name}: {value}\r\n" for name, value in headers.items())
    return (head + "\r\n").encode("latin-1") + (b"" if is_head else response.body)
