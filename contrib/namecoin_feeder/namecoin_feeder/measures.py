"""What the feeder counts, as text for Prometheus, and the port of this machine at which it is asked for."""
import collections
import socket
import threading
import time

from . import __version__
from .troubles import Status, Stop

HERE = "127.0.0.1"
# Blocks a second are those of so many seconds.
SPAN = 60
# A request is read up to so many bytes, and for so long; who is slower is turned away, and the next one comes.
MOST_REQUEST, SECONDS = 8192, 1.0
TYPE = "text/plain; version=0.0.4; charset=utf-8"


class Measures:
    """The figures of a run over a server on a base of this height. Heights are those of the node's chain. What isn't known yet is None."""

    def __init__(self, clock=time.monotonic, base=0):
        self.clock, self.begun, self.base = clock, clock(), base
        self.server_height = self.node_height = None
        self.connected = self.disconnected = self.reorganisations = self.refusals = self.troubles = 0
        self.is_waiting, self.last = False, self.begun
        self.saves, self.save_seconds = 0, None
        # How long the server stood on neither branch's tip, at the last reorganisation.
        self.half_way = None
        # Blocks by the second in which they were connected.
        self.seconds, self.lock = collections.deque(maxlen=SPAN + 1), threading.Lock()

    def is_connected(self, height):
        """The server has taken the block of this height."""
        self.server_height, self.last = height, self.clock()
        self.connected += 1
        with self.lock:
            if self.seconds and self.seconds[-1][0] == int(self.last):
                self.seconds[-1][1] += 1
            else:
                self.seconds.append([int(self.last), 1])

    def is_saved(self, seconds):
        """The server has made a save, which took so long."""
        self.saves, self.save_seconds = self.saves + 1, f"{seconds:.3f}"

    def is_reorganised(self, seconds):
        """A reorganisation has ended, in which the server was half-way for so long."""
        self.half_way = f"{seconds:.3f}"

    def above_base(self):
        """Blocks above the base; None where the server's height isn't known."""
        return None if self.server_height is None else self.server_height - self.base

    def speed(self):
        """Blocks a second, of the last minute or since the start."""
        now = self.clock()
        with self.lock:
            count = sum(blocks for second, blocks in self.seconds if second > now - SPAN)
        return count / max(1.0, min(SPAN, now - self.begun))

    def rows(self):
        """Each figure: its name, what it is, its kind and its value."""
        yield "server_height", "Height of the server's newest block", "gauge", self.server_height
        yield "node_height", "Height of the node's best block", "gauge", self.node_height
        yield "blocks_per_second", "Blocks that the server took a second, of the last minute", "gauge", f"{self.speed():.6g}"
        yield "reorganisations_total", "Reorganisations that were begun", "counter", self.reorganisations
        half_way = "How long the server was half-way at the last reorganisation"
        yield "last_reorganisation_seconds", half_way, "gauge", self.half_way
        yield "refusals_total", "Blocks that the server refused", "counter", self.refusals
        seconds = f"{self.clock() - self.last:.3f}"
        yield "last_block_age_seconds", "Seconds since the server took a block, or since the start", "gauge", seconds
        yield "blocks_above_base", "Blocks that stand above the server's base", "gauge", self.above_base()
        yield "blocks_connected_total", "Blocks that the server took", "counter", self.connected
        yield "blocks_disconnected_total", "Blocks that were taken off", "counter", self.disconnected
        yield "troubles_total", "Troubles of the node, the server and the line", "counter", self.troubles
        yield "saves_total", "Saves that the server made for the feeder", "counter", self.saves
        yield "last_save_seconds", "How long the last save took, in which the server answers nothing", "gauge", self.save_seconds
        yield "waiting", "1 while nothing is taken off, since the node may be behind", "gauge", int(self.is_waiting)

    def text(self):
        """The text form of Prometheus, version 0.0.4. What isn't known yet has no line."""
        lines = ["# HELP namecoin_feeder_info The feeder's version", "# TYPE namecoin_feeder_info gauge"]
        lines.append(f'namecoin_feeder_info{{version="{__version__}"}} 1')
        for name, what, kind, value in self.rows():
            if value is not None:
                name = f"namecoin_feeder_{name}"
                lines += [f"# HELP {name} {what}", f"# TYPE {name} {kind}", f"{name} {value}"]
        return "\n".join(lines) + "\n"


class Port:
    """Answers requests for the figures, one after the other, beside the feeder's work."""

    def __init__(self, number, measures):
        self.measures = measures
        try:
            self.listener = socket.create_server((HERE, number))
        except (OSError, OverflowError) as fault:
            raise Stop(Status.WORDS, f"port {number} for --metrics can't be had: {getattr(fault, 'strerror', fault)}") from None
        self.thread = threading.Thread(target=self.serve, daemon=True)
        self.thread.start()

    def close(self):
        """Wakes the one who waits for a connection, who then ends."""
        try:
            self.listener.shutdown(socket.SHUT_RDWR)
        except OSError:
            pass
        self.listener.close()

    def serve(self):
        while True:
            try:
                line, _ = self.listener.accept()
            except OSError as fault:
                if self.listener.fileno() < 0 or fault.errno in (22, 9):
                    return
                # Too many files are open, say: another time.
                time.sleep(SECONDS)
                continue
            with line:
                try:
                    self.answer(line)
                except OSError:
                    pass

    def answer(self, line):
        """Answers a request. Whoever is slow gets no answer, and holds the next one up for a second at most."""
        until, text = time.monotonic() + SECONDS, b""
        while b"\r\n\r\n" not in text and b"\n\n" not in text:
            line.settimeout(max(0.001, until - time.monotonic()))
            piece = line.recv(MOST_REQUEST - len(text)) if time.monotonic() < until else b""
            text += piece
            if not piece or len(text) == MOST_REQUEST:
                return
        line.settimeout(SECONDS)
        line.sendall(self.reply(*[*text.split(None, 2), b"", b""][:2]))

    def reply(self, method, path):
        if method not in (b"GET", b"HEAD"):
            status, body = "405 Method Not Allowed", "GET is what this port answers\n"
        elif path.partition(b"?")[0] not in (b"/", b"/metrics"):
            status, body = "404 Not Found", "the figures are at /metrics\n"
        else:
            status, body = "200 OK", self.measures.text()
        head = f"HTTP/1.1 {status}\r\nContent-Type: {TYPE}\r\nContent-Length: {len(body)}\r\nConnection: close\r\n\r\n"
        return (head + ("" if method == b"HEAD" else body)).encode()
