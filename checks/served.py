"""A run of `serve`: what it is asked by datagrams, and its feed; and chains whose states are known."""
import contextlib
import pathlib
import select
import socket
import subprocess
import time

from common import HERE, SECONDS, Run, pieces, program, server_ports
from model import NEW, PROFILES, Model

from answers_model import reply_to, zone_of
from blocks import CONNECT, block_of, coinbase, frame

HOST = "ns.example."
MOST_TURNS = 1_000_000_000
LARGEST = 65535
# It has no question: it gets a header alone, as any message of its length that is no reply.
PROBE, TO_PROBE = bytes(12), bytes.fromhex("0000 8001") + bytes(8)
TRIES, WAIT, SILENCE = 20, 1.0, 15.0


class Server:
    """A run of the program that serves the files of a folder."""

    def __init__(self, folder, udp=None, feed=None, turns=MOST_TURNS, runs=None, **how):
        queries, others = server_ports()
        self.udp, self.feed = udp or queries, feed or others
        words = [runs or program(), "serve", str(self.udp), str(self.feed), str(turns)]
        streams = {"stdin": subprocess.DEVNULL, "stdout": subprocess.PIPE, "stderr": subprocess.PIPE}
        self.run = subprocess.Popen(words, cwd=folder, **{**streams, **how})

    def started(self):
        """Waits until it answers."""
        until = time.monotonic() + SECONDS
        while self.once(PROBE, 0.05) is None:
            if self.run.poll() is not None or time.monotonic() > until:
                raise SystemExit(f"serve doesn't answer: {self.ended(kill=True)}")
        return self

    def once(self, message, seconds=WAIT):
        """The reply to a datagram, sent once; None where there is none."""
        with socket.socket(socket.AF_INET, socket.SOCK_DGRAM) as client:
            client.connect((HERE, self.udp))
            client.settimeout(seconds)
            try:
                client.send(message)
                return client.recv(LARGEST)
            except (TimeoutError, ConnectionRefusedError):
                time.sleep(0.01)
                return None

    def ask(self, message):
        """The reply to a message, which is sent again where a datagram may have been lost."""
        replies = (self.once(message) for _ in range(TRIES))
        return next((reply for reply in replies if reply is not None), None)

    def answers(self, messages):
        """The replies to datagrams that are sent at once with a probe behind them, up to the probe's; None where that doesn't come."""
        with socket.socket(socket.AF_INET, socket.SOCK_DGRAM) as client, contextlib.suppress(TimeoutError):
            client.connect((HERE, self.udp))
            client.settimeout(WAIT)
            for message in (*messages, PROBE):
                client.send(message)
            return list(iter(lambda: client.recv(LARGEST), TO_PROBE))
        return None

    def drops(self, message):
        """Whether a message gets no reply: the first that comes is that of the probe behind it."""
        with socket.socket(socket.AF_INET, socket.SOCK_DGRAM) as client:
            client.connect((HERE, self.udp))
            client.settimeout(WAIT)
            for _ in range(TRIES):
                client.send(message)
                client.send(PROBE)
                with contextlib.suppress(TimeoutError):
                    return client.recv(LARGEST) == TO_PROBE
        return False

    def memory(self):
        """The bytes that the process has in memory."""
        rows = pathlib.Path(f"/proc/{self.run.pid}/status").read_text().splitlines()
        return 1024 * next(int(row.split()[1]) for row in rows if row.startswith("VmRSS:"))

    def streams(self):
        return Stream(self.udp)

    def feeds(self):
        return Feed(self.feed)

    def ended(self, kill=False):
        """What came of the run. It's waited for, or killed."""
        if kill:
            self.run.kill()
        output, line = self.run.communicate(timeout=SECONDS)
        return Run(output, self.run.returncode, (line or b"").decode().strip())


@contextlib.contextmanager
def server_in(folder, **how):
    """A server that has started, and is killed at the end."""
    server = Server(folder, **how)
    try:
        yield server.started()
    finally:
        server.ended(kill=True)


class Stream:
    """A connection on which messages are asked, each behind its length of two bytes (RFC 1035, 4.2.2)."""

    def __init__(self, port):
        self.text, self.stream = b"", socket.create_connection((HERE, port), timeout=SILENCE)
        self.stream.setsockopt(socket.IPPROTO_TCP, socket.TCP_NODELAY, 1)

    def __enter__(self):
        return self

    def __exit__(self, *_):
        self.stream.close()

    def say(self, *messages):
        self.stream.sendall(b"".join(len(message).to_bytes(2, "big") + message for message in messages))

    def has(self, length):
        """Whether so many bytes are there, or come before the server closes or is silent for long."""
        with contextlib.suppress(TimeoutError, ConnectionResetError):
            while len(self.text) < length and (got := self.stream.recv(LARGEST)):
                self.text += got
        return len(self.text) >= length

    def reply(self):
        """The next reply; None where none comes whole."""
        if not self.has(2) or not self.has(2 + int.from_bytes(self.text[:2], "big")):
            return None
        end = 2 + int.from_bytes(self.text[:2], "big")
        told, self.text = self.text[2:end], self.text[end:]
        return told

    def ask(self, message):
        self.say(message)
        return self.reply()

    def answers(self, messages):
        """The replies to messages that are said at once with a probe behind them, up to the probe's."""
        self.say(*messages, PROBE)
        return list(iter(self.reply_before_probe, None))

    def rest(self):
        """The replies that come whole until the server closes."""
        return list(iter(self.reply, None))

    def reply_before_probe(self):
        told = self.reply()
        return None if told == TO_PROBE else told


class Feed:
    """A connection to the feed."""

    def __init__(self, port):
        self.port, self.text = port, b""
        self.stream = socket.create_connection((HERE, port), timeout=SILENCE)
        self.stream.setsockopt(socket.IPPROTO_TCP, socket.TCP_NODELAY, 1)

    def __enter__(self):
        return self

    def __exit__(self, *_):
        self.stream.close()

    def say(self, text):
        self.stream.sendall(text)

    def more(self):
        """Whether more came, before the server closed or was silent for long."""
        try:
            got = self.stream.recv(LARGEST)
        except (TimeoutError, ConnectionResetError):
            got = b""
        self.text += got
        return bool(got)

    def reply(self):
        """The next reply; what there is of it where no more comes."""
        while len(self.text) < 5 or len(self.text) < 5 + int.from_bytes(self.text[1:5], "little"):
            if not self.more():
                break
        length = 5 + int.from_bytes(self.text[1:5], "little")
        told, self.text = self.text[:length], self.text[length:]
        return told

    def replies(self, count):
        return [self.reply() for _ in range(count)]

    def is_told(self, seconds):
        """Whether something comes within so many seconds."""
        return bool(select.select([self.stream], [], [], seconds)[0])

    def rest(self):
        """All that comes until the server closes; None where it doesn't."""
        try:
            while got := self.stream.recv(LARGEST):
                self.text += got
        except ConnectionResetError:
            return self.text
        except TimeoutError:
            return None
        return self.text


def zone_after(model):
    """The zone of the chain of a model."""
    height, values = len(model.blocks), {}
    for event in model.log:
        if event.operation and event.operation[0] != NEW:
            values[event.operation[1]] = (event.operation[-1], event.height)
    return zone_of({name: value for name, (value, made) in values.items() if not PROFILES["regtest"].expired(made, height)}, HOST, height)


class Story:
    """Commands and saves, each with its reply, and with the zone and the tip behind it; the first ones are those of the base."""

    def __init__(self):
        self.model, self.frames, self.replies = Model(), [], []
        self.zones, self.tips = [zone_after(self.model)], [self.model.tip]

    def comes(self, item):
        """A frame, whose reply is the model's."""
        self.frames.append(item)
        self.replies.append(self.model.answer(item))
        self.zones.append(zone_after(self.model))
        self.tips.append(self.model.tip)

    def all_come(self, text):
        for item in pieces(text):
            self.comes(item)

    def block(self, transactions):
        height = len(self.model.blocks) + 1
        self.comes(frame(CONNECT, block_of(height, self.model.tip, [coinbase(height), *transactions])))

    def text(self, first=0):
        return b"".join(self.frames[first:])

    def answers(self, message, first, last):
        """The replies that the message has in the zones from the first to the last."""
        return [reply_to(zone, message).text() for zone in self.zones[first : last + 1]]
