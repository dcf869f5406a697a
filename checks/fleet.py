"""Servers beside each other that are fed one chain, whose blocks give a name another address each; and those who ask them."""
import contextlib
import pathlib
import socket
import subprocess
import tempfile
import threading
import time
import typing

from answer_cases import blocks_of
from answers_model import A
from common import run_in
from generated_zones import message
from served import Server, Story

from blocks import FIRST, NEW, UPDATE, name_script, named, outpoint
from digests import double_sha256, hash160
from name_chains import elsewhere, salt_of
from stores import INIT

TURNS = b"d/turns"
ASKED = (b"turns", b"bit")
LARGEST = 65535
# An asker waits so long for a reply: where nothing may be lost, for as long as a busy machine may take.
PATIENCE = 3.0


def address_of(turn):
    """The address that the name has at a turn."""
    return bytes([10, turn >> 16 & 0xFF, turn >> 8 & 0xFF, turn & 0xFF])


def value_of(turn):
    return b'{"ip":"%s"}' % socket.inet_ntoa(address_of(turn)).encode()


class Chain:
    """A chain that opens names, and then gives one of them another address in each block."""

    def __init__(self, names):
        self.story = Story()
        pairs = [(TURNS, value_of(0)), *names.items()]
        self.story.all_come(blocks_of(pairs, 0))
        self.begun, self.turn = len(self.story.frames), 0
        commits = named(elsewhere(0), name_script(NEW, hash160(salt_of(0) + TURNS)))
        self.last = named(outpoint(double_sha256(commits)), name_script(FIRST, TURNS, salt_of(0), value_of(0)))

    def grows(self):
        self.turn += 1
        self.last = named(outpoint(double_sha256(self.last)), name_script(UPDATE, TURNS, value_of(self.turn)))
        self.story.block([self.last])


class Member:
    """A server of the fleet, at ports of its own that stay."""

    def __init__(self, folder):
        self.folder, self.fed, self.server, self.feed = folder, 0, None, None
        self.udp = self.port = None
        run_in(folder, list(INIT), b"")

    def start(self):
        self.server = Server(self.folder, self.udp, self.port).started()
        self.udp, self.port = self.server.udp, self.server.feed

    def gets(self, story, upto):
        """The blocks of the story up to a number of frames."""
        if self.feed is None:
            self.feed = self.server.feeds()
        while self.fed < upto:
            self.feed.say(story.frames[self.fed])
            told = self.feed.reply()
            if told != story.replies[self.fed]:
                raise SystemExit(f"the server says {told.hex()} to frame {self.fed}")
            self.fed += 1

    def stop(self):
        """Ends it as a crash does."""
        if self.feed is not None:
            self.feed.stream.close()
        if self.server is not None:
            self.server.ended(kill=True)
        self.server = self.feed = None


@contextlib.contextmanager
def fleet(count, chain):
    """So many servers at the tip of the chain."""
    with tempfile.TemporaryDirectory(prefix="jaqhumpi-") as room:
        members = []
        try:
            for number in range(count):
                folder = pathlib.Path(room) / str(number)
                folder.mkdir()
                members.append(Member(folder))
                members[-1].start()
                members[-1].gets(chain.story, len(chain.story.frames))
            yield members
        finally:
            for member in members:
                member.stop()


class Asked(typing.NamedTuple):
    """A question of an asker: the moments at which it was asked and answered, and the turn that its answer tells; None where none came
    in time. `code` is that of the reply."""

    begun: float
    ended: float
    turn: typing.Optional[int]
    code: typing.Optional[int]
    way: str


class Asker(threading.Thread):
    """Asks for the name's address over and over, at most so often a second, over UDP or over one connection of TCP for each."""

    def __init__(self, address, is_stream, rate=100):
        super().__init__(daemon=True)
        self.address, self.is_stream, self.rate = address, is_stream, rate
        self.family = socket.AF_INET6 if ":" in address[0] else socket.AF_INET
        self.way = f"{'TCP' if is_stream else 'UDP'} {address[0]}"
        self.found, self.ends = [], threading.Event()

    def run(self):
        number = 0
        while not self.ends.wait(1 / self.rate):
            number = number + 1 & 0xFFFF
            begun = time.monotonic()
            reply = self.asks(message(number, ASKED, A))
            turn = code = None
            if reply is not None:
                code = reply[3] & 0xF
                turn = int.from_bytes(reply[-3:], "big") if code == 0 and reply[7] == 1 else None
            self.found.append(Asked(begun, time.monotonic(), turn, code, self.way))

    def asks(self, text):
        """The reply to a question; None where none comes in time."""
        try:
            return asked_stream(self.address, text, PATIENCE) if self.is_stream else asked_datagram(self.address, text, PATIENCE)
        except OSError:
            return None


def asked_datagram(address, text, seconds, source=None):
    """The reply to a datagram that is sent once; an error of the system's where none comes."""
    family = socket.AF_INET6 if ":" in address[0] else socket.AF_INET
    with socket.socket(family, socket.SOCK_DGRAM) as line:
        if source:
            line.bind((source, 0))
        line.connect(address)
        line.settimeout(seconds)
        line.send(text)
        while True:
            reply = line.recv(LARGEST)
            if reply[:2] == text[:2]:
                return reply


def asked_stream(address, text, seconds, source=None, wrap=lambda line: line):
    """The reply over a connection of its own; an error of the system's where none comes."""
    with socket.create_connection(address, seconds, (source, 0) if source else None) as plain, wrap(plain) as line:
        line.sendall(len(text).to_bytes(2, "big") + text)
        told = b""
        while len(told) < 2 or len(told) < 2 + int.from_bytes(told[:2], "big"):
            piece = line.recv(LARGEST)
            if not piece:
                raise ConnectionResetError
            told += piece
        return told[2:]


@contextlib.contextmanager
def asking(addresses, rate=100):
    """Askers over UDP and TCP at each address."""
    askers = [Asker(address, is_stream, rate if not is_stream else rate / 5) for address in addresses for is_stream in (False, True)]
    for asker in askers:
        asker.start()
    try:
        yield askers
    finally:
        for asker in askers:
            asker.ends.set()
        for asker in askers:
            asker.join(2 * PATIENCE)


__all__ = ["Asked", "Chain", "asked_datagram", "asked_stream", "asking", "fleet"]
