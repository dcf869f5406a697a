"""What the tests share: chains, a node, a server, and the feeder between them as a program of its own."""
import os
import pathlib
import subprocess
import sys
import tempfile
import threading
import time
import unittest

from . import FEEDER
from .chains import Chains, name_of
from .fake_node import FIRST_SIGHT, FakeNode
from .stand_in import ModelChain, Replay, StandIn, is_built

from blocks import QUERY, frame
from common import pieces, run_in

SECONDS = 30
FAST = ("--every", "0.05", "--longest-pause", "0.1", "--timeout", "5")
MEMORY = "/dev/shm"


def question(name):
    """The frame that asks for the address of `name` below `bit`."""
    labels = b"".join(bytes([len(it)]) + it for it in (name, b"bit"))
    return frame(QUERY, bytes.fromhex("123401000001000000000000") + labels + bytes.fromhex("0000010001"))


class Case(unittest.TestCase):
    # Whether a replay of the program is the server: the model is where that isn't built.
    has_program = staticmethod(is_built)

    def setUp(self):
        room = tempfile.TemporaryDirectory(prefix="jaqhumpi-", dir=MEMORY if os.access(MEMORY, os.W_OK) else None)
        self.addCleanup(room.cleanup)
        self.room, self.chains = pathlib.Path(room.name), Chains()
        self.cookie = self.room / "cookie"
        self.node = FakeNode(self.chains, self.chains.first, cookie=self.cookie)
        self.addCleanup(self.node.stop)
        self.server = StandIn(self.made_chain("server"))
        self.addCleanup(self.server.stop)

    def made_chain(self, name):
        if not self.has_program():
            return ModelChain(self.chains.first)
        folder = self.room / name
        folder.mkdir()
        return Replay(folder, self.chains.first)

    def words(self, *more):
        places = ["--cookie", self.cookie, "--node", self.node.url, "--server", self.server.address]
        return [sys.executable, "-m", "namecoin_feeder", *places, *FAST, *more]

    def start(self, *more, **how):
        """The feeder, which is ended with the test."""
        run = subprocess.Popen(self.words(*more), cwd=FEEDER, stderr=subprocess.PIPE, text=True, **how)
        self.addCleanup(run.communicate)
        self.addCleanup(run.kill)
        return run

    def heard(self, run, text):
        """Waits until the feeder says it."""
        late = threading.Timer(SECONDS, run.kill)
        late.start()
        try:
            while text not in (line := run.stderr.readline()):
                self.assertTrue(line, f"the feeder ended before it said {text}")
        finally:
            late.cancel()

    def ends(self, run, status=0):
        said = run.communicate(timeout=SECONDS)[1]
        self.assertEqual(run.returncode, status, said)

    def feed(self, *more, status=0):
        """Runs the feeder once, up to the node's tip. What it said."""
        run = subprocess.run(self.words("--once", *more), cwd=FEEDER, stderr=subprocess.PIPE, text=True, timeout=SECONDS)
        self.assertEqual(run.returncode, status, run.stderr)
        return run.stderr

    def waits_for(self, what, holds):
        until = time.monotonic() + SECONDS
        while not holds():
            self.assertLess(time.monotonic(), until, f"waited for {what}")
            time.sleep(0.01)

    def has_already(self, tip):
        """The server has a chain, as though the feeder had brought it; the node stands at its tip."""
        for item in pieces(self.chains.frames(tip)):
            self.server.answer(item)
        self.node.move(tip)
        self.assertEqual(self.server.tip, tip)

    def reaches(self, tip):
        """The node has this tip now; the server gets there."""
        self.node.move(tip)
        self.waits_for(f"height {self.chains.blocks[tip].height}", lambda: self.server.tip == tip)

    def assert_same(self):
        """The server has the node's best chain, and its index is that of a plain replay of this chain."""
        self.server.stop()
        self.assertEqual(self.server.chain.chain(), self.chains.path(self.node.tip))
        if self.has_program():
            plain = self.made_chain("plain")
            self.assertEqual(run_in(plain.folder, ["replay"], self.chains.frames(self.node.tip)).status, 0)
            self.assertEqual(self.report(self.server.chain.folder), self.report(plain.folder))

    def report(self, folder):
        """What the program tells of its index: the report where it has one, and else the answers for each name."""
        run = run_in(folder, ["dump"], b"")
        if run.status == 0:
            return run.output
        return run_in(folder, ["replay"], b"".join(question(name_of(it)[2:]) for it in range(self.chains.numbers + 1))).output


__all__ = ["Case", "FIRST_SIGHT", "SECONDS", "unittest"]
