"""The words, what is told on the way, and how the feeder ends."""
import contextlib
import io
import os
import pathlib
import pty
import re
import signal
import subprocess
import sys
import tempfile
import time

from . import FEEDER, TOP
from .case import Case, unittest

from namecoin_feeder.command_line import main, words
from namecoin_feeder.pauses import Pauses
from namecoin_feeder.progress import Progress, spoken
from namecoin_feeder.troubles import NodeTrouble, Status
from pip_installed import version_told


class Words(unittest.TestCase):
    def test_wrong_words(self):
        wrong = ("--nothing", "--server 127.0.0.1", "--server h:0", "--every -1", "--timeout 0", "--node localhost", "--node https://h:1/")
        for given in map(str.split, wrong):
            with self.subTest(given=given):
                run = subprocess.run([sys.executable, "-m", "namecoin_feeder", *given], cwd=FEEDER, stderr=subprocess.PIPE)
                self.assertEqual(run.returncode, Status.WORDS)

    def test_user_without_password(self):
        with open(os.devnull, "w") as sys.stderr:
            self.assertEqual(main(["--user", "name"]), Status.WORDS)
            self.assertEqual(main(["--user", "name", "--password-file", "/nowhere"]), Status.WORDS)
        sys.stderr = sys.__stderr__

    def test_help_tells_the_statuses(self):
        told = set(map(int, re.findall(r"^  (\d+) ", words().format_help(), re.MULTILINE)))
        self.assertEqual(told, {*map(int, Status), 130})

    def test_calls_of_the_node_are_those_of_the_page(self):
        """What OPERATING allows the feeder's user is what the feeder asks, and no more."""
        source = (FEEDER / "namecoin_feeder" / "node.py").read_text()
        asked = sorted(set(re.findall(r'"(get[a-z]+)"', source)))
        page = (TOP / "docs" / "OPERATING.md").read_text()
        self.assertEqual(re.search(r"rpcwhitelist=jaqhumpi:([a-z,]+)", page)[1].split(","), asked)

    def test_runs_where_it_is_installed(self):
        made = tempfile.TemporaryDirectory()
        self.addCleanup(made.cleanup)
        self.assertRegex(version_told(self, pathlib.Path(made.name), "namecoin-feeder", FEEDER), r"^namecoin-feeder \d")


class Ends(Case):
    def setUp(self):
        super().setUp()
        # What a shell starts in the background is deaf to interrupts, and so is all that it starts.
        signal.signal(signal.SIGINT, signal.default_int_handler)

    def test_terminated(self):
        """Ended by a signal; started again, it goes on."""
        self.node.move(self.chains.grow(self.chains.first, 400))
        # So slow that there is something left to feed for each of the runs.
        self.server.before = lambda _: time.sleep(0.005)
        for number in (signal.SIGTERM, signal.SIGKILL, signal.SIGINT):
            run, before = self.start(), self.server.frames
            self.waits_for("frames", lambda: self.server.frames > before + 20)
            run.send_signal(number)
            self.assertEqual(run.wait(10), 130 if number == signal.SIGINT else -number)
        self.server.before = None
        self.feed()
        self.assert_same()

    def test_interrupt_again(self):
        """An interrupt that comes where an object is let go of, which Python drops, comes again."""
        lines = (
            "import os, signal, time",
            "from namecoin_feeder.command_line import held_interrupts",
            "class Held:",
            "    def __del__(self): os.kill(os.getpid(), signal.SIGINT)",
            "with held_interrupts():",
            "    Held()",
            "    time.sleep(60)",
        )
        run = subprocess.run([sys.executable, "-c", "\n".join(lines)], cwd=FEEDER, stderr=subprocess.PIPE, text=True, timeout=30)
        self.assertIn("KeyboardInterrupt", run.stderr.splitlines()[-1])

    def test_terminal(self):
        """On a terminal the line is written over; the last one stays."""
        self.node.move(self.chains.grow(self.chains.first, 200))
        self.server.before = lambda _: time.sleep(0.005)
        ours, theirs = pty.openpty()
        run = subprocess.Popen(self.words("--once"), cwd=FEEDER, stderr=theirs)
        os.close(theirs)
        text = self.all_of(ours)
        self.assertEqual(run.wait(30), 0)
        self.assertRegex(text, r"\rheight \d+ of 200, [\d.e+]+ blocks/s, \d+ s left\x1b\[K")
        self.assertRegex(text, r"height 200, the tip(\x1b\[K)?\r\n$")


    def all_of(self, terminal):
        """What comes to a terminal until its other end is closed."""
        text = b""
        with contextlib.suppress(OSError), open(terminal, "rb", 0) as stream:
            while got := stream.read(4096):
                text += got
        return text.decode()


class Clock:
    """A clock and a sleep that take no time."""

    def __init__(self):
        self.now, self.slept = 0.0, []

    def __call__(self):
        return self.now

    def sleep(self, seconds):
        self.slept.append(seconds)
        self.now += seconds


class Told(unittest.TestCase):
    def test_a_line_every_ten_seconds(self):
        clock, out = Clock(), io.StringIO()
        progress = Progress(out, clock)
        for height in range(1, 31):
            clock.now += 1
            progress.at(height, 100)
        for _ in range(60):
            clock.now += 1
            progress.is_level(30)
        lines = out.getvalue().splitlines()
        self.assertEqual(lines[0], "namecoin_feeder: height 10 of 100, 1 blocks/s, 1 min 30 s left")
        self.assertEqual([line.split(",")[0][24:] for line in lines], ["10 of 100", "20 of 100", "30 of 100"])
        progress.at(31, 31)
        progress.is_level(31)
        self.assertEqual(out.getvalue().splitlines()[3], "namecoin_feeder: height 31, the tip")
        progress.end()
        self.assertEqual(len(out.getvalue().splitlines()), 4)

    def test_odd_words_are_one_line(self):
        """What a node says may have ends of lines, escapes of terminals, and no end."""
        out = io.StringIO()
        Progress(out, Clock()).say("no\nnamecoin_feeder: all is well\x1b[2J\r\u202e" + "x" * 10**6)
        self.assertEqual(out.getvalue().count("\n"), 1)
        self.assertTrue(out.getvalue().startswith("namecoin_feeder: no?namecoin_feeder: all is well?[2J??xxx"))
        self.assertLess(len(out.getvalue()), 700)

    def test_times(self):
        told = [spoken(it) for it in (0, 59.4, 60, 3599, 3600, 90000)]
        self.assertEqual(told, ["0 s", "59 s", "1 min 0 s", "59 min 59 s", "1 h 0 min", "1 d 1 h"])

    def test_pauses_grow(self):
        clock = Clock()
        pauses = Pauses(0.5, 4, 0, lambda _: None, clock, clock.sleep)
        for _ in range(6):
            pauses.wait(NodeTrouble("it"))
        pauses.passed()
        pauses.wait(NodeTrouble("it"))
        self.assertEqual(clock.slept, [0.5, 1, 2, 4, 4, 4, 0.5])


if __name__ == "__main__":
    unittest.main()
