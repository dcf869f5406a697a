"""A log that can't be written, and what is told of speed behind a pause and of many blocks above the base."""
import io
import os
import subprocess

from . import FEEDER
from .case import SECONDS, Case, unittest
from .test_words import Clock

from namecoin_feeder.growth import AGAIN, Growth
from namecoin_feeder.progress import Progress


def closed_pipe():
    """The end of a pipe to write to, whose reader has gone."""
    reader, writer = os.pipe()
    os.close(reader)
    return os.fdopen(writer, "wb", 0)


class Unwritten(Case):
    def feeds(self, *more, **how):
        """The feeder brings all blocks up to the node's tip, whatever becomes of its log."""
        self.node.move(self.chains.grow(self.node.tip, 20))
        run = subprocess.run(self.words("--once", *more), cwd=FEEDER, timeout=SECONDS, **how)
        self.assertEqual(run.returncode, 0)
        self.assertEqual(self.server.tip, self.node.tip)

    def test_a_full_disk(self):
        with open("/dev/full", "wb", 0) as full:
            self.feeds(stderr=full)
            self.feeds("--again", "600", stderr=full)

    def test_a_reader_that_has_gone(self):
        with closed_pipe() as pipe:
            self.feeds(stderr=pipe)

    def test_no_standard_error(self):
        self.feeds(preexec_fn=lambda: os.close(2))

    def test_an_end_is_told_by_its_status(self):
        self.node.stop()
        with open("/dev/full", "wb", 0) as full:
            run = subprocess.run(self.words("--patience", "0.3"), cwd=FEEDER, timeout=SECONDS, stderr=full)
        self.assertEqual(run.returncode, 5)


class Speed(unittest.TestCase):
    def test_behind_a_pause(self):
        """A pause of ten minutes, and then a hundred blocks a second."""
        clock, out = Clock(), io.StringIO()
        progress = Progress(out, clock)
        for height in (50, 100, 150):
            clock.now += 0.5
            progress.at(height, 5000)
        progress.rests()
        clock.now += 600
        progress.at(200, 5000)
        clock.now += 10
        progress.at(1200, 5000)
        lines = out.getvalue().splitlines()
        self.assertEqual(lines[0], "namecoin_feeder: height 200 of 5000")
        self.assertEqual(lines[1], "namecoin_feeder: height 1200 of 5000, 100 blocks/s, 38 s left")


class AboveTheBase(Case):
    def test_told_each_day(self):
        clock, said = Clock(), []
        growth = Growth(100, 1000, said.append, clock)
        for height, seconds in ((1099, 0), (1100, 5), (1101, AGAIN - 1), (1102, 2), (1103, 3)):
            growth.is_at(height)
            clock.now += seconds
        self.assertEqual([line.split()[0] for line in said], ["100", "102"])

    def test_never(self):
        said = []
        Growth(0, 0, said.append, Clock()).is_at(10**9)
        self.assertEqual(said, [])

    def test_of_a_run(self):
        self.node.move(self.chains.grow(self.chains.first, 30))
        told = "blocks stand above the base, and what they did to names stays in the server's files and memory: a new snapshot forgets it"
        self.assertIn(f"30 {told}", self.feed("--warn-above", "30"))
        self.assertNotIn(told, self.feed("--warn-above", "31"))
        self.assertNotIn(told, self.feed("--warn-above", "0"))
        self.assertNotIn(told, self.feed("--warn-above", "25", "--base", "10"))


if __name__ == "__main__":
    unittest.main()
