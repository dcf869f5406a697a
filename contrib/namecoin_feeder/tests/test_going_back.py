"""Blocks are taken off where another branch of the node's best chain stands above a known fork, and nowhere else.

Everything else that a node may be (synchronised anew, behind, standing still) is waited for; test_other_nodes has odd ones.
"""
import io
import re
import time

from .case import Case, unittest

from namecoin_feeder.pauses import Calm, Waits
from namecoin_feeder.progress import Progress

ACCEPTED = 0
HEIGHT, LOOKS = 30, 8


class Waiting(Case):
    """A server with a chain, and a node that isn't above it."""

    def setUp(self):
        super().setUp()
        self.top = self.chains.grow(self.chains.first, HEIGHT)
        self.has_already(self.top)
        self.asked = 0

    def looks(self, run):
        """Waits until the feeder has looked at the node several times more."""
        before = self.count("getbestblockhash")
        self.waits_for("looks", lambda: self.count("getbestblockhash") >= before + LOOKS)
        self.assertIsNone(run.poll())

    def taken_off(self, said):
        """How many blocks were told to be taken off."""
        return len(re.findall("^namecoin_feeder: block .* is taken off$", said, re.MULTILINE))

    def count(self, method):
        return sum(asked == method for asked, *_ in self.node.asked)

    def waits_then_comes(self, why, tip=None, *more):
        """Nothing is taken off while the node is as it is; once it stands on the server's chain, that goes on. What was told."""
        run, commands = self.start("--once", *more), len(self.server.codes)
        self.looks(run)
        self.assertEqual((self.server.tip, self.server.codes[commands:].count(ACCEPTED)), (self.top, 0))
        self.node.is_downloading, self.node.forgotten, self.node.headers = False, set(), None
        self.node.move(tip or self.chains.add(self.top))
        said = run.communicate(timeout=20)[1]
        self.assertEqual(run.returncode, 0, said)
        self.assertIn(why, said)
        self.assertEqual(said.count("nothing is taken off"), 1, said)
        return said

    def test_synchronised_anew(self):
        """Its genesis alone, and in its initial download: it doesn't know the server's blocks."""
        self.node.is_downloading, self.node.forgotten = True, set(self.chains.path(self.top))
        self.node.move(self.chains.first)
        self.waits_then_comes("is in its initial download: nothing is taken off")
        self.assertEqual(self.server.codes.count(ACCEPTED), HEIGHT + 1)
        self.assert_same()

    def test_synchronised_anew_up_to_the_tip(self):
        """It comes block by block, first its headers; the server keeps all of its own."""
        path = self.chains.path(self.top)
        self.node.is_downloading, self.node.forgotten = True, set(path)
        self.node.move(self.chains.first)
        run = self.start("--once")
        self.heard(run, "initial download")
        self.node.forgotten = set()
        for hash in path:
            self.node.move(hash)
            time.sleep(0.02)
        self.ends(run)
        self.assertEqual(self.server.codes.count(ACCEPTED), HEIGHT)
        self.assert_same()

    def test_download_with_another_branch(self):
        """In its initial download it stands on a branch with more work: that may change, so it's waited for."""
        self.node.is_downloading = True
        self.node.move(self.chains.grow(self.chains.back(self.top, 3), 9))
        self.waits_then_comes("is in its initial download", self.chains.grow(self.top, 8))
        self.assertEqual(self.server.codes.count(ACCEPTED), HEIGHT + 8)

    def test_stands_still_below(self):
        """Best block and fork are the same, for as long as it takes."""
        self.node.move(self.chains.back(self.top, 10))
        self.waits_then_comes("the node is behind: its best chain, of height 20, has less work")
        self.assertEqual(self.server.codes.count(ACCEPTED), HEIGHT + 1)
        self.assert_same()

    def test_far_below(self):
        """Deeper than blocks may be taken off; it is waited for all the same."""
        self.node.move(self.chains.path(self.top)[0])
        self.waits_then_comes("has less work", None, "--deepest", "3")
        self.assert_same()

    def test_behind_on_a_fork(self):
        """It stands on a branch with less work, and comes back to the one of the server."""
        self.node.move(self.chains.grow(self.chains.back(self.top, 10), 5))
        self.waits_then_comes("of height 25, has less work")
        self.assertEqual(self.server.codes.count(ACCEPTED), HEIGHT + 1)
        self.assert_same()

    def test_behind_on_a_fork_that_wins(self):
        """The branch gets more work in the end: then blocks are taken off."""
        branch = self.chains.grow(self.chains.back(self.top, 10), 5)
        self.node.move(branch)
        said = self.waits_then_comes("has less work", self.chains.grow(branch, 7))
        self.assertEqual(self.taken_off(said), 10)
        self.assert_same()

    def test_best_block_is_the_fork(self):
        """As by `invalidateblock`: the blocks above are rejected, and nothing else stands there yet."""
        fork = self.chains.back(self.top, 3)
        self.node.rejected = {self.top}
        self.node.move(fork)
        said = self.waits_then_comes("at height 27 below it: no other branch is known", self.chains.add(fork))
        self.assertEqual(self.taken_off(said), 3)
        self.assert_same()

    def test_rejected_branch_with_more_work(self):
        """Another branch stands there, with less work than the one that the node rejects."""
        self.node.rejected = {self.top}
        self.node.move(self.chains.add(self.chains.back(self.top, 3)))
        self.assertEqual(self.taken_off(self.feed()), 3)
        self.assert_same()

    def test_shorter_branch_with_more_work(self):
        tip = self.chains.grow(self.chains.back(self.top, 10), 4)
        self.node.heavy = {tip: 7}
        self.node.move(tip)
        said = self.feed()
        self.assertIn("another one above height 20: blocks to take off: 10", said)
        for count, hash in enumerate(reversed(self.chains.path(self.top)[20:])):
            self.assertIn(f"block {hash[::-1].hex()} of height {HEIGHT - count} is taken off", said)
        self.assert_same()

    def test_branch_with_as_much_work(self):
        self.node.move(self.chains.grow(self.chains.back(self.top, 2), 2))
        self.assertEqual(self.taken_off(self.feed()), 2)
        self.assert_same()

    def test_tip_moves_while_the_fork_is_looked_for(self):
        """A node that stands on another branch when its tip is asked for, and doesn't any more in the midst of the headers."""
        self.node.move(self.chains.grow(self.chains.back(self.top, 20), 25))

        def before(method, words):
            if method == "getblockheader" and words[0] == self.chains.back(self.top, 3)[::-1].hex():
                self.node.move(self.chains.add(self.top))
                self.node.before = None

        self.node.before = before
        self.feed()
        self.assertEqual(self.server.codes.count(ACCEPTED), HEIGHT + 1)
        self.assert_same()

    def test_a_way_of_two_chains_is_no_way(self):
        """Its tip moves to a branch that leaves below the base, and on, in the midst of the headers: that ends nothing."""
        deep, path = self.chains.grow(self.chains.back(self.top, 20), 22), self.chains.path(self.top)
        self.node.move(self.chains.grow(self.chains.back(self.top, 5), 7))
        moves = {path[27]: deep, path[9]: self.chains.add(self.top)}

        def before(method, words):
            if method == "getblockheader" and (tip := moves.pop(bytes.fromhex(words[0])[::-1], None)):
                self.node.move(tip)

        self.node.before = before
        self.feed("--base", "20")
        self.assertEqual((moves, self.server.codes.count(ACCEPTED)), ({}, HEIGHT + 1))

    def test_unknown_tip(self):
        """A node that never saw the server's newest blocks: nothing is taken off unless somebody says so."""
        fork = self.chains.back(self.top, 8)
        self.node.forgotten = set(self.chains.path(self.top)[-8:])
        self.node.move(self.chains.grow(fork, 10))
        run = self.start("--once")
        self.heard(run, "which the node doesn't know (--unknown, where everybody has left it): nothing is taken off")
        self.looks(run)
        run.kill()
        self.assertEqual(self.server.tip, self.top)
        self.assertIn("7 blocks that it doesn't know are taken off already", self.feed("--unknown", "7", status=4))
        self.feed("--unknown", "1")
        self.assert_same()

    def test_unknown_tip_of_a_node_that_lacks_blocks(self):
        """It knows headers that it has no blocks of: then not even `--unknown` takes any off."""
        self.node.forgotten, self.node.headers = set(self.chains.path(self.top)[-8:]), 1000
        self.node.move(self.chains.back(self.top, 8))
        self.waits_then_comes("which the node doesn't know yet", None, "--unknown", "5")
        self.assert_same()

    def test_patience_ends_a_wait(self):
        self.node.move(self.chains.back(self.top, 10))
        said = self.feed("--patience", "0.5", status=5)
        self.assertIn("nothing has gone well for 0.5 seconds", said)
        self.assertEqual(self.server.tip, self.top)

    def test_deeper_than_wanted(self):
        self.node.move(self.chains.grow(self.chains.back(self.top, 11), 12))
        self.assertIn("more than 10 of its newest blocks", self.feed("--deepest", "10", status=4))
        self.assertEqual(self.server.tip, self.top)
        self.feed("--deepest", "11")
        self.assert_same()

    def test_fork_below_the_base(self):
        """Nothing is taken off where the other branch can't be fed."""
        self.node.move(self.chains.grow(self.chains.back(self.top, 11), 12))
        told = "at height 19, below its base: make a new snapshot, and the server's files from it"
        self.assertIn(told, self.feed("--base", "20", status=4))
        self.assertEqual(self.server.tip, self.top)
        self.feed("--base", "19")
        self.assert_same()


class Clock:
    def __init__(self):
        self.now = 0.0

    def __call__(self):
        return self.now


class Intervals(unittest.TestCase):
    def test_a_wait_is_told_at_growing_intervals(self):
        clock, out = Clock(), io.StringIO()
        waits = Waits(Progress(out, clock).say, clock)
        for _ in range(4 * 3600):
            waits.tell("it is behind")
            clock.now += 1
        lines = out.getvalue().splitlines()
        self.assertEqual(lines[0], "namecoin_feeder: it is behind: nothing is taken off")
        told = [line.rpartition("for ")[2] for line in lines[1:]]
        self.assertEqual(told, ["1 min 0 s", "3 min 0 s", "7 min 0 s", "15 min 0 s", "31 min 0 s", "1 h 3 min", "2 h 3 min", "3 h 3 min"])

    def test_another_wait_is_told_at_once(self):
        clock, out = Clock(), io.StringIO()
        waits = Waits(Progress(out, clock).say, clock)
        waits.tell("it is behind")
        clock.now += 100
        waits.tell("it is behind again")
        self.assertEqual(len(out.getvalue().splitlines()), 2)

    def test_reorganisations_in_quick_succession(self):
        clock = Clock()
        calm, begun = Calm(0.5, 8, clock), []
        for _ in range(7):
            clock.now += calm.left()
            begun.append(clock.now)
            calm.ended()
        self.assertEqual(begun, [0, 0.5, 1.5, 3.5, 7.5, 15.5, 23.5])
        clock.now += 17
        self.assertEqual(calm.left(), 0)
        calm.ended()
        self.assertEqual(calm.left(), 0.5)


if __name__ == "__main__":
    unittest.main()
