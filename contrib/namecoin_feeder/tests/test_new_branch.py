"""A new branch is fetched before the first block is taken off, and then goes to the server without a pause."""
from .case import Case, unittest
from .fake_node import Fault
from .test_refusals import GREEDY

from blocks import CONNECT, DISCONNECT, SAVE

HEIGHT, BACK = 30, 10


class Branches(Case):
    """A server with a chain, and a node with another one that leaves it ten blocks below its tip."""

    def setUp(self):
        super().setUp()
        self.top = self.chains.grow(self.chains.first, HEIGHT)
        self.has_already(self.top)
        self.branch = self.chains.grow(self.chains.back(self.top, BACK), 12)
        self.node.move(self.branch)
        self.accepted = self.server.codes.count(0)

    def fetching(self, height, does):
        """Does this when the node is asked for the branch's block of a height, once."""
        hash = self.chains.path(self.branch)[height - 1][::-1].hex()

        def before(method, words):
            if method == "getblock" and words[0] == hash:
                self.node.before = None
                does()

        self.node.before = before

    def nothing_left(self, said):
        self.assertNotIn("is taken off", said)
        self.assertEqual((self.server.tip, self.server.codes.count(0)), (self.top, self.accepted))

    def test_nobody_is_asked_half_way(self):
        """From the first block that leaves to the last one that comes the node isn't asked for anything."""
        seen = []

        def before(frame):
            seen.append((frame[:1], len(self.node.asked)))

        self.server.before = before
        said = self.feed("--save-every", "1")
        # The first frame asks for the tip, the last one for a save.
        self.assertEqual([kind for kind, _ in seen], [CONNECT, *[DISCONNECT] * BACK, *[CONNECT] * 12, SAVE])
        seen = seen[1:-1]
        self.assertEqual(len({count for _, count in seen}), 1, seen)
        self.assertIn("blocks to take off: 10, to connect: 12, 12 of them fetched\n", said)
        self.assertRegex(said, r"the server was half-way for \d+ ms, and stands on the new branch at height 32\n")
        # A save would have had to be asked for in between.
        self.assertLess(said.index("half-way"), said.index("has saved its index at height 32"))
        self.assert_same()

    def test_a_node_that_stops(self):
        """In the midst of the branch: nothing is taken off, as long as it is away."""
        self.fetching(HEIGHT - BACK + 9, self.node.stop)
        run = self.start("--once", "--patience", "2")
        said = run.communicate(timeout=20)[1]
        self.assertEqual(run.returncode, 5, said)
        self.nothing_left(said)
        self.node.restart()
        self.feed()
        self.assert_same()

    def test_a_node_that_moves_back(self):
        """In the midst of the branch: nothing is taken off, then or behind it."""
        self.fetching(HEIGHT - BACK + 9, lambda: self.node.move(self.chains.add(self.top)))
        said = self.feed()
        self.assertNotIn("is taken off", said)
        self.assertEqual(self.server.codes.count(0), self.accepted + 1)
        self.assert_same()

    def test_a_branch_that_grows(self):
        """In the midst of it: what was fetched stays good, and the rest comes behind it."""
        self.fetching(HEIGHT - BACK + 9, lambda: self.node.move(self.chains.grow(self.branch, 3)))
        self.assertIn("12 of them fetched", self.feed())
        self.assertEqual(self.server.codes.count(0), self.accepted + BACK + 15)
        self.assert_same()

    def test_half_an_answer(self):
        """Of the node, in the midst of the branch, again and again: a trouble, before anything is taken off."""
        hash = self.chains.path(self.branch)[-2][::-1].hex()

        def before(method, words):
            if method == "getblock" and words[0] == hash:
                raise Fault(part=b"half of it")

        self.node.before = before
        self.nothing_left(self.feed("--patience", "1", status=5))
        self.node.before = None
        self.feed()
        self.assert_same()

    def test_more_than_is_held(self):
        """Of a longer branch the first blocks are fetched before, and the others behind them."""
        said = self.feed("--branch-bytes", "1000")
        self.assertRegex(said, r"to connect: 12, [1-9] of them fetched\n")
        self.assertRegex(said, r"stands on the new branch at height 2\d; the blocks above come behind them, up to height 32\n")
        self.assert_same()

    def test_a_block_that_is_refused(self):
        """In the midst of the branch: the server stands on the one before it."""
        tip = self.chains.grow(self.chains.back(self.top, BACK), 3)
        bad = self.chains.add(tip, [GREEDY])
        self.node.move(self.chains.grow(bad, 20))
        self.assertIn("the server refuses block", self.feed(status=3))
        self.assertEqual(self.server.tip, tip)


if __name__ == "__main__":
    unittest.main()
