"""A server whose files were made with another height than their base has: the first reply that tells a height ends the feeder."""
import subprocess

from . import FEEDER
from .case import SECONDS, Case, unittest
from .chains import NO_HASH
from .serving import Serve
from .stand_in import ModelChain, Replay, initialised, surviving
from .test_from_a_snapshot import HEIGHT, MAGIC, ON_BASE, has_starts, makes_at

from blocks import block_of, coinbase
from common import pieces
from snapshot_model import snapshot_text

ACCEPTED = 0
# Other heights than the base's own: below it and above.
LOW, HIGH = HEIGHT - 2, HEIGHT + 3
# Names of regtest stand for so many blocks at least.
STAND = 28


class Heights(Case):
    """A node with blocks above the base. Neither the base nor the one above it touches a name, so this is taken at any height."""

    has_program = staticmethod(has_starts)

    def setUp(self):
        super().setUp()
        self.server.stop()
        self.base = self.plain(self.chains.grow(self.chains.first, HEIGHT - 1))
        self.above = self.plain(self.base)
        self.node.move(self.chains.grow(self.above, 19))

    def plain(self, tip):
        """A block on a tip that touches no name."""
        height = self.chains.blocks[tip].height + 1
        return self.chains.put(block_of(height, tip, [coinbase(height)]), height, {}, {})

    def snapshot(self, height):
        """What stands at the base, as far as it fits the height."""
        return [make for make in makes_at(self.chains, self.base) if height - STAND < make.height <= height]

    def has_files(self, height, base=None):
        """The server has new files, made for this height from the snapshot of the base."""
        self.server.stop()
        self.server.chain, self.server.tip, self.server.codes = self.made_files(height, base or self.base), None, []
        self.server.start()

    def made_files(self, height, base):
        if not self.has_program():
            return ModelChain(base, height, self.snapshot(height))
        folder = self.room / f"files {len(list(self.room.iterdir()))}"
        folder.mkdir()
        return Replay(folder, base, height, snapshot_text(self.snapshot(height)))

    def line(self, block, told, own, source="the node"):
        both = f"at height {told}, and {source} at height {own}"
        return f"the server has block {block[::-1].hex()} {both}: its files were made with another HEIGHT; make them anew"

    def assert_has(self, *blocks):
        self.assertEqual(self.server.chain.chain(), list(blocks))


class OverANode(Heights):
    def test_another_height(self):
        """It ends behind one block, with both heights in its last line."""
        for height in (LOW, HIGH):
            with self.subTest(height=height):
                self.has_files(height)
                said = self.feed(*ON_BASE, status=4)
                self.assertEqual(said.splitlines()[-1], f"namecoin_feeder: {self.line(self.above, height + 1, HEIGHT + 1)}")
                self.assert_has(self.above)

    def test_another_block(self):
        """The base's height with the hash of the block below it."""
        self.has_files(HEIGHT, self.chains.back(self.base, 1))
        self.assertIn(self.line(self.base, HEIGHT + 1, HEIGHT), self.feed(*ON_BASE, status=4))
        self.assert_has(self.base)

    def test_below_the_first_block(self):
        """No height fits a base of 32 zero bytes, since the network's first block has the height 0."""
        self.has_files(0, NO_HASH)
        self.assertIn(self.line(self.chains.first, 1, 0), self.feed(status=4))
        self.assert_has(self.chains.first)

    def test_each_start_sends_one_block(self):
        self.has_files(HIGH)
        for count in (1, 2):
            self.assertIn(f"and the node at height {HEIGHT + count}: its files", self.feed(*ON_BASE, status=4))
            self.assert_has(*self.chains.path(self.node.tip)[HEIGHT : HEIGHT + count])

    def test_the_right_height(self):
        self.has_files(HEIGHT)
        self.assertNotIn("HEIGHT", self.feed(*ON_BASE))
        self.assert_has(*self.chains.path(self.node.tip)[HEIGHT:])

    def test_blocks_that_leave(self):
        """The reply to a disconnect tells the height too: one block is taken off."""
        for height, status in ((HIGH, 4), (HEIGHT, 0)):
            with self.subTest(height=height):
                self.has_files(height)
                tip = self.chains.grow(self.above, 4)
                for item in pieces(self.chains.frames(tip))[HEIGHT:]:
                    self.server.answer(item)
                self.node.move(self.chains.grow(self.above, 6))
                said, below = self.feed(*ON_BASE, status=status), self.chains.back(tip, 1)
                self.assertEqual(self.line(below, height + 4, HEIGHT + 4) in said, status == 4)
                self.assert_has(*self.chains.path(self.node.tip if status == 0 else below)[HEIGHT:])

    def test_tries_again(self):
        """With --again nothing more is sent to that server; to one on files that were made anew it is."""
        self.has_files(LOW)
        run = self.start(*ON_BASE, "--again", "0.1")
        for _ in range(4):
            self.heard(run, "make them anew; the next try is in")
        self.assertEqual(self.server.codes.count(ACCEPTED), 1)
        self.has_files(HEIGHT)
        self.waits_for("the tip", lambda: self.server.tip == self.node.tip)
        self.assertIsNone(run.poll())

    def test_made_anew_on_the_block_that_was_sent(self):
        """That is the node's tip too: a server that stands there is not at it before its files are made anew."""
        self.node.move(self.above)
        self.has_files(HIGH)
        run = self.start(*ON_BASE, "--once", "--again", "0.1")
        for _ in range(4):
            self.heard(run, "make them anew; the next try is in")
        self.assertIsNone(run.poll())
        self.has_files(HEIGHT + 1, self.above)
        self.ends(run)
        self.assert_has()


class OverBlockFiles(Heights):
    def feed_files(self, blocks, status):
        path = self.room / "blk00000.dat"
        path.write_bytes(b"".join(MAGIC + len(block).to_bytes(4, "little") + block for block in blocks))
        run = subprocess.run(self.words("--blocks", path), cwd=FEEDER, stderr=subprocess.PIPE, text=True, timeout=SECONDS)
        self.assertEqual(run.returncode, status, run.stderr)
        return run.stderr

    def test_another_height(self):
        """Files with the network's first block tell heights, and others don't."""
        blocks = [self.chains.blocks[hash].data for hash in [self.chains.first, *self.chains.path(self.node.tip)]]
        self.has_files(HIGH)
        self.assertIn(self.line(self.above, HIGH + 1, HEIGHT + 1, "the block file"), self.feed_files(blocks, 4))
        self.assert_has(self.above)
        self.feed_files(blocks[1:], 0)
        self.assert_has(*self.chains.path(self.node.tip)[HEIGHT:])


@unittest.skipUnless(has_starts(), "the program isn't built, or doesn't know `init-from`")
class OverServe(Heights):
    def feeds(self, status, base, height, snapshot=None):
        """A run of the feeder with a server on new files. What it said, and how many blocks the server took."""
        folder = self.room / f"serve {height}"
        folder.mkdir()
        initialised(folder, base, height, snapshot)
        self.server = Serve(folder)
        self.addCleanup(self.server.stop)
        said = self.feed(status=status)
        self.server.stop()
        return said, len(surviving(folder))

    def test_from_a_snapshot(self):
        for height in (LOW, HIGH):
            with self.subTest(height=height):
                said, blocks = self.feeds(4, self.base, height, snapshot_text(self.snapshot(height)))
                self.assertIn(self.line(self.above, height + 1, HEIGHT + 1), said)
                self.assertEqual(blocks, 1)
        self.assertEqual(self.feeds(0, self.base, HEIGHT, snapshot_text(self.snapshot(HEIGHT)))[1], 20)

    def test_from_the_first_block(self):
        said, blocks = self.feeds(4, self.chains.first, 1)
        self.assertIn(self.line(self.chains.path(self.node.tip)[0], 2, 1), said)
        self.assertEqual(blocks, 1)
        self.assertEqual(self.feeds(0, self.chains.first, 0)[1], HEIGHT + 20)


if __name__ == "__main__":
    unittest.main()
