"""Block files in the place of a node."""
import random
import subprocess

from . import FEEDER
from .case import SECONDS, Case, unittest

MAGIC = bytes.fromhex("fabfb5da")


class BlockFiles(Case):
    def setUp(self):
        super().setUp()
        stale = self.chains.grow(self.chains.first, 20)
        self.tip = self.chains.grow(self.chains.back(stale, 15), 40)
        self.node.move(self.tip)
        self.all = [made.data for made in self.chains.blocks.values()]

    def written(self, name, blocks, rest=b"", key=b""):
        path = self.room / name
        text = b"".join(MAGIC + len(block).to_bytes(4, "little") + block for block in blocks) + rest
        path.write_bytes(bytes(byte ^ key[i % len(key)] for i, byte in enumerate(text)) if key else text)
        return str(path)

    def feed_files(self, *paths, status=0):
        words = self.words("--blocks", *paths)
        run = subprocess.run(words, cwd=FEEDER, stderr=subprocess.PIPE, text=True, timeout=SECONDS)
        self.assertEqual(run.returncode, status, run.stderr)
        return run.stderr

    def test_in_order(self):
        self.feed_files(self.written("blk00000.dat", self.all))
        self.assert_same()

    def test_any_order_in_two_files(self):
        """Without the first block, on which the server stands, and with room that the node has taken ahead."""
        blocks = self.all[1:]
        random.Random(1).shuffle(blocks)
        self.feed_files(self.written("blk00000.dat", blocks[:25], bytes(1000)), self.written("blk00001.dat", blocks[25:], MAGIC + b"\x99"))
        self.assert_same()

    def test_scrambled_by_a_key(self):
        key = bytes.fromhex("0123456789abcdef")
        (self.room / "xor.dat").write_bytes(key)
        self.feed_files(self.written("blk00000.dat", self.all, key=key))
        self.assert_same()

    def test_reorganisation(self):
        self.feed_files(self.written("first", self.all[:21]))
        self.feed_files(self.written("second", self.all))
        self.assert_same()

    def test_other_files(self):
        """Files that don't have the server's tip: they say of no fork, so nothing is taken off."""
        self.feed_files(self.written("first", self.all[:21]))
        tip = self.server.tip
        self.assertIn("everybody has left it): nothing is taken off", self.feed_files(self.written("second", self.all[25:]), status=4))
        self.assertEqual(self.server.tip, tip)

    def test_files_that_end_below_the_tip(self):
        self.feed_files(self.written("first", self.all[:21]))
        tip = self.server.tip
        self.assertIn("nothing is taken off", self.feed_files(self.written("second", self.all[:15]), status=4))
        self.assertEqual(self.server.tip, tip)

    def test_files_with_a_gap(self):
        """They have the server's tip, and not where its chain leaves theirs."""
        self.feed_files(self.written("first", self.all[:21]))
        tip = self.server.tip
        said = self.feed_files(self.written("second", self.all[17:]), status=4)
        self.assertIn("doesn't know what stands 4 blocks below it: no fork is known: nothing is taken off", said)
        self.assertEqual(self.server.tip, tip)

    def test_no_blocks(self):
        self.assertIn("there is no block in these files", self.feed_files(self.written("empty", []), status=2))
        self.assertIn("can't be read", self.feed_files(str(self.room / "none"), status=2))


if __name__ == "__main__":
    unittest.main()
