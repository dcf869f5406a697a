"""What doesn't pass ends the feeder, with a message that tells why; the blocks before stay in the server."""
import time

from .case import Case, unittest

from blocks import FIRST, NAME_VERSION, name_script, outpoint, transaction
from common import TOP, reply
from digests import double_sha256

from namecoin_feeder.replies import RULES

GREEDY = transaction(NAME_VERSION, [outpoint(b"\xdd" * 32)], [(999_999, name_script(FIRST, b"d/x", b"", b""))])


class Refusals(Case):
    def test_rule(self):
        tip = self.chains.grow(self.chains.first, 20)
        bad = self.chains.add(tip, [GREEDY])
        self.node.move(self.chains.grow(bad, 20))
        said = self.feed(status=3)
        index = len(self.chains.blocks[bad].changed) + 2
        self.assertIn(f"block {bad[::-1].hex()} of height 21", said)
        self.assertIn("code 15, Greedy: the amount of its name output is below the least one", said)
        self.assertIn(f": transaction {index} of the block, {double_sha256(GREEDY)[::-1].hex()}", said)
        self.node.move(tip)
        self.assert_same()

    def test_goes_on_where_the_node_left_the_block(self):
        tip = self.chains.grow(self.chains.first, 20)
        bad = self.chains.add(tip, [GREEDY])
        good = self.chains.grow(tip, 3)
        self.node.move(self.chains.add(bad))

        def before(frame):
            if frame[5:] == self.chains.blocks[bad].data:
                self.node.move(good)

        self.server.before = before
        self.feed()
        self.assert_same()

    def test_root(self):
        self.node.move(self.chains.grow(self.chains.first, 5))
        self.server.before = lambda _: reply(3, bytes(32)) if self.server.frames == 4 else None
        self.assertIn("code 3, MerkleMismatch", self.feed(status=3))

    def test_no_block(self):
        tip = self.chains.grow(self.chains.first, 5)
        made = self.chains.blocks[tip]
        self.chains.blocks[tip] = made._replace(data=made.data + b"\0")
        self.node.move(tip)
        self.assertIn(f"code 1, BadBlock: the bytes are no block, from byte {len(made.data)} on", self.feed(status=3))

    def test_full(self):
        self.node.move(self.chains.grow(self.chains.first, 5))
        self.server.before = lambda _: reply(5) if self.server.frames == 4 else None
        self.assertIn("code 5, JournalFull", self.feed(status=3))

    def test_long_blocks(self):
        """One that a frame just holds is taken, and one byte more is told; the blocks before it are taken."""
        for size, status in ((8_388_608, 0), (8_388_609, 3)):
            with self.subTest(size=size):
                tip = self.node.tip
                short = len(self.chains.blocks[self.chains.add(tip, [self.long(0)])].data)
                made = self.chains.add(tip, [self.long(size - short - 4)])
                self.assertEqual(len(self.chains.blocks[made].data), size)
                self.node.move(made)
                self.assertEqual("more than 8388608 bytes" in self.feed(status=status), status == 3)
        self.node.move(tip)
        self.assert_same()

    def long(self, size):
        return transaction(1, [outpoint(b"\xdd" * 32)], [(5, b"\x6a" * size)])

    def test_several_long_blocks_behind_short_ones(self):
        """Blocks that are asked for together, and are too long together, come one by one."""
        tip = self.chains.grow(self.chains.first, 80)
        for _ in range(3):
            tip = self.chains.add(tip, [self.long(4_000_000)])
        self.node.move(self.chains.grow(tip, 3))
        self.feed()
        self.assert_same()

    def test_tries_again_at_long_intervals(self):
        """With --again a refused block doesn't end the feeder: it goes on as soon as the node has left the block."""
        tip = self.chains.grow(self.chains.first, 20)
        self.node.move(self.chains.grow(self.chains.add(tip, [GREEDY]), 3))
        run = self.start("--again", "3600")
        self.heard(run, "code 15, Greedy")
        self.waits_for("the end of the connection", lambda: self.server.tip == tip)
        self.assertEqual(self.server.codes.count(15), 1)
        self.reaches(self.chains.grow(tip, 5))
        self.assertIsNone(run.poll())
        self.assert_same()

    def test_tries_again_behind_the_interval(self):
        """The block is sent again, since the server may be another one now."""
        self.node.move(self.chains.add(self.chains.grow(self.chains.first, 20), [GREEDY]))
        run = self.start("--again", "0.2")
        self.waits_for("refusals", lambda: self.server.codes.count(15) >= 3)
        self.assertIsNone(run.poll())

    def test_again_with_the_node(self):
        """What else would end it is tried again too: a name that the node refuses, and blocks too deep."""
        self.cookie.write_text("user:other")
        run = self.start("--again", "0.2", "--once")
        self.heard(run, "refuses the name and the password (HTTP status 401); the next try is in 0 s")
        self.cookie.write_text("user:word")
        self.ends(run)

    def test_wrong_words_end_it_all_the_same(self):
        self.assertIn("can't be read", self.feed("--again", "1", "--user", "a", "--password-file", "/nowhere", status=2))

    def test_names_of_rules(self):
        """The codes and names are those of the documents."""
        rows = (line.split("|") for line in (TOP / "docs" / "RULES.md").read_text().splitlines() if line.startswith("| "))
        written = {int(row[1]): row[2].strip() for row in rows if row[1].strip().isdigit() and row[2].strip().isidentifier()}
        self.assertEqual({code: name for code, (name, _) in RULES.items()}, written)


if __name__ == "__main__":
    unittest.main()
