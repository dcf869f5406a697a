"""The server is at the node's best chain, whatever that does."""
import random
import threading

from .case import Case, unittest
from .fake_node import Fault

ACCEPTED = 0


class Following(Case):
    def test_from_the_base(self):
        self.node.move(self.chains.grow(self.chains.first, 100))
        self.feed()
        self.assert_same()

    def test_nothing_to_do(self):
        self.feed()
        self.assertEqual(self.server.frames, 1)
        self.assert_same()

    def test_goes_on_where_the_server_stands(self):
        self.node.move(self.chains.grow(self.chains.first, 50))
        self.feed()
        self.node.move(self.chains.grow(self.node.tip, 70))
        self.feed()
        self.assertEqual(self.server.codes.count(ACCEPTED), 120)
        self.assert_same()

    def test_new_blocks(self):
        self.start()
        for _ in range(5):
            self.reaches(self.chains.add(self.node.tip))
        self.assert_same()

    def test_reorganisations(self):
        self.start()
        self.reaches(self.chains.grow(self.chains.first, 130))
        for depth in (1, 2, 10, 100):
            with self.subTest(depth=depth):
                fork = self.chains.back(self.node.tip, depth)
                self.reaches(self.chains.grow(fork, depth + 1))
        self.assert_same()

    def test_back_to_an_older_branch(self):
        self.start()
        left = self.chains.grow(self.chains.first, 20)
        self.reaches(left)
        self.reaches(self.chains.grow(self.chains.back(left, 5), 6))
        self.reaches(self.chains.grow(left, 2))
        self.assert_same()

    def test_reorganisation_while_the_feeder_is_away(self):
        self.node.move(self.chains.grow(self.chains.first, 60))
        self.feed()
        self.node.move(self.chains.grow(self.chains.back(self.node.tip, 30), 40))
        self.feed()
        self.assert_same()

    def test_down_to_the_base(self):
        self.node.move(self.chains.grow(self.chains.first, 20))
        self.feed()
        self.node.move(self.chains.grow(self.chains.first, 25))
        self.feed()
        self.assert_same()

    def test_tip_moves_while_blocks_are_fetched(self):
        long = self.chains.grow(self.chains.first, 200)
        tips = [self.chains.grow(self.chains.back(long, 150 - 30 * i), 151 - 25 * i) for i in range(4)]
        self.node.move(long)
        count = 0

        def before(method, _):
            nonlocal count
            count += method == "getblock"
            if tips and count == 40:
                count = 0
                self.node.move(tips.pop(0))

        self.node.before = before
        self.feed()
        self.assertFalse(tips)
        self.assert_same()

    def test_tip_moves_between_hash_and_block(self):
        tip = self.chains.grow(self.chains.first, 30)
        other = self.chains.grow(self.chains.back(tip, 10), 11)
        self.node.move(tip)

        def before(method, words):
            if method == "getblockhash" and words[0] == 25 and self.node.tip != other:
                self.node.move(other)

        self.node.before = before
        self.feed()
        self.assert_same()

    def test_server_that_lost_its_files(self):
        """Started on new files while there is nothing to feed: it gets all blocks again, before the next one comes."""
        self.start()
        self.reaches(self.chains.grow(self.chains.first, 30))
        self.server.stop()
        self.server.chain, self.server.tip = self.made_chain("new"), None
        self.server.start()
        self.waits_for("the tip", lambda: self.server.tip == self.node.tip)
        self.assert_same()

    def test_few_blocks_are_held(self):
        """A server that stands still gets no more than two runs of 16 blocks, and the node is asked for four more."""
        self.node.move(self.chains.grow(self.chains.first, 400))
        gate = threading.Event()
        self.addCleanup(gate.set)
        self.server.before = lambda _: None if self.server.frames < 100 else gate.wait() and None
        self.start()
        self.waits_for("frames", lambda: self.server.frames == 100)
        self.assertFalse(gate.wait(1))
        asked = sum(method == "getblock" for method, *_ in self.node.asked)
        self.assertLessEqual(asked, 100 + 6 * 16)
        gate.set()
        self.waits_for("the tip", lambda: self.server.tip == self.node.tip)
        self.assert_same()

    def test_any_order(self):
        """The node grows, moves, is away and gives errors as chance has it; the feeder and the server are started anew."""
        chance = random.Random(1)
        run = self.start()
        for _ in range(25):
            depth = chance.choice([0, 0, 1, 3, 20])
            fork = self.chains.back(self.node.tip, min(depth, self.chains.blocks[self.node.tip].height))
            self.node.move(self.chains.grow(fork, depth + chance.randrange(1, 20)))
            deed = chance.randrange(6)
            if deed == 0:
                self.node.restart(f"user:{chance.random()}")
            elif deed == 1:
                self.server.stop()
                self.server.start()
            elif deed == 2:
                run.kill()
                run = self.start()
            elif deed == 3:
                self.node.before = lambda *_: self.fails_once(chance)
            if chance.randrange(2):
                self.waits_for("the tip", lambda: self.server.tip == self.node.tip)
        self.waits_for("the last tip", lambda: self.server.tip == self.node.tip)
        self.assert_same()

    def fails_once(self, chance):
        self.node.before = None
        raise chance.choice([Fault(), Fault(status=503), Fault(status=500, text="no"), Fault(part=b"[{")])


if __name__ == "__main__":
    unittest.main()
