"""A server whose files were made from a snapshot: its base stands in the midst of the node's chain, and the feeder goes on above it."""
import subprocess

from . import FEEDER
from .case import SECONDS, Case, question, unittest
from .chains import name_of
from .serving import Serve
from .stand_in import ModelChain, Replay, initialised, is_built, surviving

from common import knows_starts, pieces, run_in
from images_model import Base, Index
from model import Model
from snapshot_model import Make, snapshot_text

HEIGHT, MAGIC = 40, bytes.fromhex("fabfb5da")
ON_BASE = ("--base", str(HEIGHT))


def has_starts():
    return is_built() and knows_starts()


def behind(chain, chains, tip):
    """A chain that was given the blocks up to a tip."""
    for item in pieces(chains.frames(tip)):
        chain.answer(item)
    return chain


def makes_at(chains, tip):
    """What stands at a block of the names and the commitments."""
    index = Index(Base("regtest", 0, chains.first))
    for hash in chains.path(tip):
        index.connect(chains.blocks[hash].data)
    values = {name: items[-1].value for name, items in index.histories.items()}
    return [Make(at, coin.height, coin.text, None if coin.is_commitment else values[coin.text]) for at, coin in index.coins.items()]


def served(report):
    """The lines of the names that are served; those of a snapshot lack the values of before."""
    return [line for line in report.splitlines() if line.startswith(b"name ") and b" served " in line]


class FromASnapshot(Case):
    has_program = staticmethod(has_starts)

    def made_chain(self, name):
        self.base = self.chains.grow(self.chains.first, HEIGHT)
        makes = makes_at(self.chains, self.base)
        if not self.has_program():
            return ModelChain(self.base, HEIGHT, makes)
        folder = self.room / name
        folder.mkdir()
        return Replay(folder, self.base, HEIGHT, snapshot_text(makes))

    def assert_same(self):
        """The server has the node's blocks above the base, and the names that a chain from the first block has."""
        self.server.stop()
        chain, plain = self.server.chain, behind(Model(hash=self.chains.first), self.chains, self.node.tip)
        self.assertEqual(chain.chain(), self.chains.path(self.node.tip)[HEIGHT:])
        report = chain.report() if isinstance(chain, ModelChain) else run_in(chain.folder, ["dump"], b"").output
        self.assertEqual(served(report), served(plain.report()))
        self.assertGreater(len(served(report)), 5)

    def test_forward(self):
        """Names of the snapshot are updated and expire."""
        self.node.move(self.chains.grow(self.base, 35))
        self.feed(*ON_BASE)
        self.assert_same()

    def test_at_the_base(self):
        self.node.move(self.base)
        self.feed(*ON_BASE)
        self.assertEqual(self.server.frames, 1)
        self.assert_same()

    def test_back_to_the_base(self):
        self.node.move(self.chains.grow(self.base, 20))
        self.feed(*ON_BASE)
        self.node.move(self.chains.grow(self.base, 25))
        self.feed(*ON_BASE)
        self.assert_same()

    def test_block_files(self):
        """Those that have all blocks, and those that begin above the base."""
        self.node.move(self.chains.grow(self.base, 20))
        blocks = [self.chains.blocks[hash].data for hash in [self.chains.first, *self.chains.path(self.node.tip)]]
        path = self.room / "blk00000.dat"
        for part in (blocks[: HEIGHT + 11], blocks[HEIGHT + 1 :]):
            path.write_bytes(b"".join(MAGIC + len(block).to_bytes(4, "little") + block for block in part))
            run = subprocess.run(self.words("--blocks", path), cwd=FEEDER, stderr=subprocess.PIPE, text=True, timeout=SECONDS)
            self.assertEqual(run.returncode, 0, run.stderr)
        self.assert_same()

    def test_a_fork_below_the_base(self):
        """Nothing is taken off for it; without the word `--base` all is, and then the base can't be left."""
        self.node.move(self.chains.grow(self.base, 5))
        self.feed(*ON_BASE)
        self.node.move(self.chains.grow(self.chains.back(self.base, 1), 10))
        frames = self.server.frames
        self.assertIn(f"at height {HEIGHT - 1}, below its base", self.feed(*ON_BASE, status=4))
        self.assertEqual(self.server.frames, frames + 1)
        self.assertIn("the server stands on its base", self.feed(status=4))

    def test_a_node_below_the_base(self):
        """It is waited for until it has the base and more."""
        self.node.move(self.chains.back(self.base, 10))
        run = self.start(*ON_BASE)
        self.heard(run, f"and the node is behind: its best chain, of height {HEIGHT - 10}, has less work")
        self.reaches(self.chains.grow(self.base, 3))
        self.assert_same()

    def test_a_node_without_the_base(self):
        """A snapshot of another chain, or a node that was begun anew: nothing is fed, and nothing taken off."""
        self.node.move(self.chains.grow(self.chains.first, 5))
        self.node.forgotten.add(self.base)
        unknown = f"the server stands on block {self.base[::-1].hex()}, which the node doesn't know"
        self.assertIn(unknown, self.feed("--patience", "1", status=5))
        self.assertEqual(self.server.chain.chain(), [])


@unittest.skipUnless(has_starts(), "the program isn't built, or doesn't know `init-from`")
class OverServe(Case):
    def setUp(self):
        super().setUp()
        self.server.stop()
        self.base = self.chains.grow(self.chains.first, HEIGHT)
        folder = self.room / "serve"
        folder.mkdir()
        initialised(folder, self.base, HEIGHT, snapshot_text(makes_at(self.chains, self.base)))
        self.server = Serve(folder)
        self.addCleanup(self.server.stop)

    def gets_to(self, tip):
        self.node.move(tip)
        self.waits_for("the tip", lambda: surviving(self.server.folder)[-1:] == [tip])

    def test_forward_and_back(self):
        """Also where the server is killed and started again: a name is answered as by a chain from the first block."""
        self.start(*ON_BASE, "--save-every", "0")
        self.gets_to(self.chains.grow(self.base, 20))
        self.server.stop()
        self.server.start()
        self.gets_to(self.chains.grow(self.base, 24))
        self.server.stop()
        asked = b"".join(question(name_of(it)[2:]) for it in range(1, HEIGHT))
        told = run_in(self.server.folder, ["replay"], asked).output
        self.assertEqual(pieces(told), self.answers(asked))
        # A reply has its code and its length in front, and then a message whose header tells the answers and whether there is an error.
        has_address = [text[5 + 3] & 0xF == 0 and text[5 + 7] > 0 for text in pieces(told)]
        self.assertGreater(sum(has_address), 5)

    def answers(self, asked):
        """What a replay of the chain from the first block on answers."""
        plain = Replay(self.made_folder("plain"), self.chains.first)
        run = run_in(plain.folder, ["replay"], self.chains.frames(self.node.tip) + asked)
        return pieces(run.output)[self.chains.blocks[self.node.tip].height :]

    def made_folder(self, name):
        folder = self.room / name
        folder.mkdir()
        return folder


if __name__ == "__main__":
    unittest.main()
