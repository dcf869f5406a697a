"""The feeder and the program's `serve`, as they run in earnest."""
import socket

from .case import Case, question, unittest
from .chains import name_of
from .serving import Serve
from .stand_in import initialised, is_built, surviving

from images_model import ImageFault
from stores import saves_of


@unittest.skipUnless(is_built(), "the program isn't built")
class OverServe(Case):
    def setUp(self):
        super().setUp()
        self.server.stop()
        folder = self.room / "serve"
        folder.mkdir()
        initialised(folder, self.chains.first)
        self.server = Serve(folder)
        self.addCleanup(self.server.stop)

    def kept(self):
        """The blocks that survive by the files, which a save may change just then."""
        try:
            return surviving(self.server.folder)
        except ImageFault:
            return []

    def has_chain(self):
        """The server gets to the node's whole chain."""
        self.waits_for("the chain", lambda: self.kept() == self.chains.path(self.node.tip))

    def gets_to(self, tip):
        self.node.move(tip)
        self.waits_for("the tip", lambda: self.kept()[-1:] == [tip])

    def ask(self, name):
        with socket.socket(socket.AF_INET, socket.SOCK_DGRAM) as line:
            line.settimeout(5)
            line.sendto(question(name)[5:], ("127.0.0.1", self.server.udp))
            return line.recv(512)

    def test_forward_and_back(self):
        self.start()
        self.gets_to(self.chains.grow(self.chains.first, 130))
        self.gets_to(self.chains.grow(self.chains.back(self.node.tip, 100), 101))
        self.has_chain()
        name = next(iter(self.chains.blocks[self.node.tip].changed))
        self.assertEqual(self.ask(name_of(name)[2:])[3] & 0xF, 0)

    def test_blocks_leave_below_a_save(self):
        """Saved every so many blocks and started again: blocks leave that the image alone tells of."""
        run = self.start("--save-every", "10")
        self.gets_to(self.chains.grow(self.chains.first, 60))
        self.waits_for("a save", lambda: saves_of(self.server.folder) > 0)
        for depth in (5, 45):
            self.server.stop()
            self.server.start()
            self.gets_to(self.chains.grow(self.chains.back(self.node.tip, depth), depth + 20))
        self.has_chain()
        self.waits_for("more saves", lambda: saves_of(self.server.folder) > 1)
        self.assertIsNone(run.poll())

    def test_killed_and_started_again(self):
        run = self.start("--save-every", "20")
        self.node.move(self.chains.grow(self.chains.first, 300))
        for count in (40, 120, 250):
            self.waits_for("blocks", lambda: len(self.kept()) >= count)
            self.server.stop()
            self.server.start()
        self.gets_to(self.chains.add(self.node.tip))
        self.has_chain()
        self.assertIsNone(run.poll())


if __name__ == "__main__":
    unittest.main()
