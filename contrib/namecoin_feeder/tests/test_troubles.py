"""Troubles of the node, of the server and of the line between pass; the server gets to the node's best chain all the same."""
import itertools
import socket
import threading

from .case import Case, unittest
from .fake_node import Fault, RpcFault

from common import reply

OTHERS_REPLY = b"HTTP/1.1 400 Bad Request\r\n\r\n"


class OfTheNode(Case):
    def setUp(self):
        super().setUp()
        self.node.move(self.chains.grow(self.chains.first, 60))

    def fails(self, fault, method="getblock", first=10, times=1):
        """60 blocks more; from the request of that number on, the node answers some with a fault. What the feeder said."""
        left, count = [fault] * times, itertools.count(1)

        def before(asked, _):
            if left and asked == method and next(count) >= first:
                raise left.pop()

        self.node.move(self.chains.grow(self.node.tip, 60))
        self.node.before = before
        said = self.feed()
        self.assertFalse(left)
        self.assertEqual(self.server.tip, self.node.tip)
        return said

    def test_errors(self):
        self.assertIn("HTTP status 500", self.fails(Fault(status=500, text="no")))
        self.assertIn("too much to do (HTTP status 503)", self.fails(Fault(status=503, text="Work queue depth exceeded")))
        self.assertIn("HTTP status 404", self.fails(Fault(status=404)))
        self.assertIn("error -32603: Out of memory", self.fails(RpcFault(-32603, "Out of memory")))
        self.assert_same()

    def test_lost_lines(self):
        for fault in (Fault(), Fault(part=b""), Fault(part=b'[{"result": "00')):
            self.assertIn("gives no whole answer", self.fails(fault))
        self.assert_same()

    def test_no_answer_in_time(self):
        def before(method, _):
            if method == "getblock":
                self.node.before = None
                raise Fault(seconds=1)

        self.node.before = before
        said = self.feed("--timeout", "0.3")
        self.assertIn("no answer in time", said)
        self.assert_same()

    def test_odd_words_of_an_error(self):
        self.assertIn("error -1: a?namecoin_feeder: b", self.fails(RpcFault(-1, "a\nnamecoin_feeder: b" + "c" * 10**6)))

    def test_warming_up(self):
        said = self.fails(RpcFault(-28, "Loading block index..."), "getbestblockhash", 1, 3)
        self.assertIn("the node is starting: Loading block index...", said)

    def test_another_block(self):
        """A node that gives another block than it was asked for isn't believed."""
        other = self.chains.blocks[self.chains.first].data.hex()
        given = self.node.getblock

        def getblock(text, verbosity):
            self.node.getblock = given
            return other

        self.node.getblock = getblock
        self.assertIn("gives another block than", self.feed())
        self.assert_same()

    def test_restart_with_another_cookie(self):
        count = itertools.count()

        def before(method, _):
            if method == "getblock" and next(count) == 30:
                self.node.before = None
                threading.Thread(target=self.node.restart, args=("other:word",)).start()

        self.node.before = before
        self.feed()
        self.assert_same()

    def test_away_for_a_while(self):
        self.node.stop()
        run = self.start("--once")
        self.heard(run, "gives no whole answer: Connection refused")
        self.node.start()
        self.ends(run)
        self.assert_same()

    def test_no_cookie_for_a_while(self):
        word = self.cookie.read_text()
        self.cookie.unlink()
        run = self.start("--once")
        self.heard(run, "is the node running?")
        self.cookie.write_text(word)
        self.ends(run)
        self.assert_same()

    def test_refused_password(self):
        self.cookie.write_text("user:other")
        self.assertIn("refuses the name and the password (HTTP status 401)", self.feed(status=5))

    def test_user_and_password(self):
        path = self.room / "password"
        path.write_text("word\n")
        self.feed("--user", "user", "--password-file", str(path))
        self.assert_same()

    def test_pruned_block(self):
        def before(method, _):
            if method == "getblock":
                raise RpcFault(-1, "Block not available (pruned data)")

        self.node.before = before
        self.assertIn("has pruned a block", self.feed(status=5))

    def test_patience_ends(self):
        self.node.stop()
        self.assertIn("nothing has gone well for 0.5 seconds", self.feed("--patience", "0.5", status=5))


class OfTheServer(Case):
    def setUp(self):
        super().setUp()
        self.node.move(self.chains.grow(self.chains.first, 60))

    def instead(self, answers, first=20):
        """From the frame of that number on, the server gives these answers in the place of its own, which it doesn't make."""
        left = list(answers)
        self.server.before = lambda _: left.pop(0) if left and self.server.frames >= first else None
        return left

    def test_out_of_memory(self):
        left = self.instead([reply(0xFE)] * 3)
        self.assertIn("out of memory (code FE)", self.feed())
        self.assertFalse(left)
        self.assert_same()

    def test_out_of_memory_at_the_probe(self):
        self.instead([reply(0xFE)], 1)
        self.feed()
        self.assert_same()

    def test_disk_fault(self):
        """The server ends behind its last reply, and is started again."""

        left = self.instead([reply(0xFD)])
        run = self.start("--once")
        self.heard(run, "disk failed (code FD)")
        self.waits_for("its end", lambda: self.server.listener is None)
        self.server.start()
        self.ends(run)
        self.assertFalse(left)
        self.assert_same()

    def test_killed_while_it_is_fed(self):
        """Killed between a command and its reply, too: the command is in the files."""
        kills = [10, 11, 35]

        def before(frame):
            if kills and self.server.frames >= kills[0]:
                kills.pop(0)
                if len(kills) != 1:
                    self.server.chain.answer(frame)
                self.server.stop()
                threading.Timer(0.3, self.server.start).start()
                return b""

        self.server.before = before
        self.feed()
        self.assertFalse(kills)
        self.assert_same()

    def test_away_for_a_while(self):
        self.server.stop()
        run = self.start("--once")
        self.heard(run, "isn't reached: Connection refused")
        self.server.start()
        self.ends(run)
        self.assert_same()

    def test_busy_with_another_feed(self):
        """A second connection waits for its first reply."""
        other = socket.create_connection(("127.0.0.1", self.server.port))
        self.waits_for("the connection", lambda: self.server.connections == 1)
        run = self.start("--once", "--timeout", "0.3")
        self.heard(run, "no answer in time")
        other.close()
        self.ends(run)
        self.assert_same()

    def test_fed_by_somebody_else(self):
        """The tip is another one than the server told: it is asked for again."""
        self.instead([reply(2, self.chains.path(self.node.tip)[5])], 4)
        self.assertIn("who else feeds it?", self.feed())
        self.assert_same()

    def test_another_program(self):
        self.instead([OTHERS_REPLY], 1)
        self.assertIn("is no feed that this program knows", self.feed(status=6))

    def test_unknown_code(self):
        self.instead([reply(0x63, b"1234")], 2)
        self.assertIn("code 99", self.feed(status=6))

    def test_patience_ends(self):
        self.server.stop()
        self.assertIn("nothing has gone well for 0.5 seconds", self.feed("--patience", "0.5", status=6))


if __name__ == "__main__":
    unittest.main()
