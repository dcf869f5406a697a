"""Nodes of other networks, and nodes and servers that are odd: nothing is taken off for them, and each is told."""
import json
import time

from .case import Case, unittest
from .fake_node import Fault

from common import reply


class OtherNodes(Case):
    """Nodes that another network's chain, a fault or a hand has made odd: the server's blocks stay."""

    def setUp(self):
        super().setUp()
        self.top = self.chains.grow(self.chains.first, 10)
        self.has_already(self.top)

    def stays(self, why, *more, status=5):
        """The feeder ends by its patience, or with another status; the server has all of its blocks. What was told."""
        said = self.feed("--patience", "0.4", *more, status=status)
        self.assertIn(why, said)
        self.assertEqual(self.server.tip, self.top)
        return said

    def other_network(self):
        """A node with another first block, which doesn't know any of the server's."""
        other = type(self.chains)()
        other.numbers = 1000
        other.blocks.clear()
        other.first = other.put(self.chains.blocks[self.top].data, 0, {}, {})
        self.node.chains = other
        self.node.move(other.grow(other.first, 20))
        self.node.forgotten = {other.first}

    def test_another_network(self):
        self.other_network()
        self.stays("which the node doesn't know (--unknown, where everybody has left it): nothing is taken off")

    def test_another_network_with_unknown_blocks_allowed(self):
        """It takes what it was allowed to, and no more; on the base there is nothing left to take."""
        self.other_network()
        self.assertIn("4 blocks that it doesn't know", self.feed("--unknown", "4", status=4))
        stands = f"stands on its base, block {self.chains.first[::-1].hex()}, which isn't"
        self.assertIn(stands, self.feed("--unknown", "1000", status=4))

    def instead(self, **texts):
        """The node answers requests of these methods with these results, whatever is asked."""

        def before(method, _):
            if method in texts:
                raise Fault(status=200, text='[{"id": 0, "result": %s, "error": null}]' % texts[method])

        self.node.before = before

    def test_odd_results(self):
        """Nothing and a number without end are troubles that are told, and nothing is taken off; test_node has more of them."""
        self.node.move(self.chains.grow(self.chains.back(self.top, 3), 9))
        for method, text in (("getbestblockhash", "null"), ("getblockheader", "1e999"), ("getblockchaininfo", "{}")):
            with self.subTest(method=method, text=text):
                self.instead(**{method: text})
                self.stays("can't be read")

    def header(self, block, **changed):
        return json.dumps({**self.node.getblockheader(block[::-1].hex()), **changed})

    def test_headers_that_lie(self):
        """A circle of headers, heights that jump, and a way that ends nowhere."""
        self.node.move(self.chains.grow(self.chains.back(self.top, 3), 9))
        below = self.chains.back(self.top, 1)
        lies = {
            "don't make one chain": {"previousblockhash": self.top[::-1].hex()},
            "headers that don't make one chain": {"height": 9000},
            "that can't be read": {"hash": below[::-1].hex()},
            "has no block in common": {"height": 0, "previousblockhash": "0" * 64},
        }
        for why, lie in lies.items():
            with self.subTest(why=why):
                told = self.header(self.top, **lie)

                def before(method, words):
                    if method == "getblockheader" and words[0] == self.top[::-1].hex():
                        raise Fault(status=200, text='[{"id": 0, "result": %s}]' % told)

                self.node.before = before
                self.stays(why, status=4 if "common" in why else 5)
    def test_header_above_the_best_block(self):
        """A node that says that the server's tip is on its best chain, and above its best block: there are pauses."""
        self.node.move(self.chains.back(self.top, 3))
        told = self.header(self.top, confirmations=1)

        def before(method, words):
            if method == "getblockheader" and words[0] == self.top[::-1].hex():
                raise Fault(status=200, text='[{"id": 0, "result": %s}]' % told)

        self.node.before = before
        self.stays("the best chain of the node has moved 5 times")

    def test_flips_between_two_tips(self):
        """As two nodes behind one address: reorganisations come at intervals that grow."""
        other = self.chains.grow(self.chains.back(self.top, 2), 2)
        run = self.start("--longest-pause", "4")
        begun, until = len(self.server.codes), time.monotonic() + 3
        while time.monotonic() < until:
            self.node.move(other if self.node.tip == self.top else self.top)
            time.sleep(0.05)
        self.assertIsNone(run.poll())
        # Half a second, one and two: each takes two blocks off, and gives two.
        self.assertLessEqual(len(self.server.codes) - begun, 4 * 4 + 1)
        self.reaches(self.chains.add(other))
        self.assert_same()

    def test_fed_by_somebody_else_while_blocks_are_taken_off(self):
        """The server stands elsewhere than it said: it is asked anew, and no block of somebody else's is taken off for it."""
        self.node.move(self.chains.grow(self.chains.back(self.top, 4), 6))
        told = [reply(6, self.chains.back(self.top, 2))]
        self.server.before = lambda frame: told.pop() if told and frame[:1] == b"\x02" else None
        self.assertIn("who else feeds it?", self.feed())
        self.assert_same()


if __name__ == "__main__":
    unittest.main()
