"""What the node answers is read with care: nothing in an answer ends the feeder otherwise than by a trouble that it tells."""
import json

from .case import Case, unittest
from .fake_node import Fault, RpcFault

from namecoin_feeder.http_calls import Password, TooLong
from namecoin_feeder.node import Node
from namecoin_feeder.troubles import Moved, NodeTrouble

TEXTS = ["", "[]", "[1]", "{}", "null", "\xff", "[" * 10000, '[{"id": 0}]', '[{"id": 1, "result": "00"}]']
TEXTS += ['[{"id": 0, "result": 5}]', '[{"id": 0, "result": "zz"}]', '[{"id": 0, "error": "no"}]', '[{"id": 0, "error": {"code": "x"}}]']
TEXTS += ['{"error": null}', '{"error": {"code": -1, "message": "no"}}']
# What stands in the place of a part of a good answer.
ODD = [None, True, 1.5, -2, 10**30, "x", "0" * 63, [], {}]
NOT_WHOLE = ["null", "1e999", "-1", "9" * 400, "[]", "{}", '"x"', "true", "NaN", "5", '[{"hash": 5}, null]', "[[]]"]


class ByNode(Case):
    def setUp(self):
        super().setUp()
        self.node.move(self.chains.grow(self.chains.first, 40))
        self.source = Node(self.node.url, Password("user", "word"), 5)
        self.addCleanup(self.source.close)

    def calls(self):
        yield "getbestblockhash", self.source.best
        yield "getblockheader", lambda: self.source.header(self.node.tip)
        yield "getblockchaininfo", self.source.is_downloading
        yield "getblockchaininfo", self.source.lacks_blocks
        yield "getchaintips", lambda: self.source.has_rejected(self.node.tip)
        yield "getblockhash", lambda: list(self.source.runs(1, 1))
        yield "getblock", lambda: list(self.source.runs(1, 1))

    def answers(self, fault, method):
        """The node answers the next request of that method with a fault."""

        def before(asked, _):
            if asked == method:
                self.node.before = None
                raise fault

        self.node.before = before

    def test_answers_that_cannot_be_read(self):
        for method, call in self.calls():
            for text in TEXTS:
                with self.subTest(method=method, text=text[:40]):
                    self.answers(Fault(status=200, text=text), method)
                    self.assertRaises(NodeTrouble, call)
                    self.source.best()

    def results(self, result, method):
        self.answers(Fault(status=200, text=f'[{{"id": 0, "result": {result}}}]'), method)

    def test_results_that_cannot_be_read(self):
        """Of another kind, without end, or nothing; no branches at all, and odd ones that aren't the one looked for, say nothing."""
        for method, call in self.calls():
            for result in NOT_WHOLE:
                with self.subTest(method=method, result=result[:20]):
                    self.results(result, method)
                    if method == "getchaintips" and result in ("[]", "{}"):
                        self.assertFalse(call())
                    else:
                        self.assertRaises(NodeTrouble, call)

    def test_parts_that_cannot_be_read(self):
        """Each part of what is told of a block, and of the download, in each odd form or away."""
        rows = [("getblockheader", lambda: self.source.header(self.node.tip), self.node.getblockheader(self.node.tip[::-1].hex()))]
        rows.append(("getblockchaininfo", self.source.is_downloading, self.node.getblockchaininfo()))
        for method, call, good in rows:
            for part in set(good) - {"chain"}:
                odd = [{**good, part: it} for it in ODD if not (part == "initialblockdownload" and it is True)]
                for result in [*odd, {key: good[key] for key in good if key != part}]:
                    with self.subTest(method=method, part=part, result=result.get(part)):
                        self.results(json.dumps(result), method)
                        self.assertRaises(NodeTrouble, call)

    def test_a_header_of_another_block(self):
        self.results(json.dumps(self.node.getblockheader(self.chains.first[::-1].hex())), "getblockheader")
        self.assertRaises(NodeTrouble, self.source.header, self.node.tip)

    def test_what_a_node_tells_of_its_state(self):
        self.assertEqual((self.source.is_downloading(), self.source.lacks_blocks()), (False, False))
        self.node.is_downloading, self.node.headers = True, 41
        self.assertEqual((self.source.is_downloading(), self.source.lacks_blocks()), (True, True))
        other = self.chains.add(self.chains.first)
        self.assertFalse(self.source.has_rejected(other))
        self.node.rejected = {other}
        self.assertTrue(self.source.has_rejected(other))
        self.assertEqual(self.source.header(self.node.tip).work, 41)

    def test_blocks_come_in_order(self):
        blocks = [block for run in self.source.runs(1, 40) for block in run]
        self.assertEqual([block.hash for block in blocks], self.chains.path(self.node.tip))

    def test_height_that_is_gone(self):
        self.answers(RpcFault(-8, "Block height out of range"), "getblockhash")
        self.assertRaises(Moved, list, self.source.runs(1, 40))

    def test_unknown_block(self):
        self.assertIsNone(self.source.header(b"\x01" * 32))

    def test_transaction_that_is_not_told(self):
        for fault in (Fault(), RpcFault(-5, "no"), Fault(status=200, text='[{"id": 0, "result": {"tx": []}}]')):
            self.answers(fault, "getblock")
            self.assertIsNone(self.source.transaction(self.node.tip, 0))

    def test_answers_without_end(self):
        self.assertRaises(TooLong, self.source.calls.start([("getbestblockhash",)]).results, 20)
        self.source.best()


if __name__ == "__main__":
    unittest.main()
