"""The height of the base, as a node tells it."""
import base64
import http.server
import json
import threading

from .case import BASE, HEIGHT, PAYS, Case, Status, unittest
from .node_files import NEWER, Coin, file_text

from common import HERE

WORD = b"user:word"
SHOWN = BASE[::-1].hex()
TEXT = file_text(NEWER, [Coin(bytes(32), 0, HEIGHT, PAYS)])


def header(**changed):
    """What a node tells of a block on its best chain."""
    good = {"hash": SHOWN, "confirmations": 12, "height": HEIGHT, "chainwork": "0" * 63 + "1", "previousblockhash": "0" * 64}
    return {"id": 0, "result": {**good, **changed}, "error": None}


def refusal(code, text):
    return {"id": 0, "result": None, "error": {"code": code, "message": text}}


class Answering(http.server.BaseHTTPRequestHandler):
    def do_POST(self):
        asked = json.loads(self.rfile.read(int(self.headers["Content-Length"])))
        self.server.asked += [(it["method"], it["params"]) for it in asked]
        if self.headers["Authorization"] != "Basic " + base64.b64encode(WORD).decode():
            return self.tell(401, b"")
        self.tell(200, json.dumps([self.server.answer]).encode())

    def tell(self, status, text):
        self.send_response(status)
        self.send_header("Content-Length", str(len(text)))
        self.end_headers()
        self.wfile.write(text)

    def log_message(self, *_):
        pass


class ByNode(Case):
    def setUp(self):
        super().setUp()
        self.node = http.server.ThreadingHTTPServer((HERE, 0), Answering)
        self.node.asked, self.node.answer = [], header()
        threading.Thread(target=self.node.serve_forever, args=(0.01,), daemon=True).start()
        self.addCleanup(self.node.server_close)
        self.addCleanup(self.node.shutdown)
        self.secret = self.room / "secret"
        self.secret.write_bytes(WORD)

    def words(self, *more, **how):
        places = ["--node", f"http://{HERE}:{self.node.server_port}/", "--cookie", self.secret]
        return super().words(*places, *more, **{**how, "height": None})

    def test_asked(self):
        self.made(TEXT)
        self.assertEqual(self.node.asked, [("getblockheader", [SHOWN])])
        self.assertIn(f" {HEIGHT} {SHOWN} ", self.printed)

    def test_password(self):
        user, _, password = WORD.decode().partition(":")
        (self.room / "password").write_text(f"{password}\n")
        self.made(TEXT, "--user", user, "--password-file", self.room / "password")

    def test_the_height_is_the_node_s(self):
        """Outputs above it are refused."""
        self.node.answer = header(height=HEIGHT - 1)
        self.bad_at(TEXT, 85, f"above the base's, {HEIGHT - 1}")

    def test_no_header(self):
        """Blocks that the node doesn't know, or that have left; answers that can't be read."""
        rows = [(refusal(-5, "Block not found"), f"the node doesn't know the base, {SHOWN}")]
        rows += [(header(confirmations=-1), f"the base, {SHOWN}, isn't on the node's best chain")]
        rows += [(refusal(-28, "Loading"), "the node is starting: Loading"), (refusal(-1, "no"), "error -1: no")]
        odd = ({"hash": "00" * 32}, {"height": 2_000_000_001}, {"height": "1"}, {"chainwork": 5})
        rows += [(it, "can't be read") for it in (*(header(**part) for part in odd), {"id": 0, "result": None}, 5)]
        for answer, told in rows:
            self.node.answer = answer
            self.refused(TEXT, Status.NODE, told)

    def test_young(self):
        """A base with too few confirmations isn't taken, and it is told what to do; unless somebody says that fewer do."""
        self.node.answer = header(confirmations=3)
        told = f"the base, of height {HEIGHT}, has 3 of 12 confirmations (--confirmations): run this again in 9 blocks, or have a node"
        command = f"namecoin-cli -rpcclienttimeout=0 -named dumptxoutset path=outputs rollback={HEIGHT - 9}"
        self.refused(TEXT, Status.YOUNG, told, command)
        self.made(TEXT, "--confirmations", "3")
        self.made(TEXT, "--confirmations", "0")
        for least, status in ((4, Status.YOUNG), (100, Status.YOUNG), (2, Status.DONE)):
            self.assertEqual(self.run_main("--confirmations", least), status)
        self.assertEqual(self.snapshot.exists(), True)

    def test_young_at_the_first_blocks(self):
        """Below the first block there is none to go back to."""
        self.node.answer = header(confirmations=1, height=2)
        self.refused(file_text(NEWER, []), Status.YOUNG, "rollback=0")

    def test_no_base(self):
        """Below the first block there is none, and no node is asked for it."""
        self.refused(file_text(NEWER, [], base=bytes(32)), Status.NODE, "the node doesn't know the base")
        self.assertEqual(self.node.asked, [])

    def test_wrong_word(self):
        self.secret.write_bytes(b"user:other")
        self.refused(TEXT, Status.NODE, "refuses the name and the password (HTTP status 401)")
        self.secret.unlink()
        self.refused(TEXT, Status.NODE, "the cookie", "can't be read")

    def test_no_node(self):
        self.node.shutdown()
        self.node.server_close()
        self.refused(TEXT, Status.NODE, "gives no whole answer: Connection refused")

    def test_a_bad_head_comes_first(self):
        self.bad_at(TEXT[:20], 20, "is cut")
        self.assertEqual(self.node.asked, [])


if __name__ == "__main__":
    unittest.main()
