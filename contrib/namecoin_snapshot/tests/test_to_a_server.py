"""From a node's unspent outputs to a name that is resolved: the line that is printed, run as it is printed, and a server on its files."""
import base64
import json
import re
import shutil
import socket
import subprocess
import sys
import urllib.request

from . import FEEDER, SNAPSHOT
from .case import SECONDS, Case, unittest
from .node_files import LAYOUTS, NETWORKS, Coin, file_text

from answers_model import A, reply_to, zone_of
from common import HERE, PROGRAM, free_port, knows_starts
from generated_zones import message
from model import transactions_of
from served import server_in
from stores import FILES

NAME, ADDRESS = "d/example", "192.0.2.1"
VALUE = json.dumps({"ip": ADDRESS})


class Node:
    """The fake node of the feeder's tests, as a program of its own."""

    def __init__(self, room):
        self.port, self.cookie = free_port(socket.SOCK_STREAM), room / "cookie"
        words = [sys.executable, "-m", "tests.fake_node", "--cookie", self.cookie, "--port", str(self.port)]
        words += ["--name", NAME, "--value", VALUE]
        self.run = subprocess.Popen(words, cwd=FEEDER, stdin=subprocess.PIPE, stdout=subprocess.PIPE, text=True)
        self.first = self.run.stdout.readline().split()[-1]
        self.url = f"http://{HERE}:{self.port}/"

    def stop(self):
        self.run.kill()
        self.run.communicate()

    def grows(self):
        """A block more. What the node tells of it."""
        self.run.stdin.write("\n")
        self.run.stdin.flush()
        return self.run.stdout.readline()

    def ask(self, method, *words):
        word = base64.b64encode(self.cookie.read_bytes()).decode()
        text = json.dumps({"id": 0, "method": method, "params": words}).encode()
        request = urllib.request.Request(self.url, text, {"Authorization": f"Basic {word}"})
        with urllib.request.urlopen(request, timeout=SECONDS) as told:
            return json.load(told)["result"]

    def blocks(self):
        """The blocks of its best chain, from the first one above the one of height 0, which makes no output that can be spent."""
        height = self.ask("getblockheader", self.ask("getbestblockhash"))["height"]
        return [bytes.fromhex(self.ask("getblock", self.ask("getblockhash", it), 0)) for it in range(1, height + 1)]


def unspent(blocks):
    """The outputs that no block spends."""
    coins = {}
    for height, block in enumerate(blocks, 1):
        for place, transaction in enumerate(transactions_of(block)):
            for at in transaction.inputs:
                coins.pop(at, None)
            for index, (amount, script) in enumerate(transaction.outputs):
                at = transaction.txid + index.to_bytes(4, "little")
                coins[at] = Coin(transaction.txid, index, height, script, amount, place == 0)
    return [coins[at] for at in sorted(coins)]


@unittest.skipUnless(PROGRAM.exists() and knows_starts(), "the program isn't built, or doesn't know `init-from`")
class ToAServer(Case):
    def setUp(self):
        super().setUp()
        self.node = Node(self.room)
        self.addCleanup(self.node.stop)
        self.folder = self.room / "a folder"
        self.folder.mkdir()

    def printed_line(self, layout):
        """The line that the tool prints for the node's outputs."""
        tip = bytes.fromhex(self.node.ask("getbestblockhash"))[::-1]
        self.file.write_bytes(file_text(layout, unspent(self.node.blocks()), tip, NETWORKS["regtest"]))
        words = [self.file, self.room / "a snapshot", "--host", "ns.example.", "--node", self.node.url, "--cookie", self.node.cookie]
        words += ["--confirmations", "1"]
        run = [sys.executable, "-m", "namecoin_snapshot", "regtest", *map(str, words), "--program", str(PROGRAM)]
        told = subprocess.run(run, cwd=SNAPSHOT, stdout=subprocess.PIPE, stderr=subprocess.PIPE, timeout=SECONDS, text=True)
        self.assertEqual(told.returncode, 0, told.stderr)
        return told.stdout

    def makes_files(self, layout):
        """Runs the line in an empty folder, as somebody who pastes it does. The height that it names."""
        line = self.printed_line(layout)
        for path in self.folder.iterdir():
            path.unlink()
        how = {"stdout": subprocess.PIPE, "stderr": subprocess.STDOUT, "timeout": SECONDS, "text": True}
        run = subprocess.run(["sh"], input=line, cwd=self.folder, **how)
        self.assertEqual((run.returncode, run.stdout), (0, ""), line)
        self.assertEqual(sorted(path.name for path in self.folder.iterdir()), list(FILES))
        return int(re.search(r" init-from regtest (\d+) ", line)[1])

    def resolves(self, server, height):
        """The server answers with the name's address, as the zone of this height has it."""
        asked = message(height, (b"example", b"bit"), A)
        zone = zone_of({NAME.encode(): VALUE.encode()}, "ns.example.", height)
        told = server.ask(asked)
        self.assertEqual(told, reply_to(zone, asked).text())
        self.assertEqual(told[-4:], socket.inet_aton(ADDRESS))

    def test_resolved(self):
        """By either layout, and at later blocks of the node."""
        for layout in LAYOUTS:
            height = self.makes_files(layout)
            with server_in(self.folder) as server:
                self.resolves(server, height)
            self.node.grows()

    @unittest.skipIf(shutil.which("dig") is None, "dig is missing")
    def test_dig(self):
        self.makes_files(LAYOUTS[-1])
        with server_in(self.folder) as server:
            words = ["dig", f"@{HERE}", "-p", str(server.udp), "example.bit", "+short"]
            told = subprocess.run(words, stdout=subprocess.PIPE, timeout=SECONDS, check=True, text=True).stdout
        self.assertEqual(told, f"{ADDRESS}\n")

    def test_followed(self):
        """The feeder goes on from the snapshot's base, and the name is there at the node's tip."""
        height = self.makes_files(LAYOUTS[-1])
        for _ in range(5):
            self.assertIn("height ", self.node.grows())
        with server_in(self.folder) as server:
            words = ["--node", self.node.url, "--cookie", self.node.cookie, "--server", f"{HERE}:{server.feed}"]
            run = [sys.executable, "-m", "namecoin_feeder", *map(str, words), "--base", str(height), "--once"]
            said = subprocess.run(run, cwd=FEEDER, stderr=subprocess.PIPE, timeout=SECONDS, text=True)
            self.assertEqual(said.returncode, 0, said.stderr)
            self.assertIn(f"height {height + 5}, the tip", said.stderr)
            self.resolves(server, height + 5)


if __name__ == "__main__":
    unittest.main()
