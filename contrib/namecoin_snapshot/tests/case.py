"""What the tests share: a folder, files of unspent outputs in it, the program over them, and the snapshot that the rules demand."""
import contextlib
import io
import os
import pathlib
import tempfile
import unittest

from .node_files import LAYOUTS, NETWORKS, file_text

from blocks import FIRST, NEW, UPDATE, name_script, outpoint
from model import PROFILES, operation_of
from namecoin_snapshot.command_line import main
from namecoin_snapshot.statuses import Status
from snapshot_model import Make, snapshot_text

SECONDS = 30
MEMORY = "/dev/shm"
HEIGHT, BASE = 1000, bytes(range(32))
PAYS = b"\x76\xa9\x14" + bytes(20) + b"\x88\xac"


def wanted_makes(coins, profile, height):
    """What is to be taken of these outputs, by the rules on names."""
    for coin in coins:
        operation = operation_of(coin.script)
        if operation is None or coin.is_coinbase:
            continue
        kind, text, *rest = operation
        if kind == NEW:
            yield Make(outpoint(coin.txid, coin.index), coin.height, text)
        elif not PROFILES[profile].expired(coin.height, height + 1):
            yield Make(outpoint(coin.txid, coin.index), coin.height, text, rest[-1])


def wanted_snapshot(coins, profile="regtest", height=HEIGHT):
    return snapshot_text(wanted_makes(coins, profile, height))


class Case(unittest.TestCase):
    def setUp(self):
        room = tempfile.TemporaryDirectory(prefix="jaqhumpi-", dir=MEMORY if os.access(MEMORY, os.W_OK) else None)
        self.addCleanup(room.cleanup)
        self.room = pathlib.Path(room.name)
        self.file, self.snapshot = self.room / "outputs", self.room / "snapshot"

    def words(self, *more, profile="regtest", height=HEIGHT):
        places = [] if height is None else ["--height", str(height)]
        return [profile, str(self.file), str(self.snapshot), "--host", "ns.example.", *places, *map(str, more)]

    def run_main(self, *more, **how):
        """The status of a run; what it prints and what it says stays in `printed` and `said`."""
        out, said = io.StringIO(), io.StringIO()
        with contextlib.redirect_stdout(out), contextlib.redirect_stderr(said):
            status = main(self.words(*more, **how))
        self.printed, self.said = out.getvalue(), said.getvalue()
        return status

    def made(self, text, *more, **how):
        """The snapshot that is made of a file."""
        self.file.write_bytes(text)
        self.snapshot.unlink(missing_ok=True)
        self.assertEqual(self.run_main(*more, **how), Status.DONE, self.said if hasattr(self, "said") else "")
        return self.snapshot.read_bytes()

    def check(self, coins, profile="regtest", height=HEIGHT):
        """Both layouts give the snapshot that the rules demand."""
        for layout in LAYOUTS:
            text = file_text(layout, coins, network=NETWORKS[profile])
            wanted = wanted_snapshot(coins, profile, height)
            self.assertEqual(self.made(text, profile=profile, height=height).hex(), wanted.hex(), layout)

    def refused(self, text, status, *told, **how):
        """Nothing is made of a file, and nothing is left but what was there; what is told of it is one line."""
        self.file.write_bytes(text)
        before = {path: path.read_bytes() for path in self.room.iterdir()}
        self.assertEqual(self.run_main(**how), status, self.said)
        self.assertEqual(self.printed, "")
        line = self.said.splitlines()[-1]
        for it in told:
            self.assertIn(it, line)
        self.assertEqual({path: path.read_bytes() for path in self.room.iterdir()}, before)

    def bad_at(self, text, place, told, **how):
        """The file is refused with the fault at a place."""
        self.refused(text, Status.FILE, f"namecoin_snapshot: {self.file} at {place}: ", told, **how)


__all__ = ["BASE", "FIRST", "HEIGHT", "NEW", "PAYS", "SECONDS", "UPDATE"]
__all__ += ["Case", "Status", "name_script", "unittest", "wanted_snapshot"]
