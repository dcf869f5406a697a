"""How it ends: by itself, by a disk that is full, by signals; and what stands in the snapshot's place then."""
import contextlib
import errno
import os
import pty
import resource
import signal
import subprocess
import sys
import unittest.mock

from . import SNAPSHOT
from .case import BASE, HEIGHT, SECONDS, UPDATE, Case, Status, name_script, unittest, wanted_snapshot
from .node_files import NEWER, Coin, file_text

from namecoin_snapshot import files
from namecoin_snapshot.statuses import INTERRUPTED

COINS = [Coin(it.to_bytes(32, "big"), 0, HEIGHT, name_script(UPDATE, b"d/%d" % it, bytes(200))) for it in range(3000)]


def is_small():
    """Has no file get longer than 100,000 bytes, as a disk that is full does."""
    signal.signal(signal.SIGXFSZ, signal.SIG_IGN)
    resource.setrlimit(resource.RLIMIT_FSIZE, (100_000, 100_000))


class Ends(Case):
    def setUp(self):
        super().setUp()
        self.file.write_bytes(file_text(NEWER, COINS))
        # What a shell starts in the background is deaf to interrupts, and so is all that it starts.
        signal.signal(signal.SIGINT, signal.default_int_handler)

    def start(self, **how):
        how = {"stdout": subprocess.PIPE, "stderr": subprocess.PIPE, "text": True, **how}
        run = subprocess.Popen([sys.executable, "-m", "namecoin_snapshot", *self.words()], cwd=SNAPSHOT, **how)
        self.addCleanup(run.communicate)
        self.addCleanup(run.kill)
        return run

    def names(self):
        return sorted(it.name for it in self.room.iterdir())

    def test_as_a_program(self):
        run = self.start()
        printed, said = run.communicate(timeout=SECONDS)
        line = f"bridge_server init-from regtest {HEIGHT} {BASE[::-1].hex()} ns.example. < {self.snapshot}\n"
        self.assertEqual((run.returncode, printed), (0, line))
        self.assertEqual(said.splitlines()[0], "namecoin_snapshot: 3000 outputs of 3000")
        self.assertIn("3000 names and 0 commitments are taken", said)
        self.assertEqual(self.snapshot.read_bytes(), wanted_snapshot(COINS))

    def test_a_full_disk(self):
        self.snapshot.write_bytes(b"before")
        run = self.start(preexec_fn=is_small)
        printed, said = run.communicate(timeout=SECONDS)
        self.assertEqual((run.returncode, printed), (Status.WRITING, ""))
        self.assertEqual(said.splitlines()[-1], f"namecoin_snapshot: {self.snapshot} can't be written: File too large")
        self.assertEqual((self.names(), self.snapshot.read_bytes()), (["outputs", "snapshot"], b"before"))

    def test_calls_that_fail(self):
        """Each call that writes, syncs or moves the snapshot: what stood in its place stands there, or, behind the move, the new one."""
        full = OSError(errno.ENOSPC, os.strerror(errno.ENOSPC))
        before, behind = b"before", wanted_snapshot(COINS)
        for place, stays in (("os.fsync", before), ("os.replace", before), ("sync_folder", behind), ("open", before)):
            self.snapshot.write_bytes(before)
            with unittest.mock.patch(f"namecoin_snapshot.files.{place}", side_effect=full, create=True):
                self.assertEqual(self.run_main(), Status.WRITING)
            self.assertTrue(self.said.endswith("can't be written: No space left on device\n"), self.said)
            self.assertEqual((self.names(), self.snapshot.read_bytes() == stays, self.printed), (["outputs", "snapshot"], True, ""), place)

    def test_the_order_of_calls(self):
        """The bytes are synced before the snapshot is moved to its place, and the folder behind that."""
        calls = []

        def noted(name, call):
            return unittest.mock.patch.object(files.os, name, lambda *given: (calls.append(name), call(*given))[1])

        with noted("fsync", os.fsync), noted("replace", os.replace):
            self.assertEqual(self.run_main(), 0)
        self.assertEqual(calls, ["fsync", "replace", "fsync"])

    def test_a_file_that_fails(self):
        """Where reading fails the file is told, and not the snapshot."""
        with unittest.mock.patch("namecoin_snapshot.command_line.open", create=True) as opened:
            opened.return_value.__enter__.return_value = file = unittest.mock.Mock()
            file.fileno.return_value = 0
            file.read.side_effect = OSError(errno.EIO, os.strerror(errno.EIO))
            self.assertEqual(self.run_main(), Status.FILE)
        self.assertIn(f"{self.file} can't be read: Input/output error", self.said)

    def test_nobody_reads_the_line(self):
        """The snapshot stands; the status says that the line wasn't printed."""
        with open("/dev/full", "w") as full:
            run = self.start(stdout=full)
            said = run.communicate(timeout=SECONDS)[1]
        self.assertEqual(run.returncode, Status.WRITING)
        self.assertIn("its line can't be printed: No space left on device", said)
        self.assertEqual(self.snapshot.read_bytes(), wanted_snapshot(COINS))

    def test_interrupted(self):
        """While it waits for the rest of its file, which is a pipe here."""
        text = self.file.read_bytes()
        self.file.unlink()
        os.mkfifo(self.file)
        for number in (signal.SIGINT, signal.SIGTERM):
            run = self.start()
            with open(self.file, "wb") as rest:
                rest.write(text[: len(text) // 2])
                rest.flush()
                run.send_signal(number)
                self.assertEqual(run.wait(SECONDS), INTERRUPTED)
            self.assertEqual(self.names(), ["outputs"])
        run = self.start()
        self.file.write_bytes(text)
        self.assertEqual(run.wait(SECONDS), 0)
        self.assertEqual(self.snapshot.read_bytes(), wanted_snapshot(COINS))

    def test_signals_are_as_before(self):
        for handler in (signal.SIG_DFL, signal.SIG_IGN):
            self.addCleanup(signal.signal, signal.SIGTERM, signal.signal(signal.SIGTERM, handler))
            self.assertEqual((self.run_main(), signal.getsignal(signal.SIGTERM)), (0, handler))

    def test_killed(self):
        """At any moment: in the snapshot's place stands what stood there before, or all of the new one."""
        before, behind = b"before", wanted_snapshot(COINS)
        self.snapshot.write_bytes(before)
        for tenths in range(1, 8):
            run = self.start()
            with contextlib.suppress(subprocess.TimeoutExpired):
                run.communicate(timeout=tenths / 20)
            run.kill()
            run.communicate()
            self.assertIn(self.snapshot.read_bytes(), (before, behind))

    def test_modes(self):
        """The snapshot may be read by whom the one who makes it lets read his files."""
        for mask, mode in ((0o022, 0o644), (0o077, 0o600)):
            run = self.start(umask=mask)
            self.assertEqual(run.wait(SECONDS), 0)
            self.assertEqual(self.snapshot.stat().st_mode & 0o777, mode)

    def test_terminal(self):
        """On a terminal one line tells how far it is, and is written over."""
        ours, theirs = pty.openpty()
        run = self.start(stderr=theirs)
        os.close(theirs)
        text = b""
        with contextlib.suppress(OSError), open(ours, "rb", 0) as stream:
            while got := stream.read(4096):
                text += got
        self.assertEqual(run.wait(SECONDS), 0)
        self.assertIn("namecoin_snapshot: 3000 names and 0 commitments are taken", text.decode())
        self.assertIn("\r\x1b[K", text.decode())


if __name__ == "__main__":
    unittest.main()
