"""The program's `serve`, in folders of its own."""
import contextlib
import os
import pathlib
import socket
import subprocess
import tempfile
import time

from .stand_in import PROGRAM, initialised

from common import server_ports

MOST_TURNS, SECONDS = 1_000_000_000, 20


class Serve:
    """A run of the program's `serve` in a folder with its files."""

    def __init__(self, folder):
        self.folder, self.run = folder, None
        self.udp, self.feed = server_ports()
        self.start()

    @property
    def address(self):
        return f"127.0.0.1:{self.feed}"

    def start(self):
        words = [PROGRAM, "serve", str(self.udp), str(self.feed), str(MOST_TURNS)]
        self.run = subprocess.Popen(words, cwd=self.folder, stdin=subprocess.DEVNULL)
        until = time.monotonic() + SECONDS
        while time.monotonic() < until and self.run.poll() is None:
            with contextlib.suppress(OSError), socket.create_connection(("127.0.0.1", self.feed), 1):
                return
            time.sleep(0.02)
        raise SystemExit(f"serve doesn't take a connection: {self.run.poll()}")

    def stop(self):
        """Ends it as a crash does."""
        if self.run is not None:
            self.run.kill()
            self.run.wait()
            self.run = None


@contextlib.contextmanager
def serving(folder, base):
    """A server in a folder, on the base of that hash; with its ports `udp` and `feed`."""
    initialised(folder, base)
    server = Serve(folder)
    try:
        yield server
    finally:
        server.stop()


@contextlib.contextmanager
def room():
    """A new folder, in memory where there is one."""
    memory = "/dev/shm" if os.access("/dev/shm", os.W_OK) else None
    with tempfile.TemporaryDirectory(prefix="jaqhumpi-", dir=memory) as name:
        yield pathlib.Path(name)
