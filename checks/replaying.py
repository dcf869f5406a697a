"""A replay that goes on while its replies are read."""
import os
import subprocess
import time

from common import SECONDS, program


class Replay:
    """A run of the program, with what it has told."""

    def __init__(self, folder):
        pipe = subprocess.PIPE
        self.run = subprocess.Popen([program(), "replay"], cwd=folder, stdin=pipe, stdout=pipe, stderr=pipe)
        self.told = b""

    def give(self, frames):
        os.write(self.run.stdin.fileno(), b"".join(frames))

    def hear(self, replies):
        """Waits until so much was told."""
        wanted = len(b"".join(replies))
        while len(self.told) < wanted and (piece := os.read(self.run.stdout.fileno(), wanted - len(self.told))):
            self.told += piece

    def kill(self, moment=0.0):
        """Kills it after so many seconds. All that it has told."""
        until = time.perf_counter() + moment
        while time.perf_counter() < until:
            pass
        self.run.kill()
        rest, _ = self.run.communicate(timeout=SECONDS)
        return self.told + rest
