"""Processes that open files and wait then: what the opening took, and what they hold."""
import contextlib
import os
import pathlib
import re
import subprocess
import time
import typing


class Opening(typing.NamedTuple):
    """Of an opening: seconds by the clock and of processors, and the bytes held behind it and at most."""

    clock: float
    processor: float
    held: int
    peak: int

    def without(self, other):
        """What it took beside another one, which opens next to nothing."""
        return Opening(*(one - less for one, less in zip(self, other)))

    def told(self, names):
        seconds = f"{self.clock:.2f} s by the clock, {self.processor:.2f} of processors"
        return f"{seconds}, {self.held / names:.0f} bytes a name, {self.peak / names:.0f} at the peak"


def memory_of(process):
    """The bytes that a process holds, and the most that it held."""
    text = pathlib.Path(f"/proc/{process}/status").read_text()
    return tuple(int(re.search(rf"{name}:\s+(\d+)", text)[1]) * 1024 for name in ("VmRSS", "VmHWM"))


def processor_of(process):
    """The seconds of processors that a process took."""
    fields = pathlib.Path(f"/proc/{process}/stat").read_text().rpartition(")")[2].split()
    return sum(map(int, fields[11:13])) / os.sysconf("SC_CLK_TCK")


def worked_of(process):
    """The same by the system's scheduler, to the nanosecond."""
    return int(pathlib.Path(f"/proc/{process}/schedstat").read_text().split()[0]) / 1e9


class Opened:
    """A program that has opened something, and told so."""

    def __init__(self, run, said, opening):
        self.run, self.said, self.opening = run, said, opening

    def say(self, text, length):
        """What it answers, of that length."""
        self.run.stdin.write(text)
        self.run.stdin.flush()
        return self.run.stdout.read(length)


@contextlib.contextmanager
def opened(words, folder, asking, length):
    """Starts a program in a folder, which opens something; asks it then, and has its answer of that length, or a line where none is
    told. Its input ends with the block."""
    begun = time.monotonic()
    run = subprocess.Popen(words, cwd=folder, stdin=subprocess.PIPE, stdout=subprocess.PIPE)
    try:
        run.stdin.write(asking)
        run.stdin.flush()
        said = run.stdout.read(length) if length else run.stdout.readline()
        seconds = time.monotonic() - begun
        yield Opened(run, said, Opening(seconds, processor_of(run.pid), *memory_of(run.pid)))
        run.stdin.close()
        if run.wait():
            raise SystemExit(f"{words[0]} ended with {run.returncode}")
    finally:
        run.kill()
        run.wait()
        run.stdout.close()
