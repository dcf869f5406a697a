"""What a run of a program takes that ends by itself."""
import subprocess
import sys
import typing

# Runs the words behind it with its own input, and tells what they used. A small program of its own, since the greatest memory of
# a run counts that of who started it.
USED = """\
import resource, subprocess, sys, time
begun = time.monotonic()
status = subprocess.run(sys.argv[1:], stdout=subprocess.DEVNULL).returncode
seconds, used = time.monotonic() - begun, resource.getrusage(resource.RUSAGE_CHILDREN)
print(status, seconds, used.ru_utime + used.ru_stime, used.ru_maxrss * 1024)
"""


class Use(typing.NamedTuple):
    """Seconds by the clock and of processor, and the greatest memory in bytes."""

    seconds: float
    processor: float
    memory: int


def use_of(words, folder, given=subprocess.DEVNULL):
    """What a run in a folder takes, with a file as its input."""
    words = [sys.executable, "-c", USED, *map(str, words)]
    told = subprocess.run(words, cwd=folder, stdin=given, stdout=subprocess.PIPE, stderr=subprocess.PIPE, text=True)
    status, seconds, processor, memory = told.stdout.split()
    if status != "0":
        raise SystemExit(f"status {status}: {told.stderr}")
    return Use(float(seconds), float(processor), int(memory))
