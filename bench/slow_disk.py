"""Counts the questions that a server loses while it writes blocks to a disk whose syncs are slow."""
import contextlib
import os
import pathlib
import select
import socket
import struct
import subprocess
import tempfile
import time

from blocks import CONNECT, block_hash, block_of, coinbase, frame
from loads import QUERY, TURNS, answers
from ports import server_ports
from stores import PROGRAM, made_folder

HERE = pathlib.Path(__file__).resolve().parent
SYNC_MILLIS, RATE, AT_ONCE = 100, 2000, 20
# What is in the queue when the last question is sent has so long.
LAST = 3.0
# The queue that the server asks for, and so do those who ask, since all replies to what waited come at once; and what Linux gives anybody.
QUEUE, USUAL = 4 << 20, 212_992
MOST = pathlib.Path("/proc/sys/net/core/rmem_max")
# Blocks that come together, and how long the server may be silent at one: two syncs, and as much again for all else.
TOGETHER, LONGEST = 5, 4 * SYNC_MILLIS / 1000


def asks(number, seconds, feed, at_once):
    """Asks so often a second, never more than some at once, while so many blocks come at once, one a second. How many were asked and
    answered, and the longest time without a reply."""
    blocks = chain()
    line = socket.socket(socket.AF_INET, socket.SOCK_DGRAM)
    line.setsockopt(socket.SOL_SOCKET, socket.SO_RCVBUF, QUEUE)
    line.connect(("127.0.0.1", number))
    line.setblocking(False)
    begun, sent, got, block, silent = time.monotonic(), 0, 0, 0, 0.0
    heard = begun
    while (now := time.monotonic()) < begun + seconds + LAST and not (now > begun + seconds and got == sent):
        due = min(int((min(now, begun + seconds) - begun) * RATE), sent + AT_ONCE)
        for _ in range(due - sent):
            line.send(struct.pack(">H", sent & 0xFFFF) + QUERY[2:])
            sent += 1
        if now > begun + block and now < begun + seconds:
            block += at_once
            feed.send(b"".join(next(blocks) for _ in range(at_once)))
        if select.select([line], [], [], 0.0005)[0]:
            got, heard, silent = got + drained(line), time.monotonic(), max(silent, time.monotonic() - heard)
    return sent, got, silent


def drained(line):
    """How many replies are there."""
    count = 0
    while True:
        try:
            line.recv(65536)
            count += 1
        except BlockingIOError:
            return count


def chain():
    """Frames of blocks on the base of a new store."""
    tip, height = bytes(32), 0
    while True:
        height += 1
        block = block_of(height, tip, [coinbase(height)])
        tip = block_hash(block)
        yield frame(CONNECT, block)


@contextlib.contextmanager
def queues_of(most):
    """The system gives anybody a queue of so many bytes, and of twice as many where he asks for it, as it counts them. Whether it does."""
    before = MOST.read_text()
    try:
        MOST.write_text(str(most))
        yield True
    except OSError:
        yield int(before) == most
    finally:
        with contextlib.suppress(OSError):
            MOST.write_text(before)


def served(seconds, at_once):
    """What is asked and answered over a slow disk."""
    with tempfile.TemporaryDirectory() as room, made_folder() as folder:
        shim, numbers = pathlib.Path(room) / "slow_sync.so", server_ports()
        subprocess.run(["gcc", "-O2", "-shared", "-fPIC", "-o", shim, HERE / "slow_sync.c"], check=True)
        environment = {**os.environ, "LD_PRELOAD": str(shim), "SYNC_MILLIS": str(SYNC_MILLIS)}
        words = [PROGRAM, "serve", *map(str, numbers), TURNS]
        run = subprocess.Popen(words, cwd=folder, env=environment, stdin=subprocess.DEVNULL, stdout=subprocess.DEVNULL)
        try:
            answers(numbers[0])
            with socket.create_connection(("127.0.0.1", numbers[1])) as feed:
                return asks(numbers[0], seconds, feed, at_once)
        finally:
            run.kill()
            run.wait()


def slow_disk(seconds):
    """Prints what is lost, and the longest silence. Whether nothing is where the server gets the queue that it asks for, and no silence
    is much longer than one block's two syncs."""
    is_well = True
    for most in (USUAL, QUEUE):
        for at_once in (1, TOGETHER):
            with queues_of(most) as is_so:
                if not is_so:
                    print(f"net.core.rmem_max can't be {most} here")
                    continue
                sent, got, silent = served(seconds, at_once)
            what = f"net.core.rmem_max {most}, a block a second, {at_once} at once, {SYNC_MILLIS} ms a sync, {RATE} questions a second for {seconds} s"
            print(f"{what}: {sent - got} of {sent} lost, {1000 * silent:.0f} ms the longest without a reply", flush=True)
            is_well = is_well and silent < LONGEST and (sent == got or most < QUEUE)
    return is_well
