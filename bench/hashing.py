"""What a replay has to hash, and what it takes: the instructions of the program, counted by valgrind's callgrind."""
import contextlib
import os
import pathlib
import random
import re
import shutil
import subprocess
import tempfile
import typing

from blocks import Chain, transaction
from stores import PROGRAM, made_folder

COMPRESSION = "sha2::block256::compress"
# Valgrind counts each byte that one `rep stosb` or `rep movsb` writes as an instruction. So the C library is told to write by
# the instructions that it uses for shorter pieces.
BY_STORES = "glibc.cpu.x86_rep_stosb_threshold=100000000:glibc.cpu.x86_rep_movsb_threshold=100000000"


class Work(typing.NamedTuple):
    """What is hashed where each thing is hashed once: bytes, and the blocks of 64 bytes that SHA-256 compresses."""

    hashed: int = 0
    compressions: int = 0

    def twice(self, length, times=1):
        """With messages of this length, each hashed twice over."""
        return Work(self.hashed + times * (length + 32), self.compressions + times * ((length + 72) // 64 + 1))

    def block(self, transactions):
        """With a block of transactions of these lengths: its hash, their ids, and the nodes of the Merkle tree."""
        work, row = self.twice(80), len(transactions)
        for length in transactions:
            work = work.twice(length)
        while row > 1:
            row = (row + 1) // 2
            work = work.twice(64, row)
        return work


class Counted(typing.NamedTuple):
    """The instructions of a run: all, those of the functions looked for with all that they call, and the number of their calls."""

    total: int
    inner: int
    calls: int


class Cost(typing.NamedTuple):
    """Of a replay, without what an empty one takes: instructions a byte of its stream, those of the compression in the same
    run, those of the compression where each thing is hashed once, and the bytes hashed for each byte of the stream."""

    all: float
    inner: float
    once: float
    hashed: float


def write_stream(path, blocks, transactions):
    """A stream of blocks of so many transactions without names. Its size, and what it asks to be hashed."""
    chance, work = random.Random(7), Work()
    with open(path, "wb") as out:
        chain = Chain(out)
        for _ in range(blocks):
            items = [some_transaction(chance) for _ in range(transactions)]
            chain.connect(items)
            work = work.block([len(item) for item in items])
    return chain.size, work


def some_transaction(chance):
    outputs = [(amount, b"\x76" + chance.randbytes(24)) for amount in (5000, 700)]
    return transaction(1, [(chance.randbytes(36), chance.randbytes(107))], outputs)


def has_counter():
    return shutil.which("valgrind") is not None


def counted(path, function=re.escape(COMPRESSION), folder=None):
    """The instructions of a replay of the file, into the files of the folder, or of a new store. The function is looked for by
    a pattern."""
    with contextlib.ExitStack() as stack:
        trace, stream = stack.enter_context(tempfile.NamedTemporaryFile("r")), stack.enter_context(open(path, "rb"))
        folder = folder or stack.enter_context(made_folder())
        command = ["valgrind", "--tool=callgrind", f"--callgrind-out-file={trace.name}", PROGRAM, "replay"]
        how = {"stdout": subprocess.DEVNULL, "stderr": subprocess.PIPE, "text": True, "env": os.environ | {"GLIBC_TUNABLES": BY_STORES}}
        run = subprocess.run(command, cwd=folder, stdin=stream, **how)
        total = re.search(r"Collected : (\d+)", run.stderr)
        if run.returncode or not total:
            raise SystemExit(f"callgrind ended with {run.returncode}:\n{run.stderr}")
        return Counted(int(total.group(1)), *called(trace.read(), function))


def has_control():
    return has_counter() and shutil.which("callgrind_control") is not None


def switch(process, state):
    """Has callgrind begin or end counting."""
    subprocess.run(["callgrind_control", f"--instr={state}", str(process)], check=True, stdout=subprocess.DEVNULL, stderr=subprocess.DEVNULL)


def replies_to(run, frames):
    """The replies of a run to frames: each a byte, a length of 4 bytes and so many bytes."""
    run.stdin.write(b"".join(frames))
    run.stdin.flush()
    heads = (run.stdout.read(5) for _ in frames)
    return [head + run.stdout.read(int.from_bytes(head[1:], "little")) for head in heads]


def counted_behind(folder, before, given, words=("replay",), kept=None):
    """The instructions of the program with these words over the files of a folder, of the frames that are given alone, with their
    replies: neither of the opening, nor of the frames that are asked before, of which there is one at least, nor of the end. What
    callgrind tells by function is kept in a file, where one is named."""
    with tempfile.NamedTemporaryFile() as trace:
        command = ["valgrind", "--tool=callgrind", "--instr-atstart=no", f"--callgrind-out-file={kept or trace.name}", PROGRAM, *words]
        how = {"stdin": subprocess.PIPE, "stdout": subprocess.PIPE, "stderr": subprocess.PIPE, "env": os.environ | {"GLIBC_TUNABLES": BY_STORES}}
        run = subprocess.Popen(command, cwd=folder, **how)
        replies_to(run, before)
        switch(run.pid, "on")
        told = replies_to(run, given)
        switch(run.pid, "off")
        said = run.communicate()[1].decode()
    total = re.search(r"Collected : (\d+)", said)
    if run.returncode or not total:
        raise SystemExit(f"callgrind ended with {run.returncode}:\n{said}")
    return int(total.group(1)), told


def called(trace, function):
    """The instructions of the functions whose names the pattern matches, and their calls."""
    numbers = re.findall(r"^c?fn=(\(\d+\)) (?:" + function + ")$", trace, re.MULTILINE)
    if not numbers:
        return 0, 0
    either = "|".join(map(re.escape, numbers))
    calls = re.findall(r"^cfn=(?:" + either + r")(?: .*)?\ncalls=(\d+) .*\n\S+ (\d+)$", trace, re.MULTILINE)
    return sum(int(inside) for _, inside in calls), sum(int(times) for times, _ in calls)


def cost_of(blocks, transactions):
    """What a replay of so many blocks costs."""
    with tempfile.TemporaryDirectory() as folder:
        path = pathlib.Path(folder) / "stream"
        size, work = write_stream(path, blocks, transactions)
        full = counted(path)
        path.write_bytes(b"")
        empty = counted(path)
    if not full.calls:
        raise SystemExit(f"no call of {COMPRESSION} was counted")
    each = full.inner / full.calls
    return Cost((full.total - empty.total) / size, full.inner / size, work.compressions * each / size, work.hashed / size)
