"""Block files as the source of blocks: those of a node's folder `blocks`, or one that `linearize` wrote.

Each block stands behind four bytes of the network and its length. A node writes blocks in the order in which they come, stale
ones too, so that all headers are read first; the best chain is that with the most work.
"""
import collections
import pathlib
import typing

from .blocks import BELOW_ALL, HEADER, NO_HASH, Block, Header, Place, block_hash, shown
from .troubles import Status, Stop

BEFORE = 8
RUN_BYTES, MOST_IN_A_RUN = 524_288, 16
KEY = "xor.dat"


class Record(typing.NamedTuple):
    """A block that was found, and where."""

    previous: bytes
    work: int
    file: int
    at: int
    length: int


class File:
    """A file whose bytes may be scrambled by a key beside it, as nodes do since 2024."""

    def __init__(self, path):
        key = path.parent / KEY
        try:
            self.key = key.read_bytes() if key.is_file() else b""
            self.bytes = path.open("rb")
        except OSError as fault:
            raise Stop(Status.WORDS, f"{path} can't be read: {fault.strerror}") from None

    def read(self, at, length):
        self.bytes.seek(at)
        text = self.bytes.read(length)
        if not any(self.key):
            return text
        start = at % len(self.key)
        key = (self.key[start:] + self.key * (length // len(self.key) + 1))[: len(text)]
        return (int.from_bytes(text, "big") ^ int.from_bytes(key, "big")).to_bytes(len(text), "big")

    def records(self):
        """The place, the length and the header of each block. They end where no further one is whole."""
        at, magic, end = 0, None, self.bytes.seek(0, 2)
        while at + BEFORE + HEADER <= end:
            head = self.read(at, BEFORE + HEADER)
            magic = magic or head[:4]
            length = int.from_bytes(head[4:BEFORE], "little")
            if head[:4] != magic or not any(magic) or length < HEADER or at + BEFORE + length > end:
                return
            yield at + BEFORE, length, head[BEFORE:]
            at += BEFORE + length


def work_of(header):
    """How many hashes it takes to find such a header, by its bits."""
    bits = int.from_bytes(header[72:76], "little")
    target = (bits & 0x7FFFFF) << 8 * (bits >> 24) >> 24
    return 2**256 // (target + 1)


class BlockFiles:
    name = "the block file"
    is_fixed = True

    def __init__(self, paths):
        self.files = [File(pathlib.Path(path)) for path in paths]
        self.records, self.heights, self.works, self.chain = {}, {}, {}, []
        for number, file in enumerate(self.files):
            for at, length, header in file.records():
                self.records.setdefault(block_hash(header), Record(header[4:36], work_of(header), number, at, length))
        if not self.records:
            raise Stop(Status.WORDS, "there is no block in these files")
        self.find_chain()

    def close(self):
        for file in self.files:
            file.bytes.close()

    @property
    def knows_heights(self):
        """Whether the chain begins with the first block of its network; otherwise heights are counted from the first that is there."""
        return self.records[self.chain[0]].previous == NO_HASH

    def find_chain(self):
        """The heights of all blocks, those that have none before them having 0, and the chain with the most work."""
        above = collections.defaultdict(list)
        for hash, record in self.records.items():
            above[record.previous].append(hash)
        left = collections.deque((hash, 0, 0) for root in above if root not in self.records for hash in above[root])
        most, tip = -1, None
        while left:
            hash, height, below = left.popleft()
            work = below + self.records[hash].work
            self.heights[hash], self.works[hash] = height, work
            if work > most:
                most, tip = work, hash
            left += [(it, height + 1, work) for it in above[hash]]
        while tip in self.records:
            self.chain.append(tip)
            tip = self.records[tip].previous
        self.chain.reverse()

    def best(self):
        return Place(self.chain[-1], len(self.chain) - 1, self.works[self.chain[-1]])

    def header(self, hash):
        if hash == self.records[self.chain[0]].previous:
            return BELOW_ALL._replace(hash=hash)
        height = self.heights.get(hash)
        if height is None:
            return None
        is_on_chain = height < len(self.chain) and self.chain[height] == hash
        return Header(hash, self.records[hash].previous, height, is_on_chain, self.works[hash])

    def is_downloading(self):
        return False

    def has_rejected(self, hash):
        return False

    def lacks_blocks(self):
        return False

    def transaction(self, hash, index):
        return None

    def runs(self, first, last):
        """The blocks from one height to another, some at a time; the first alone."""
        run, size, most = [], 0, 1
        for hash in self.chain[first : last + 1]:
            run.append(self.block(hash))
            size += len(run[-1].data)
            if size >= RUN_BYTES or len(run) == most:
                yield run
                run, size, most = [], 0, MOST_IN_A_RUN
        if run:
            yield run

    def block(self, hash):
        record = self.records[hash]
        return Block(hash, record.previous, self.files[record.file].read(record.at, record.length))
