"""Generated chains with forks, whose blocks commit to names, open them and update them."""
import typing

from . import TOP  # noqa: F401  (puts the makers of blocks on the path)

from blocks import CONNECT, FIRST, NEW, UPDATE, block_hash, block_of, coinbase, frame, name_script, named, outpoint
from digests import double_sha256, hash160

MATURITY = 12
# A name is updated so many blocks after its last change, so many times; then it expires.
BETWEEN, UPDATES = 7, 2
NO_HASH = bytes(32)


class Made(typing.NamedTuple):
    """A block with what it does to names, by their numbers: the transaction, and how many updates the name had."""

    data: bytes
    previous: bytes
    height: int
    committed: dict
    changed: dict


def name_of(number):
    return b"d/name-%d" % number


def salt_of(number):
    return b"salt %d" % number


def commitment(number):
    return named(outpoint(b"\xee" * 28 + number.to_bytes(4, "little")), name_script(NEW, hash160(salt_of(number) + name_of(number))))


def value_of(mark):
    return b'{"ip":"10.%d.%d.%d"}' % (mark >> 16 & 0xFF, mark >> 8 & 0xFF, mark & 0xFF)


def first_out(transaction):
    return outpoint(double_sha256(transaction))


class Chains:
    """Blocks by their hashes, from one first block on."""

    def __init__(self):
        self.blocks, self.numbers, self.mark = {}, 0, 0
        self.first = self.put(block_of(0, NO_HASH, [coinbase(0)]), 0, {}, {})

    def put(self, data, height, committed, changed):
        hash = block_hash(data)
        self.blocks[hash] = Made(data, data[4:36], height, committed, changed)
        return hash

    def below(self, tip, count):
        """The block so many below the tip; None where there is none."""
        for _ in range(count):
            made = self.blocks.get(tip)
            tip = made and made.previous
        return self.blocks.get(tip)

    def changes(self, tip):
        """The transactions by which the block on a tip opens and updates names."""
        ripe, older = self.below(tip, MATURITY - 1), self.below(tip, BETWEEN - 1)
        for number, made in (ripe.committed if ripe else {}).items():
            self.mark += 1
            script = name_script(FIRST, name_of(number), salt_of(number), value_of(self.mark))
            yield number, (named(first_out(made), script), 0)
        for number, (made, updates) in (older.changed if older else {}).items():
            if updates < UPDATES:
                self.mark += 1
                script = name_script(UPDATE, name_of(number), value_of(self.mark))
                yield number, (named(first_out(made), script), updates + 1)

    def add(self, tip, more=()):
        """A block on a tip, unlike each other there, with more transactions behind its own. Its hash."""
        self.numbers += 1
        committed = {self.numbers: commitment(self.numbers)}
        changed, height = dict(self.changes(tip)), self.blocks[tip].height + 1
        transactions = [coinbase(height), *committed.values(), *(made for made, _ in changed.values()), *more]
        return self.put(block_of(height, tip, transactions), height, committed, changed)

    def grow(self, tip, count):
        for _ in range(count):
            tip = self.add(tip)
        return tip

    def back(self, tip, count):
        for _ in range(count):
            tip = self.blocks[tip].previous
        return tip

    def path(self, tip):
        """The hashes from the block above the first one up to the tip."""
        path = []
        while tip != self.first:
            path.append(tip)
            tip = self.blocks[tip].previous
        return path[::-1]

    def frames(self, tip):
        """The frames that connect a chain from its start."""
        return b"".join(frame(CONNECT, self.blocks[hash].data) for hash in self.path(tip))
