"""Start lists by chance: the makes that a snapshot tells, and how the names of generated chains stand with them on the base."""
from generated_chains import LETTERS, Stand, name_of, salt_of
from model import PROFILES
from snapshot_model import COMMITMENT, MOST_VALUE, Make

from blocks import outpoint
from digests import hash160

# Outpoints of one transaction, and of transactions whose order is that of single bytes, high and low ones.
TXIDS = [bytes([first]) + bytes(30) + bytes([last]) for first in (0, 0x7F, 0x80, 0xFF) for last in (0, 1, 0x80)]
INDICES = [0, 1, 0xFF, 0x100, 0xFFFF, 0x10000, 0x1000000, 0x80000000, 0xFFFFFFFE]
# How long the names are that no block touches.
LENGTHS = [0, 1, 14, 15, 16, 17, 63, 64, 254, 255]
# Names that expire in one of so many blocks on the base.
SOON = 40


def oldest(base):
    """The least height of a name that isn't expired in the block on the base."""
    return max(1, base.height + 2 - PROFILES[base.profile].depth(base.height + 1))


class StartList:
    """The makes, in no order; and by the letters of generated chains how their names stand."""

    def __init__(self, chance, base):
        self.chance, self.base, self.makes = chance, base, []
        self.stands = {letter: self.stand(letter) for letter in LETTERS}
        for length in LENGTHS:
            self.name(bytes([0x80 | length & 0x7F]) * length, chance.randbytes(chance.choice([0, 1, 100, MOST_VALUE])))
            self.commitment(chance.randbytes(COMMITMENT), chance.randrange(base.height + 1))
        chance.shuffle(self.makes)

    def stand(self, letter):
        """A letter has a name, a commitment, both or neither."""
        stand = Stand()
        if self.chance.randrange(3):
            make = self.name(name_of(letter), b'{"ip":"192.0.2.%d"}' % ord(letter))
            stand = stand._replace(coin=make.at, held=make.height)
        if self.chance.randrange(3) == 0:
            since = max(1, self.base.height - self.chance.randrange(24))
            make = self.commitment(hash160(salt_of(since) + name_of(letter)), since)
            stand = stand._replace(waiting=make.at, since=since)
        return stand

    def name(self, text, value):
        first, last = oldest(self.base), self.base.height
        height = self.chance.choice([min(last, first + self.chance.randrange(SOON)), self.chance.randrange(first, last + 1)])
        return self.makes_one(height, text, value)

    def commitment(self, hash, height):
        return self.makes_one(height, hash, None)

    def makes_one(self, height, text, value):
        make = Make(self.free(), height, text, value)
        self.makes.append(make)
        return make

    def free(self):
        """An outpoint that no make has yet."""
        used = {make.at for make in self.makes}
        while True:
            txid = self.chance.choice([self.chance.choice(TXIDS), self.chance.randbytes(32)])
            at = outpoint(txid, self.chance.choice(INDICES))
            if at not in used:
                return at
