"""Generated chains with forks: blocks that commit to names, open them and update them, some with a transaction out of order.

Behind each disconnect the index is asked by a block that is always refused, by its last transaction: before that it spends
the coin of each name and opens each commitment that has waited long enough. So its refusal tells whether the coins and
values are those of the chain that is left.
"""
import typing

from model import BLOCKS_OF_WAITING, Model

from blocks import (
    CONNECT,
    DISCONNECT,
    FIRST,
    LEAST_AMOUNT,
    NAME_VERSION,
    NEW,
    NOWHERE,
    UPDATE,
    block_of,
    coinbase,
    frame,
    name_script,
    outpoint,
    transaction,
)
from digests import double_sha256, hash160

LETTERS = "abcdefghijklmnopqrstuvwxyz"
ELSEWHERE = outpoint(NOWHERE)
# It carries no name, whatever its version says.
SPOILING = transaction(NAME_VERSION, [outpoint(NOWHERE, 0xFFFFFFFF)], [(0, b"\x51")])
NO_NAME = 14


class Stand(typing.NamedTuple):
    """How a name stands: its coin and the height that made it, the commitment that waits and its height; 0 is none."""

    coin: bytes = ELSEWHERE
    held: int = 0
    waiting: bytes = ELSEWHERE
    since: int = 0

    def is_held(self, height, profile):
        return self.held and not profile.expired(self.held, height)

    def is_ripe(self, height):
        return self.since and self.since + BLOCKS_OF_WAITING <= height


def salt_of(height):
    return str(height).encode()


def name_of(letter):
    return b"d/" + letter.encode()


def named(spent, script):
    made = transaction(NAME_VERSION, [spent], [(LEAST_AMOUNT, script)])
    return made, outpoint(double_sha256(made))


def commits(letter, stand, height):
    hashed = hash160(salt_of(height) + name_of(letter))
    made, coin = named(outpoint(NOWHERE, ord(letter)), name_script(NEW, hashed))
    return made, stand._replace(waiting=coin, since=height)


def opens(letter, stand, height):
    script = name_script(FIRST, name_of(letter), salt_of(stand.since), b"opened-%d" % height)
    made, coin = named(stand.waiting, script)
    return made, Stand(coin, height)


def updates(letter, stand, height, word=b"updated"):
    made, coin = named(stand.coin, name_script(UPDATE, name_of(letter), b"%s-%d" % (word, height)))
    return made, stand._replace(coin=coin, held=height)


def deeds_of(chance, letter, stand, height, profile):
    """What a block does to a name, if anything: the transactions, and how the name stands behind them."""
    deeds = []
    if stand.is_held(height, profile):
        if chance.randrange(24) == 0:
            deeds = [updates] + [updates] * chance.randrange(2)
    elif stand.is_ripe(height) and chance.randrange(3) == 0:
        deeds = [opens]
    if not stand.since and chance.randrange(16) == 0:
        deeds = deeds + [commits]
    made = []
    for deed in deeds:
        item, stand = deed(letter, stand, height)
        made.append(item)
    return made, stand


def stray(chance, stands):
    """A transaction that is drawn without regard to the rules."""
    letter = chance.choice(LETTERS)
    stand, other = stands[letter], stands[chance.choice(LETTERS)]
    if stand.since and chance.randrange(10) == 0:
        return commits(letter, stand, stand.since)[0]
    coins = [[], [ELSEWHERE], [stand.coin, other.coin], [other.coin]] + [[stand.coin]] * 3 + [[stand.waiting]] * 6
    name = chance.choice([name_of(letter)] * 9 + [bytes(255), bytes(256)])
    value = bytes(chance.choice([0, 9, 1023] * 3 + [1024]))
    salt = chance.choice([salt_of(stand.since)] * 4 + [b"", bytes(20), bytes(21), bytes(21)])
    first, update = name_script(FIRST, name, salt, value), name_script(UPDATE, name, value)
    commitments = [[name_script(NEW, bytes(size))] for size in (19, 20)]
    scripts = [[first]] * 8 + [[update]] * 3 + commitments + [[], [first, update]]
    amount = LEAST_AMOUNT - (chance.randrange(12) == 0)
    outputs = [(5, b"\x51")] + [(amount, script) for script in chance.choice(scripts)]
    spent = chance.choice(coins) + [outpoint(NOWHERE, 0xFFFFFFFE)]
    return transaction(chance.choice([1] + [NAME_VERSION] * 5), spent, outputs)


class Branch:
    """The chain of a run: its model, how the names stood behind each block, and the frames and replies so far. On the base no name
    stands where nothing else is told."""

    def __init__(self, chance, model=None, stands=None):
        self.chance, self.model, self.frames, self.replies = chance, model or Model(), [], []
        self.kept = [stands or dict.fromkeys(LETTERS, Stand())]

    @property
    def height(self):
        return self.model.height

    def comes(self, kind, payload):
        item = frame(kind, payload)
        self.frames.append(item)
        self.replies.append(self.model.answer(item))
        return self.replies[-1][0]

    def block(self, transactions):
        above = self.height + 1
        return block_of(above, self.model.tip, [coinbase(above), *transactions])

    def deeds(self):
        """The transactions of a next block by chance, and how the names stand behind it."""
        stands, transactions = {}, []
        for letter, stand in self.kept[-1].items():
            made, stands[letter] = deeds_of(self.chance, letter, stand, self.height + 1, self.model.profile)
            transactions += made
        return transactions, stands

    def grow(self):
        """One block more, in front of which a block with a stray transaction may come."""
        transactions, stands = self.deeds()
        if self.chance.randrange(2):
            place = self.chance.randrange(len(transactions) + 1)
            odd = transactions[:place] + [stray(self.chance, self.kept[-1])] + transactions[place:]
            self.comes(CONNECT, self.block(odd + [SPOILING]))
        self.kept.append(stands)
        return self.comes(CONNECT, self.block(transactions)) == 0

    def shrink(self):
        """One block less; then a block asks for all coins and commitments of the names."""
        shrunk = self.comes(DISCONNECT, self.model.tip) == 0
        self.kept.pop()
        above, asked = self.height + 1, []
        for letter, stand in self.kept[-1].items():
            if stand.is_held(above, self.model.profile):
                asked.append(updates(letter, stand, above)[0])
            elif stand.is_ripe(above):
                asked.append(opens(letter, stand, above)[0])
        refused = self.comes(CONNECT, self.block(asked + [SPOILING])) == NO_NAME
        return shrunk and refused and int.from_bytes(self.replies[-1][5:], "little") == len(asked) + 1
