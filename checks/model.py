"""The replies that the rules define, for any commands: a model of `replay`, plain and slow.

It is written from docs/FORMATS.md and docs/RULES.md alone, and shares nothing with the code: a chain is a list of blocks and
nothing else, its log is searched anew for each question, and a disconnected block is forgotten. It keeps no table and no
undo record, and takes no block back. A save changes nothing of it but the number of saves. What a save writes, and the index
that is read from that, are in images_model.py and files_model.py.
"""
import struct
import typing

from common import BASE_HASH, reply
from fields import Fields

from blocks import CONNECT, FIRST, NAME_VERSION, NEW, SAVE, UPDATE, block_hash, merkle_root, outpoint
from digests import double_sha256, hash160

BLOCKS_OF_WAITING = 12
HIGHEST = 2_000_000_000
MOST_SELECTIONS = 2**32 - 1
LEAST_OF_FORM = {0xFD: (2, 0xFD), 0xFE: (4, 0x10000), 0xFF: (8, 0x100000000)}
OPERATIONS = {NEW: 1, FIRST: 3, UPDATE: 2}
DROPS = (0x75, 0x6D, 0x61)


class Profile(typing.NamedTuple):
    """The rules of a network: for how many blocks a name stands at a height, and the least amount of an output that holds one."""

    depth: typing.Callable
    least_amount: int

    def expired(self, made, height):
        return made + self.depth(height) <= height


def main_depth(height):
    if height < 24_000:
        return 12_000
    return height - 12_000 if height < 48_000 else 36_000


EXPIRY_DEPTH = 30
PROFILES = {"regtest": Profile(lambda height: EXPIRY_DEPTH, 1_000_000), "main": Profile(main_depth, 0)}


class Fault(Exception):
    """The bytes are no block; the place is that of the first byte that no block has there, or the length."""


class Transaction(typing.NamedTuple):
    version: int
    txid: bytes
    inputs: list
    outputs: list


class Event(typing.NamedTuple):
    """An entry of the log: an outpoint that is spent (operation None), or that is made with a name operation."""

    at: bytes
    operation: typing.Optional[list]
    height: int


class Reader(Fields):
    fault = Fault

    def size(self):
        first = self.number(1)
        if first not in LEAST_OF_FORM:
            return first
        length, least = LEAST_OF_FORM[first]
        size = self.number(length)
        if size < least:
            raise Fault(self.at - 1)
        return size

    def some_size(self):
        """A compact size that isn't 0."""
        size = self.size()
        if not size:
            raise Fault(self.at - 1)
        return size

    def counted(self):
        return self.take(self.size())

    def transaction(self):
        version, start = self.take(4), self.at
        flagged = self.text[start : start + 1] == b"\0"
        if flagged:
            self.take(1)
            if self.take(1) != b"\x01":
                raise Fault(self.at - 1)
        start = self.at
        inputs = [self.input() for _ in range(self.some_size())]
        outputs = [(self.number(8), self.counted()) for _ in range(self.some_size())]
        plain = self.text[start : self.at]
        if flagged:
            self.witness(len(inputs))
        return Transaction(struct.unpack("<I", version)[0], double_sha256(version + plain + self.take(4)), inputs, outputs)

    def input(self):
        spent, _ = self.take(36), self.counted()
        self.take(4)
        return spent

    def witness(self, inputs):
        empty = True
        for place in range(inputs):
            count = self.size()
            empty = empty and not count
            if empty and place == inputs - 1:
                raise Fault(self.at - 1)
            for _ in range(count):
                self.counted()

    def merged_part(self):
        self.transaction()
        self.take(32)
        for _ in range(2):
            for _ in range(self.size()):
                self.take(32)
            self.take(4)
        self.take(80)


def transactions_of(block):
    """The transactions of a block, all of whose bytes it is."""
    reader = Reader(block)
    version = int.from_bytes(reader.take(80)[:4], "little")
    if version & 0x100:
        reader.merged_part()
    transactions = [reader.transaction() for _ in range(reader.some_size())]
    if reader.at < len(block):
        raise Fault(reader.at)
    return transactions


def operation_of(script):
    """The opcode and the pushes of a name script; None where the script is none."""
    pushes, at = [], 1
    while at < len(script) and script[at] not in DROPS:
        code, at = script[at], at + 1
        if code > 0x4E:
            return None
        width = {0x4C: 1, 0x4D: 2, 0x4E: 4}.get(code, 0)
        length = int.from_bytes(script[at : at + width], "little") if width else code
        at += width
        if at + length > len(script):
            return None
        pushes.append(script[at : at + length])
        at += length
    if at >= len(script) or OPERATIONS.get(script[:1]) != len(pushes):
        return None
    return [script[:1], *pushes]


class Coin(typing.NamedTuple):
    """What stands at an outpoint: a commitment with its hash, or the coin of a name; and the height of its block."""

    is_commitment: bool
    height: int
    text: bytes


class Log:
    """What the events of a chain tell, searched anew for each question."""

    def __init__(self, profile, events=()):
        self.profile, self.events = profile, list(events)

    def coin(self, at, height):
        """The live coin at an outpoint; None where there is none."""
        for event in reversed(self.events):
            if event.at == at:
                if event.operation is None or event.operation[0] != NEW and self.profile.expired(event.height, height):
                    return None
                return Coin(event.operation[0] == NEW, event.height, event.operation[1])
        return None

    def entry(self, name):
        """The height of the last event that gave the name a value; None where there is none."""
        for event in reversed(self.events):
            if event.operation and event.operation[0] != NEW and event.operation[1] == name:
                return event.height
        return None

    def behind(self, transaction, height):
        """The log with what the transaction adds to it."""
        spent = [Event(at, None, height) for at in transaction.inputs]
        operations = enumerate(operation_of(script) for _, script in transaction.outputs)
        made = [Event(outpoint(transaction.txid, i), op, height) for i, op in operations if op]
        return Log(self.profile, self.events + spent + made)


def tests_of(profile, known, transaction, height):
    """The refusals in their order, each with whether it holds; `known` tells the coins and entries behind what came before."""
    coins = [found for found in (known.coin(at, height) for at in transaction.inputs) if found]
    names = [(i, amount, op) for i, (amount, op) in enumerate((a, operation_of(s)) for a, s in transaction.outputs) if op]
    versioned = transaction.version == NAME_VERSION
    yield 10, len(coins) >= 2
    yield 11, len(names) >= 2
    yield 12, not versioned and coins
    yield 13, not versioned and names
    yield 14, versioned and not names
    if not names:
        return
    index, amount, (kind, *parts) = names[0]
    yield 15, amount < profile.least_amount
    if kind == NEW:
        yield 16, coins
        yield 17, len(parts[0]) != 20
    else:
        name, value = parts[0], parts[-1]
        yield 18, not coins
        yield 19, len(name) > 255
        yield 20, len(value) > 1023
        spent = coins[0]
        if kind == UPDATE:
            yield 21, spent.is_commitment
            yield 22, spent.text != name
        else:
            taken = known.entry(name)
            yield 23, not spent.is_commitment
            yield 24, spent.height + BLOCKS_OF_WAITING > height
            yield 25, len(parts[1]) > 20
            yield 26, hash160(parts[1] + name) != spent.text
            yield 27, taken is not None and not profile.expired(taken, height)
    yield 28, known.coin(outpoint(transaction.txid, index), height)


def refusal_by_rules(profile, known, transactions, height):
    """The code of the first rule that a transaction behind the coinbase breaks, with its index; and what is known behind them all."""
    for index, transaction in enumerate(transactions):
        if index == 0:
            continue
        for code, holds in tests_of(profile, known, transaction, height):
            if holds:
                return (code, index), None
        known = known.behind(transaction, height)
    return None, known


def digits(text):
    """Bytes as a report has them."""
    return text.hex() or "-"


class Value(typing.NamedTuple):
    """A value that a name was given: the height of its block, the height at which the registration began that it belongs to."""

    height: int
    registered: int
    value: bytes


class Chain:
    """What is asked of a chain by commands, and reported of it, whatever it keeps.

    It has a profile, a height, a tip, and whether it has a block (`has_blocks`); `known` tells its coins and entries, `joins` and
    `leaves` change it, and `given` has the values of each name.
    """

    def served(self, name):
        """The value that is served for the name; None where there is none."""
        values = self.given().get(name, [])
        return values[-1].value if values and not self.profile.expired(values[-1].height, self.height) else None

    def report(self):
        """The lines of `dump`."""
        lines = [f"tip {self.height} {self.tip[::-1].hex()}"]
        for name, values in self.given().items():
            height, _, value = values[-1][:3]
            state = "lapsed" if self.profile.expired(height, self.height) else "served"
            lines.append(f"name {digits(name)} {height} {state} {digits(value)}")
            lines += [f"  at {height} since {registered} {digits(value)}" for height, registered, value, *_ in values]
        return "".join(line + "\n" for line in lines).encode()

    def accepted(self):
        return reply(0, struct.pack("<I", self.height) + self.tip)

    def connect(self, block):
        try:
            transactions = transactions_of(block)
        except Fault as fault:
            return reply(1, struct.pack("<I", fault.args[0]))
        if block[4:36] != self.tip:
            return reply(2, self.tip)
        if self.height == HIGHEST:
            return reply(4)
        root = merkle_root([transaction.txid for transaction in transactions])
        if block[36:68] != root:
            return reply(3, root)
        refused, known = refusal_by_rules(self.profile, self.known(), transactions, self.height + 1)
        if refused:
            return reply(refused[0], struct.pack("<I", refused[1]))
        self.joins(block_hash(block), known)
        return self.accepted()

    def disconnect(self, named):
        if not self.has_blocks:
            return reply(7)
        if named != self.tip:
            return reply(6, self.tip)
        self.leaves()
        return self.accepted()

    def answer(self, frame):
        """The reply to the whole frame of a connect or of a disconnect."""
        return self.connect(frame[5:]) if frame[:1] == CONNECT else self.disconnect(frame[5:])


class Model(Chain):
    """The chain of the blocks that survive, on a base of this height: of each its hash and how long the log was below it, the newest
    last; their log, which begins with the makes of a start list; and how many saves there were."""

    def __init__(self, base=0, profile="regtest", hash=BASE_HASH, makes=()):
        self.base, self.profile, self.hash, self.blocks, self.selections = base, PROFILES[profile], hash, [], 0
        self.log = [Event(make.at, [NEW, make.text] if make.is_commitment else [UPDATE, make.text, make.value], make.height) for make in makes]

    @property
    def height(self):
        return self.base + len(self.blocks)

    @property
    def tip(self):
        return self.blocks[-1][0] if self.blocks else self.hash

    @property
    def has_blocks(self):
        return bool(self.blocks)

    def known(self):
        return Log(self.profile, self.log)

    def joins(self, hash, known):
        self.blocks.append((hash, len(self.log)))
        self.log = known.events

    def leaves(self):
        _, length = self.blocks.pop()
        self.log = self.log[:length]

    def given(self):
        """Of each name in order: the values that it was given, the oldest first."""
        given = {}
        for event in self.log:
            if event.operation and event.operation[0] != NEW:
                values = given.setdefault(event.operation[1], [])
                goes_on = event.operation[0] == UPDATE and values
                values.append(Value(event.height, values[-1].registered if goes_on else event.height, event.operation[-1]))
        return dict(sorted(given.items()))

    def save(self):
        if self.selections == MOST_SELECTIONS:
            return reply(29)
        self.selections += 1
        return reply(0, struct.pack("<Q", self.selections))

    def answer(self, frame):
        """The reply to a whole frame that is no query."""
        return self.save() if frame[:1] == SAVE else super().answer(frame)
