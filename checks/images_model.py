"""The index of a chain as its image lists it: the text of an image in both versions, its reading, and whether it is sound.

It is written from docs/FORMATS.md and docs/RULES.md alone, and shares nothing with the code. An index has coins, histories and
undo records, and takes blocks back by these; model.py has the same chain as a log that forgets blocks.
"""
import collections
import typing

from fields import Fields
from model import HIGHEST, PROFILES, Chain, Coin, operation_of

from blocks import FIRST, NEW, UPDATE, outpoint

MAGIC, VERSIONS = b"NMCI", (1, 2)
PROFILE_BYTES = {1: "regtest", 2: "main"}
BYTES_OF_PROFILES = {name: byte for byte, name in PROFILE_BYTES.items()}
COMMITMENT, NAMED = 1, 2
KINDS = {NEW[0]: NEW, FIRST[0]: FIRST, UPDATE[0]: UPDATE}
MOST_VALUE, OUTPOINT = 1023, 36


class Base(typing.NamedTuple):
    """What a chain stands on, as an image tells it."""

    profile: str
    height: int
    hash: bytes


class Item(typing.NamedTuple):
    """A value of a history: the height of its block, that at which its registration began, the value, and its outpoint."""

    height: int
    registered: int
    value: bytes
    at: bytes


class Operation(typing.NamedTuple):
    """What an operation did: the outpoint made; and of one on a name the outpoint and the coin spent, and the item before it."""

    kind: bytes
    made: bytes
    spent: bytes = b""
    coin: typing.Optional[Coin] = None
    name: bytes = b""
    before: typing.Optional[Item] = None


class Undo(typing.NamedTuple):
    """What undoes a block: its hash, its operations in order, and the coins that expired with it by their outpoints."""

    block: bytes
    operations: list
    expired: dict


def in_order(at):
    """The order of outpoints: by the bytes of the txid, and then by the index as a number."""
    return at[:32], int.from_bytes(at[32:], "little")


class Known:
    """Coins and histories behind some transactions of a block, and its operations so far."""

    def __init__(self, coins, histories, operations=()):
        self.coins, self.histories, self.operations = coins, histories, list(operations)

    def coin(self, at, height):
        return self.coins.get(at)

    def entry(self, name):
        return self.histories[name][-1].height if name in self.histories else None

    def behind(self, transaction, height):
        """The same with what a transaction without a refusal does."""
        known = Known(dict(self.coins), dict(self.histories), self.operations)
        spent = [(at, known.coins.pop(at)) for at in transaction.inputs if at in known.coins]
        for place, script in enumerate(script for _, script in transaction.outputs):
            operation = operation_of(script)
            if operation:
                known.does(outpoint(transaction.txid, place), operation, spent, height)
        return known

    def does(self, made, operation, spent, height):
        kind, text = operation[:2]
        self.coins[made] = Coin(kind == NEW, height, text)
        if kind == NEW:
            self.operations.append(Operation(kind, made))
            return
        history = self.histories.get(text, ())
        before = history[-1] if history else None
        registered = before.registered if kind == UPDATE and before else height
        self.histories[text] = (*history, Item(height, registered, operation[-1], made))
        self.operations.append(Operation(kind, made, *spent[0], text, before))


class Unfit(Exception):
    """An undo record doesn't fit the index."""


def demand(holds):
    if not holds:
        raise Unfit


class Index(Chain):
    """Coins by their outpoints, histories by their names, and undo records, the newest last."""

    def __init__(self, base, coins=None, histories=None, undos=()):
        self.base, self.profile = base, PROFILES[base.profile]
        self.coins, self.histories, self.undos = dict(coins or {}), dict(histories or {}), list(undos)

    @classmethod
    def of_makes(cls, base, makes):
        """The index of a start list, before the first block: each name has one value, with which its registration begins."""
        coins = {make.at: Coin(make.is_commitment, make.height, make.text) for make in makes}
        items = {make.text: (Item(make.height, make.height, make.value, make.at),) for make in makes if not make.is_commitment}
        return cls(base, coins, items)

    def copy(self):
        return Index(self.base, self.coins, self.histories, self.undos)

    @property
    def height(self):
        return self.base.height + len(self.undos)

    @property
    def tip(self):
        return self.undos[-1].block if self.undos else self.base.hash

    @property
    def has_blocks(self):
        return bool(self.undos)

    def given(self):
        return dict(sorted(self.histories.items()))

    def known(self):
        return Known(self.coins, self.histories)

    def joins(self, hash, known):
        behind = self.height + 2
        gone = {at for at, coin in known.coins.items() if not coin.is_commitment and self.profile.expired(coin.height, behind)}
        expired = {at: known.coins[at] for at in sorted(gone, key=in_order)}
        self.coins = {at: coin for at, coin in known.coins.items() if at not in gone}
        self.histories = known.histories
        self.undos.append(Undo(hash, known.operations, expired))

    def leaves(self, is_read=False):
        """The newest block leaves. Of an index that was read it is demanded that its record fits."""
        height, undo = self.height, self.undos[-1]
        for at, coin in undo.expired.items():
            demand(at not in self.coins)
            demand(self.profile.expired(coin.height, height + 1) and not self.profile.expired(coin.height, height))
            self.coins[at] = coin
        for operation in reversed(undo.operations):
            self.takes_back(operation, height)
        self.undos.pop()

    def takes_back(self, operation, height):
        coin = self.coins.get(operation.made)
        demand(coin and coin.height == height and coin.is_commitment == (operation.kind == NEW))
        if operation.kind == NEW:
            del self.coins[operation.made]
            return
        *below, last = self.histories.get(operation.name, [None])
        demand(last and (last.height, last.at) == (height, operation.made))
        before = below[-1] if below else None
        demand(before == operation.before)
        if operation.kind == FIRST:
            demand(last.registered == height)
        else:
            demand(before and last.registered == before.registered)
        demand(operation.spent not in self.coins)
        del self.coins[operation.made]
        self.coins[operation.spent] = operation.coin
        self.histories[operation.name] = tuple(below)
        if not below:
            del self.histories[operation.name]

    # Soundness

    def is_state(self):
        """Whether heights, lengths and the coins of names are in order at this tip."""
        tip, behind = self.height, self.height + 1
        items = [(name, item) for name, history in self.histories.items() for item in history]
        if tip > HIGHEST or any(coin.height > tip for coin in self.coins.values()) or any(item.height > tip for _, item in items):
            return False
        if any(one.height > other.height for history in self.histories.values() for one, other in zip(history, history[1:])):
            return False
        lasts = {name: history[-1] for name, history in self.histories.items()}
        for at, coin in self.coins.items():
            last = lasts.get(coin.text)
            is_last = last is not None and (last.height, last.at) == (coin.height, at)
            if not coin.is_commitment and (not is_last or self.profile.expired(coin.height, behind)):
                return False
        stand = {(last.at, name, last.height) for name, last in lasts.items() if not self.profile.expired(last.height, behind)}
        return stand <= {(at, coin.text, coin.height) for at, coin in self.coins.items() if not coin.is_commitment}

    def is_bottom(self):
        """Whether nothing is above the base, and each item has its own height as its registration height."""
        items = [item for history in self.histories.values() for item in history]
        low = all(it.height <= self.base.height for it in [*self.coins.values(), *items])
        return low and all(item.registered == item.height for item in items)

    def is_sound(self):
        below = self.copy()
        try:
            while below.is_state() and below.undos:
                below.leaves()
        except Unfit:
            return False
        return not below.undos and below.is_state() and below.is_bottom()

    # The text

    def parts(self, version=2):
        """What stands before the lists of the text, and the entries of each list."""
        head = MAGIC + bytes([version, BYTES_OF_PROFILES[self.base.profile]]) + number(4, self.base.height) + self.base.hash
        coins = [at + coin_text(self.coins[at]) for at in sorted(self.coins, key=in_order)]
        names = [name_text(name) + listed([item_text(item, version) for item in items]) for name, items in self.given().items()]
        return head, [[undo_text(undo, version) for undo in self.undos], coins, names]

    def text(self, version=2):
        head, lists = self.parts(version)
        return head + b"".join(map(listed, lists))


def number(length, value):
    return value.to_bytes(length, "little")


def listed(texts):
    return number(4, len(texts)) + b"".join(texts)


def name_text(name):
    return number(1, len(name)) + name


def coin_text(coin):
    tail = coin.text if coin.is_commitment else name_text(coin.text)
    return bytes([COMMITMENT if coin.is_commitment else NAMED]) + number(4, coin.height) + tail


def item_text(item, version):
    registered = number(4, item.registered) if version == 2 else b""
    return number(4, item.height) + registered + item.at + number(2, len(item.value)) + item.value


def operation_text(operation, version):
    if operation.kind == NEW:
        return NEW + operation.made
    before = b"\1" + item_text(operation.before, version) if operation.before else b"\0"
    spent = operation.spent + coin_text(operation.coin)
    return operation.kind + operation.made + spent + name_text(operation.name) + before


def undo_text(undo, version):
    operations = listed([operation_text(it, version) for it in undo.operations])
    return undo.block + operations + listed([at + coin_text(coin) for at, coin in undo.expired.items()])


# Reading


class ImageFault(Exception):
    """The bytes are the text of no sound image: the place of the first fault of form, or 0."""


class Reader(Fields):
    fault = ImageFault

    def __init__(self, text):
        super().__init__(text)
        self.version = 0

    def count(self):
        return range(self.number(4))

    def tag(self, *allowed):
        tag = self.number(1)
        if tag not in allowed:
            raise ImageFault(self.at - 1)
        return tag

    def exactly(self, wanted):
        found = self.take(len(wanted))
        for place, (one, other) in enumerate(zip(found, wanted)):
            if one != other:
                raise ImageFault(self.at - len(wanted) + place)

    def base(self):
        self.exactly(MAGIC)
        self.version = self.tag(*VERSIONS)
        profile = PROFILE_BYTES[self.tag(*PROFILE_BYTES)]
        return Base(profile, self.number(4), self.take(32))

    def coin(self, *allowed):
        is_commitment = self.tag(*allowed) == COMMITMENT
        height = self.number(4)
        return Coin(is_commitment, height, self.take(20 if is_commitment else self.number(1)))

    def item(self):
        height = self.number(4)
        registered = self.number(4) if self.version == 2 else None
        at, length = self.take(OUTPOINT), self.number(2)
        if length > MOST_VALUE:
            raise ImageFault(self.at - 2)
        return Item(height, registered, self.take(length), at)

    def coins(self, *allowed):
        """A list of coins in strictly increasing order of their outpoints."""
        coins, last = {}, None
        for _ in self.count():
            at = self.take(OUTPOINT)
            if last is not None and in_order(at) <= in_order(last):
                raise ImageFault(self.at - OUTPOINT)
            coins[at], last = self.coin(*allowed), at
        return coins

    def operation(self):
        kind = KINDS[self.tag(*KINDS)]
        made = self.take(OUTPOINT)
        if kind == NEW:
            return Operation(kind, made)
        spent, coin = self.take(OUTPOINT), self.coin(COMMITMENT if kind == FIRST else NAMED)
        name = self.take(self.number(1))
        return Operation(kind, made, spent, coin, name, self.item() if self.tag(0, 1) else None)

    def undo(self):
        block = self.take(32)
        return Undo(block, [self.operation() for _ in self.count()], self.coins(NAMED))

    def histories(self):
        histories, last = {}, None
        for _ in self.count():
            start = self.at
            name = self.take(self.number(1))
            if last is not None and name <= last:
                raise ImageFault(start)
            items = self.count()
            if not items:
                raise ImageFault(self.at - 4)
            histories[name], last = tuple(self.item() for _ in items), name
        return histories

    def index(self):
        base = self.base()
        undos = [self.undo() for _ in self.count()]
        coins = self.coins(COMMITMENT, NAMED)
        index = Index(base, coins, self.histories(), undos)
        if self.at < len(self.text):
            raise ImageFault(self.at)
        return index


def with_registrations(index):
    """An index of a text of version 1 with the registration heights that follow from its records, where there are some.

    A name's last items are those that the records made. What an opening made has its own height, and what an update made that of
    the item before it; so an update has one. An item that no record made has its own height.
    """
    made = collections.Counter(it.name for undo in index.undos for it in undo.operations if it.kind != NEW)
    demand(all(made[name] <= len(index.histories.get(name, ())) for name in made))
    heights = {name: [item.height for item in items[: len(items) - made[name]]] for name, items in index.histories.items()}

    def registered(operation):
        if operation.kind == NEW:
            return operation
        known, before = heights[operation.name], operation.before
        demand(known or operation.kind == FIRST)
        if before and known:
            operation = operation._replace(before=before._replace(registered=known[-1]))
        known.append(known[-1] if operation.kind == UPDATE else index.histories[operation.name][len(known)].height)
        return operation

    undos = [undo._replace(operations=[registered(it) for it in undo.operations]) for undo in index.undos]
    return Index(index.base, index.coins, {name: registered_at(items, heights[name]) for name, items in index.histories.items()}, undos)


def registered_at(items, heights):
    return tuple(item._replace(registered=height) for item, height in zip(items, heights))


def index_of(text, base):
    """The index of an image on this base. An ImageFault where the text isn't that of a sound one."""
    reader = Reader(text)
    index = reader.index()
    try:
        index = with_registrations(index) if reader.version == 1 else index
    except Unfit:
        raise ImageFault(0) from None
    if index.base != base or not index.is_sound():
        raise ImageFault(0)
    return index
