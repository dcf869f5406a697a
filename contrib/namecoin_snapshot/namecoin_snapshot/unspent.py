"""The file of unspent outputs that a node's `dumptxoutset` writes, of each layout (Bitcoin Core, rpc/blockchain.cpp)."""
import select
import typing

from namecoin_feeder.troubles import Stop

from .coins import INDEX, MOST_SCRIPT, RAW, TXID, coin_at, group_at, script_end
from .name_scripts import PUSHES
from .numbers import BadNumber, compact_size
from .older_heads import CHAIN_COUNT, has_chain_count
from .statuses import Status

# From Core 28 on a file begins with these, and the network's magic. Older ones begin with the hash of the base.
MAGIC, VERSION = b"utxo\xff", 2
VERSION_AT = len(MAGIC)
NETWORK_AT = VERSION_AT + 2
HASH, COUNT = 32, 8
# What is above it is no number of outputs: they would take many terabytes.
MOST_OUTPUTS = 2**40
# So much is read at a time; and so long an output may be, but for a longer script.
PIECE, MOST_OF_ONE = 2**20, MOST_SCRIPT + 128
# Seconds to wait for more of a pipe, before it is waited for again.
WAIT = 0.2


class Head(typing.NamedTuple):
    """What stands before the outputs: the base's hash, the number of outputs, and whether these stand by transactions."""

    base: bytes
    count: int
    is_grouped: bool


class Output(typing.NamedTuple):
    """An output whose script begins as a name script does; `at` is the script's place in the file."""

    txid: bytes
    index: int
    height: int
    is_of_coinbase: bool
    script: bytes
    at: int


class BadFile(Stop):
    """What isn't as a node writes it, and its place in the file."""

    def __init__(self, path, at, text):
        super().__init__(Status.FILE, f"{path} at {at}: {text}")
        self.at = at


class Unspent:
    """Reads the file from its start to its end. `data` are its bytes from the place `before` on, as many as one output needs."""

    def __init__(self, path, file):
        self.path, self.file = path, file
        self.data, self.before, self.head = b"", 0, None
        # Whether nothing stands behind `data`.
        self.is_all = False

    def bad(self, at, text):
        """The fault at a place of `data`."""
        return BadFile(self.path, self.before + at, text)

    def cut(self, inside):
        """The fault of a file that ends too early, of which all was read."""
        return self.bad(len(self.data), f"the file is cut: it ends inside {inside}")

    def slide(self, at):
        """Lets go of what stands before a place of `data`, and reads on. Whether there was more."""
        piece = self.piece()
        self.is_all = len(piece) < PIECE
        self.before += at
        self.data = self.data[at:] + piece
        return bool(piece)

    def piece(self):
        """The next bytes of the file; fewer than a piece at its end alone."""
        parts, part, left = [], None, PIECE
        try:
            while left and part != b"":
                # A read that waits for a pipe wouldn't hear an interrupt that came just before it.
                if select.select([self.file], [], [], WAIT)[0]:
                    part = self.file.read(left)
                    parts.append(part)
                    left -= len(part)
        except OSError as fault:
            raise Stop(Status.FILE, f"{self.path} can't be read: {fault.strerror}") from None
        return b"".join(parts)

    # The head

    def read_head(self, network):
        """Reads what stands before the outputs. Where it tells the network, that is to be the one with this magic."""
        self.slide(0)
        is_grouped = self.data.startswith(MAGIC)
        start = self.network_end(network) if is_grouped else 0
        end = start + HASH + COUNT
        if len(self.data) < end:
            raise self.cut("its head")
        count = int.from_bytes(self.data[start + HASH : end], "little")
        if count > MOST_OUTPUTS:
            raise self.no_count(start + HASH, count, is_grouped)
        self.head = Head(self.data[start : start + HASH], count, is_grouped)
        self.slide(end)
        return self.head

    def network_end(self, network):
        """The place behind version and network."""
        end = NETWORK_AT + len(network)
        if len(self.data) < end:
            raise self.cut("its head")
        version, found = int.from_bytes(self.data[VERSION_AT:NETWORK_AT], "little"), self.data[NETWORK_AT:end]
        if version != VERSION:
            raise self.bad(VERSION_AT, f"the file has version {version}, and only {VERSION} is read")
        if found != network:
            raise self.bad(NETWORK_AT, f"the file is of another network: its magic is {found.hex()}, and not {network.hex()}")
        return end

    def no_count(self, at, count, is_grouped):
        if is_grouped:
            return self.bad(at, f"the number of outputs is {count}, which is more than there can be")
        text = f"the magic {MAGIC.hex()} isn't there; and as a file of an older node it would have {count} outputs, more than there can be"
        return self.bad(0, text)

    # The outputs

    def outputs(self, height, tell):
        """The outputs whose script begins as a name script does, in their order. None of all may be above the height. `tell` is
        called now and then, with the number of outputs that were read."""
        count, is_grouped = self.head.count, self.head.is_grouped
        if not is_grouped:
            self.pass_chain_count(height)
        data, at, txid, group, number = self.data, 0, b"", 0, 0
        end = len(data)
        try:
            for number in range(count):
                if end - at < MOST_OF_ONE:
                    self.slide(at)
                    data, at, end = self.data, 0, len(self.data)
                    tell(number)
                if not is_grouped:
                    txid, index_at = data[at : at + TXID], at + TXID
                    at = index_at + INDEX
                    index = int.from_bytes(data[index_at:at], "little")
                else:
                    if not group:
                        txid = data[at : at + TXID]
                        group, at = group_at(data, at + TXID, count - number)
                    group -= 1
                    index, at = compact_size(data, at)
                code, size, start = coin_at(data, at, height)
                at = script_end(size, start)
                if at > end:
                    data, at = self.passed(at)
                    end = len(data)
                elif RAW < size <= RAW + MOST_SCRIPT and data[start] in PUSHES:
                    yield Output(txid, index, code >> 1, bool(code & 1), data[start:at], self.before + start)
        except BadNumber as fault:
            raise self.bad(fault.at, fault.text) from None
        except IndexError:
            raise self.cut(f"output {number + 1} of {count}") from None
        self.slide(at)
        if self.data:
            raise self.bad(0, f"bytes stand behind the last of {count} outputs")

    def pass_chain_count(self, height):
        """Passes what older nodes write behind the number of outputs, where it is there."""
        if has_chain_count(self.data, self.is_all, self.head.count, height):
            self.slide(CHAIN_COUNT)

    def passed(self, at):
        """`data` from a place on that lies behind all of it, and the place of that place there."""
        while at > len(self.data):
            at -= len(self.data)
            if not self.slide(len(self.data)):
                raise IndexError
        return self.data, at
