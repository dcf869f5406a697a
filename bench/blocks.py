"""Makes blocks as the crate block_maker makes them, with any transactions behind the coinbase, and streams of frames of them."""
import struct

from digests import double_sha256

NEW, FIRST, UPDATE = b"\x51", b"\x52", b"\x53"
NAME_VERSION = 0x7100
LEAST_AMOUNT = 1_000_000
CONNECT, DISCONNECT, QUERY, SAVE = b"\x01", b"\x02", b"\x03", b"\x04"
# Of `list` alone: a listing session is opened, a page of it is asked for, it is closed.
OPENING, PAGE, CLOSING = b"\x05", b"\x06", b"\x07"
# Of `list` alone too: a save in slices is begun, a slice of it is written.
BEGINNING, SLICE = b"\x08", b"\x09"
# The txid of transactions that no chain has.
NOWHERE = b"\xee" * 32
NO_OUTPOINT = bytes(32) + b"\xff" * 4
DROPPED = b"\x6d\x51"


def compact_size(size):
    if size < 0xFD:
        return bytes([size])
    if size < 0x10000:
        return b"\xfd" + size.to_bytes(2, "little")
    return b"\xfe" + size.to_bytes(4, "little")


def counted(data):
    return compact_size(len(data)) + data


def outpoint(txid, index=0):
    return txid + struct.pack("<I", index)


def transaction(version, inputs, outputs):
    """Inputs are outpoints, or pairs of an outpoint and a script; outputs are pairs of an amount and a script."""
    pairs = (item if isinstance(item, tuple) else (item, b"") for item in inputs)
    given = b"".join(spent + counted(script) + b"\xff" * 4 for spent, script in pairs)
    made = b"".join(struct.pack("<Q", amount) + counted(script) for amount, script in outputs)
    return struct.pack("<I", version) + compact_size(len(inputs)) + given + compact_size(len(outputs)) + made + bytes(4)


def push(part):
    """The shortest push of the bytes."""
    if len(part) < 0x4C:
        return bytes([len(part)]) + part
    if len(part) < 0x100:
        return b"\x4c" + bytes([len(part)]) + part
    return b"\x4d" + struct.pack("<H", len(part)) + part


def name_script(opcode, *parts):
    """A commitment (NEW: its hash), an opening (FIRST: name, salt, value), or an update (UPDATE: name, value)."""
    return opcode + b"".join(map(push, parts)) + DROPPED


def named(spent, script):
    """The transaction of one name operation that spends an outpoint."""
    return transaction(NAME_VERSION, [spent], [(LEAST_AMOUNT, script)])


def coinbase(height):
    return transaction(1, [(NO_OUTPOINT, b"\x04" + struct.pack("<I", height))], [(0, b"\x51")])


def merkle_root(row):
    while len(row) > 1:
        row = row + row[-1:] if len(row) % 2 else row
        row = [double_sha256(row[i] + row[i + 1]) for i in range(0, len(row), 2)]
    return row[0]


def block_of(height, tip, transactions):
    """The block of that height on the tip; the first of its transactions stands in the coinbase's place."""
    root = merkle_root([double_sha256(item) for item in transactions])
    header = struct.pack("<I", 4) + tip + root + struct.pack("<III", height, 0x207FFFFF, 0)
    return header + compact_size(len(transactions)) + b"".join(transactions)


def block_hash(block):
    return double_sha256(block[:80])


def pieces(text):
    """The frames or replies that the bytes are made of: each a byte, a length of 4 bytes and so many bytes."""
    found, at = [], 0
    while at < len(text):
        end = at + 5 + int.from_bytes(text[at + 1 : at + 5], "little")
        found.append(text[at:end])
        at = end
    return found


def frame(kind, payload):
    return kind + struct.pack("<I", len(payload)) + payload


class Chain:
    """A chain from the base of height 0 and 32 zero bytes, written as frames."""

    def __init__(self, out):
        self.out, self.height, self.tip, self.size = out, 0, bytes(32), 0

    def write(self, kind, payload):
        self.size += self.out.write(frame(kind, payload))

    def connect(self, transactions):
        """A block of these transactions, the first of which stands in the coinbase's place."""
        self.height += 1
        block = block_of(self.height, self.tip, transactions)
        self.below, self.tip = self.tip, block_hash(block)
        self.write(CONNECT, block)

    def disconnect(self):
        """The newest block, once."""
        self.write(DISCONNECT, self.tip)
        self.height, self.tip = self.height - 1, self.below
