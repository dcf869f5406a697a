"""What stands behind an outpoint in a node's file: height, amount and script (Bitcoin Core, coins.h and compressor.h)."""
from .numbers import MOST_32, MOST_64, MOST_AMOUNT, MOST_OF_ANY_EXPONENT, BadNumber, amount_of, compact_size, varint

TXID, INDEX = 32, 4
# The sizes below 6 are those of special scripts, of which so many bytes follow. Any other is that of the script, and 6 more.
SPECIAL, RAW = (20, 20, 32, 32, 32, 32), 6
# A longer script makes an output that nobody can spend (Bitcoin Core, MAX_SCRIPT_SIZE): it is passed over, as the node does it.
MOST_SCRIPT = 10_000


def group_at(data, at, left):
    """How many outputs a transaction has, of those that are left, and the place behind that."""
    group, end = compact_size(data, at)
    if not 0 < group <= left:
        raise BadNumber(at, f"the number of a transaction's outputs is {group}, and {left} are left of all")
    return group, end


def coin_at(data, at, height):
    """What stands behind an outpoint: the height, doubled, with 1 for a coinbase; the script's size; and the place behind that."""
    code, amount_at = varint(data, at, MOST_32)
    if code >> 1 > height:
        raise BadNumber(at, f"an output has the height {code >> 1}, above the base's, {height}")
    amount, size_at = varint(data, amount_at, MOST_64)
    if amount > MOST_OF_ANY_EXPONENT and amount_of(amount) > MOST_AMOUNT:
        raise BadNumber(amount_at, f"an output has the amount {amount_of(amount)}, more than there can be")
    size, start = varint(data, size_at, MOST_32)
    return code, size, start


def script_end(size, start):
    """The place behind a script of this size."""
    return start + (size - RAW if size >= RAW else SPECIAL[size])
