"""Name operations whose numbers tell the name, and chains of them."""
import struct

from blocks import FIRST, NEW, UPDATE, coinbase, name_script, named, outpoint
from digests import double_sha256, hash160

# A commitment is opened so many blocks after it.
MATURITY = 12
# A block takes so many names, of some 115 bytes each.
MOST_IN_A_BLOCK = 50000


def elsewhere(number):
    """An outpoint that no chain has."""
    return outpoint(b"\xee" * 28 + struct.pack("<I", number))


def salt_of(number):
    return struct.pack("<Q", number)


def name_of(number):
    return b"d/name%d" % number


def commitment(number):
    script = name_script(NEW, hash160(salt_of(number) + name_of(number)))
    return named(elsewhere(number), script)


def opening(number, commitment):
    script = name_script(FIRST, name_of(number), salt_of(number), b'{"ip":"192.0.2.1"}')
    return named(outpoint(double_sha256(commitment)), script)


def update(number, opening):
    script = name_script(UPDATE, name_of(number), b'{"ip":"192.0.2.2"}')
    return named(outpoint(double_sha256(opening)), script)


def in_pieces(items, most):
    return [items[i : i + most] for i in range(0, len(items), most)]


def connect(chain, transactions):
    """A block with a coinbase of its own height."""
    chain.connect([coinbase(chain.height + 1)] + transactions)


def connect_names(chain, names):
    """All names are committed to, then opened. The transactions that open them."""
    commitments = [commitment(number) for number in range(names)]
    openings = [opening(number, item) for number, item in enumerate(commitments)]
    pieces = in_pieces(commitments, MOST_IN_A_BLOCK)
    for items in pieces + [[]] * (MATURITY - len(pieces)) + in_pieces(openings, MOST_IN_A_BLOCK):
        connect(chain, items)
    return openings
