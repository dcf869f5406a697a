"""What is read off the bytes of a block: its own hash and the one before it, and nothing behind the header."""
import hashlib
import typing

from .troubles import Status, Stop

# The longest block that a frame of the feed can have.
MOST_BYTES = 8_388_608
HEADER = 80
# What the first block of a network names as the block before it.
NO_HASH = bytes(32)


class Block(typing.NamedTuple):
    hash: bytes
    previous: bytes
    data: bytes


class Place(typing.NamedTuple):
    """A block of the best chain, with its height and with the work of the chain up to it."""

    hash: bytes
    height: int
    work: int


class Header(typing.NamedTuple):
    """What a source knows of a block, whether or not the best chain has it; `work` is that of its chain up to it, and `confirmations`
    are the block itself and those above it, where a node tells of a block on its best chain."""

    hash: bytes
    previous: bytes
    height: int
    is_on_chain: bool
    work: int
    confirmations: int = 0


# What stands below the first block of a network.
BELOW_ALL = Header(NO_HASH, NO_HASH, -1, True, 0)


def block_hash(data):
    return hashlib.sha256(hashlib.sha256(data[:HEADER]).digest()).digest()


def block_of(data):
    return Block(block_hash(data), data[4:36], data)


def too_long(hash):
    """The stop at a block that no frame of the feed holds."""
    return Stop(Status.REFUSED, f"block {shown(hash)} has more than {MOST_BYTES} bytes, which no frame of the feed holds")


def shown(hash):
    """A hash as people write it: its bytes from the last to the first."""
    return hash[::-1].hex()


def hash_of(text):
    """The hash that people write so."""
    return bytes.fromhex(text)[::-1]
