"""The text of a snapshot, and its reading with the place of its fault.

It is written from docs/FORMATS.md and docs/RULES.md alone, and shares nothing with what makes snapshots or reads them.
"""
import typing

from fields import Fields
from images_model import in_order
from model import HIGHEST, PROFILES

from blocks import NEW, UPDATE

HEAD = b"NMCS\x01"
MOST_VALUE, MOST_NAME, COMMITMENT, OUTPOINT = 1023, 255, 20, 36


class Make(typing.NamedTuple):
    """What a snapshot says of an outpoint: the height, and the hash of a commitment (no value), or a name with its value."""

    at: bytes
    height: int
    text: bytes
    value: typing.Optional[bytes] = None

    @property
    def is_commitment(self):
        return self.value is None


class SnapshotFault(Exception):
    """The bytes are no snapshot for the base: the place of the first fault."""


def snapshot_text(makes):
    """The snapshot of these makes, in order."""
    ordered = sorted(makes, key=lambda it: in_order(it.at))
    return HEAD + number(4, len(ordered)) + b"".join(map(make_text, ordered))


def number(length, value):
    return value.to_bytes(length, "little")


def make_text(make):
    if make.is_commitment:
        return make.at + NEW + number(4, make.height) + make.text
    named = number(1, len(make.text)) + make.text + number(2, len(make.value)) + make.value
    return make.at + UPDATE + number(4, make.height) + named


class Reader(Fields):
    fault = SnapshotFault

    def head(self):
        """Byte by byte, each tested before the next is read."""
        for byte in HEAD:
            if self.number(1) != byte:
                raise SnapshotFault(self.at - 1)

    def make(self):
        at, tag = self.take(OUTPOINT), self.take(1)
        if tag not in (NEW, UPDATE):
            raise SnapshotFault(self.at - 1)
        height = self.number(4)
        if tag == NEW:
            return Make(at, height, self.take(COMMITMENT))
        name, length = self.take(self.number(1)), self.number(2)
        if length > MOST_VALUE:
            raise SnapshotFault(self.at - 2)
        return Make(at, height, name, self.take(length))


def makes_of(text, profile, height):
    """The makes of a snapshot, for a base of this profile and height."""
    assert 0 <= height <= HIGHEST
    reader, makes, names = Reader(text), [], set()
    reader.head()
    for _ in range(reader.number(4)):
        start = reader.at
        make = reader.make()
        is_greater = not makes or in_order(makes[-1].at) < in_order(make.at)
        if not is_greater or make.height > height or not make.is_commitment and is_taken(make, profile, height, names):
            raise SnapshotFault(start)
        makes.append(make)
        if not make.is_commitment:
            names.add(make.text)
    if reader.at < len(text):
        raise SnapshotFault(reader.at)
    return makes


def is_taken(make, profile, height, names):
    """Whether a name is expired in the block on the base, or stands in an earlier make."""
    return PROFILES[profile].expired(make.height, height + 1) or make.text in names
