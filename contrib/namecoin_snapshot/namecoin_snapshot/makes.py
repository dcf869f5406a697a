"""The makes of a snapshot: collected in a file without a name, and put in order (docs/FORMATS.md, Snapshots)."""
import array
import contextlib
import errno
import itertools
import os
import struct
import tempfile

from namecoin_feeder.blocks import shown
from namecoin_feeder.troubles import Stop

from .name_scripts import NEW, UPDATE
from .statuses import Status

MAGIC, VERSION = b"NMCS", 1
HEAD = struct.Struct("<4sBI")
# No snapshot may be longer.
MOST_BYTES = 2**32 - 1
MOST_NAME, MOST_VALUE, COMMITMENT = 255, 1023, 20
# The place of the tag in a make, behind the outpoint; and that of the name's length, behind the height.
TAG, NAME_LENGTH = 36, 41
# The order of these bytes is that of outpoints, which stand in front, the index with its high byte first. Behind them: the place of
# the script in the node's file, and the make's place in ours with its length.
KEY = struct.Struct(">32sIQQH")
OUTPOINT = 36
BUFFER, COPIED = 2**18, 2**20


class Unfit(Exception):
    """An output that no snapshot holds: the place of its script in the node's file, and why."""

    def __init__(self, at, text):
        super().__init__(text)
        self.at, self.text = at, text


def check(at, what, length, most):
    if length > most:
        raise Unfit(at, f"{what} has {length} bytes, and {most} at most are allowed")


def is_odd_commitment(pushes):
    """Whether the hash of a NAME_NEW has another size than the hash of any name: no name can be opened by it."""
    return len(pushes[0]) != COMMITMENT


def make_of(output, pushes):
    """The bytes of a make: of a commitment, or of a name with its value."""
    head = struct.pack("<32sI", output.txid, output.index)
    if len(pushes) == 1:
        return head + struct.pack("<BI", NEW, output.height) + pushes[0]
    name, value = pushes[0], pushes[-1]
    check(output.at, "a name", len(name), MOST_NAME)
    check(output.at, "a value", len(value), MOST_VALUE)
    return head + struct.pack("<BIB", UPDATE, output.height, len(name)) + name + struct.pack("<H", len(value)) + value


def name_of(make):
    """The name in a make; None where it is that of a commitment."""
    return make[NAME_LENGTH + 1 : NAME_LENGTH + 1 + make[NAME_LENGTH]] if make[TAG] == UPDATE else None


def spoken(key):
    """The outpoint of a key as nodes write it."""
    txid, index, *_ = KEY.unpack(key)
    return f"{shown(txid)}:{index}"


class Makes:
    """The makes so far. In memory each has a key of 54 bytes, and one of a name a hash of Python's too; their bytes are in a file."""

    def __init__(self, folder):
        self.file, self.length = tempfile.TemporaryFile(dir=folder, buffering=BUFFER), 0
        self.keys, self.hashes = [], array.array("q")

    def close(self):
        # What a full disk didn't take is tried once more here, and of no use any more.
        with contextlib.suppress(OSError):
            self.file.close()

    def add(self, output, make, name):
        """`name` is that in the make; None of a commitment."""
        if HEAD.size + self.length + len(make) > MOST_BYTES:
            raise Unfit(output.at, f"the snapshot would have more than {MOST_BYTES} bytes")
        self.file.write(make)
        self.keys.append(KEY.pack(output.txid, output.index, output.at, self.length, len(make)))
        self.length += len(make)
        if name is not None:
            self.hashes.append(hash(name))

    def make(self, key):
        """The bytes of a make, in our file."""
        *_, at, length = KEY.unpack(key)
        return self.piece(at, length)

    def piece(self, at, length):
        data = os.pread(self.file.fileno(), length, at)
        if len(data) < length:
            raise OSError(errno.EIO, os.strerror(errno.EIO))
        return data

    def put_in_order(self):
        """Behind it none is added. An outpoint that is there twice is no node's, and neither are two outputs of one name."""
        self.file.flush()
        self.keys.sort()
        for one, other in zip(self.keys, itertools.islice(self.keys, 1, None)):
            if one[:OUTPOINT] == other[:OUTPOINT]:
                raise Unfit(KEY.unpack(other)[2], f"the output {spoken(other)} is there a second time")
        self.check_names()

    def check_names(self):
        """Where two have one hash, the names themselves are compared."""
        ordered = sorted(self.hashes)
        doubtful = {one for one, other in zip(ordered, itertools.islice(ordered, 1, None)) if one == other}
        del ordered
        seen = {}
        for key in self.keys if doubtful else ():
            name = name_of(self.make(key))
            if name is None or hash(name) not in doubtful:
                continue
            if name in seen:
                text = f"the outputs {spoken(seen[name])} and {spoken(key)} have one name, and neither is expired: {name!r}"
                raise Stop(Status.SAME_NAME, text)
            seen[name] = key

    def write(self, out):
        """Writes the snapshot."""
        out.write(HEAD.pack(MAGIC, VERSION, len(self.keys)))
        for start, end in self.runs():
            for at in range(start, end, COPIED):
                out.write(self.piece(at, min(COPIED, end - at)))

    def runs(self):
        """The pieces of our file in the order of the makes; makes that stand there in order are one."""
        start = end = 0
        for key in self.keys:
            *_, at, length = KEY.unpack(key)
            if at != end:
                yield start, end
                start = at
            end = at + length
        yield start, end
