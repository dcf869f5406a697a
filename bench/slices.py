"""How long events wait beside a save in slices, and what a whole save takes in the same run.

Each event is asked together with a slice in front of it, as one that comes when a slice was just begun: so what it waits is the time of
both. Events come by turns: none, a query, an opening, a page, a closing, and a block that joins, or leaves where all have joined.
"""
import collections
import time
import typing

from blocks import BEGINNING, CLOSING, DISCONNECT, OPENING, PAGE, QUERY, SAVE, SLICE, frame

SLICE_BYTES = 65_536
IS_LEFT, ACCEPTED = b"\0\1\0\0\0\0", 0
# The session whose pages are asked for, and the one that is opened and closed.
PAGED, RENEWED = 0, 1
ASKED = b"\x12\x34\x01\0\0\1\0\0\0\0\0\0\x06000000\3bit\0\0\1\0\1"
LAST = "the last slice, with what was asked behind it"


def number(value):
    return value.to_bytes(4, "little")


class Events:
    """The events by turns, over blocks that join one after the other and leave in reverse."""

    def __init__(self, blocks):
        self.blocks, self.joined, self.leaves = blocks, 0, False
        self.turn = 0

    def next(self):
        """What the next event is, and its frame, of which there is none beside a slice alone."""
        kinds = (self.alone, self.query, self.opening, self.page, self.closing, self.block)
        self.turn += 1
        return kinds[self.turn % len(kinds)]()

    def alone(self):
        return "a slice alone", []

    def query(self):
        return "a query", [frame(QUERY, ASKED)]

    def opening(self):
        return "an opening", [frame(OPENING, b"")]

    def page(self):
        return "a page", [frame(PAGE, number(PAGED))]

    def closing(self):
        return "a closing", [frame(CLOSING, number(RENEWED))]

    def block(self):
        if self.joined in (0, len(self.blocks)):
            self.leaves = self.joined > 0
        if self.leaves:
            self.joined -= 1
            return "a block that leaves", [frame(DISCONNECT, self.blocks[self.joined][1])]
        self.joined += 1
        return "a block that joins", [self.blocks[self.joined - 1][0]]


def waited(it, frames):
    """The seconds until the frames have their replies, and these."""
    start = time.perf_counter()
    it.run.stdin.write(b"".join(frames))
    it.run.stdin.flush()
    replies = [reply_of(it) for _ in frames]
    return time.perf_counter() - start, replies


def reply_of(it):
    head = it.run.stdout.read(5)
    return head + it.run.stdout.read(int.from_bytes(head[1:], "little"))


def accepted(what, replies):
    for reply in replies:
        if reply[:1] != bytes([ACCEPTED]):
            raise SystemExit(f"list: {what} beside a save: the reply is {reply[:40].hex()}")


class Waits(typing.NamedTuple):
    """Seconds: of a whole save, and of the beginning of one in slices; by what was asked, how often, and the longest wait; and how many
    slices there were, with the time from the beginning to the end."""

    whole: float
    begun: float
    counts: dict
    longest: dict
    slices: int
    all: float


def waits_of(it, blocks):
    """Makes a whole save, and then one in slices with events between, in a run that has opened the files."""
    whole, replies = waited(it, [frame(SAVE, b"")])
    accepted("a whole save", replies)
    accepted("an opening", waited(it, [frame(OPENING, b"")])[1])
    start = time.perf_counter()
    begun, replies = waited(it, [frame(BEGINNING, b"")])
    accepted("a beginning", replies)
    events, counts, longest, is_left = Events(blocks), collections.Counter(), collections.Counter(), True
    while is_left:
        what, more = events.next()
        seconds, replies = waited(it, [frame(SLICE, number(SLICE_BYTES)), *more])
        accepted(what, replies)
        is_left = replies[0] == IS_LEFT
        what = what if is_left else LAST
        counts[what] += 1
        longest[what] = max(longest[what], seconds)
    return Waits(whole, begun, counts, longest, sum(counts.values()), time.perf_counter() - start)
