"""When the program saves its index, and how far that is. A save is written in slices, between which blocks and readers have their turn."""
import time
import typing

from namecoin_feeder.progress import spoken
from namecoin_feeder.replies import ACCEPTED, NO_MEMORY, SAVE_REFUSALS
from namecoin_feeder.saves import FIRST_PAUSE, LONGEST_PAUSE, MOST_BYTES, REST
from namecoin_feeder.server import frame

from .program import unexpected

BEGIN, SLICE = b"\x08", b"\x09"
RUNNING, NONE_RUNS, NO_ROOM = 33, 34, 35
# A slice has so many bytes, the most that the program writes at once.
SLICE_BYTES = 65_536
IS_LEFT, IS_SELECTED = b"\0", b"\1"
# The files of which a save fills one; behind its beginning that one has the length of the image and nothing else.
AREAS, LENGTH = ("nmc.1", "nmc.2"), 8


class Running(typing.NamedTuple):
    """A save that runs: the height and the moment of its beginning, the length of its image, where that is known, how many bytes are
    written, and what was counted at the last beginning before it."""

    height: int
    begun: float
    image: typing.Optional[int]
    written: int
    counted: tuple


class Made(typing.NamedTuple):
    """A save that was made: its number, the height at which it was begun, how long it took, and when it was done."""

    number: int
    height: int
    seconds: float
    done: float


class Saving:
    """The feeder's rule for saves (`every` is the number of blocks from one to the next, 0 none at all), to be used on the asking thread
    alone. `say` tells the operator; `folder` has the program's files."""

    def __init__(self, every, folder, say, clock=time.monotonic):
        self.every, self.folder, self.say, self.clock = every, folder, say, clock
        self.running = self.made = None
        # Why none is made any more, or why the last one failed.
        self.over, self.trouble = "" if every else "--save-every is 0", ""
        # The commands and their bytes at the last beginning. Another thread says once that the program stands at the node's tip; the
        # first time, what came until then is worth a save.
        self.counted, self.is_at_tip, self.was_at_tip, self.is_wanted = (0, 0), False, False, False
        # None is begun before these moments: behind one that was made, and behind one that failed.
        self.rest = self.later = clock()
        self.pause = FIRST_PAUSE

    def turn(self, asker):
        """Does what is to be done now, which is one frame at most. The seconds until it wants another turn; None where something has
        to come before."""
        if self.is_at_tip and not self.was_at_tip:
            self.was_at_tip, self.is_wanted = True, asker.commands > self.counted[0]
        if self.running:
            self.slice(asker)
        elif self.seconds_left(asker) == 0.0:
            self.begin(asker)
        return 0.0 if self.running else self.seconds_left(asker)

    def seconds_left(self, asker):
        """Until a save is due; None where it isn't for as long as no blocks come."""
        blocks, size = asker.commands - self.counted[0], asker.command_bytes - self.counted[1]
        if self.over or not blocks or not (self.is_wanted or blocks >= self.every or size >= MOST_BYTES):
            return None
        moment = self.later if self.is_wanted else max(self.later, self.rest)
        return max(0.0, moment - self.clock())

    def begin(self, asker):
        reply = asker.ask(frame(BEGIN, b""))
        if reply.code == ACCEPTED and not reply.payload or reply.code == RUNNING:
            if reply.code == RUNNING:
                self.say("the program says that a save runs already (code 33): that one is written to its end")
            image = image_length(self.folder) if reply.code == ACCEPTED else None
            self.running = Running(asker.tip.height, self.clock(), image, 0, self.counted)
            self.counted = (asker.commands, asker.command_bytes)
        elif reply.code == NO_MEMORY:
            self.failed("the program is out of memory for a save (code FE)")
        elif reply.code in SAVE_REFUSALS:
            name, meaning = SAVE_REFUSALS[reply.code]
            self.over = f"code {reply.code}, {name}: {meaning}"
            self.say(f"the program makes no save: {self.over}. No more are asked for")
        else:
            raise unexpected(f"code {reply.code} to the beginning of a save, payload {reply.payload[:8].hex() or 'empty'}")

    def slice(self, asker):
        reply = asker.ask(frame(SLICE, SLICE_BYTES.to_bytes(4, "little")))
        if reply.code == ACCEPTED and reply.payload == IS_LEFT:
            self.running = self.running._replace(written=self.running.written + SLICE_BYTES)
        elif reply.code == ACCEPTED and reply.payload[:1] == IS_SELECTED and len(reply.payload) == 9:
            self.is_made(int.from_bytes(reply.payload[1:], "little"))
        elif reply.code == NONE_RUNS:
            self.gives_up("the program says that no save runs (code 34), though one was begun")
        elif reply.code == NO_ROOM:
            self.gives_up("the program's files have no room for its index with the blocks that came meanwhile (code 35)")
        else:
            raise unexpected(f"code {reply.code} to a slice of a save, payload {reply.payload[:8].hex() or 'empty'}")

    def is_made(self, number):
        now, it = self.clock(), self.running
        self.made, self.running, self.trouble, self.is_wanted = Made(number, it.height, now - it.begun, now), None, "", False
        self.rest, self.pause = now + REST * self.made.seconds, FIRST_PAUSE
        size = "" if it.image is None else f", {it.image:,} bytes"
        self.say(f"the program has saved its index of height {it.height}: save {number}{size}, in {self.made.seconds:.1f} s")

    def gives_up(self, why):
        """The save that ran is gone: what it would have saved is due again."""
        self.counted, self.running = self.running.counted, None
        self.failed(why)

    def forget(self):
        """The program is started anew: a save that ran is gone with it."""
        if self.running:
            self.counted, self.running = self.running.counted, None

    def failed(self, why):
        """None is begun for a while: the longer, the more of them failed in a row."""
        pause, self.pause = self.pause, min(2 * self.pause, LONGEST_PAUSE)
        self.later, self.trouble = self.clock() + pause, why
        self.say(f"{why}; the next one is begun in {spoken(pause)}")

    def told(self):
        """How it stands with saves, for the page of the tip."""
        if self.running:
            return f"one is written now, of height {self.running.height:,}: {written(self.running)}"
        parts = []
        if self.made:
            ago = spoken(max(0.0, self.clock() - self.made.done))
            parts.append(f"save {self.made.number:,}, of height {self.made.height:,}, was done {ago} ago, in {self.made.seconds:.1f} s")
        elif not self.over:
            parts.append("none was made in this run yet")
        if self.over:
            parts.append(f"no{' more' if self.made else ''} saves are made: {self.over}")
        elif self.trouble:
            parts.append(f"the last one failed: {self.trouble}; the next one is begun in {spoken(max(0.0, self.later - self.clock()))}")
        return "; ".join(parts)


def written(it):
    """How far a save is. What the replies tell is that bytes are left, and not how many: the length of the image is that of the file."""
    if it.image is None:
        return f"{it.written:,} bytes are in the file, of a length that isn't known"
    if it.written < it.image:
        return f"{it.written:,} bytes of the {it.image:,} of the image are in the file"
    return f"the {it.image:,} bytes of the image are in the file, and the blocks that came meanwhile follow"


def image_length(folder):
    """The length of the image of a save that was begun just now, as its file tells it; None where that can't be read."""
    try:
        begun = [path for path in map(folder.joinpath, AREAS) if path.stat().st_size == LENGTH]
        return int.from_bytes(begun[0].read_bytes(), "little") if begun else None
    except OSError:
        return None
