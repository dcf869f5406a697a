"""When the server is asked to save its index, and what comes of that. From a save its next start follows few blocks."""
import time

from .progress import spoken
from .replies import ACCEPTED, NO_MEMORY, SAVE_REFUSALS
from .room import room_for_a_save, spoken_bytes
from .troubles import FeedEnded, ServerTrouble

# From one save to the next, where no other number is wanted: five weeks of a chain with a block every ten minutes. A start follows
# so many blocks in a second or two, where they are small; while a server gets its first blocks, they come within minutes.
EVERY = 5_000
# Blocks that take so many bytes are worth a save, however few they are: a start follows them in some ten seconds.
MOST_BYTES = 256 << 20
# What a block takes of the server's files beside its bytes, and what a disconnect takes.
AROUND, DISCONNECT = 6, 38
# Behind a save none is made for so many times as long as it took, since the server answers nothing meanwhile.
REST = 20
# Where a save fails, it is asked for again so many seconds later, and then at pauses that double up to the second number.
FIRST_PAUSE, LONGEST_PAUSE = 60.0, 3600.0
# So often in a row the connection may end in the place of a reply; then no save is asked for any more.
MOST_LOST = 2


class Saves:
    """`every` is the number of blocks from one save to the next, each that comes or leaves counted; 0 is no save at all. `folder` is
    that of the server's files, where it is known: then none is asked for that its disk has no room for."""

    def __init__(self, every, say, measures, clock=time.monotonic, folder=None):
        self.every, self.say, self.measures, self.clock, self.folder = every, say, measures, clock, folder
        self.is_over, self.lost = not every, 0
        # Blocks since the last save of this run, or since its start, and the bytes that they take of the server's files.
        self.blocks = self.bytes = 0
        # Whether the server stood at the source's tip before, and whether a save is wanted since it did so for the first time.
        self.was_level = self.is_wanted = False
        # No save is asked for before these moments: behind one that was made, and behind one that failed.
        self.rest = self.later = clock()
        self.pause = FIRST_PAUSE

    def connected(self, block):
        self.blocks, self.bytes = self.blocks + 1, self.bytes + len(block.data) + AROUND

    def disconnected(self):
        self.blocks, self.bytes = self.blocks + 1, self.bytes + DISCONNECT

    def is_level(self):
        """The server stands at the source's tip. The first time, what came until then is worth a save."""
        self.is_wanted = self.is_wanted or not self.was_level and self.blocks > 0
        self.was_level = True

    def is_due(self):
        now = self.clock()
        if self.is_over or not self.blocks or now < self.later:
            return False
        return self.is_wanted or now >= self.rest and (self.blocks >= self.every or self.bytes >= MOST_BYTES)

    def ask(self, server, height):
        """Asks the server at this height for a save. A trouble of its connection or of its disk is handed on."""
        if not self.has_room():
            return
        begun = self.clock()
        try:
            reply = server.save()
        except FeedEnded:
            self.ended()
            raise
        except ServerTrouble:
            self.failed()
            raise
        self.lost = 0
        if reply.code == ACCEPTED:
            self.made(reply.number, height, self.clock() - begun)
        elif reply.code == NO_MEMORY:
            self.measures.troubles += 1
            self.say(f"the server is out of memory for a save (code FE); the next one is tried in {spoken(self.failed())}")
        else:
            self.is_over = True
            name, meaning = SAVE_REFUSALS[reply.code]
            self.say(f"the server makes no save: code {reply.code}, {name}: {meaning}. No more are asked for")

    def has_room(self):
        """Whether there is room for a save. Where there isn't, that is told, and looked at again later: what a save that fails has
        written would stay, and take the room of blocks."""
        room = room_for_a_save(self.folder) if self.folder else None
        if room is None or room.is_enough:
            return True
        self.measures.troubles += 1
        both = f"{spoken_bytes(room.there)} of room for it, and it may want {spoken_bytes(room.wanted)}"
        self.say(f"no save is asked for: the disk of {self.folder} has {both}; it is looked at again in {spoken(self.failed())}")
        return False

    def made(self, number, height, seconds):
        self.blocks, self.bytes, self.is_wanted = 0, 0, False
        self.rest, self.pause = self.clock() + REST * seconds, FIRST_PAUSE
        self.measures.is_saved(seconds)
        self.say(f"the server has saved its index at height {height}: save {number}, in {seconds:.1f} s")

    def failed(self):
        """No save for a while, which is given: the longer, the more of them failed."""
        pause, self.pause = self.pause, min(2 * self.pause, LONGEST_PAUSE)
        self.later = self.clock() + pause
        return pause

    def ended(self):
        """The connection ended in the place of a reply: the server may be one that knows no saves, and takes the frame for a bad one."""
        self.lost += 1
        if self.lost == MOST_LOST:
            self.is_over = True
            self.say("the server ends the feed where it is asked for a save, as one does that knows none: no more are asked for")
