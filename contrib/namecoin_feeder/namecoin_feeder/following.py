"""Keeps a server at the best chain of a source: forward in order, and back to the fork where another branch stands above it."""
import contextlib
import pathlib
import time
import typing

from .blocks import MOST_BYTES, shown, too_long
from .going_back import Blind, Wait, way_back
from .growth import Growth
from .heights import Heights
from .measures import Measures
from .new_branch import HELD_BYTES, fetched
from .pauses import Calm, Waits
from .progress import spoken
from .replies import ACCEPTED, NOT_ON_TIP, reason
from .saves import EVERY, Saves
from .troubles import Moved, NodeTrouble, Status, Stop, Trouble

# So often in a row the best chain may move before a block is taken; then there is a pause.
MOST_MOVES = 5


class Choices(typing.NamedTuple):
    """How to follow: once or on and on; seconds between two looks; blocks to go back at most; the height of the server's base;
    how many blocks may be taken off that the node doesn't know; seconds until the next try behind a stop, 0 being an end; how
    many blocks there are from one save to the next, 0 being none; how many bytes of a new branch are held at most; from how many
    blocks on the base on it is told that a new snapshot would do good, 0 being never; and the server's folder, where it is known."""

    once: bool = False
    every: float = 1.0
    deepest: int = 1000
    base: int = 0
    unknown: int = 0
    again: float = 0.0
    save_every: int = EVERY
    branch_bytes: int = HELD_BYTES
    warn_above: int = 0
    files: typing.Optional[pathlib.Path] = None


class Follower:
    def __init__(self, source, server, pauses, progress, choices=Choices(), clock=time.monotonic, sleep=time.sleep):
        self.source, self.server, self.pauses, self.progress, self.choices = source, server, pauses, progress, choices
        self.clock, self.sleep = clock, sleep
        self.waits, self.calm = Waits(progress.say, clock), Calm(pauses.shortest, pauses.longest, clock)
        self.measures = Measures(clock, choices.base)
        self.saves = Saves(choices.save_every, progress.say, self.measures, clock, choices.files)
        self.growth = Growth(choices.warn_above, choices.base, progress.say, clock)
        self.heights = Heights(source, server)
        # Moves of the best chain since a block was taken; and blocks taken off in this run that the source doesn't know.
        self.moves, self.unknown = 0, 0
        # The height of the server's tip and of the source's, as the source counts.
        self.height = self.top = 0

    def follow(self):
        """Follows for ever, or until the server stands at the source's tip. What doesn't pass is raised as a Stop."""
        while True:
            try:
                if self.look() and self.choices.once:
                    return
            except Stop as stop:
                if not self.choices.again:
                    raise
                self.hold(stop)

    def look(self):
        """One look, and a pause where it met a trouble. Whether the server stands at the source's tip."""
        try:
            return self.step()
        except Moved:
            self.moves += 1
            if self.moves >= MOST_MOVES:
                self.progress.rests()
                self.pauses.wait(NodeTrouble(f"the best chain of {self.source.name} has moved {self.moves} times"))
        except Trouble as trouble:
            self.measures.troubles += 1
            self.progress.rests()
            self.pauses.wait(trouble)
        return False

    def hold(self, stop):
        """Behind what would end the program: waits for so long, or until the best chain has left the block that was refused."""
        self.progress.say(f"{stop}; the next try is in {spoken(self.choices.again)}")
        self.server.drop()
        self.pauses.passed()
        self.progress.rests()
        until = self.clock() + self.choices.again
        while (left := until - self.clock()) > 0 and not self.has_left(stop.block):
            self.sleep(min(self.choices.every, left))

    def has_left(self, block):
        """Whether the source knows a refused block, and has another best chain now."""
        if block is None:
            return False
        try:
            header = self.source.header(block)
        except (Trouble, Stop):
            return False
        return header is not None and not header.is_on_chain

    def step(self):
        """One look at the source, and what is to be done then. Whether the server stands at its tip."""
        if self.server.open():
            self.progress.say(f"{self.server.title} stands on block {shown(self.server.tip)}")
        self.settle(0)
        best = self.source.best()
        self.top = self.measures.node_height = best.height
        self.heights.look_again()
        if best.hash == self.server.tip:
            self.is_level(best)
            return True
        header = self.source.header(self.server.tip)
        if header is None or not header.is_on_chain:
            self.back(way_back(self.source, self.server.tip, best, self.choices), best)
        elif header.height >= best.height:
            raise Moved
        else:
            self.measures.is_waiting = False
            self.forward(header.height, best.height)
        return False

    def is_level(self, best):
        self.went_well()
        self.measures.is_waiting = False
        self.height = self.measures.server_height = best.height
        self.growth.is_at(best.height)
        self.saves.is_level()
        self.save()
        self.progress.is_level(best.height)
        if not self.choices.once:
            self.sleep(self.choices.every)

    def went_well(self):
        self.moves = 0
        self.pauses.passed()

    # Saves

    def save(self):
        """Has the server save its index, where that is due and each block has its reply."""
        if self.saves.is_due():
            self.saves.ask(self.server, self.height)
            self.progress.at(self.height, max(self.height, self.top))

    # Forward

    def forward(self, height, top):
        """Sends the blocks above a height."""
        self.height = height
        with contextlib.closing(self.source.runs(height + 1, top)) as runs:
            self.bring(runs, self.save)

    def bring(self, runs, save=None):
        """Sends runs of blocks; one is on its way while the replies to the one before are read. Where a save is due, `save` makes it."""
        tip = self.server.tip
        try:
            for number, run in enumerate(runs):
                tip = self.send(run, tip)
                # The first run is one block, whose reply tells the server's height before more is sent.
                self.settle(len(run) if number else 0)
                if save and self.saves.is_due():
                    self.settle(0)
                    save()
        except (NodeTrouble, Moved, Stop):
            self.settle(0)
            raise
        self.settle(0)

    def send(self, run, tip):
        """Sends a run of blocks above a tip. The new tip."""
        for number, block in enumerate(run):
            if block.previous != tip:
                raise Moved
            if len(block.data) > MOST_BYTES:
                self.server.connect(run[:number])
                raise too_long(block.hash)
            tip = block.hash
        self.server.connect(run)
        return tip

    def settle(self, leaving):
        """Reads replies until so many blocks are left without one."""
        before = self.height
        try:
            while len(self.server.sent) > leaving:
                block, reply = self.server.answer()
                if reply.code != ACCEPTED:
                    self.refused(block, reply)
                self.height += 1
                self.measures.is_connected(self.height)
                self.saves.connected(block)
                self.heights.compare(self.height)
        finally:
            if self.height > before:
                self.went_well()
                self.progress.at(self.height, max(self.height, self.top))

    def refused(self, block, reply):
        """Ends, but where the block isn't of the best chain any more, or the server stands elsewhere than it said."""
        while self.server.sent:
            self.server.answer()
        if reply.code == NOT_ON_TIP:
            raise self.server.moved(reply)
        header = self.source.header(block.hash)
        if header is None or not header.is_on_chain:
            raise Moved
        why = reason(reply, self.source.transaction(block.hash, reply.number) if reply.is_rule else None)
        if why is None:
            raise self.server.unexpected(reply)
        self.measures.refusals += 1
        text = f"the server refuses block {shown(block.hash)} of height {header.height}: {why}"
        raise Stop(Status.REFUSED, text, block.hash)

    # Back

    def back(self, found, best):
        """Goes the way down to the fork; or waits, or takes off one block that the source doesn't know, where that is allowed."""
        if isinstance(found, Wait) or isinstance(found, Blind) and not self.choices.unknown:
            self.wait(found.why)
        elif isinstance(found, Blind):
            self.take_off_unknown(found.why)
        elif (left := self.calm.left()) > 0:
            self.sleep(min(self.choices.every, left))
        else:
            self.measures.is_waiting = False
            self.reorganise(found, best)

    def wait(self, why):
        """Waits for the source. One that can't change ends it."""
        if self.source.is_fixed:
            raise Stop(Status.OTHER_CHAIN, f"{why}: nothing is taken off")
        self.measures.is_waiting = True
        self.waits.tell(why)
        self.pauses.bear(NodeTrouble(why))
        self.progress.rests()
        self.sleep(self.choices.every)

    def reorganise(self, way, best):
        """Fetches the new branch, and only then takes off the blocks above the fork and sends it, without asking for anything between."""
        branch = fetched(self.source, way, best.height, self.choices.branch_bytes)
        what = f"blocks to take off: {len(way.stale)}, to connect: {best.height - way.height}, {branch.count} of them fetched"
        self.progress.say(f"the best chain is another one above height {way.height}: {what}")
        self.measures.reorganisations += 1
        begun = self.clock()
        try:
            self.leave(way)
            self.bring(branch.runs)
        finally:
            self.calm.ended()
        self.tell_half_way(branch, best, self.clock() - begun)

    def leave(self, way):
        """Takes off the blocks above the fork."""
        self.height = way.height + len(way.stale)
        for hash in way.stale:
            if self.server.tip != hash:
                raise Moved
            self.take_off(f" of height {self.height}")
            self.height = self.measures.server_height = self.height - 1
            self.heights.compare(self.height)

    def tell_half_way(self, branch, best, seconds):
        """How long the server stood on neither branch's tip."""
        self.measures.is_reorganised(seconds)
        more = "" if self.server.tip == best.hash else f"; the blocks above come behind them, up to height {best.height}"
        self.progress.say(f"the server was half-way for {1000 * seconds:.0f} ms, and stands on the new branch at height {self.height}{more}")

    def take_off_unknown(self, why):
        self.unknown += 1
        if self.unknown > self.choices.unknown:
            text = f"{self.choices.unknown} blocks that it doesn't know are taken off already (--unknown)"
            raise Stop(Status.OTHER_CHAIN, f"{why}; {text}: is it another network's node?")
        self.take_off(f", which {self.source.name} doesn't know")

    def take_off(self, what):
        """Takes off the server's newest block."""
        hash = self.server.tip
        if not self.server.disconnect():
            aside = f"which isn't on the best chain of {self.source.name}: make a new snapshot, or is it another network's node?"
            raise Stop(Status.OTHER_CHAIN, f"the server stands on its base, block {shown(hash)}, {aside}")
        self.measures.disconnected += 1
        self.saves.disconnected()
        self.progress.say(f"block {shown(hash)}{what} is taken off")
