"""Runs of `list` over generated chains with many names, by chance, through the built program, beside the models.

A chain begins with a start list on either profile, or on a new base. A run keeps its sessions while blocks come and leave, names are
opened, updated and expire, and the index is saved. Sessions are asked that are open, that never were, and that were closed; and more
are opened than there is room for. Each reply is that of the model of listings, the rows of a new session are the same by both models
of the chain, and so are the files and the report behind each run.
"""
import random

from common import Run, pieces, run_in
from generated_chains import LETTERS, Branch, Stand
from listings_model import MOST_ROWS, MOST_SESSIONS, Lister, rows_of
from sessions import Base, Both, Life, words_of
from snapshot_model import MOST_NAME, MOST_VALUE, snapshot_text
from start_lists import StartList
from started_lives import BASES

from blocks import CLOSING, DISCONNECT, OPENING, PAGE

NEW_BASE = Base("regtest", 0, bytes(32))
# Letters of generated chains beside the usual ones: of two to four bytes.
MORE_LETTERS = [chr(0xE0 + it) for it in range(24)] + [chr(0x8A00 + it) for it in range(24)] + [chr(0x1F600 + it) for it in range(24)]
# How many names stand at the start, that no block touches.
MANY = (0, 3, 60, 250)
PAGES = (1, 2, 3, 5, 7, 16, 49, MOST_ROWS)
# Of the blocks above the base there are so many at most.
MOST_BLOCKS = 120
RUNS, DEEDS = 3, 120
# Numbers that no session has.
NEVER_OPEN = (MOST_SESSIONS, 9, 255, 256, 263, 0x0100_0000, 0x7FFF_FFFF, 0x8000_0000, 0xFFFF_FFFF)


def asks(branch, kind, number):
    return branch.comes(kind, number.to_bytes(4, "little"))


class BothListed(Both):
    """Both models of a chain, with the sessions of a run."""

    lister = None

    def begins(self, page):
        """Another run, whose pages have so many rows."""
        self.lister = Lister(self.store, page)

    def answer(self, item):
        if item[:1] == OPENING:
            self.tally.same(f"the models' rows on {self.what}", rows_of(self.log), rows_of(self.store.index))
        return self.lister.answer(item) if item[:1] in (OPENING, PAGE, CLOSING) else super().answer(item)


class ListedLife(Life):
    """The runs of a chain. Where it begins with a start list, names of all lengths are among its makes."""

    models = BothListed

    def __init__(self, tally, chance):
        base = chance.choice([NEW_BASE, *BASES.values()])
        what, seed = f"{base.profile} at {base.height}", chance.getrandbits(64)
        start = None if base == NEW_BASE else StartList(random.Random(f"{seed}: the start list"), base)
        if start:
            many_more(start)
        super().__init__(tally, what, base, seed, start.makes if start else (), start and start.stands)
        self.text = start and snapshot_text(start.makes)
        self.both = self.models(tally, self.what, base, start.makes if start else ())
        stands = start.stands if start else dict.fromkeys(LETTERS, Stand())
        self.branch = Branch(self.chance, self.both, {**stands, **dict.fromkeys(MORE_LETTERS, Stand())})

    lister = property(lambda self: self.both.lister)

    def begins(self, folder):
        words = words_of("init-from" if self.text else "init", self.store.base)
        self.tally.same(f"{self.what}: the files are made", run_in(folder, words, self.text or b""), Run(b"", 0, ""))

    # What a run does

    def grows(self):
        for _ in range(self.chance.choice([1, 1, 2, 5, 14])):
            if self.branch.height < self.store.base.height + MOST_BLOCKS:
                self.branch.grow()

    def shrinks(self):
        """Blocks leave. Seldom a block asks for all coins behind each, since the pages tell what stands."""
        if self.chance.randrange(12) == 0:
            super().shrinks()
            return
        for _ in range(min(self.chance.choice([1, 2, 3, 20, 60]), len(self.store.index.undos))):
            self.branch.comes(DISCONNECT, self.both.tip)
            self.branch.kept.pop()

    def opens(self):
        self.branch.comes(OPENING, b"")

    def opens_many(self):
        """More than there is room for."""
        for _ in range(MOST_SESSIONS + 1 - len(self.lister.sessions)):
            self.opens()

    def pages(self):
        """Some pages of a session, often up to the end and past it."""
        number = self.number()
        for _ in range(self.chance.choice([1, 1, 1, 2, 5, 400])):
            left = self.lister.sessions.get(number)
            asks(self.branch, PAGE, number)
            if not left:
                break

    def closes(self):
        asks(self.branch, CLOSING, self.number())

    def strays(self):
        """A session is asked that isn't open."""
        asks(self.branch, self.chance.choice([PAGE, CLOSING]), self.chance.choice(NEVER_OPEN))

    def number(self):
        """The number of a session, mostly of one that is open."""
        if self.lister.sessions and self.chance.randrange(8):
            return self.chance.choice(list(self.lister.sessions))
        return self.chance.randrange(MOST_SESSIONS)

    def deeds(self):
        """What a run does, and how often."""
        deeds = {self.grows: 24, self.shrinks: 5, self.saved: 1, self.asked: 3, self.opens: 8, self.pages: 24, self.closes: 3}
        return {**deeds, self.strays: 2, self.opens_many: 1}

    def session(self):
        deeds = self.deeds()
        for deed in self.chance.choices(list(deeds), list(deeds.values()), k=DEEDS):
            deed()

    def play(self, folder, session=None):
        """Plays a run in the folder, whose files are those of the store."""
        page = self.chance.choice([*PAGES, self.chance.randrange(1, MOST_ROWS + 1)])
        if self.chance.randrange(6) == 0:
            self.older(folder)
        self.both.begins(page)
        self.branch.frames, self.branch.replies = [], []
        (session or self.session)()
        run = run_in(folder, ["list", str(page)], b"".join(self.branch.frames))
        what = f"{self.what}, pages of {page}"
        self.tally.same(f"{what}: status", run._replace(output=b""), Run(b"", 0, ""))
        compare_replies(self.tally, what, self.branch.frames, pieces(run.output), self.branch.replies)
        self.compare(folder)


def many_more(start):
    """More names in a start list, of any bytes and lengths."""
    chance, known = start.chance, {make.text for make in start.makes}
    for _ in range(chance.choice(MANY)):
        text = chance.randbytes(chance.choice([1, 2, 3, 8, 16, 100, MOST_NAME - 1, MOST_NAME]))
        if text not in known:
            known.add(text)
            start.name(text, chance.randbytes(chance.choice([0, 1, 20, 200, MOST_VALUE])))


def compare_replies(tally, what, frames, told, wanted):
    """Reply by reply, up to the first that differs."""
    for number, (item, one, other) in enumerate(zip(frames, told, wanted)):
        if not tally.same(f"{what}: reply {number}, to {item[:9].hex()}", one, other):
            return
    tally.same(f"{what}: the number of replies", len(told), len(wanted))
