"""Generated chains in sessions: each a run of the built program over the files that the one before left, beside two models.

The models are the log of the chain, and the index with its three files. They are given the same frames, and have to say the same.
"""
import random

from answers_model import A
from common import Run, pieces, run_in
from files_model import Store
from generated_chains import LETTERS, Branch
from generated_zones import message
from images_model import Base, index_of, number
from model import Model
from opened import DUMP, REPLAY

from blocks import QUERY, SAVE
from stores import FILES, files_of, gates_of

HOST = "ns.example."
# A chain gets so many blocks above its base at most.
MOST_BLOCKS = 48


def words_of(command, base):
    """The words that make files on a base."""
    return [command, base.profile, str(base.height), base.hash[::-1].hex(), HOST]


class Both:
    """The log of a chain, and a store with its files."""

    def __init__(self, tally, what, base, makes=()):
        self.tally, self.what = tally, what
        self.log, self.store = Model(base.height, base.profile, base.hash, makes), Store(base, HOST, makes)

    height = property(lambda self: self.log.height)
    tip = property(lambda self: self.log.tip)
    profile = property(lambda self: self.log.profile)

    def answer(self, item):
        told = self.store.answer(item)
        if item[:1] != QUERY:
            self.tally.same(f"the models on {self.what}", told, self.log.answer(item))
        return told


class Life:
    """The sessions of a chain, which begins with the makes of a start list where some are given, and with how the names stand then."""

    def __init__(self, tally, what, base, seed, makes=(), stands=None):
        self.tally, self.what, self.chance = tally, f"{what}, seed {seed}", random.Random(f"{what}, {seed}")
        self.questions = random.Random(f"{what}, {seed}: the questions")
        self.both = Both(tally, self.what, base, makes)
        self.branch = Branch(self.chance, self.both, stands)
        self.saves, self.below = 0, 0

    @property
    def store(self):
        return self.both.store

    def session(self):
        """Some frames: blocks that come and leave, queries, and saves, often two together."""
        for _ in range(self.chance.randrange(5)):
            deed = self.chance.choice([self.grows, self.grows, self.grows, self.shrinks, self.saved, self.asked])
            deed()

    def grows(self):
        for _ in range(self.chance.choice([1, 2, 5, 14])):
            if self.branch.height < self.store.base.height + MOST_BLOCKS:
                self.branch.grow()

    def shrinks(self):
        since = len(self.store.index.undos)
        for _ in range(min(self.chance.choice([1, 3, 20, 60]), since)):
            self.branch.shrink()
        self.below += self.saves > 0

    def saved(self):
        for _ in range(self.chance.choice([1, 1, 2])):
            self.branch.comes(SAVE, b"")
            self.saves += 1

    def asked(self):
        """A query for the address of a name."""
        name = self.questions.choice(LETTERS).encode(), b"bit"
        self.branch.comes(QUERY, message(self.questions.randrange(2**16), name, A))

    def play(self, folder, session=None):
        """Plays a session in the folder, whose files are those of the store."""
        if self.chance.randrange(6) == 0:
            self.older(folder)
        self.branch.frames, self.branch.replies = [], []
        (session or self.session)()
        run = run_in(folder, REPLAY, b"".join(self.branch.frames))
        self.tally.same(f"{self.what}: status", run._replace(output=b""), Run(b"", 0, ""))
        self.tally.same(f"{self.what}: replies", pieces(run.output), self.branch.replies)
        self.compare(folder)

    def compare(self, folder):
        """The files and the report are those of the models."""
        self.tally.same(f"{self.what}: files", files_of(folder), [bytes(text) for text in self.store.files])
        report = run_in(folder, DUMP, b"")
        self.tally.same(f"{self.what}: report", report, Run(self.both.log.report(), 0, ""))
        self.tally.same(f"{self.what}: the models' reports", self.store.index.report(), self.both.log.report())

    def older(self, folder):
        """The image on the disk is replaced by its text of version 1."""
        store, area = self.store, self.store.area
        text, gate = bytes(store.files[area]), gates_of(store.files)[area]
        if gate > 8:
            image = index_of(text[8:gate], store.base).text(1)
            store.files[area] = bytearray(number(8, len(image)) + image + text[gate:])
            store.gates[1] += 8 + len(image) - gate
            (folder / FILES[area]).write_bytes(store.files[area])


__all__ = ["HOST", "Base", "Life", "words_of"]
