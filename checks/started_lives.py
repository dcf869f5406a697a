"""Sessions of generated chains that begin with start lists by chance, on both profiles, through the built program.

Names of the list are updated, opened and expire, blocks leave down to the base, and the index is saved and opened at any moment;
each reply, file and report is the models' (sessions.py).
"""
import random

from common import Run, empty_folder, reply, run_in
from files_model import Store, run_of
from sessions import Base, Life, words_of
from snapshot_model import snapshot_text
from start_lists import StartList

from blocks import DISCONNECT, FIRST, SAVE, UPDATE

BASES = {
    "regtest, low": Base("regtest", 3, bytes(32)),
    "regtest": Base("regtest", 1_000, bytes(range(32))),
    "regtest, high": Base("regtest", 1_999_999_950, bytes(range(32))),
    "main": Base("main", 500_000, bytes(range(32, 64))),
    "main, where its depth begins to grow": Base("main", 23_980, bytes(32)),
    "main, where its depth has grown": Base("main", 47_990, bytes(range(32))),
}
SEEDS, SESSIONS = range(1, 3), 16


class StartedLife(Life):
    """The sessions above a start list, and which of its makes blocks have updated, opened and let expire."""

    def __init__(self, tally, what, base, seed):
        start = StartList(random.Random(f"{what}, {seed}: the start list"), base)
        super().__init__(tally, f"{what}, from a snapshot", base, seed, start.makes, start.stands)
        self.text, self.start, self.touched = snapshot_text(start.makes), {make.at for make in start.makes}, set()

    def begins(self, folder):
        words = words_of("init-from", self.store.base)
        run = run_in(folder, words, self.text)
        self.tally.same(f"{self.what}: init-from", run, Run(b"", 0, ""))
        self.tally.same(f"{self.what}: the model", (run, [*map(bytes, self.store.files)]), run_of(words, self.text, [b""] * 3))
        self.compare(folder)
        self.at_start = self.store.index.report()
        self.tally.check(f"{self.what}: names at the start", self.at_start.count(b"\nname ") > 15, self.at_start)

    def session(self):
        super().session()
        for undo in self.store.index.undos:
            self.touched |= {(it.kind, it.spent) for it in undo.operations} | {("expired", at) for at in undo.expired}

    def goes_back(self):
        """All blocks leave, and behind them the base stands. Then the index is saved."""
        while self.store.index.undos:
            self.branch.shrink()
        self.branch.comes(DISCONNECT, self.both.tip)
        self.tally.same(f"{self.what}: the base", (self.branch.replies[-1], self.store.index.report()), (reply(7), self.at_start))
        self.branch.comes(SAVE, b"")

    def deeds(self):
        """How many makes of the start list were updated, opened, and expired."""
        return [sum(deed == wanted and at in self.start for deed, at in self.touched) for wanted in (UPDATE, FIRST, "expired")]


def lives(tally):
    for what, base in BASES.items():
        total = [0, 0, 0]
        for seed in SEEDS:
            life = StartedLife(tally, what, base, seed)
            with empty_folder() as folder:
                life.begins(folder)
                for _ in range(SESSIONS):
                    life.play(folder)
                life.play(folder, life.goes_back)
                life.play(folder)
            at_end = Store.opened(life.store.files).index
            tally.same(f"{life.what}: the models at the end", at_end.report(), life.both.log.report())
            total = [one + other for one, other in zip(total, life.deeds())]
        tally.check(f"{what}: names of the start lists are updated, opened and expire", min(total) > 0, total)
