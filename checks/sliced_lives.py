"""Runs of `list` over generated chains in which saves are begun and written in slices, by chance, through the built program, beside the models.

They are those of listed_lives.py, with more saves: between the slices blocks come and leave, also those below the one on which the save
was begun; whole saves are asked for, sessions go on, and a run may end while a save runs, which is given up then. Each reply, each byte
of the files and the report behind each run are those of the models.
"""
from listed_lives import BothListed, ListedLife
from sliced_saves_model import IS_SELECTED, MOST_SLICE

from blocks import BEGINNING, SAVE, SLICE

# Lengths of slices, beside those around what is left.
SIZES = (0, 1, 2, 38, 100, 1000, 5000, MOST_SLICE - 1, MOST_SLICE, MOST_SLICE + 1, 0x0100_0000, 0x8000_0000, 0xFFFF_FFFF)


class BothSliced(BothListed):
    """Both models of a chain; of saves in slices the log of the chain knows that one was selected, and nothing else."""

    def answer(self, item):
        kind = item[:1]
        if kind not in (BEGINNING, SLICE) and not (kind == SAVE and self.lister.save):
            return super().answer(item)
        told = self.lister.answer(item)
        self.log.selections += kind == SLICE and told[5:6] == IS_SELECTED
        return told


class SlicedLife(ListedLife):
    """The runs of a chain."""

    models = BothSliced

    @property
    def save(self):
        return self.lister.save

    def begun(self):
        self.branch.comes(BEGINNING, b"")

    def sliced(self):
        """Some slices, of one length."""
        size = self.size()
        for _ in range(self.chance.choice([1, 1, 2, 5])):
            self.slice(size)

    def finished(self):
        """The save is written to its end, in few slices."""
        while self.save and self.save.left():
            self.slice(max(self.save.left() // 3, 1000))

    def slice(self, size):
        self.branch.comes(SLICE, size.to_bytes(4, "little"))

    def size(self):
        left = self.save.left() if self.save else 100
        sizes = [left, left - 1, left + 1, left // 2, left // 3, left // 7]
        return self.chance.choice([*SIZES, *(max(0, it) for it in sizes)])

    def deeds(self):
        more = {self.begun: 8, self.sliced: 40, self.finished: 2, self.saved: 2, self.shrinks: 9}
        return {**super().deeds(), **more, self.opens: 3, self.pages: 8}
