"""A save in slices, of a run of `list`: it is begun, and then each slice writes a part, while commands go on in the selected area.

It is written from docs/FORMATS.md alone, and shares nothing with the code. What a running save has to write is the image of the chain
on which it was begun, and behind it the records of the commands that were accepted since: these are read in the selected area, behind
the gate that was its closed one at the beginning.
"""
import files_model
from common import reply
from files_model import CLOSED, number

from blocks import BEGINNING, SLICE, frame

LEAST_SLICE, MOST_SLICE = 1, 65_536
RUNNING, NONE_RUNS, AREA_LIMIT = 33, 34, 35
BEGIN = frame(BEGINNING, b"")
MORE_IS_LEFT, IS_SELECTED = b"\0", b"\1"


def sliced(most):
    """The frame that asks for a slice of so many bytes."""
    return frame(SLICE, number(4, most))


class SlicedSave:
    """A save that runs: it empties the area that isn't selected, and has written nothing but the length of its image there."""

    def __init__(self, store, image):
        self.store, self.image, self.start, self.written = store, image, store.gates[1], 0
        self.area = store.files[3 - store.area] = bytearray(number(8, len(image)))

    def records(self):
        """Those of the commands that were accepted since, joined."""
        return bytes(self.store.files[self.store.area][self.start : self.store.gates[1]])

    def left(self):
        """How many bytes are left to be written, but for the gate behind them."""
        return len(self.image) + len(self.records()) - self.written

    def slice(self, most):
        """The reply to a slice, and whether the save runs on behind it."""
        most = min(max(most, LEAST_SLICE), MOST_SLICE)
        text = self.image + self.records()
        left = text[self.written :]
        if self.left() > most:
            self.area += left[:most]
            self.written += most
            return reply(0, MORE_IS_LEFT), True
        if len(text) + 9 > files_model.MOST_AREA:
            return reply(AREA_LIMIT), False
        self.area += left + CLOSED
        return reply(0, IS_SELECTED + number(8, self.store.selects(8 + len(text)))), False
