"""Runs of `list`: frames as a replay has them; listing sessions, whose pages give the names of the chain that they were opened on; and
saves in slices (sliced_saves_model.py).

It is written from docs/FORMATS.md and docs/RULES.md alone, and shares nothing with the code. A session is the list of the rows that
are left of it, which are written down when it is opened: so no later block touches them.
"""
import typing

import files_model
from common import Run, reply
from files_model import Store, Unopened, answered
from images_model import name_text, number
from sliced_saves_model import NONE_RUNS, RUNNING, SlicedSave

from blocks import BEGINNING, CLOSING, OPENING, PAGE, SAVE, SLICE, frame

LENGTHS = {**files_model.LENGTHS, OPENING: (0, 0), PAGE: (4, 4), CLOSING: (4, 4), BEGINNING: (0, 0), SLICE: (4, 4)}
MOST_SESSIONS, MOST_ROWS = 8, 50
MOST_SAVES, TOO_MANY, NO_SESSION, NO_MEMORY = 29, 31, 32, 0xFE
OPEN = frame(OPENING, b"")


def page(session):
    """The frame that asks for a page of a session."""
    return frame(PAGE, number(4, session))


def close(session):
    """The frame that closes a session."""
    return frame(CLOSING, number(4, session))


class Row(typing.NamedTuple):
    """A name with its entry, and whether it is served."""

    name: bytes
    height: int
    is_served: bool
    value: bytes

    def text(self):
        return name_text(self.name) + number(4, self.height) + bytes([self.is_served]) + number(2, len(self.value)) + self.value


def rows_of(chain):
    """The rows of all names that have an entry, in the order of their bytes."""
    entries = [(name, values[-1]) for name, values in sorted(chain.given().items())]
    return [Row(name, it.height, not chain.profile.expired(it.height, chain.height), it.value) for name, it in entries]


class Lister:
    """A store and its sessions: by their numbers, the rows that are left of each; and the sliced save that runs, or None. Where memory
    was wanting behind a command for what listings are read from and sliced saves are begun from, it has none from there on."""

    def __init__(self, store, page):
        self.store, self.page, self.sessions, self.save = store, page, {}, None
        self.has_mirror = True

    height = property(lambda self: self.store.height)
    tip = property(lambda self: self.store.tip)
    profile = property(lambda self: self.store.profile)

    def answer(self, item):
        """The reply to a whole frame."""
        kind, payload = item[:1], item[5:]
        if kind == OPENING:
            return self.opened()
        if kind == SLICE:
            return self.sliced(int.from_bytes(payload, "little"))
        if kind in (BEGINNING, SAVE) and self.save:
            return reply(RUNNING)
        if kind == BEGINNING:
            return self.begun()
        if kind in (PAGE, CLOSING):
            asked = int.from_bytes(payload, "little")
            if asked not in self.sessions:
                return reply(NO_SESSION)
            return self.paged(asked) if kind == PAGE else self.closed(asked)
        return self.store.answer(item)

    def opened(self):
        free = [it for it in range(MOST_SESSIONS) if it not in self.sessions]
        if not free:
            return reply(TOO_MANY)
        if not self.has_mirror:
            return reply(NO_MEMORY)
        self.sessions[free[0]] = rows_of(self.store.index)
        return reply(0, number(4, free[0]))

    def paged(self, asked):
        rows = self.sessions[asked]
        told, left = rows[: self.page], rows[self.page :]
        self.sessions[asked] = left
        return reply(0, bytes([not left]) + number(4, len(told)) + b"".join(row.text() for row in told))

    def closed(self, asked):
        del self.sessions[asked]
        return reply(0)

    def begun(self):
        image = self.store.index.text()
        refusal = self.store.refusal_of(image)
        if not self.has_mirror and (refusal is None or refusal[0] != MOST_SAVES):
            return reply(NO_MEMORY)
        if refusal is None:
            self.save = SlicedSave(self.store, image)
        return refusal or reply(0)

    def sliced(self, most):
        if self.save is None:
            return reply(NONE_RUNS)
        told, runs_on = self.save.slice(most)
        self.save = self.save if runs_on else None
        return told

    def listed(self, given):
        """What a run over the bytes tells, and how it ends."""
        return answered(self.answer, given, LENGTHS)


def run_of(words, given, files):
    """What a run of the program comes to, `list` or another, and the files behind it (files_model.py)."""
    if words[0] != "list":
        return files_model.run_of(words, given, files)
    files = [text or b"" for text in files]
    try:
        store = Store.opened(files)
    except Unopened as why:
        return Run(b"", 3, str(why)), files
    run = Lister(store, int(words[1])).listed(given)
    return run, [bytes(text) for text in store.files]
