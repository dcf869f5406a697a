"""The names of a chain in SQLite, with all values that each was given: what is found there, and what a block changes of it."""
import collections
import contextlib
import pathlib
import sqlite3
import typing

from namecoin_snapshot.name_scripts import FIRST
from namecoin_snapshot.profiles import PROFILES

from . import runs
from .asking import Tip
from .counting import Counting

# What a file of names is told by, and the version of its tables. A name stands there with its newest value; the ones before stand by
# themselves, each with the place of the one before it.
APPLICATION, VERSION = 0x4E4D4358, 1
TABLES = """
CREATE TABLE facts (name TEXT PRIMARY KEY, fact) WITHOUT ROWID;
CREATE TABLE names (id INTEGER PRIMARY KEY, name BLOB NOT NULL, height INTEGER NOT NULL, registered INTEGER NOT NULL, value BLOB NOT NULL,
  before INTEGER);
CREATE TABLE given (id INTEGER PRIMARY KEY, name INTEGER NOT NULL, before INTEGER, height INTEGER NOT NULL, registered INTEGER NOT NULL,
  value BLOB NOT NULL);
CREATE TABLE runs (id INTEGER PRIMARY KEY, first BLOB NOT NULL, count INTEGER NOT NULL, names BLOB NOT NULL);
CREATE TABLE heights (height INTEGER PRIMARY KEY, changes INTEGER NOT NULL, newest INTEGER NOT NULL);
"""
INDICES = """
CREATE UNIQUE INDEX names_by_name ON names (name);
CREATE INDEX names_by_height ON names (height);
CREATE INDEX runs_by_first ON runs (first, count);
"""
# Files that SQLite keeps beside its own.
BESIDE = ("", "-wal", "-shm", "-journal")
# So many bytes of names are looked through for one page, and so many at once in the pauses, where counting goes on.
MOST_BYTES, SLICE = 4 << 20, 2 << 20
# Parts whose counts are kept: those that were asked for last.
MOST_COUNTS = 64
PAGE = 8192
WORDS = ("synchronous=OFF", "cache_size=-65536", "temp_store=MEMORY", "threads=2", "trusted_schema=OFF")
ENTRIES = "SELECT name, height, registered, value FROM names"
INTO_NAMES = "INSERT INTO names (name, height, registered, value, before) VALUES"
INTO_GIVEN = "INSERT INTO given (name, before, height, registered, value) VALUES (?, ?, ?, ?, ?)"


class Base(typing.NamedTuple):
    """What the program's files are made on: the header of the first of them."""

    header: bytes

    @property
    def profile(self):
        """The number of the profile stands behind the gate and eight bytes of a mark (docs/FORMATS.md)."""
        return PROFILES["main" if self.header[9] == 2 else "regtest"]

    @property
    def height(self):
        return int.from_bytes(self.header[10:14], "little")


class Entry(typing.NamedTuple):
    """A name with its newest value."""

    name: bytes
    height: int
    registered: int
    value: bytes


class Given(typing.NamedTuple):
    """A value that a name was given; `before` is the place of the one before it, or None."""

    height: int
    registered: int
    value: bytes
    before: typing.Optional[int]


class Count(typing.NamedTuple):
    """How many names were found; where not all were looked through yet, among those that were."""

    number: int
    is_all: bool


class Found(typing.NamedTuple):
    """Names in the order of their bytes; `behind` is the last one that was looked at, where more may follow."""

    entries: list
    behind: typing.Optional[bytes]


class Unusable(Exception):
    """A file of names that can't be used, told in words."""


def removed(path):
    """Takes a file of names away."""
    for more in BESIDE:
        with contextlib.suppress(FileNotFoundError):
            pathlib.Path(f"{path}{more}").unlink()


def opened(path):
    """A connection that has the file for itself."""
    db = sqlite3.connect(str(path), timeout=0.0, isolation_level=None, check_same_thread=False)
    try:
        for word in ("locking_mode=EXCLUSIVE", f"page_size={PAGE}", *WORDS):
            db.execute(f"PRAGMA {word}")
    except sqlite3.Error:
        db.close()
        raise
    return db


def last_below(text):
    """The least bytes that are greater than all that begin with a text; None where there are none."""
    text = text.rstrip(b"\xff")
    return text[:-1] + bytes([text[-1] + 1]) if text else None


def unusable(fault):
    if isinstance(fault, Unusable):
        return fault
    return Unusable("is held by another program" if "locked" in str(fault) else f"is damaged: {fault}")


class Names:
    """A file that is whole. To be used by one thread at a time."""

    def __init__(self, path):
        """Opens a file that an earlier run left, or that was built just now."""
        self.path, self.db = path, None
        if not path.is_file():
            raise FileNotFoundError(path)
        try:
            self.db = opened(path)
            self.take()
        except (sqlite3.Error, Unusable) as fault:
            if self.db is not None:
                self.db.close()
            raise unusable(fault) from None

    def take(self):
        (application,), (version,) = (self.db.execute(f"PRAGMA {it}").fetchone() for it in ("application_id", "user_version"))
        if application != APPLICATION:
            raise Unusable("is none of the explorer's")
        if version != VERSION:
            raise Unusable(f"has the version {version}, and not {VERSION}")
        facts = dict(self.db.execute("SELECT name, fact FROM facts"))
        if not {"base", "height", "hash"} <= set(facts):
            raise Unusable("isn't whole")
        self.base, self.tip = Base(facts["base"]), Tip(facts["height"], facts["hash"])
        self.db.execute("PRAGMA journal_mode=WAL")
        self.is_open, self.counts = False, collections.OrderedDict()

    def close(self):
        with contextlib.suppress(sqlite3.Error):
            self.settle()
        with contextlib.suppress(sqlite3.Error):
            self.db.close()

    # What is found

    @property
    def last_expired(self):
        """The greatest height whose values are expired at the tip."""
        return self.base.profile.last_expired(self.tip.height)

    def entry(self, name):
        """A name with its newest value; None where it was never given one."""
        row = self.db.execute(f"{ENTRIES} WHERE name = ?", (name,)).fetchone()
        return row and Entry(*row)

    def is_served(self, entry):
        return entry.height > self.last_expired

    def served(self, name):
        """The value that is served for a name; None where there is none."""
        entry = self.entry(name)
        return entry.value if entry is not None and self.is_served(entry) else None

    def history(self, name, place, most):
        """Values of a name, the newest first: from a place of older ones on, or from the newest one; not more than so many."""
        newest = self.db.execute("SELECT id, height, registered, value, before FROM names WHERE name = ?", (name,)).fetchone()
        if newest is None:
            return []
        number, *told = newest
        found = [Given(*told)] if place is None else []
        place = told[-1] if place is None else place
        while place is not None and len(found) < most:
            row = self.db.execute("SELECT height, registered, value, before FROM given WHERE id = ? AND name = ?", (place, number)).fetchone()
            if row is None:
                break
            found.append(Given(*row))
            place = found[-1].before
        return found

    def beginning(self, text, behind, most):
        """Names that begin with a text, behind another name or from the first one on."""
        least, above = text if behind is None else max(text, behind + b"\0"), last_below(text)
        bound, words = ("", ()) if above is None else (" AND name < ?", (above,))
        rows = self.db.execute(f"{ENTRIES} WHERE name >= ?{bound} ORDER BY name LIMIT ?", (least, *words, most + 1))
        found = [Entry(*row) for row in rows]
        return Found(found[:most], found[most - 1].name if len(found) > most else None)

    def count_beginning(self, text):
        above = last_below(text)
        return Count((self.number() if above is None else self.place(above)) - self.place(text), True)

    def number(self):
        """How many names there are."""
        return int(self.db.execute("SELECT total(count) FROM runs").fetchone()[0])

    def place(self, name):
        """How many names there are before this one."""
        row = self.run_of(name)
        if row is None:
            return 0
        (before,) = self.db.execute("SELECT total(count) FROM runs WHERE first < ?", (row[1],)).fetchone()
        return int(before) + sum(it < name for it in runs.names_of(row[3]))

    def run_of(self, name):
        """The row of the run where a name stands or would stand; None where it is before all of them."""
        return self.db.execute("SELECT id, first, count, names FROM runs WHERE first <= ? ORDER BY first DESC LIMIT 1", (name,)).fetchone()

    def having(self, part, behind, most):
        """Names that have a part, behind another name or from the first one on; and how many have it, so far as they are counted."""
        counting = self.counting_of(part)
        page = counting.page(behind, most)
        found = self.some_having(counting.text, behind, most) if page is None else Found([self.entry(it) for it in page[0]], page[1])
        return found, Count(counting.number, counting.is_all)

    def counting_of(self, part):
        """The count of a part: begun where it isn't known, of which so much is looked through as is for a page."""
        if part not in self.counts:
            self.counts[part] = Counting(part)
            self.count(self.counts[part], MOST_BYTES)
            if len(self.counts) > MOST_COUNTS:
                self.counts.popitem(last=False)
        self.counts.move_to_end(part)
        return self.counts[part]

    def count(self, counting, most):
        """Counts on, until about so many bytes are looked through."""
        row, most, names = self.run_of(counting.until), counting.looked + most, b""
        for first, text in self.db.execute("SELECT first, names FROM runs WHERE first >= ? ORDER BY first", (row[1] if row else b"",)):
            if counting.looked >= most:
                counting.stops(names, first)
                return
            names = counting.take(first, text)
        counting.stops(names, None)

    def left(self):
        """The counts that aren't at their end."""
        return [it for it in self.counts.values() if not it.is_all]

    def is_counting(self):
        return bool(self.left())

    def count_on(self):
        """Counts on a little at the part of which least is looked through. Whether there was one that wasn't at its end."""
        left = self.left()
        if left:
            self.count(min(left, key=lambda it: it.looked), SLICE)
        return bool(left)

    def some_having(self, text, behind, most):
        found, size = [], 0
        row = None if behind is None else self.run_of(behind)
        for (names,) in self.db.execute("SELECT names FROM runs WHERE first >= ? ORDER BY first", (row[1] if row else b"",)):
            found += (it for it in runs.having(names, text) if behind is None or it > behind)
            size += len(names)
            if len(found) > most or size > MOST_BYTES:
                return self.cut(found, most, names)
        return self.cut(found, most, None)

    def cut(self, found, most, names):
        """So many of the names that were found; where no more were, the names are the run that was looked at last, behind which more may be."""
        if len(found) > most:
            return Found([self.entry(it) for it in found[:most]], found[most - 1])
        return Found([self.entry(it) for it in found], None if names is None else runs.names_of(names)[-1])

    def standing(self, least, most):
        """How many names have their newest value of these heights, both included."""
        return int(self.db.execute("SELECT total(newest) FROM heights WHERE height BETWEEN ? AND ?", (least, most)).fetchone()[0])

    def changes(self, least, most):
        """How many values were given at these heights, by height; those without any are left out."""
        return dict(self.db.execute("SELECT height, changes FROM heights WHERE height BETWEEN ? AND ? AND changes > 0", (least, most)))

    # What a block changes

    def begin(self):
        """What follows is in the file once it is settled."""
        if not self.is_open:
            self.db.execute("BEGIN")
            self.is_open = True

    def settle(self):
        if self.is_open:
            facts = [("height", self.tip.height), ("hash", self.tip.hash)]
            self.db.executemany("UPDATE facts SET fact = ?2 WHERE name = ?1", facts)
            self.db.execute("COMMIT")
            self.is_open = False

    def connected(self, tip, operations):
        """A block has come, with these operations on names."""
        self.begin()
        self.tip = tip
        for kind, name, value in operations:
            self.give(kind, name, value)

    def give(self, kind, name, value):
        height = self.tip.height
        row = self.db.execute("SELECT id, before, height, registered, value FROM names WHERE name = ?", (name,)).fetchone()
        self.at_height(height, 1, 1)
        if row is None:
            self.db.execute(f"{INTO_NAMES} (?, ?, ?, ?, NULL)", (name, height, height, value))
            self.into_runs(name)
            for it in self.counts.values():
                it.came(name)
            return
        registered = height if kind == FIRST else row[3]
        self.at_height(row[2], 0, -1)
        place = self.db.execute(INTO_GIVEN, row).lastrowid
        words = (height, registered, value, place, row[0])
        self.db.execute("UPDATE names SET height = ?, registered = ?, value = ?, before = ? WHERE id = ?", words)

    def disconnected(self, tip):
        """The newest block has left, above this one."""
        self.begin()
        height, self.tip = self.tip.height, tip
        while rows := self.db.execute("SELECT id, name, before FROM names WHERE height = ?", (height,)).fetchall():
            for number, name, before in rows:
                self.take_back(number, name, before)
                self.at_height(height, -1, -1)

    def take_back(self, number, name, before):
        """A name loses its newest value; where it has no other, it goes."""
        if before is None:
            self.db.execute("DELETE FROM names WHERE id = ?", (number,))
            self.out_of_runs(name)
            for part in [it.part for it in self.counts.values() if not it.went(name)]:
                del self.counts[part]
            return
        ((height, registered, value, older),) = self.db.execute("SELECT height, registered, value, before FROM given WHERE id = ?", (before,))
        words = (height, registered, value, older, number)
        self.db.execute("UPDATE names SET height = ?, registered = ?, value = ?, before = ? WHERE id = ?", words)
        self.db.execute("DELETE FROM given WHERE id = ?", (before,))
        self.at_height(height, 0, 1)

    def at_height(self, height, changes, newest):
        self.db.execute(
            "INSERT INTO heights VALUES (?1, ?2, ?3) ON CONFLICT (height) DO UPDATE SET changes = changes + ?2, newest = newest + ?3",
            (height, changes, newest),
        )

    def into_runs(self, name):
        row = self.run_of(name) or self.db.execute("SELECT id, first, count, names FROM runs ORDER BY first LIMIT 1").fetchone()
        names = runs.with_name(row[3], name) if row else [name]
        if row:
            self.db.execute("DELETE FROM runs WHERE id = ?", (row[0],))
        self.put_runs(runs.halves(names))

    def out_of_runs(self, name):
        number, _, _, text = self.run_of(name)
        left = [it for it in runs.names_of(text) if it != name]
        self.db.execute("DELETE FROM runs WHERE id = ?", (number,))
        self.put_runs([left] if left else [])

    def put_runs(self, parts):
        rows = [(it[0], len(it), runs.text_of(it)) for it in parts]
        self.db.executemany("INSERT INTO runs (first, count, names) VALUES (?, ?, ?)", rows)
