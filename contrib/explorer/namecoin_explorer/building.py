"""Makes the file of names from a report of all values so far (docs/FORMATS.md, The report)."""
import binascii
import collections
import os
import pathlib

from . import runs
from .names import APPLICATION, INDICES, INTO_GIVEN, INTO_NAMES, TABLES, VERSION, opened, removed

# What is added to the file's name while it is made; and how often something else is done while SQLite works, in its own steps.
NEW, STEPS = ".new", 20_000


class BadReport(Exception):
    """A line is none of a report's."""


def fields_of(lines, count, wanted):
    """The fields of lines that have so many each, by their places; of which some are the same in all, so no line has others."""
    fields = b" ".join(lines).split(b" ") if lines else []
    if len(fields) != count * len(lines):
        raise BadReport
    columns = [fields[place::count] for place in range(count)]
    if any(columns[place].count(text) != len(lines) for place, text in wanted.items()):
        raise BadReport
    return columns


def bytes_of(text):
    return b"" if text == b"-" else binascii.unhexlify(text)


class Builder:
    """Takes the lines of a report, in their order, and puts what they tell into a new file."""

    def __init__(self, path, base):
        self.path, self.new, self.base = path, pathlib.Path(f"{path}{NEW}"), base
        removed(self.new)
        self.db = opened(self.new)
        self.db.execute("PRAGMA journal_mode=OFF")
        self.db.execute("BEGIN")
        for table in filter(str.strip, TABLES.split(";")):
            self.db.execute(table)
        self.tip, self.count, self.last = None, 0, b""
        # The name of which more may be told, its last value so far, and the place of the value before that.
        self.name = self.value = self.before = None
        # How many names have their newest value at a height; and names that stand in no run yet.
        self.newest, self.run = collections.Counter(), []

    def take(self, lines):
        """Lines without their ends."""
        try:
            if self.tip is None and lines:
                self.begun(*lines.pop(0).split(b" "))
            names = fields_of([it for it in lines if it[:1] != b" "], 5, {0: b"name"})
            told = fields_of([it for it in lines if it[:1] == b" "], 7, {0: b"", 1: b"", 2: b"at", 4: b"since"})
            values = list(zip(map(int, told[3]), map(int, told[5]), map(bytes_of, told[6])))
            names = list(map(bytes_of, names[1]))
        except (ValueError, TypeError, LookupError):
            raise BadReport from None
        # How many values there are before each name begins, and in all.
        starts = [place - number for number, place in enumerate(place for place, it in enumerate(lines) if it[:1] != b" ")]
        self.put_all(names, [*starts, len(values)], values)

    def begun(self, word, height, hash):
        self.tip = (int(height), bytes_of(hash)[::-1])
        if word != b"tip" or len(self.tip[1]) != 32:
            raise BadReport

    def put_all(self, names, starts, values):
        """Names, with all values that are told; the first ones may be those of the name before."""
        self.add(values[: starts[0]])
        if not names:
            return
        if self.count and self.last >= names[0] or names != sorted(set(names)):
            raise BadReport
        self.close()
        self.run += names
        self.put_runs(runs.MOST_NAMES // 2)
        if starts[:-1] == list(range(starts[0], starts[0] + len(names))):
            # One value each, but for the last one, of which more may be told.
            self.put_each(names[:-1], values[starts[0] : starts[-2]])
            names, starts = names[-1:], starts[-2:]
        for name, start, end in zip(names, starts, starts[1:]):
            self.close()
            self.count, self.name, self.last = self.count + 1, name, name
            self.add(values[start:end])

    def put_each(self, names, values):
        self.newest.update([height for height, *_ in values])
        self.db.executemany(f"{INTO_NAMES} (?, ?, ?, ?, NULL)", ((name, *it) for name, it in zip(names, values)))
        self.count += len(names)

    def add(self, values):
        """More values of the name that is open."""
        for value in values:
            if self.name is None:
                raise BadReport
            if self.value is not None:
                self.before = self.db.execute(INTO_GIVEN, (self.count, self.before, *self.value)).lastrowid
            self.value = value

    def close(self):
        """All is told of the name that is open."""
        if self.name is None:
            return
        if self.value is None:
            raise BadReport
        self.newest[self.value[0]] += 1
        self.db.execute(f"{INTO_NAMES} (?, ?, ?, ?, ?)", (self.name, *self.value, self.before))
        self.name = self.value = self.before = None

    def put_runs(self, size):
        """Runs of so many names; there is room for others in each."""
        while len(self.run) > size:
            self.put_run(self.run[:size])
            self.run = self.run[size:]

    def put_run(self, names):
        row = (names[0], len(names), runs.text_of(names))
        self.db.execute("INSERT INTO runs (first, count, names) VALUES (?, ?, ?)", row)

    def finish(self, meanwhile):
        """The report is at its end: the file is whole. `meanwhile` is called over and over."""
        if self.tip is None:
            raise BadReport
        self.db.set_progress_handler(meanwhile, STEPS)
        self.close()
        if self.run:
            self.put_run(self.run)
        for index in filter(str.strip, INDICES.split(";")):
            self.db.execute(index)
        self.db.executemany("INSERT INTO heights VALUES (?1, ?2, ?2)", self.newest.items())
        self.db.execute(
            "INSERT INTO heights SELECT height, count(*), 0 FROM given WHERE true GROUP BY height "
            "ON CONFLICT (height) DO UPDATE SET changes = changes + excluded.changes"
        )
        facts = {"base": self.base.header, "height": self.tip[0], "hash": self.tip[1]}
        self.db.executemany("INSERT INTO facts VALUES (?, ?)", facts.items())
        self.db.execute("COMMIT")
        self.db.execute(f"PRAGMA application_id={APPLICATION}")
        self.db.execute(f"PRAGMA user_version={VERSION}")
        self.db.close()

    def in_place(self):
        """The file that is whole gets the name of the one before, which goes."""
        removed(self.path)
        os.replace(self.new, self.path)

    def drop(self):
        """No file comes of it."""
        self.db.close()
        removed(self.new)
