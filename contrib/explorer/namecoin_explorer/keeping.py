"""Keeps the file of names at the program's chain: made at the start from a report, changed by each block that comes or leaves."""
import contextlib
import errno
import pathlib
import shutil
import sqlite3
import tempfile
import time

from namecoin_feeder.progress import spoken
from namecoin_feeder.server import CONNECT

from .blocks import operations_of
from .building import NEW, BadReport, Builder
from .names import APPLICATION, Base, Names, Unusable, removed
from .program import Report, unexpected

FILE, HEADER = "names.sqlite", "nmc.0"
# The header's length without the name server of `bit`, whose own length is its last byte (docs/FORMATS.md, Files).
SHORTEST = 47
# What blocks change is in the file so many seconds later at most.
SETTLED = 0.5
# Where a disk was full, it is to have room for as much as was there, and so many bytes more.
ROOM = 16 << 20
# Names are counted on in the pauses, of which so many times as long as that took are left to all else.
REST = 3
# Where the file is lost it is made anew so many seconds later, and then at pauses that double up to the second number.
FIRST_PAUSE, LONGEST_PAUSE = 5.0, 3600.0


class Keeper:
    """To be used on the asking thread alone. `say` tells the operator; `folder` has the program's files, and `path` is that of the names."""

    def __init__(self, words, folder, path, say, clock=time.monotonic):
        self.words, self.folder, self.path, self.say, self.clock = words, folder, path, say, clock
        # The names, once they are whole; while they are made anew, those of an earlier run, where these can be read.
        self.names, self.is_early = None, False
        # Why there are none, how many are read so far, and whether they are being read.
        self.trouble, self.count, self.is_reading = "they aren't read yet", 0, False
        self.due, self.pause, self.opened = None, FIRST_PAUSE, None
        # When names are counted on, where some aren't counted to the end.
        self.rests_until = clock()
        # The bytes that a disk is to have room for, before the file is made anew there.
        self.wanted = self.spooled = 0

    # At the start

    def read(self, meanwhile, free):
        """Reads all names into a new file. Nobody else may have the program's files until `free` is called, which it may not be where no
        names can be read. `meanwhile` is called over and over."""
        self.base, self.due, self.count, self.is_reading = base_of(self.folder), None, 0, True
        begun = self.clock()
        if self.opened is None:
            self.take_earlier()

        def between():
            meanwhile()
            self.count_on()

        try:
            self.build(between, free)
            self.opened, self.wanted = self.clock(), 0
            of = f"of height {self.names.tip.height}, in {self.opened - begun:.1f} s"
            self.say(f"{self.count:,} names with all their values are in {self.path}, {of}")
        except (sqlite3.Error, OSError, Unusable) as fault:
            # Where the explorer ends, that is why SQLite was interrupted.
            meanwhile()
            self.lost(fault)
            removed(pathlib.Path(f"{self.path}{NEW}"))
        finally:
            self.is_reading = False

    def take_earlier(self):
        """The names as an earlier run left them, which are read from meanwhile."""
        try:
            self.names, self.is_early = Names(self.path), True
            if self.names.base != self.base:
                raise Unusable("is that of other files of the program")
        except FileNotFoundError:
            pass
        except (sqlite3.Error, OSError, Unusable) as fault:
            self.say(f"{self.path}, where names are looked up, {fault}: it is made anew")
            self.let_go()

    def build(self, meanwhile, free):
        report, builder = Report(self.words, self.folder, self.path.parent), None
        try:
            for lines in filter(None, report.parts(meanwhile, free)):
                # Where the program can't tell its names, no file is touched.
                builder = builder or Builder(self.path, self.base)
                builder.take(lines)
                self.count = builder.count
            if builder is None:
                raise BadReport
            builder.finish(meanwhile)
            self.let_go()
            builder.in_place()
            self.names, self.trouble = Names(self.path), ""
        except BadReport:
            raise unexpected("a line of `dump` that is none of a report's") from None
        finally:
            self.spooled = report.written
            report.kill()
            if builder is not None:
                builder.db.close()

    def let_go(self):
        if self.names is not None:
            self.names.close()
        self.names, self.is_early = None, False

    # Behind it

    def compare(self, tip):
        """The program has opened its files, and stands at this tip."""
        if self.names is not None and self.names.tip != tip:
            self.lost(f"is of height {self.names.tip.height}, and the program's files of {tip.height}")

    def changed(self, frame, tip):
        """A block has come or left, by this frame."""
        if self.names is None:
            return
        try:
            if frame[:1] == CONNECT:
                self.names.connected(tip, operations_of(frame[5:]))
            else:
                self.names.disconnected(tip)
            self.due = self.clock() + SETTLED if self.due is None else self.due
        except (sqlite3.Error, ValueError, LookupError, TypeError) as fault:
            self.lost(fault)

    def turn(self):
        """Does what is due. The seconds until it wants another turn; None where it wants none. A file that was lost is the caller's to have
        made anew."""
        if self.names is not None and self.due is not None and self.clock() >= self.due:
            self.due = None
            try:
                self.names.settle()
            except sqlite3.Error as fault:
                self.lost(fault)
        is_counting = self.count_on()
        times = [*([self.due] if self.due is not None else []), *([self.rests_until] if is_counting else [])]
        return max(0.0, min(times) - self.clock()) if times else None

    def count_on(self):
        """Counts names on, where a page told of a count that isn't at its end, and it is time. Whether more may be to count."""
        begun = self.clock()
        try:
            if self.names is not None and begun >= self.rests_until and self.names.count_on():
                self.rests_until = self.clock() + REST * (self.clock() - begun)
            return self.names is not None and self.names.is_counting()
        except sqlite3.Error as fault:
            self.lost(fault)
            return False

    def is_wanted(self):
        """Whether the file is to be made anew now. The program isn't started anew where there is no place or no room for the file."""
        if self.names is not None or self.due is None or self.clock() < self.due:
            return False
        if not has_room(self.path.parent, self.wanted):
            self.due = self.clock() + self.pause
            return False
        return True

    def lost(self, fault):
        """The file can't be used any more."""
        if self.opened is not None and self.clock() - self.opened > 2 * LONGEST_PAUSE:
            self.pause = FIRST_PAUSE
        pause, self.pause = self.pause, min(2 * self.pause, LONGEST_PAUSE)
        text = str(fault) if isinstance(fault, (str, Unusable)) else f"can't be used: {getattr(fault, 'strerror', None) or fault}"
        if "full" in text or getattr(fault, "errno", None) == errno.ENOSPC:
            self.wanted = ROOM + self.spooled + max(size_of(self.path), size_of(pathlib.Path(f"{self.path}{NEW}")))
        self.let_go()
        with contextlib.suppress(OSError):
            removed(self.path)
        self.due, self.trouble = self.clock() + pause, f"{self.path} {text}"
        self.say(f"{self.trouble}; it is made anew in {spoken(pause)}, and no name is looked up meanwhile")

    def told(self):
        """Why no name can be looked up."""
        if self.is_reading:
            return f"The names are being read: {self.count:,} so far."
        left = spoken(max(0.0, self.due - self.clock())) if self.due is not None else "a while"
        return f"No name can be looked up just now: {self.trouble}. The names are read anew in {left}."

    def close(self):
        self.let_go()
        removed(pathlib.Path(f"{self.path}{NEW}"))


def is_foreign(path):
    """Whether a file is there that is none of the explorer's, by its first bytes (the file format of SQLite, 1.3)."""
    try:
        with open(path, "rb") as file:
            begins = file.read(72)
    except OSError:
        return False
    return bool(begins) and (begins[:16] != b"SQLite format 3\0" or begins[68:] != APPLICATION.to_bytes(4, "big"))


def has_room(folder, size):
    """Whether a file can be made in a folder, and its disk has room for so many bytes."""
    try:
        with tempfile.TemporaryFile(dir=folder):
            return shutil.disk_usage(folder).free >= size
    except OSError:
        return False


def size_of(path):
    try:
        return path.stat().st_size
    except OSError:
        return 0


def base_of(folder):
    """The header of the program's files; an empty one where it can't be read, which the program tells of better."""
    try:
        with open(folder / HEADER, "rb") as file:
            header = file.read(SHORTEST)
            return Base(header + file.read(header[-1])) if len(header) == SHORTEST else Base(b"")
    except OSError:
        return Base(b"")
