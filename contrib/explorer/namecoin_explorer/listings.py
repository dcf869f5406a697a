"""Listings: who has which session of the program, and the pages that were turned.

A session gives each page once, so pages that were given are kept, the newest of them. At most eight sessions are open in the
program. Where a ninth reader comes, the one that was unused for the longest time is closed, of the user who has most of them: so
nobody closes another user's by opening many.
"""
import collections
import secrets
import struct
import time
import typing

from namecoin_feeder.replies import ACCEPTED, NO_MEMORY
from namecoin_feeder.server import frame

from .asking import Tip
from .program import unexpected

OPEN, PAGE, CLOSE = b"\x05", b"\x06", b"\x07"
MOST_OPEN, MOST_PAGE_BYTES = 8, 64_305
# Pages that are kept of a listing, and closed listings whose readers are told why.
MOST_KEPT, MOST_CLOSED = 40, 256
LONGEST_NAME, LONGEST_VALUE = 255, 1023
# Why a listing is closed.
NINTH, IDLE, ASKED, ANEW = "ninth", "idle", "asked", "anew"


class Row(typing.NamedTuple):
    name: bytes
    height: int
    is_served: bool
    value: bytes


class BadPage(Exception):
    """The bytes are no page."""


def page_of(text, most):
    """Whether no row is left behind a page, and its rows; of which there are so many, or all that were left."""
    at = 0

    def take(length):
        nonlocal at
        part, at = text[at : at + length], at + length
        if len(part) < length:
            raise BadPage
        return part

    def flag():
        found = take(1)[0]
        if found > 1:
            raise BadPage
        return found == 1

    is_last, (count,), rows = flag(), struct.unpack("<I", take(4)), []
    if count > most or count < most and not is_last:
        raise BadPage
    for _ in range(count):
        name = take(take(1)[0])
        (height,), is_served = struct.unpack("<I", take(4)), flag()
        (length,) = struct.unpack("<H", take(2))
        if length > LONGEST_VALUE or rows and rows[-1].name >= name:
            raise BadPage
        rows.append(Row(name, height, is_served, take(length)))
    if at < len(text):
        raise BadPage
    return is_last, rows


class Listing:
    """An open session: its number in the program, whose it is, the chain that it is of, and its pages by their numbers from 1."""

    def __init__(self, number, user, tip, now):
        self.token, self.number, self.user, self.tip, self.used = secrets.token_urlsafe(16), number, user, tip, now
        self.kept, self.turned, self.is_over, self.last_name = collections.OrderedDict(), 0, False, None

    @property
    def oldest(self):
        """The number of the oldest page that is kept."""
        return next(iter(self.kept), 1)


class Closed(Exception):
    """The listing was closed; `why` is NINTH, IDLE, ASKED or ANEW, or None where nothing is known of such a listing."""

    def __init__(self, why):
        super().__init__(why)
        self.why = why


class NoMemory(Exception):
    """The program is out of memory for one more listing."""


class Listings:
    """To be used on the asking thread alone. `rows` is the number of rows of a page, `idle` the seconds until an unused listing is
    closed."""

    def __init__(self, rows, idle, clock=time.monotonic):
        self.rows, self.idle, self.clock = rows, idle, clock
        self.open, self.closed = {}, collections.OrderedDict()

    def begin(self, ask, user, tip: Tip):
        """A new listing of the chain as it is now."""
        if len(self.open) >= MOST_OPEN:
            self.close(ask, self.victim(user), NINTH)
        reply = ask(frame(OPEN, b""))
        if reply.code == NO_MEMORY:
            raise NoMemory
        if reply.code != ACCEPTED or len(reply.payload) != 4 or reply.number in (it.number for it in self.open.values()):
            raise unexpected(f"code {reply.code} to an opening, payload {reply.payload[:8].hex() or 'empty'}")
        listing = Listing(reply.number, user, tip, self.clock())
        self.open[listing.token] = listing
        return listing

    def victim(self, user):
        """The listing that gives its place to a new one of a user."""
        counts = collections.Counter(it.user for it in self.open.values())
        counts[user] += 1
        most = max(counts.values())
        return min((it for it in self.open.values() if counts[it.user] == most), key=lambda it: it.used)

    def find(self, token):
        """The open listing of a token, which is used now."""
        if token not in self.open:
            raise Closed(self.closed.get(token))
        listing = self.open[token]
        listing.used = self.clock()
        return listing

    def turn(self, ask, listing):
        """Has the program give the next page of a listing, and keeps it."""
        reply = ask(frame(PAGE, struct.pack("<I", listing.number)))
        try:
            if reply.code != ACCEPTED or len(reply.payload) > MOST_PAGE_BYTES:
                raise BadPage
            listing.is_over, rows = page_of(reply.payload, self.rows)
            if rows and listing.last_name is not None and rows[0].name <= listing.last_name:
                raise BadPage
        except BadPage:
            raise unexpected(f"code {reply.code} to a page, payload {reply.payload[:40].hex() or 'empty'}") from None
        listing.last_name = rows[-1].name if rows else listing.last_name
        listing.turned += 1
        listing.kept[listing.turned] = reply.payload
        while len(listing.kept) > MOST_KEPT:
            listing.kept.popitem(last=False)

    def page(self, listing, number):
        """The rows of a page that is kept."""
        return page_of(listing.kept[number], self.rows)[1]

    def close(self, ask, listing, why):
        reply = ask(frame(CLOSE, struct.pack("<I", listing.number)))
        if reply.code != ACCEPTED or reply.payload:
            raise unexpected(f"code {reply.code} to a closing, payload {reply.payload[:8].hex() or 'empty'}")
        self.is_closed(listing, why)

    def is_closed(self, listing, why):
        del self.open[listing.token]
        self.closed[listing.token] = why
        while len(self.closed) > MOST_CLOSED:
            self.closed.popitem(last=False)

    def forget(self):
        """The program is started anew: its sessions are gone."""
        for listing in list(self.open.values()):
            self.is_closed(listing, ANEW)

    def close_idle(self, ask):
        """Closes what nobody used for long. The seconds until the next may be due; None where none is open."""
        now = self.clock()
        for listing in [it for it in self.open.values() if now - it.used >= self.idle]:
            self.close(ask, listing, IDLE)
        return min((it.used + self.idle - now for it in self.open.values()), default=None)
