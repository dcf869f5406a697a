"""Names that are found by a text, and the page of each with its history."""
import sqlite3
import typing
import urllib.parse

from . import name_pages
from .layout import ARE, BEGIN, FIND, HAVE, WAYS, goes_to, told
from .wanted import LONGEST, as_typed, domain_of, fields_of, name_in, name_of_domain, name_path, typed

MOST_FIELDS = 6
# Values of a history on a page; and bytes of a block's hash that tell whether the next page is of the same chain.
MOST_VALUES, SHOWN = 25, 8


class Wanted(typing.NamedTuple):
    """What is looked for: the text as it was typed, what it stands for, and how names are to have it; the name behind which the page
    begins, and the first bytes of the block that the page before was of, where there was one."""

    text: bytes
    bytes: bytes
    way: str
    behind: typing.Optional[bytes]
    of: bytes


def wanted_of(words):
    """What a question wants; ValueError where it can't be read."""
    fields = fields_of(words, MOST_FIELDS)
    way, text = fields.get("way", BEGIN.encode()).decode(), fields.get("name", b"")
    if way not in WAYS:
        raise ValueError
    behind = bytes.fromhex(fields["behind"].decode()) if "behind" in fields else None
    return Wanted(text, typed(text), way, behind, bytes.fromhex(fields.get("of", b"").decode()))


class Finder:
    """`rows` is the number of names on a page; `resolved` gives what a resolver gets for a domain, as HTML."""

    def __init__(self, keeper, rows, resolved):
        self.keeper, self.rows, self.resolved = keeper, rows, resolved

    def found(self, frame, work):
        """A page that is made of the names; what is told where there are none, or where their file fails."""
        if self.keeper.names is None:
            return told(frame, 503, "No name can be looked up just now", self.keeper.told(), **{"Retry-After": "10"})
        try:
            return work(self.keeper.names)
        except sqlite3.Error as fault:
            self.keeper.lost(fault)
            return told(frame, 503, "No name can be looked up just now", self.keeper.told(), **{"Retry-After": "10"})

    # By a text

    def find(self, frame, words):
        try:
            wanted = wanted_of(words)
        except ValueError:
            return told(frame, 400, "This question can't be read", "Names are found by the box at the top of each page.")
        frame = frame._replace(text=wanted.text.decode("utf-8", "replace"), way=wanted.way)
        return self.found(frame, lambda names: self.found_by(frame, names, wanted))

    def found_by(self, frame, names, wanted):
        domain = name_of_domain(wanted.bytes) if wanted.way != HAVE else None
        name = domain or wanted.bytes
        exact = names.entry(name) if len(name) <= LONGEST else None
        if wanted.way == ARE and exact is not None:
            return goes_to(name_path(name))
        if wanted.way == HAVE:
            found, count = names.having(name, wanted.behind, self.rows)
        else:
            found, count = names.beginning(name, wanted.behind, self.rows), names.count_beginning(name)
        next, again = (self.path_behind(wanted, it, names.tip) for it in (found.behind, wanted.behind))
        has_moved = bool(wanted.of) and not names.tip.hash.startswith(wanted.of)
        result = name_pages.Result(wanted.way, name, domain and wanted.bytes, exact, found, count, found.behind and next, again, wanted.behind is not None, has_moved)
        return name_pages.found_page(frame, names, result, self.early())

    def path_behind(self, wanted, name, tip):
        """The address of the page of these names behind one, or of the first page."""
        words = {"name": wanted.text, "way": wanted.way}
        if name is not None:
            words |= {"behind": name.hex(), "of": tip.hash[:SHOWN].hex()}
        return f"{FIND}?{urllib.parse.urlencode(words)}"

    def early(self):
        """What is told where the names are those that an earlier run has left."""
        return self.keeper.told() if self.keeper.is_early else ""

    # A name

    def name(self, frame, path, words):
        name = name_in(path)
        try:
            fields = fields_of(words, MOST_FIELDS)
            place = int(fields["from"]) if "from" in fields else None
            if place is not None and not 0 < place < 1 << 62:
                raise ValueError
        except ValueError:
            return told(frame, 400, "This question can't be read", "The page of a name has no such words.")
        frame = frame._replace(text=as_typed(name), way=BEGIN)
        return self.found(frame, lambda names: self.page_of(frame, names, name, place))

    def page_of(self, frame, names, name, place):
        entry = names.entry(name) if len(name) <= LONGEST else None
        if entry is None:
            return name_pages.no_name_page(frame, names, name, self.early())
        values = names.history(name, place, MOST_VALUES + 1)
        if not values:
            return told(frame, 404, "There is no such value", "The name has no value there: the chain may have changed.")
        domain = domain_of(name)
        resolved = self.resolved(names, entry, domain) if domain and place is None and not self.keeper.is_early else ""
        below, next = (values.pop(), values[-1].before) if len(values) > MOST_VALUES else (None, None)
        history = name_pages.History(values, below, next, place is None)
        return name_pages.name_page(frame, names, entry, domain, history, resolved, self.early())
