"""How many names have a part in them: looked through run by run, and kept right while names come and go."""
import bisect
import itertools

from . import runs

# Of the names that have a part, the first ones are kept, more than a page has.
MOST_FIRST = 51
# What finding a name takes, as so many bytes that are looked through.
EACH = 1024


class Counting:
    """All names below `until` are counted; where it is None, all are. `first` has the first of the names with the part, all that were found
    so far or `MOST_FIRST`; `last` is the last name that was looked at. `looked` is what it took so far, in bytes."""

    def __init__(self, part):
        self.part, self.text = part, runs.written(part)
        self.number, self.first, self.last, self.until, self.looked = 0, [], b"", b"", 0

    @property
    def is_all(self):
        return self.until is None

    def take(self, first, names):
        """Looks through the next run, whose first name this is; of one that was looked at in part already, the rest."""
        if first < self.until:
            names = runs.text_of([it for it in runs.names_of(names) if it >= self.until])
        number = runs.count_of(names, self.text)
        if number and len(self.first) < MOST_FIRST:
            self.first += itertools.islice(runs.having(names, self.text), MOST_FIRST - len(self.first))
        self.number, self.looked = self.number + number, self.looked + len(names) + EACH * number
        return names

    def stops(self, names, until):
        """So far for now: this is the run that was looked at last, and the first name of the next one, or None."""
        self.until = until
        if names:
            self.last = max(self.last, runs.names_of(names)[-1])

    def counts(self, name):
        """Whether a name is one of those that are counted."""
        return self.part in name and (self.is_all or name < self.until)

    def came(self, name):
        """There is one more name."""
        if self.counts(name):
            self.number += 1
            bisect.insort(self.first, name)
            del self.first[MOST_FIRST:]

    def went(self, name):
        """There is a name less. Whether the first ones are still known."""
        if self.counts(name):
            self.number -= 1
            if name in self.first:
                self.first.remove(name)
        return len(self.first) == min(self.number, MOST_FIRST)

    def page(self, behind, most):
        """So many of the first names, behind another or from the first one on, and the name behind which more may be; None where the names
        there aren't known."""
        at = 0 if behind is None else bisect.bisect_right(self.first, behind)
        found, has_all = self.first[at : at + most], len(self.first) == self.number
        if len(self.first) - at > most:
            return found, found[-1]
        if has_all and self.is_all:
            return found, None
        return (found, max([self.last, *found])) if has_all and behind is None else None
