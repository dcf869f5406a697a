"""What changed from one value of a name to the next: members that came, went or changed, at any depth of their objects."""
import typing

from .texts import Pairs, value_of

ADDED, GONE, CHANGED = "added", "gone", "changed"
# More changes than these aren't told of one value.
MOST = 40


class Change(typing.NamedTuple):
    """A member's way from the top, what happened to it, and what stood and stands there."""

    keys: tuple
    what: str
    before: typing.Any = None
    behind: typing.Any = None


def members(value):
    """The members of an object, of which the last one with a key counts."""
    return dict(value.items)


def changes_of(before, behind):
    """The changes between two values, in bytes; None where one of them is no object of JSON."""
    one, other = value_of(before), value_of(behind)
    if not isinstance(one, Pairs) or not isinstance(other, Pairs):
        return None
    return list(between(members(one), members(other), ()))


def between(before, behind, keys):
    for key in [*before, *(it for it in behind if it not in before)]:
        way = (*keys, key)
        if key not in behind:
            yield Change(way, GONE, before=before[key])
        elif key not in before:
            yield Change(way, ADDED, behind=behind[key])
        elif isinstance(before[key], Pairs) and isinstance(behind[key], Pairs):
            yield from between(members(before[key]), members(behind[key]), way)
        elif before[key] != behind[key]:
            yield Change(way, CHANGED, before[key], behind[key])
