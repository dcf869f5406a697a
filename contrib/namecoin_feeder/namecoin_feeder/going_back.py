"""What is to be done where the server's tip isn't on the best chain: which blocks to take off, or why nothing is.

Blocks are taken off where the fork is known and another branch of the best chain stands above it. A node that doesn't know the
server's tip, is in its initial download, is behind or stands still is waited for, whatever the time: it may reach up to the tip.
"""
import typing

from .blocks import NO_HASH, shown
from .troubles import Moved, NodeTrouble, Status, Stop

OTHER_NETWORK = "is it another network's node?"


class Wait(typing.NamedTuple):
    """Nothing is taken off, for this reason."""

    why: str


class Way(typing.NamedTuple):
    """The way down to a fork: the server's blocks above it, the newest first, and the height and the block that are left then."""

    stale: list
    height: int
    fork: bytes


class Blind(typing.NamedTuple):
    """The source doesn't know the server's tip, and lacks no block itself: only a person can say that it is to be taken off."""

    why: str


def way_back(source, tip, best, choices):
    """What is to be done about a tip that the best chain doesn't have: a Wait, a Way or Blind; or a Stop is raised."""
    header, stands = source.header(tip), f"the server stands on block {shown(tip)}"
    if source.is_downloading():
        return Wait(f"{stands}, and {source.name} is in its initial download")
    if header is None:
        unknown = f"{stands}, which {source.name} doesn't know"
        return Wait(f"{unknown} yet") if source.lacks_blocks() else Blind(f"{unknown} (--unknown, where everybody has left it)")
    if header.is_on_chain:
        raise Moved
    if best.work < header.work and not source.has_rejected(tip):
        return Wait(f"{stands}, and {source.name} is behind: its best chain, of height {best.height}, has less work")
    stale, last = walked(source, header, choices.deepest)
    # Headers that were told before and behind a move of the best chain don't make one way.
    if source.best() != best or last and last.is_on_chain and last.hash != best.hash and last.height >= best.height:
        raise Moved
    if last is None:
        return Wait(f"{stands}, and {source.name} doesn't know what stands {len(stale)} blocks below it: no fork is known")
    if last.hash == best.hash:
        return Wait(f"{stands}, and {source.name} at height {best.height} below it: no other branch is known")
    if why := why_not(source, stale, last, choices):
        raise Stop(Status.OTHER_CHAIN, f"{stands}, {why}")
    return Way(stale, last.height, last.hash)


def walked(source, header, deepest):
    """The blocks from one aside of the best chain down to the last before the fork, and the fork; at most one more than may be
    taken off, and the block below it; or None, where the source doesn't know that one."""
    stale = []
    while not header.is_on_chain and len(stale) <= deepest:
        stale.append(header.hash)
        below = source.header(header.previous)
        if below is None:
            return stale, None
        if below.height != header.height - 1:
            raise NodeTrouble(f"{source.name} gives headers that don't make one chain")
        header = below
    return stale, header


def why_not(source, stale, last, choices):
    """Why the blocks of a way, above its last one, may not be taken off, and what to do; None where they may."""
    if len(stale) > choices.deepest:
        aside = f"which isn't on the best chain of {source.name}"
        return f"{aside}; more than {choices.deepest} of its newest blocks would have to be taken off: {OTHER_NETWORK}"
    if last.hash == NO_HASH:
        return f"which has no block in common with the best chain of {source.name}: {OTHER_NETWORK}"
    if last.height < choices.base and not source.is_fixed:
        leaves = f"and the best chain of {source.name} leaves the server's at height {last.height}"
        return f"{leaves}, below its base: make a new snapshot, and the server's files from it"
    return None
