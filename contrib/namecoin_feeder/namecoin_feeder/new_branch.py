"""The blocks of another branch, fetched before the first block is taken off: so half-way lasts as long as the server takes, and a
node that stops meanwhile has nothing taken off."""
import contextlib
import typing

from .blocks import MOST_BYTES, too_long
from .troubles import Moved

# So many bytes of a branch are held at most, and one run of blocks more; what stands above them is fetched behind them.
HELD_BYTES = 64 << 20


class Branch(typing.NamedTuple):
    """Runs of blocks, in order, the first one on the fork; how many blocks there are, and the hash of the last one."""

    runs: list
    count: int
    last: bytes


def fetched(source, way, top, most):
    """The blocks of the best chain above the fork of a way, up to a height or up to so many bytes."""
    runs, tip, count, size = [], way.fork, 0, 0
    with contextlib.closing(source.runs(way.height + 1, top)) as found:
        for run in found:
            tip = followed(run, tip)
            runs.append(run)
            count, size = count + len(run), size + sum(len(block.data) for block in run)
            if size >= most:
                break
    check_stays(source, tip)
    return Branch(runs, count, tip)


def followed(run, tip):
    """The last block of a run that stands on a tip, each block on the one before."""
    for block in run:
        if block.previous != tip:
            raise Moved
        if len(block.data) > MOST_BYTES:
            raise too_long(block.hash)
        tip = block.hash
    return tip


def check_stays(source, last):
    """The best chain still has the last block that was fetched. It may have grown above it."""
    header = source.header(last)
    if header is None or not header.is_on_chain:
        raise Moved
