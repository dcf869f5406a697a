"""Files that are made from a snapshot of many names, and blocks that update these."""
import contextlib
import sys

from blocks import CONNECT, UPDATE, block_hash, block_of, coinbase, frame, name_script, named, outpoint
from snapshots import name_of, write_snapshot
from stores import empty_folder, make_from

# Names of a snapshot stand for long on a base of this height of the profile main.
HEIGHT, HEIGHTS = 500_000, range(499_000, 500_000)


@contextlib.contextmanager
def made_from(names, where=None):
    """A folder with files that are made from a snapshot of so many names."""
    with empty_folder(where) as folder:
        path = folder / "snapshot"
        write_snapshot(path, names, HEIGHTS)
        with open(path, "rb") as snapshot:
            if status := make_from(snapshot, folder, "main", HEIGHT):
                sys.exit(f"init-from ended with {status}")
        path.unlink()
        yield folder


def updates(names, blocks, each):
    """Blocks, each of which updates so many names, spread over all, that no other one does; of each its frame and its hash."""
    made, tip, step = [], bytes(32), names // (blocks * each)
    for above in range(blocks):
        transactions = [coinbase(HEIGHT + above + 1)]
        for number in range(above * step, names, blocks * step)[:each]:
            coin = outpoint(number.to_bytes(4, "big") * 8, 1)
            transactions.append(named(coin, name_script(UPDATE, name_of(number), b'{"ip":"192.0.2.1"}')))
        block = block_of(HEIGHT + above + 1, tip, transactions)
        tip = block_hash(block)
        made.append((frame(CONNECT, block), tip))
    return made
