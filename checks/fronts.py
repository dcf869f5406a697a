"""What a store is behind each of some frames, by the model of files."""
import typing

from files_model import Store, made

from stores import INIT, what_counts


class Front(typing.NamedTuple):
    """The reply to the last frame, what counts of the files, the longest of these, the height and the tip, and the report."""

    reply: bytes
    counts: tuple
    longest: int
    height: int
    tip: bytes
    report: bytes


def front_of(store, told=b""):
    return Front(told, what_counts(store.files), max(map(len, store.files)), store.height, store.tip, store.index.report())


def fronts_of(frames, files=None):
    """The fronts of frames over files that are opened, or new ones; the first is that of none."""
    store = Store.opened(files) if files else made(INIT)
    return [front_of(store), *(front_of(store, store.answer(item)) for item in frames)]


def replies_of(fronts):
    return b"".join(it.reply for it in fronts)
