"""Runs of the built program with each of their calls for memory failing in turn: what may come, and what has to."""
import contextlib
import typing

from common import Run, made_folder, reply

from answers_model import failure_to
from blocks import QUERY
from failing_heap import each_call
from stores import empty_folder, write_files

NO_MEMORY = reply(0xFE)
OUT_OF_MEMORY = Run(b"", 8, "out of memory")


class Came(typing.NamedTuple):
    """What came of a run: the run, and the files that it left."""

    run: Run
    files: list


def without_memory(item):
    """The answer to a frame for want of memory."""
    if item[:1] != QUERY:
        return NO_MEMORY
    return reply(0, failure_to(item[5:]).text())


@contextlib.contextmanager
def folder_of(files):
    """A folder with these files; where there are none, with those of a new store."""
    if files is None:
        with made_folder() as folder:
            yield folder
        return
    with empty_folder() as folder:
        write_files(folder, files)
        yield folder


def swept(tally, name, answer, allowed, needed):
    """Each call in turn: `answer` gives what came, or None where there is no such call; `allowed` is by name what may come, and
    each of the names that are needed has to come."""
    seen, count = set(), 0
    for count, came in enumerate(each_call(answer), 1):
        found = [it for it, may_come in allowed.items() if came == may_come]
        tally.check(f"{name}, call {count}", found, came)
        seen.update(found)
    tally.check(name, seen >= set(needed), f"in {count} calls {sorted(set(needed) - seen)} did not come")
