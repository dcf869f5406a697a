"""Runs of the built program over files that are given, several at once, each compared with what the model of files says."""
import os
import typing
from concurrent.futures import ThreadPoolExecutor

from common import empty_folder, run_in
from files_model import run_of

from stores import files_of, write_files

AT_ONCE = len(os.sched_getaffinity(0))
DUMP, REPLAY = ["dump"], ["replay"]


class Row(typing.NamedTuple):
    """What it is, the files, None for an absent one, and the words with their input: a report, where nothing else is said."""

    what: str
    files: list
    words: list = DUMP
    given: bytes = b""


def opened(row):
    """What the program says, and the files behind it."""
    with empty_folder() as folder:
        write_files(folder, row.files)
        return run_in(folder, row.words, row.given), files_of(folder)


def same(tally, row):
    """Runs a row, and compares with what the model says of it, which is given back."""
    return told_same(tally, row, opened(row), run_of(row.words, row.given, row.files))


def told_same(tally, row, told, wanted):
    """Whether what a row came to, and the files behind it, are those of the model."""
    tally.same(row.what, told[0], wanted[0])
    tally.same(f"{row.what}: the files", told[1], wanted[1])
    return wanted


def compare(tally, rows, run_of=run_of):
    """Runs the rows. What the model says of each, with the files behind it."""
    rows = list(rows)
    wanted = [run_of(row.words, row.given, row.files) for row in rows]
    with ThreadPoolExecutor(AT_ONCE) as pool:
        return [told_same(tally, *each) for each in zip(rows, pool.map(opened, rows), wanted)]
