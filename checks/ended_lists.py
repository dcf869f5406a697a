"""Runs of `list` that are ended at each of their calls on files, by strace: by a kill in front of it, or since it fails."""
import collections
import os
import subprocess
import typing
from concurrent.futures import ThreadPoolExecutor

from common import SECONDS, Run, empty_folder, pieces, program, reply, run_in
from files_model import Store
from fronts import front_of
from listings_model import Lister, run_of
from opened import DUMP
from tracing import CHANGES, READ, is_file, traced

from stores import files_of, what_counts, write_files

AT_ONCE = len(os.sched_getaffinity(0))
LIST, DISK_FAILED = ["list", "1"], reply(0xFD)
KILLED, FAILS = "signal=KILL", "error=EIO"


class Stop(typing.NamedTuple):
    """The call of this number, of those of one kind, at which the run ends so."""

    call: str
    number: int
    end: str

    def __str__(self):
        return f"{'killed at' if self.end == KILLED else 'a fault of'} {self.call} {self.number}"


class Ended(typing.NamedTuple):
    """What such a run told, its status and line, and its files; the report of these, and what the rest of the frames came to."""

    stop: Stop
    told: bytes
    status: int
    line: bytes
    files: list
    report: Run
    kept: typing.Optional[int]
    rest: Run
    files_in_the_end: list


def stops_of(files, frames):
    """All of them: each call of each kind that there is in a run that isn't ended, by a kill and by a fault."""
    with empty_folder() as folder:
        write_files(folder, files)
        _, calls = traced(folder, LIST, b"".join(frames))
    counts, found = collections.Counter(), []
    for name, _, path in calls:
        # The loader of programs reads too, by calls that count.
        counts[name] += 1
        if name in (*CHANGES, READ) and is_file(path):
            found += [Stop(name, counts[name], end) for end in (KILLED, FAILS)]
    return found


def fronts_of(files, frames):
    """What the store is behind each of the frames; the first front is that of none."""
    lister = Lister(Store.opened(files), 1)
    return [front_of(lister.store), *(front_of(lister.store, lister.answer(item)) for item in frames)]


def ended(tally, what, files, frames):
    """Runs all of them over the files, and compares. The number of frames that each kept."""
    fronts = fronts_of(files, frames)
    with ThreadPoolExecutor(AT_ONCE) as pool:
        came = list(pool.map(lambda stop: ended_at(stop, files, frames, fronts), stops_of(files, frames)))
    for it in came:
        compare(tally, f"{what}, {it.stop}", it, frames, fronts)
    return [it.kept for it in came]


def ended_at(stop, files, frames, fronts):
    with empty_folder() as folder:
        write_files(folder, files)
        inject = f"inject={stop.call}:{stop.end}:when={stop.number}"
        command = ["strace", "-qq", "-f", "-o", "/dev/null", "-e", inject, program(), *LIST]
        run = subprocess.run(command, cwd=folder, input=b"".join(frames), capture_output=True, timeout=SECONDS)
        left = files_of(folder)
        report = run_in(folder, DUMP, b"")
        kept = kept_of(answered(run.stdout), left, fronts)
        rest = run_in(folder, LIST, b"".join(frames[kept or 0 :]))
        return Ended(stop, run.stdout, run.returncode, run.stderr, left, report, kept, rest, files_of(folder))


def answered(told):
    """The replies to frames that were done."""
    return [it for it in pieces(told) if it != DISK_FAILED]


def kept_of(replies, files, fronts):
    """How many frames the files keep: those with a reply, or with them the one behind; None where they are neither's."""
    found = what_counts(files)
    return next((len(replies) + more for more in (0, 1) if [found] == [it.counts for it in fronts[len(replies) + more :][:1]]), None)


def compare(tally, what, it, frames, fronts):
    """All that was acknowledged is kept, and of the event in which it ended all or nothing; a save that ran is gone, and counts for
    nothing. The rest of the frames comes to what the model says over the same files."""
    done = answered(it.told)
    tally.same(f"{what}: told", b"".join(done), b"".join(front.reply for front in fronts[1 : len(done) + 1]))
    if it.stop.end == FAILS:
        tally.same(f"{what}: the end", (it.status, it.line), (5, b"disk fault\n"))
        tally.same(f"{what}: the last reply", pieces(it.told)[len(done) :], [DISK_FAILED] * bool(it.told))
    if tally.check(f"{what}: what the files keep", it.kept is not None, f"neither before nor behind frame {len(done)}"):
        tally.same(f"{what}: opened again", it.report, Run(fronts[it.kept].report, 0, ""))
        wanted = run_of(LIST, b"".join(frames[it.kept :]), it.files)
        tally.same(f"{what}: the rest", (it.rest, it.files_in_the_end), wanted)
