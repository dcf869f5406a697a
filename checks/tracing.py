"""Runs of the built program under strace: the calls of the system that it makes."""
import pathlib
import re
import subprocess
import tempfile

from common import SECONDS, Run, program

from stores import FILES

CALL = re.compile(r"^(\w+)\((\d+|AT_FDCWD)<([^>]*)>")
# The calls that change a file, or see to it that a change lasts; and the one that reads.
CHANGES, READ = ("pwrite64", "fdatasync", "ftruncate"), "pread64"


def traced(folder, words, given):
    """What came of a run under strace, and its calls that name a descriptor: their names, the descriptors and the paths."""
    with tempfile.NamedTemporaryFile("r") as trace:
        command = ["strace", "-qq", "-y", "-o", trace.name, program(), *words]
        run = subprocess.run(command, cwd=folder, input=given, stdout=subprocess.PIPE, stderr=subprocess.PIPE, timeout=SECONDS)
        calls = [match.groups() for match in map(CALL.match, trace) if match]
    return Run(run.stdout, run.returncode, run.stderr.decode().strip()), calls


def is_file(path):
    return pathlib.Path(path).name in FILES


def changes_by_reply(calls):
    """The calls that change a file in front of each reply, with the names of the files; and those behind the last reply."""
    parts = [[]]
    for name, number, path in calls:
        if (name, number) == ("write", "1"):
            parts.append([])
        elif is_file(path) and name in CHANGES:
            parts[-1].append((name, pathlib.Path(path).name))
    return parts
