"""Tables of runs over files: each row through the built program and through the model of files (files_model.py), and compared.

Columns: the words; the input in hexadecimal; the output; the exit status; the line on standard error; the three files after
it, parted by strokes. A row 'new' stands for an empty folder, a row 'files' for a folder with these files; the rows behind it
run there, one after the other. '-' is empty. Of a file that is in order counts what stands up to its first closed gate. A
report writes nothing: behind it each file is, byte for byte, as it was before.
"""
import contextlib
import typing

from common import BAD_WORDS, DATA, Run, bytes_of, empty_folder, rows, run_in
from files_model import run_of

from stores import files_of, gates_of, records_of, write_files

REPORT = "dump"


class FileRow(typing.NamedTuple):
    """A row: its number and words, what is given, and what comes of it with the files behind it; none of them where there are none."""

    number: int
    words: str
    given: bytes
    wanted: Run
    files: list

    @property
    def is_folder(self):
        """Whether it tells of a folder, in which the rows behind it run."""
        return self.words in ("new", "files")


def file_rows(table):
    for number, (words, given, output, status, line, kept) in rows(DATA / table):
        wanted = Run(bytes_of(output), 0 if status == "-" else int(status), "" if line == "-" else line)
        yield FileRow(number, words, bytes_of(given), wanted, [bytes_of(text) for text in kept.split("/")] if "/" in kept else [])


def written(files):
    """The bytes of the files; one that is absent counts as an empty one, which a run may make."""
    return [text or b"" for text in files]


def counting(files):
    """What counts of the files."""
    texts, kept = written(files), []
    for text, start in zip(texts, gates_of(texts)):
        found = records_of(text, start)
        kept.append(text[: found[1]] if found else text)
    return kept


def compare_model(tally, table, run_of=run_of):
    """What the model says of the rows, each over the files that the model left before it."""
    files = []
    for row in file_rows(table):
        if row.is_folder:
            files = row.files or [b""] * 3
        elif row.wanted.status != BAD_WORDS:
            run, files = run_of(row.words.split(" "), row.given, files)
            tally.same(f"model on {table}, row {row.number}", (run, counting(files)), (row.wanted, counting(row.files)))


def compare_program(tally, table):
    """Runs the rows, one after the other."""
    with contextlib.ExitStack() as stack:
        for row in file_rows(table):
            if row.is_folder:
                stack.close()
                folder = stack.enter_context(empty_folder())
                write_files(folder, row.files)
                continue
            before = files_of(folder)
            tally.same(f"{table}, row {row.number}", run_in(folder, row.words.split(" "), row.given), row.wanted)
            tally.same(f"{table}, files of row {row.number}", counting(files_of(folder)), counting(row.files))
            if row.words == REPORT:
                tally.same(f"{table}, all bytes of the files of row {row.number}", written(files_of(folder)), written(before))
