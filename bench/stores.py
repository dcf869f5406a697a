"""Folders that the program runs in, with the files of a store, and what these keep."""
import contextlib
import os
import pathlib
import subprocess
import tempfile

TOP = pathlib.Path(__file__).resolve().parent.parent
PROGRAM = TOP / "crates" / "bridge_server" / "out" / "bridge_server"
FILES = ("nmc.0", "nmc.1", "nmc.2")
# The height 0, a hash of 32 zero bytes, and a name server.
INIT = ("init", "regtest", "0", "0" * 64, "ns.example.")
# A folder in memory, where there is one: a sync takes no time there.
MEMORY = "/dev/shm"
OPEN, BAD_WORDS = 1, 2


@contextlib.contextmanager
def empty_folder(where=None):
    """A new folder; in memory where no other place is given."""
    room = where or (MEMORY if os.access(MEMORY, os.W_OK) else None)
    with tempfile.TemporaryDirectory(prefix="jaqhumpi-", dir=room) as name:
        yield pathlib.Path(name)


def make_from(snapshot, folder, profile="regtest", height=0):
    """Makes files from a snapshot, which is read from this file. The status."""
    words = ["init-from", profile, str(height), *INIT[3:]]
    return subprocess.run([PROGRAM, *words], cwd=folder, stdin=snapshot, stderr=subprocess.DEVNULL).returncode


def knows_starts():
    """Whether the program knows `init-from`. It is asked once: one that doesn't has bad words for it."""
    with empty_folder() as folder:
        return make_from(subprocess.DEVNULL, folder) != BAD_WORDS


@contextlib.contextmanager
def made_folder(where=None, height=0, profile=INIT[1]):
    """A new folder with the files of a new store, whose base has this height and this profile."""
    words = [INIT[0], profile, str(height), *INIT[3:]]
    with empty_folder(where) as folder:
        how = {"stdin": subprocess.DEVNULL, "stdout": subprocess.PIPE, "stderr": subprocess.PIPE}
        run = subprocess.run([PROGRAM, *words], cwd=folder, timeout=60, **how)
        if run.returncode or run.stdout or run.stderr:
            raise SystemExit(f"init ended with {run.returncode}: {run.stdout} {run.stderr}")
        yield folder


def files_of(folder):
    """The bytes of the three files; None where there is no such file."""
    paths = [folder / name for name in FILES]
    return [path.read_bytes() if path.is_file() else None for path in paths]


def write_files(folder, files):
    """Makes the files in a folder, of these bytes each; None makes no file."""
    for name, text in zip(FILES, files):
        if text is not None:
            (folder / name).write_bytes(text)


def gates_of(files):
    """The places of the first gates in the three files: behind the header, and behind the images."""
    header, *areas = files
    behind = 47 + header[46] if len(header) > 46 else len(header)
    return [behind, *(8 + int.from_bytes(text[:8], "little") for text in areas)]


def records_of(text, start):
    """The records from a gate on up to the first closed one, and the length of all this; None where there is no closed gate."""
    records, at = [], start
    while at < len(text) and text[at] == OPEN:
        end = at + 5 + int.from_bytes(text[at + 1 : at + 5], "little")
        records.append(text[at + 5 : end])
        at = end
    return (records, at + 1) if at < len(text) else None


def journals_of(files):
    """The selections of file 0 and the records of the selected area, each with the length up to its first closed gate; and the
    number of that area. A journal that is damaged has no records."""
    texts = [bytes(text or b"") for text in files]
    gates = gates_of(texts)
    selections = records_of(texts[0], gates[0]) or ([], 0)
    area = 2 if len(selections[0]) % 2 else 1
    return selections, records_of(texts[area], gates[area]) or ([], 0), area


def what_counts(files):
    """What counts of the files: file 0 and the selected area, each up to its first closed gate."""
    (_, length), (_, behind), area = journals_of(files)
    return bytes(files[0] or b"")[:length], bytes(files[area] or b"")[:behind]


def saves_of(folder):
    """How many saves the files tell of."""
    return len(journals_of(files_of(folder))[0][0])


def commands_of(folder):
    """The commands that the files keep behind the image of the last save, as frames; none where the files are damaged."""
    # The head of a record is the kind of a frame.
    return [it[:1] + (len(it) - 1).to_bytes(4, "little") + it[1:] for it in journals_of(files_of(folder))[1][0]]
