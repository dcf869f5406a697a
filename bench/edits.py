"""The edits that the prover must refuse: the files of crates/*/must-fail."""
import typing

from contracts import CRATES


class Edit(typing.NamedTuple):
    """An edit: the clause that refuses it, with its call, and what it changes in which file."""

    crate: str
    name: str
    clause: str
    call: str
    # Each: a file, what stands there once, and what comes in its place.
    changes: tuple


def changes_in(lines):
    """The changes that the lines of an edit tell, as the kit reads them."""
    file = old = ""
    for line in lines:
        word, _, rest = line.partition(":")
        text = rest.removeprefix(" ")
        if word == "file":
            file = text.strip()
        elif word == "old":
            old = text
        elif word == "new":
            yield file, old, text


def edit_in(path):
    """The edit of a file. Where its first line names no clause, this is empty."""
    lines = path.read_text().splitlines()
    clause = call = ""
    if lines and lines[0].startswith("clause: "):
        clause, _, call = lines[0].removeprefix("clause: ").partition(" of ")
    return Edit(path.parent.parent.name, path.stem, clause, call, tuple(changes_in(lines)))


def edits():
    """Every edit of the repository, by crate and name."""
    return [edit_in(path) for path in sorted(CRATES.glob("*/must-fail/*.edit"))]


def texts_of(edit):
    """The files of the crate that an edit changes, changed. Says which text doesn't stand in its file once."""
    texts = {}
    for file, old, new in edit.changes:
        path = CRATES / edit.crate / file
        before = texts.get(file, path.read_text() if path.is_file() else "")
        if before.count(old) != 1:
            raise ValueError(f"a text stands in {file} {before.count(old)} times: {old.strip()}")
        texts[file] = before.replace(old, new)
    return texts
