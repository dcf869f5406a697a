"""Whether the disk of the server's files has room for a save, where their folder is on this machine (docs/FORMATS.md, Files)."""
import os
import typing

HEADER, AREAS = "nmc.0", ("nmc.1", "nmc.2")
# The place of the host's length in the header, and what a selection takes behind the host: an open gate, its length and one byte.
HOST, OPEN, SELECTION = 46, b"\x01", 6
LENGTH = 8


class Room(typing.NamedTuple):
    """How many bytes there are for a save, and how many one may want."""

    there: int
    wanted: int

    @property
    def is_enough(self):
        return self.there >= self.wanted


def room_for_a_save(folder):
    """The room for a save on the disk of the server's folder; None where that can't be looked at.

    A save cuts the area that doesn't count to nothing first, so its room is there too. What it then writes is taken to be as long as
    the area that counts: its image, with what the blocks behind that add.
    """
    try:
        counts, other = (folder / name for name in ordered(folder))
        with open(counts, "rb") as area:
            image = int.from_bytes(area.read(LENGTH), "little")
        disk = os.statvfs(folder)
        free = disk.f_bavail * disk.f_frsize
        return Room(free + held(other), max(image, counts.stat().st_size))
    except OSError:
        return None


def ordered(folder):
    """The names of the area that counts and of the other one: each save is a selection in the header's file, and they take turns."""
    text = (folder / HEADER).read_bytes()
    if len(text) <= HOST:
        raise OSError
    start = at = HOST + 1 + text[HOST]
    while text[at : at + 1] == OPEN:
        at += SELECTION
    saves = (at - start) // SELECTION
    return AREAS[saves % 2], AREAS[(saves + 1) % 2]


def held(path):
    """The bytes that a file has of its disk."""
    return path.stat().st_blocks * 512


def spoken_bytes(count):
    """A number of bytes in its greatest unit."""
    for size, unit in ((1 << 30, "GiB"), (1 << 20, "MiB"), (1 << 10, "KiB")):
        if count >= size:
            return f"{count / size:.1f} {unit}"
    return f"{count} bytes"
