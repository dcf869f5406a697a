"""How the program ends."""
import enum

INTERRUPTED = 130


class Status(enum.IntEnum):
    """The exit statuses. 1 is left to Python; those of words and node are the feeder's too."""

    DONE = 0
    WORDS = 2
    FILE = 3
    SAME_NAME = 4
    NODE = 5
    WRITING = 6
    YOUNG = 7
