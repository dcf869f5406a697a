"""What can go wrong: troubles pass and are tried again, and a stop ends the program with its status."""
import enum


class Status(enum.IntEnum):
    """The exit statuses. 1 is left to Python and 2 to the words."""

    DONE = 0
    WORDS = 2
    REFUSED = 3
    OTHER_CHAIN = 4
    NODE = 5
    SERVER = 6


class Trouble(Exception):
    """What may have passed after a pause; `status` is that of the end where it doesn't pass."""

    status: Status


class NodeTrouble(Trouble):
    status = Status.NODE


class Denied(NodeTrouble):
    """The node refuses the name and the password."""


class ServerTrouble(Trouble):
    status = Status.SERVER


class FeedEnded(ServerTrouble):
    """The server's end of the connection is gone."""


class Moved(Exception):
    """The best chain of the node isn't the one that was asked for any more."""


class Stop(Exception):
    """The program ends with this status; `block` is the one that the server refuses, where it does."""

    def __init__(self, status, text, block=None):
        super().__init__(text)
        self.status, self.block = status, block
