"""How the program ends."""
import enum

from namecoin_feeder.troubles import Status as FeederStatus

INTERRUPTED = 130

# The exit statuses: the feeder's, and that of a program that has ended.
Status = enum.IntEnum("Status", [*((it.name, it.value) for it in FeederStatus), ("PROGRAM", 7)])


class Over(Exception):
    """The explorer is told to end."""
