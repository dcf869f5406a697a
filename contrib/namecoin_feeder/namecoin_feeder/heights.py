"""Whether the server counts heights as the source does: a snapshot tells no height, so its files may have been made with another one."""
from .blocks import shown
from .troubles import Status, Stop


class Heights:
    """Where a height differs the program ends, since only a person can make the server's files anew."""

    def __init__(self, source, server):
        self.source, self.server = source, server
        # The block whose height differed last, and what was told of it.
        self.block = self.told = None

    def compare(self, height):
        """Ends the program where the source has the server's newest block at this height, and the server told another one."""
        if self.source.knows_heights and self.server.height != height:
            both = f"at height {self.server.height}, and {self.source.name} at height {height}"
            self.block = self.server.tip
            self.told = f"the server has block {shown(self.block)} {both}: its files were made with another HEIGHT; make them anew"
            raise Stop(Status.OTHER_CHAIN, self.told)

    def look_again(self):
        """Ends it again where the server still stands on that block, and not as on the base of files that were made anew."""
        if self.block is not None and self.block == self.server.tip and not self.server.is_on_base():
            raise Stop(Status.OTHER_CHAIN, self.told)
        self.block = self.told = None
