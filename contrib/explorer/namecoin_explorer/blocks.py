"""What a block does to names: the operations of its transactions, as docs/FORMATS.md has blocks and name scripts.

The program has taken the block, so it is well formed, and each of its transactions of the version of names has one name output.
"""
from namecoin_snapshot.name_scripts import NEW, pushes_of

HEADER, MERGED, VERSION = 80, 0x100, b"\x00\x71\x00\x00"
# The bytes of a compact size behind its first.
WIDTHS = {0xFD: 2, 0xFE: 4, 0xFF: 8}


class Reader:
    def __init__(self, text):
        self.text, self.at = text, 0

    def take(self, length):
        self.at += length
        if self.at > len(self.text):
            raise ValueError("a block is cut")
        return self.text[self.at - length : self.at]

    def size(self):
        first = self.take(1)[0]
        return first if first not in WIDTHS else int.from_bytes(self.take(WIDTHS[first]), "little")

    def header(self):
        """Skips the header, and what proves the work of one that was mined beside another chain's."""
        version = int.from_bytes(self.take(HEADER)[:4], "little")
        if version & MERGED:
            self.transaction()
            self.take(32)
            for _ in range(2):
                self.take(32 * self.size() + 4)
            self.take(HEADER)

    def transaction(self):
        """The version of a transaction, and the scripts of its outputs."""
        version, is_flagged = self.take(4), self.text[self.at : self.at + 1] == b"\0"
        if is_flagged:
            self.take(2)
        inputs = self.size()
        for _ in range(inputs):
            self.take(36)
            self.take(self.size() + 4)
        scripts = [self.output() for _ in range(self.size())]
        for _ in range(inputs if is_flagged else 0):
            self.witness()
        self.take(4)
        return version, scripts

    def output(self):
        self.take(8)
        return self.take(self.size())

    def witness(self):
        for _ in range(self.size()):
            self.take(self.size())


def operations_of(block):
    """The openings and updates of names in a block, in their order: each its kind, the name and its value."""
    if VERSION not in block:
        return []
    reader = Reader(block)
    reader.header()
    found = []
    for number in range(reader.size()):
        version, scripts = reader.transaction()
        # No rule looks at the first one, the coinbase.
        if number and version == VERSION:
            found += operations_in(scripts)
    return found


def operations_in(scripts):
    for script in scripts:
        pushes = pushes_of(script)
        if pushes and script[0] != NEW:
            yield script[0], pushes[0], pushes[-1]
