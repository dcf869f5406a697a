"""How much stands above the server's base: each update of a name stays in its files and its memory, until a new snapshot forgets it."""

# Two years of a chain with a block every ten minutes.
WARN_ABOVE = 105_000
# It is told again so many seconds later.
AGAIN = 86_400.0


class Growth:
    """`most` is the number of blocks above the base from which on it is told; 0 is never."""

    def __init__(self, most, base, say, clock):
        self.most, self.base, self.say, self.clock = most, base, say, clock
        self.due = clock()

    def is_at(self, height):
        """The server stands at the source's tip, of this height."""
        above = height - self.base
        if not self.most or above < self.most or self.clock() < self.due:
            return
        self.due = self.clock() + AGAIN
        what = f"{above} blocks stand above the base, and what they did to names stays in the server's files and memory"
        self.say(f"{what}: a new snapshot forgets it (docs/KEEPING.md, Beginning anew)")
