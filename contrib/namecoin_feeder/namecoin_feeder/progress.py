"""How far the server is: a line that changes on a terminal, and otherwise a line every ten seconds."""
import collections
import contextlib
import time

ON_TERMINAL, ELSEWHERE = 0.1, 10.0
# A line is cut behind so many characters: what a node says stands in some.
MOST_SAID = 600
# The speed is that of so many seconds.
SPAN = 10.0


class Progress:
    # The program, and what it counts.
    name, unit = "namecoin_feeder", "blocks"

    def __init__(self, out, clock=time.monotonic):
        # None where the program was started without a standard error: then nothing is told.
        self.out, self.clock = out, clock
        self.is_terminal = out is not None and out.isatty()
        self.every = ON_TERMINAL if self.is_terminal else ELSEWHERE
        self.last = self.clock()
        # Moments with the heights that stood then; and the line that isn't told yet.
        self.heights, self.owed = collections.deque(), None

    def say(self, text):
        """A line for itself. What isn't to be printed, as in an odd node's words, is replaced, so that it is one line."""
        text = "".join(it if it.isprintable() else "?" for it in text[:MOST_SAID]) + (".." if len(text) > MOST_SAID else "")
        self.write(("\r\x1b[K" if self.is_terminal else "") + f"{self.name}: {text}\n")

    def write(self, text):
        """Writes to the log. What can't be logged is let go: a full disk or a reader that has gone ends nobody's work."""
        if self.out is not None:
            with contextlib.suppress(OSError, ValueError):
                self.out.write(text)
                self.out.flush()

    def at(self, height, top):
        """The server stands at a height, of the source's."""
        now = self.clock()
        self.heights.append((now, height))
        while len(self.heights) > 2 and self.heights[0][0] < now - SPAN:
            self.heights.popleft()
        self.owed = (height, top)
        self.tell(now)

    def rests(self):
        """Nothing comes for a while, which isn't to count for the speed behind it."""
        self.heights.clear()

    def is_level(self, height):
        """The server stands at the source's tip."""
        if self.owed is not None:
            self.owed = (height, height)
        self.rests()
        self.tell(self.clock())

    def tell(self, now):
        if self.owed is None or now - self.last < self.every:
            return
        text = self.line(*self.owed)
        if self.is_terminal:
            self.write(f"\r{text}\x1b[K")
        else:
            self.say(text)
        self.last, self.owed = now, None

    def end(self):
        """Tells what isn't told yet, and ends the terminal's line."""
        if self.owed is not None:
            self.say(self.line(*self.owed))
        elif self.is_terminal:
            self.write("\n")
        self.owed = None

    def line(self, height, top):
        if height >= top:
            return f"height {height}, the tip"
        return f"height {height} of {top}" + self.speed(height, top)

    def speed(self, height, top):
        """Blocks a second, and the time that is left at that speed."""
        if not self.heights:
            return ""
        moment, below = self.heights[0]
        seconds = self.heights[-1][0] - moment
        if seconds <= 0 or height <= below:
            return ""
        speed = (height - below) / seconds
        told = f"{speed:.3g}" if speed < 1000 else f"{speed:.0f}"
        return f", {told} {self.unit}/s, {spoken((top - height) / speed)} left"


def spoken(seconds):
    """A time in its two greatest units."""
    seconds = round(seconds)
    for size, unit, below, part in ((86400, "d", 3600, "h"), (3600, "h", 60, "min"), (60, "min", 1, "s")):
        if seconds >= size:
            return f"{seconds // size} {unit} {seconds % size // below} {part}"
    return f"{seconds} s"
