"""Pauses that grow from one trouble to the next, and begin anew once something went well; and what is told of long waits."""
import time

from .progress import spoken
from .troubles import Denied, Status, Stop

# So often in a row a node may refuse the name and the password: it may just have written another cookie.
MOST_DENIALS = 5
# A wait is told at once, then so many seconds later, and then at intervals that double up to the second number.
FIRST_INTERVAL, LONGEST_INTERVAL = 60.0, 3600.0


class Pauses:
    """`patience` is the seconds after which a trouble that doesn't pass ends the program; 0 is none."""

    def __init__(self, shortest, longest, patience, say, clock=time.monotonic, sleep=time.sleep):
        self.shortest, self.longest, self.patience = shortest, longest, patience
        self.say, self.clock, self.sleep = say, clock, sleep
        self.passed()

    def passed(self):
        """Something went well."""
        self.next, self.since, self.denials = self.shortest, None, 0

    def bear(self, trouble):
        """Ends the program where the trouble has been there for too long."""
        now = self.clock()
        self.since = now if self.since is None else self.since
        if self.patience and now - self.since >= self.patience:
            raise Stop(trouble.status, f"{trouble}; nothing has gone well for {self.patience:g} seconds")

    def wait(self, trouble):
        """Waits before the next try; where it was tried long enough, the program ends."""
        self.denials = self.denials + 1 if isinstance(trouble, Denied) else 0
        if self.denials >= MOST_DENIALS:
            raise Stop(Status.NODE, str(trouble))
        self.bear(trouble)
        self.say(f"{trouble}; the next try is in {self.next:g} s")
        self.sleep(self.next)
        self.next = min(2 * self.next, self.longest)


class Waits:
    """Tells of a wait once, and then at growing intervals. Two waits that are less than an interval apart are one."""

    def __init__(self, say, clock=time.monotonic):
        self.say, self.clock = say, clock
        self.since = self.last = None
        self.due = self.interval = 0.0

    def tell(self, why):
        """To be called at each look at what is waited for."""
        now = self.clock()
        if self.last is None or now - self.last > FIRST_INTERVAL:
            self.since, self.due, self.interval = now, now, FIRST_INTERVAL
        self.last = now
        if now < self.due:
            return
        self.say(f"{why}: nothing is taken off" + (f"; so it has been for {spoken(now - self.since)}" if now > self.since else ""))
        self.due, self.interval = now + self.interval, min(2 * self.interval, LONGEST_INTERVAL)


class Calm:
    """How long to wait before the next reorganisation: the longer, the more of them there were in quick succession."""

    def __init__(self, shortest, longest, clock=time.monotonic):
        self.shortest, self.longest, self.clock = shortest, longest, clock
        self.pause, self.last = 0.0, None

    def left(self):
        """The seconds that are left before one may begin."""
        return 0.0 if self.last is None else max(0.0, self.last + self.pause - self.clock())

    def ended(self):
        """One has ended. The pause doubles, or begins anew where there was none for twice as long."""
        now = self.clock()
        is_quiet = self.last is None or now - self.last > 2 * max(self.pause, self.shortest)
        self.pause = self.shortest if is_quiet else min(2 * self.pause, self.longest)
        self.last = now
