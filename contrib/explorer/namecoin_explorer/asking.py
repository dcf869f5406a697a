"""The one thread that asks the program: frames strictly one after the other, those of blocks between those of readers.

Behind each frame of the follower comes what is asked between, as a slice of a save, then all readers' jobs that wait are done, of each
user a few; and behind these the next frame of the follower. So a reader's job waits for one frame of a block and one slice at most, and
blocks wait for a bounded number of jobs.
"""
import collections
import threading
import time
import typing

from namecoin_feeder.replies import ACCEPTED
from namecoin_feeder.server import CONNECT, DISCONNECT

from .statuses import Over

# So many jobs of a user are done between two frames of the follower.
SHARE = 4
# Where more jobs than this wait, those that were dropped meanwhile are let go of: there are fewer connections than that.
MOST_JOBS = 128
# A record in the program's files has so many bytes more than the frame of its command.
AROUND = 1


class Tip(typing.NamedTuple):
    height: int
    hash: bytes


class Job:
    """What is done on the asking thread for a reader; `give` gets what comes of it."""

    def __init__(self, user, work, give):
        self.user, self.work, self.give = user, work, give
        self.is_dropped = False


class Asker:
    """`begin` is called with this object on the thread before all else and tells the tip; `between` in each round, and gives the
    seconds until it wants to be called again, or None; and `changed` behind each block that came or left, with its frame and the tip.
    The tip is None as long as there is no program to be asked."""

    def __init__(self, program, begin, between, fails, changed=None, clock=time.monotonic):
        self.program, self.begin, self.between, self.fails, self.clock = program, begin, between, fails, clock
        self.changed = changed
        self.condition = threading.Condition()
        self.jobs = collections.deque()
        # The follower's frame, and its reply or what came in its place.
        self.frame = self.told = None
        self.is_woken = False
        self.is_over, self.tip = False, None
        # How many blocks have come and left, and what their frames take of the program's files.
        self.commands = self.command_bytes = 0
        self.thread = threading.Thread(target=self.run, name="asking", daemon=True)

    def start(self):
        self.thread.start()

    def end(self, seconds):
        """Has the thread end behind the frame that it asks; and then the program. Whether it did within so many seconds."""
        with self.condition:
            self.is_over = True
            self.condition.notify_all()
        self.thread.join(seconds)
        return not self.thread.is_alive()

    # Of other threads

    def add(self, job):
        with self.condition:
            self.jobs.append(job)
            if len(self.jobs) > MOST_JOBS:
                self.jobs = collections.deque(it for it in self.jobs if not it.is_dropped)
            self.condition.notify_all()

    def wake(self):
        """There may be something to be asked between."""
        with self.condition:
            self.is_woken = True
            self.condition.notify_all()

    def ask_for_follower(self, frame):
        """The reply to a frame of the follower, who waits for it."""
        with self.condition:
            self.frame, self.told = frame, None
            self.condition.notify_all()
            while self.told is None:
                if self.is_over:
                    raise Over
                self.condition.wait()
            return self.told

    # Of the asking thread

    def ask(self, frame):
        """The reply to a frame. What it tells of the tip is kept."""
        reply = self.program.ask(frame)
        if frame[:1] in (CONNECT, DISCONNECT) and reply.code == ACCEPTED and len(reply.payload) == 36:
            self.tip = Tip(reply.number, reply.payload[4:])
            self.commands, self.command_bytes = self.commands + 1, self.command_bytes + AROUND + len(frame)
            if self.changed:
                self.changed(frame, self.tip)
        return reply

    def run(self):
        try:
            self.tip = self.begin(self)
            while self.round():
                pass
        except BaseException as fault:
            self.fails(fault)
        finally:
            with self.condition:
                self.is_over = True
                self.condition.notify_all()

    def round(self):
        """The jobs that wait, and then a frame of the follower's; False where it is over."""
        seconds = self.between()
        with self.condition:
            until = None if seconds is None else self.clock() + seconds
            while not (self.jobs or self.frame or self.is_over or self.is_woken):
                if not self.condition.wait(None if until is None else max(0.0, until - self.clock())):
                    break
            if self.is_over:
                return False
            self.is_woken = False
            jobs = self.batch()
        self.do(jobs)
        if self.frame is not None:
            told = self.ask(self.frame)
            with self.condition:
                self.frame, self.told = None, told
                self.condition.notify_all()
        return True

    def serve(self):
        """Does the jobs that wait while the program takes its time; they find no tip, and ask it nothing."""
        with self.condition:
            if self.is_over:
                raise Over
            jobs = self.batch()
        self.do(jobs)

    def do(self, jobs):
        for job in jobs:
            if not job.is_dropped:
                job.give(job.work())

    def batch(self):
        """The jobs of this round, in the order of their coming: of each user a few."""
        counts, taken, left = collections.Counter(), [], collections.deque()
        for job in self.jobs:
            if job.is_dropped:
                continue
            counts[job.user] += 1
            (taken if counts[job.user] <= SHARE else left).append(job)
        self.jobs = left
        return taken
