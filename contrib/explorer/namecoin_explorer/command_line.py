"""The words, what is made of them, and the exit status."""
import argparse
import contextlib
import os
import pathlib
import queue
import shlex
import signal
import sys
import threading
import time
import traceback

from namecoin_feeder.command_line import SHORTEST_PAUSE, add_following, add_node, count, credentials, port, seconds, some_seconds
from namecoin_feeder.following import Choices
from namecoin_feeder.measures import HERE
from namecoin_feeder.node import Node
from namecoin_feeder.progress import Progress
from namecoin_feeder.saves import EVERY
from namecoin_feeder.troubles import Stop, Trouble

from . import __version__
from .asking import Asker
from .feeding import Following, News, ProgramFeed, sleeper
from .front import Front
from .keeping import FILE, Keeper, is_foreign
from .layout import refusal
from .listings import Listings
from .program import Program, ProgramEnded
from .saving import Saving
from .site import Site, tip_of
from .statuses import INTERRUPTED, Over, Status

PROGRAM, ROWS, PORT, IDLE, AGAIN = "jaqhumpi", 25, 5380, 600, 600
MOST_ROWS = 50
# Seconds for the threads to end, each in turn: a frame of a block may be under way.
ENDING = 10.0
# Faults of pages that are told in full.
MOST_FAULTS = 10

EPILOG = """\
exit statuses:
  0    ended by SIGTERM
  2    the words are wrong, a file that they name can't be read, the program can't be started, or the port can't be had
  3    the program refuses a block, and --again is 0
  4    the program's blocks aren't those of the node's best chain, and may not be taken off, and --again is 0
  5    the node refuses the name and the password, or has pruned a block, and --again is 0
  6    what the program answers isn't what one answers that knows `list`
  7    the program has ended: its status and its line are told
  130  interrupted from the terminal
Whenever it ends, the program is ended by the end of its input, and its files stand at a whole block.
"""


class Log(Progress):
    """The feeder's lines, said by several threads."""

    name = "namecoin_explorer"

    def __init__(self, out):
        super().__init__(out)
        self.lock = threading.RLock()

    def say(self, text):
        with self.lock, contextlib.suppress(OSError):
            # A line that can't be told is let go of: nothing ends for it.
            super().say(text)

    def tell(self, now):
        with self.lock, contextlib.suppress(OSError):
            super().tell(now)


def rows(text):
    value = int(text)
    if not 1 <= value <= MOST_ROWS or str(value) != text:
        raise ValueError
    return value


def program(text):
    first, *words = shlex.split(text) or [""]
    if not first:
        raise ValueError
    # It is started in the folder of its files, and meant from here.
    return [os.path.abspath(first) if os.sep in first else first, *words]


def words():
    layout = {"prog": "namecoin-explorer", "formatter_class": argparse.RawDescriptionHelpFormatter, "epilog": EPILOG}
    about = "Shows the names of a Namecoin chain as pages on this machine, over a Jaqhumpi program of its own."
    parser = argparse.ArgumentParser(description=about, **layout)
    group = parser.add_argument_group("what is shown, and where")
    group.add_argument("--port", default=PORT, type=port, help=f"the port of {HERE} at which the pages are read (%(default)s)")
    group.add_argument("--rows", default=ROWS, type=rows, help="names on a page, 1 to 50 (%(default)s)")
    text = "close a listing that was unused for so long (%(default)s)"
    group.add_argument("--idle", metavar="SECONDS", default=IDLE, type=some_seconds, help=text)
    group = parser.add_argument_group("the program that keeps the names")
    text = "the folder with its files, which `init` or `init-from` made (%(default)s)"
    group.add_argument("--folder", metavar="FOLDER", default=".", type=pathlib.Path, help=text)
    text = "the words that start it, as a shell takes them; `list` and the number of rows follow (%(default)s)"
    group.add_argument("--program", metavar="WORDS", default=PROGRAM, type=program, help=text)
    text = f"where names are looked up: a file of SQLite, made anew at each start ({FILE} in that folder)"
    group.add_argument("--names", metavar="FILE", type=pathlib.Path, help=text)
    add_node(parser.add_argument_group("where blocks come from"))
    group = parser.add_argument_group("how")
    add_following(group)
    text = "have the program save its index behind so many blocks, and once when it first stands at the tip; 0: never (%(default)s)"
    group.add_argument("--save-every", metavar="BLOCKS", default=EVERY, type=count, help=text)
    text = "behind a refused block, or what else holds the following up, try again so much later; 0: end (%(default)s)"
    group.add_argument("--again", metavar="SECONDS", default=AGAIN, type=seconds, help=text)
    parser.add_argument("--version", action="version", version=f"%(prog)s {__version__}")
    return parser


class Explorer:
    """All parts, and what ends them: the first of the events that one of them, or a signal, tells."""

    def __init__(self, given, log):
        self.given, self.log = given, log
        self.events, self.ending = queue.SimpleQueue(), threading.Event()
        self.node = Node(given.node, credentials(given), given.timeout)
        self.front = self.asker = self.follower = None
        self.faults = 0

    def open(self):
        given = self.given
        if given.names and is_foreign(given.names):
            raise Stop(Status.WORDS, f"{given.names} is there, and is no file of names: it isn't touched")
        self.listings = Listings(given.rows, given.idle)
        # The port first: where it can't be had, nothing else is begun.
        self.front = Front(given.port, self.answer, None, self.log.say)
        self.keeper = Keeper(given.program, given.folder, given.names or given.folder / FILE, self.log.say)
        self.asker = self.front.asker = Asker(None, self.begins, self.between, self.fails, self.keeper.changed)
        self.saving = Saving(given.save_every, given.folder, self.log.say)
        self.site = Site(self.asker, self.listings, self.keeper, self.saving, self.news, self.node_height, self.log.say)
        self.front.start(self.fails)
        self.asker.start()

    def answer(self, request):
        try:
            return self.site.answer(request)
        except (Stop, ProgramEnded, Over):
            raise
        except Exception as fault:
            # One page that can't be made takes no other with it.
            self.faults += 1
            if self.faults <= MOST_FAULTS:
                traceback.print_exception(type(fault), fault, fault.__traceback__)
            return refusal(500, "This page can't be made, which is a fault of the explorer's: its log has more.")

    def news(self):
        return self.follower.news if self.follower else News()

    def node_height(self):
        return self.follower.measures.node_height if self.follower else None

    def fails(self, fault):
        self.events.put(fault)

    # On the asking thread

    def begins(self, asker):
        tip = self.opens(asker)
        where = f"the pages are at http://{HERE}:{self.front.port}/"
        self.log.say(f"{where}; the tip is at height {tip.height}; {self.given.folder.absolute()} has the files")
        threading.Thread(target=self.follow, name="following", daemon=True).start()
        return tip

    def opens(self, asker):
        """Has all names read, and the program started as soon as it may; pages are served meanwhile. The tip."""
        self.keeper.read(asker.serve, self.start_program)
        if asker.program is None:
            self.start_program()
        asker.program.meanwhile = asker.serve
        tip = tip_of(asker)
        asker.program.meanwhile = None
        self.keeper.compare(tip)
        return tip

    def start_program(self):
        self.asker.program = Program(self.given.program, self.given.rows, self.given.folder)

    def between(self):
        if self.keeper.is_wanted():
            self.begin_anew()
        times = [self.listings.close_idle(self.asker.ask), self.saving.turn(self.asker), self.keeper.turn()]
        return min((it for it in times if it is not None), default=None)

    def begin_anew(self):
        """Has the names read anew, for which the program has to let go of its files: its listings and a save that runs are gone by that."""
        self.log.say("the names are read anew: listings are closed, and the program is started anew behind that")
        self.listings.forget()
        self.saving.forget()
        self.asker.tip = None
        self.asker.program.close()
        self.asker.program = None
        self.asker.tip = self.opens(self.asker)

    # On the following thread

    def follow(self):
        given = self.given
        pauses = (min(SHORTEST_PAUSE, given.longest_pause), given.longest_pause, 0)
        # No whole saves: those in slices aren't the follower's.
        choices = Choices(False, given.every, given.deepest, given.base, given.unknown, given.again, 0)
        feed, sleep = ProgramFeed(self.asker.ask_for_follower), sleeper(self.ending)
        try:
            self.follower = Following(self.node, feed, pauses, self.log, choices, time.monotonic, sleep, self.at_tip)
            self.follower.follow()
        except BaseException as fault:
            self.fails(fault)

    def at_tip(self):
        if not self.saving.is_at_tip:
            self.saving.is_at_tip = True
            self.asker.wake()

    # On the main thread

    def run(self):
        """The status."""
        for number in (signal.SIGTERM, signal.SIGINT):
            signal.signal(number, lambda number, _: self.events.put(number))
        self.open()
        return self.status_of(self.events.get())

    def status_of(self, event):
        if isinstance(event, signal.Signals) or isinstance(event, int):
            return INTERRUPTED if event == signal.SIGINT else int(Status.DONE)
        if isinstance(event, (Stop, Trouble)):
            self.log.say(str(event))
            return int(event.status)
        if isinstance(event, ProgramEnded):
            self.log.say(str(event))
            return int(Status.PROGRAM)
        if not isinstance(event, Over):
            traceback.print_exception(type(event), event, event.__traceback__)
        return 1

    def close(self):
        self.ending.set()
        for number in (signal.SIGTERM, signal.SIGINT):
            # A second one doesn't wait for the program.
            signal.signal(number, signal.SIG_DFL)
        if self.front is not None:
            self.front.end(ENDING)
        if self.asker is not None:
            self.end_program()
        self.node.close()
        self.log.end()


    def end_program(self):
        is_ended = self.asker.end(ENDING)
        if not is_ended and self.asker.program is not None:
            self.log.say("the program hasn't answered its last frame: it is killed")
            self.asker.program.run.kill()
            is_ended = self.asker.end(ENDING)
        if self.asker.program is not None:
            self.asker.program.close()
        if is_ended:
            self.keeper.close()


def main(arguments=None):
    given = words().parse_args(arguments)
    log = Log(sys.stderr)
    explorer = None
    try:
        explorer = Explorer(given, log)
        return explorer.run()
    except Stop as stop:
        log.say(str(stop))
        return int(stop.status)
    finally:
        if explorer is not None:
            explorer.close()


def command():
    """The program where it is one file."""
    sys.exit(main())
