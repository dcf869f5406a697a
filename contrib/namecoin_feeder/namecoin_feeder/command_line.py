"""The words, what is made of them, and the exit status."""
import argparse
import contextlib
import os
import pathlib
import signal
import sys
import urllib.parse

from . import __version__
from .block_files import BlockFiles
from .following import Choices, Follower
from .growth import WARN_ABOVE
from .http_calls import Cookie, Password
from .measures import Port
from .new_branch import HELD_BYTES
from .node import Node
from .pauses import Pauses
from .progress import Progress
from .saves import EVERY
from .server import Server
from .troubles import Status, Stop

NODE, SERVER = "http://127.0.0.1:18443/", "127.0.0.1:5301"
COOKIE = "~/.namecoin/regtest/.cookie"
PASSWORD = "NAMECOIN_RPC_PASSWORD"
SHORTEST_PAUSE, LONGEST_PAUSE = 0.5, 60.0
INTERRUPTED = 130
# Seconds until an interrupt comes again.
AGAIN = 0.2

EPILOG = """\
exit statuses:
  0    with --once or --blocks: the server stands at the tip of the best chain
  2    the words are wrong, a file that they name can't be read, or the port of --metrics can't be had
  3    the server refuses a block: its code, the rule's name, the block and the transaction are told
  4    the server's blocks aren't those of the best chain, and may not be taken off (--deepest, --base, --unknown, block files);
       or they stand at other heights than the node's, since the server's files were made with another HEIGHT
  5    the node refuses the name and the password, has pruned a block, or nothing went well for --patience
  6    what answers isn't the feed of a server, or it gave no good answer for --patience
  130  interrupted from the terminal
With --again none of 3 to 6 ends it. Whenever it ends, the server stands at a whole block, and the next run goes on from there.
"""


def seconds(text):
    value = float(text)
    if not 0 <= value < float("inf"):
        raise ValueError
    return value


def count(text):
    value = int(text)
    if value < 0:
        raise ValueError
    return value


def port(text):
    value = int(text)
    if not 0 < value < 65536:
        raise ValueError
    return value


def some_seconds(text):
    value = seconds(text)
    if not value:
        raise ValueError
    return value


def url(text):
    parts = urllib.parse.urlsplit(text)
    if parts.scheme != "http" or not parts.hostname or not parts.port or "@" in parts.netloc:
        raise ValueError
    return text


def address(text):
    host, _, number = text.rpartition(":")
    if not host:
        raise ValueError
    return host.strip("[]"), port(number)


def words():
    layout = {"prog": "namecoin-feeder", "formatter_class": argparse.RawDescriptionHelpFormatter, "epilog": EPILOG}
    about = "Keeps the feed of a Jaqhumpi server at the best chain of a Namecoin Core node."
    parser = argparse.ArgumentParser(description=about, **layout)
    add_source(parser.add_argument_group("where blocks come from"))
    server = parser.add_argument_group("where they go")
    server.add_argument("--server", metavar="HOST:PORT", type=address, default=SERVER, help="the server's feed (%(default)s)")
    add_ways(parser.add_argument_group("how"))
    parser.add_argument("--version", action="version", version=f"%(prog)s {__version__}")
    return parser


def add_source(group):
    add_node(group)
    text = "block files in place of a node: to their best chain, once"
    group.add_argument("--blocks", metavar="FILE", nargs="+", type=pathlib.Path, help=text)


def add_node(group):
    files = {"metavar": "FILE", "type": pathlib.Path}
    group.add_argument("--node", metavar="URL", type=url, default=NODE, help="the node's JSON-RPC (%(default)s)")
    group.add_argument("--cookie", default=COOKIE, help="the node's cookie (%(default)s)", **files)
    group.add_argument("--user", metavar="NAME", help="a name in place of the cookie, with its password")
    group.add_argument("--password-file", help=f"its first line is the password; without it the variable {PASSWORD} is", **files)


def add_ways(group):
    """How to follow."""
    group.add_argument("--once", action="store_true", help="end as soon as the server stands at the node's tip")
    add_following(group)
    times = {"metavar": "SECONDS", "type": seconds}
    text = "ask the server for a save behind so many blocks, and once when it first stands at the tip; 0: never (%(default)s)"
    group.add_argument("--save-every", metavar="BLOCKS", default=EVERY, type=count, help=text)
    text = "the server's folder, where it is on this machine: no save is asked for that its disk has no room for"
    group.add_argument("--files", metavar="FOLDER", type=pathlib.Path, help=text)
    text = "of a new branch hold so many bytes at most before blocks are taken off (%(default)s)"
    group.add_argument("--branch-bytes", metavar="BYTES", default=HELD_BYTES, type=count, help=text)
    text = "tell each day that a new snapshot would do good, where so many blocks stand above the base; 0: never (%(default)s)"
    group.add_argument("--warn-above", metavar="BLOCKS", default=WARN_ABOVE, type=count, help=text)
    text = "end where nothing went well for so long; 0: try for ever (%(default)s)"
    group.add_argument("--patience", default=0, help=text, **times)
    text = "behind a refused block, or what else would end it, try again so much later; 0: end (%(default)s)"
    group.add_argument("--again", default=0, help=text, **times)
    text = "tell figures in the text form of Prometheus at this port of 127.0.0.1, at /metrics"
    group.add_argument("--metrics", metavar="PORT", type=port, help=text)


def add_following(group):
    """How to follow a node on and on."""
    blocks, some_times = {"metavar": "BLOCKS", "type": count}, {"metavar": "SECONDS", "type": some_seconds}
    group.add_argument("--every", default=1, help="look for a new tip so often (%(default)s)", **some_times)
    group.add_argument("--deepest", default=1000, help="take no more blocks off in one reorganisation (%(default)s)", **blocks)
    text = "the height of the server's base: nothing is taken off for a fork below it (%(default)s)"
    group.add_argument("--base", metavar="HEIGHT", default=0, type=count, help=text)
    text = "take so many blocks off that the node doesn't know, though no fork is known then (%(default)s)"
    group.add_argument("--unknown", default=0, help=text, **blocks)
    text = "pauses between tries grow up to this (%(default)g)"
    group.add_argument("--longest-pause", default=LONGEST_PAUSE, help=text, **some_times)
    group.add_argument("--timeout", default=60, help="wait so long for an answer (%(default)s)", **some_times)


def credentials(given):
    if given.user is None:
        return Cookie(given.cookie.expanduser())
    if given.password_file is None:
        if PASSWORD not in os.environ:
            raise Stop(Status.WORDS, f"--user wants --password-file or the variable {PASSWORD}")
        return Password(given.user, os.environ[PASSWORD])
    return Password(given.user, password_of(given.password_file))


def password_of(path):
    try:
        password = path.read_text().partition("\n")[0]
    except (OSError, ValueError) as fault:
        raise Stop(Status.WORDS, f"{path} can't be read: {getattr(fault, 'strerror', None) or 'it is no text'}") from None
    if not password:
        raise Stop(Status.WORDS, f"{path} has an empty first line, where the password of the node is to stand")
    return password


def source(given):
    if given.blocks:
        return BlockFiles(given.blocks)
    return Node(given.node, credentials(given), given.timeout)


def run(given, progress):
    blocks = source(given)
    server = Server(given.server, given.timeout)
    pauses = Pauses(min(SHORTEST_PAUSE, given.longest_pause), given.longest_pause, given.patience, progress.say)
    again = 0 if blocks.is_fixed else given.again
    once = given.once or blocks.is_fixed
    choices = Choices(once, given.every, given.deepest, given.base, given.unknown, again, given.save_every)
    choices = choices._replace(branch_bytes=given.branch_bytes, warn_above=given.warn_above, files=given.files)
    follower = Follower(blocks, server, pauses, progress, choices)
    port = Port(given.metrics, follower.measures) if given.metrics else None
    try:
        follower.follow()
    finally:
        if port is not None:
            port.close()
        server.drop()
        blocks.close()
        progress.end()


def interrupt(*_):
    signal.setitimer(signal.ITIMER_REAL, AGAIN)
    raise KeyboardInterrupt


@contextlib.contextmanager
def held_interrupts():
    """Within it an interrupt comes again until it has ended what is within: Python drops what is raised where an object is let go of."""
    if signal.getsignal(signal.SIGINT) is signal.default_int_handler:
        signal.signal(signal.SIGALRM, interrupt)
        signal.signal(signal.SIGINT, interrupt)
    try:
        yield
    finally:
        signal.signal(signal.SIGALRM, signal.SIG_IGN)
        signal.setitimer(signal.ITIMER_REAL, 0)


def main(arguments=None):
    given = words().parse_args(arguments)
    progress = Progress(sys.stderr)
    try:
        with held_interrupts():
            run(given, progress)
    except Stop as stop:
        progress.say(str(stop))
        return int(stop.status)
    except KeyboardInterrupt:
        return INTERRUPTED
    return int(Status.DONE)


def command():
    """The program where it is one file."""
    sys.exit(main())
