"""The words, what is made of them, and the exit status."""
import argparse
import contextlib
import os
import pathlib
import re
import shlex
import signal
import sys

from namecoin_feeder.blocks import shown
from namecoin_feeder.command_line import PASSWORD, credentials, held_interrupts, interrupt, some_seconds, url
from namecoin_feeder.node import Node
from namecoin_feeder.troubles import Stop, Trouble

from . import __version__
from .files import placed
from .makes import Makes, Unfit, is_odd_commitment, make_of
from .name_scripts import pushes_of
from .profiles import MOST_HEIGHT, PROFILES
from .progress import Progress
from .statuses import INTERRUPTED, Status
from .unspent import BadFile, Unspent

PROGRAM = "bridge_server"
# A host text with a final dot, and its length without that of the root: 244 bytes on the wire at most.
HOST, MOST_HOST = re.compile(r"([A-Za-z0-9_-]{1,63}\.)+"), 243
DIGITS = re.compile("0|[1-9][0-9]{0,9}")
# A commitment is opened behind so many blocks too; a branch that is deeper is no usual one.
CONFIRMATIONS = 12

EPILOG = """\
exit statuses:
  0    the snapshot is in its place, and the words to begin with it are printed
  2    the words are wrong, a file that they name can't be read, or what stands in the snapshot's place is no file
  3    the file isn't one that a node of this network writes: the place and what is wrong there are told
  4    two outputs that aren't expired have one name: both are told
  5    the node refuses the name and the password, doesn't know the base or gives no good answer
  6    the snapshot can't be written, or its line can't be printed
  7    the base has fewer blocks above it than --confirmations asks for: what to do is told
  130  interrupted
With 2 to 5 and with 7 what stood in the snapshot's place stands there as before; with 6 and 130 it does, or all of the new one.
"""


def height(text):
    if not DIGITS.fullmatch(text) or int(text) > MOST_HEIGHT:
        raise ValueError
    return int(text)


def host(text):
    if not HOST.fullmatch(text) or len(text) > MOST_HOST:
        raise ValueError
    return text


def words():
    layout = {"prog": "namecoin-snapshot", "formatter_class": argparse.RawDescriptionHelpFormatter, "epilog": EPILOG}
    about = "Makes a snapshot of names from the file of a Namecoin Core node's unspent outputs (dumptxoutset)."
    parser = argparse.ArgumentParser(description=about, **layout)
    parser.add_argument("profile", metavar="PROFILE", choices=sorted(PROFILES), help="the rules: " + " or ".join(sorted(PROFILES)))
    parser.add_argument("file", metavar="FILE", type=pathlib.Path, help="what the node's dumptxoutset wrote")
    parser.add_argument("snapshot", metavar="SNAPSHOT", type=pathlib.Path, help="the snapshot that is to be made")
    text = "the name server that bit gets, with a final dot; for the line that is printed"
    parser.add_argument("--host", metavar="HOST", type=host, required=True, help=text)
    parser.add_argument("--program", default=PROGRAM, help="the program's name in that line (%(default)s)")
    add_node(parser.add_argument_group("where the height of the base is asked for"))
    parser.add_argument("--version", action="version", version=f"%(prog)s {__version__}")
    return parser


def add_node(group):
    files = {"metavar": "FILE", "type": pathlib.Path}
    one = group.add_mutually_exclusive_group()
    one.add_argument("--height", metavar="N", type=height, help="the height itself: no node is asked then")
    nodes, cookies = (" or ".join(getattr(it, part) for it in PROFILES.values()) for part in ("node", "cookie"))
    one.add_argument("--node", metavar="URL", type=url, help=f"the node's JSON-RPC ({nodes})")
    text = "take no base that has fewer: itself and the blocks above it (%(default)s)"
    group.add_argument("--confirmations", metavar="N", type=height, default=CONFIRMATIONS, help=text)
    group.add_argument("--cookie", help=f"the node's cookie ({cookies})", **files)
    group.add_argument("--user", metavar="NAME", help="a name in place of the cookie, with its password")
    group.add_argument("--password-file", help=f"its first line is the password; without it the variable {PASSWORD} is", **files)
    group.add_argument("--timeout", metavar="SECONDS", default=60, type=some_seconds, help="wait so long for an answer (%(default)s)")


def asked(given, profile, base):
    """The height of the base, as a node tells it, where it may be taken yet."""
    cookie = given.cookie or pathlib.Path(profile.cookie)
    node = Node(given.node or profile.node, credentials(argparse.Namespace(**{**vars(given), "cookie": cookie})), given.timeout)
    try:
        header = node.header(base)
    except Trouble as trouble:
        raise Stop(Status.NODE, str(trouble)) from None
    finally:
        node.close()
    if header is None or header.height < 0:
        raise Stop(Status.NODE, f"the node doesn't know the base, {shown(base)}")
    if not header.is_on_chain:
        raise Stop(Status.NODE, f"the base, {shown(base)}, isn't on the node's best chain")
    check_age(header, given)
    return header.height


def check_age(header, given):
    """Ends where the base has too few confirmations: no block below a base can be taken off, so it has to stay."""
    left = given.confirmations - header.confirmations
    if left > 0:
        few = f"the base, of height {header.height}, has {header.confirmations} of {given.confirmations} confirmations (--confirmations)"
        wait = f"run this again in {left} blocks"
        earlier = max(0, header.height - left)
        command = f"namecoin-cli -rpcclienttimeout=0 -named dumptxoutset path={shlex.quote(given.file.name)} rollback={earlier}"
        raise Stop(Status.YOUNG, f"{few}: {wait}, or have a node from Core 28 on make its file at an earlier block: {command}")


def opened(path):
    try:
        return open(path, "rb", 0)
    except OSError as fault:
        raise Stop(Status.WORDS, f"{path} can't be read: {fault.strerror}") from None


def check_place(snapshot, file):
    """The snapshot takes the place of no file but an older snapshot's, nor of the one that is read."""
    if not snapshot.parent.is_dir():
        raise Stop(Status.WORDS, f"{snapshot.parent} is no folder")
    if snapshot.exists() and not snapshot.is_file():
        raise Stop(Status.WORDS, f"{snapshot} is no file")
    if snapshot.exists() and os.path.samestat(snapshot.stat(), os.fstat(file.fileno())):
        raise Stop(Status.WORDS, f"{snapshot} is the file that is read")


def run(given, progress):
    """Makes the snapshot. The height and the hash of its base."""
    profile = PROFILES[given.profile]
    with opened(given.file) as file:
        check_place(given.snapshot, file)
        unspent = Unspent(given.file, file)
        base = unspent.read_head(profile.magic).base
        height = asked(given, profile, base) if given.height is None else given.height
        try:
            with contextlib.closing(Makes(given.snapshot.parent)) as makes:
                fill(makes, unspent, profile, height, progress)
                makes.put_in_order()
                with placed(given.snapshot) as out:
                    makes.write(out)
        except Unfit as fault:
            raise BadFile(given.file, fault.at, fault.text) from None
        except OSError as fault:
            raise Stop(Status.WRITING, f"{given.snapshot} can't be written: {fault.strerror}") from None
    return height, base


class LeftOut:
    """How many outputs with a name script aren't taken, by the reason."""

    def __init__(self):
        self.expired = self.coinbases = self.odd = 0

    def leaves(self, output, pushes, last):
        """Whether an output is left out, whatever its form: no rule looks at a coinbase (docs/RULES.md), so what it makes is no name; a
        name of a height up to the last one is expired; and a commitment of another size can't be opened."""
        is_commitment = len(pushes) == 1
        self.coinbases += output.is_of_coinbase
        is_expired = not output.is_of_coinbase and not is_commitment and output.height <= last
        is_odd = not output.is_of_coinbase and is_commitment and is_odd_commitment(pushes)
        self.expired, self.odd = self.expired + is_expired, self.odd + is_odd
        return output.is_of_coinbase or is_expired or is_odd

    def __str__(self):
        names = f"{self.expired} names that are expired, {self.odd} commitments that have another size than 20 bytes"
        return f"{names}, and {self.coinbases} outputs of coinbases with a name script"


def fill(makes, unspent, profile, height, progress):
    """Takes the names and the commitments of all outputs, and tells how many there were."""
    count, left_out = unspent.head.count, LeftOut()
    last = profile.last_expired(height + 1)
    for output in unspent.outputs(height, lambda read: progress.at(read, count)):
        pushes = pushes_of(output.script)
        if pushes is not None and not left_out.leaves(output, pushes, last):
            makes.add(output, make_of(output, pushes), None if len(pushes) == 1 else pushes[0])
    progress.at(count, count)
    progress.end()
    taken = f"{len(makes.hashes)} names and {len(makes.keys) - len(makes.hashes)} commitments are taken"
    progress.say(f"{taken}; left out are {left_out}")


def told(given, height, base):
    """The line by which the program begins with the snapshot."""
    words = [given.program, "init-from", given.profile, str(height), shown(base), given.host]
    return f"{shlex.join(words)} < {shlex.quote(str(given.snapshot))}"


@contextlib.contextmanager
def ended_by_signals():
    """Within it an interrupt and SIGTERM end what is within, so that nothing is left of a snapshot that isn't whole."""
    before = signal.getsignal(signal.SIGTERM)
    with held_interrupts():
        if before is signal.SIG_DFL:
            for number in (signal.SIGALRM, signal.SIGTERM):
                signal.signal(number, interrupt)
        try:
            yield
        finally:
            signal.signal(signal.SIGTERM, before)


def main(arguments=None):
    given = words().parse_args(arguments)
    progress = Progress(sys.stderr)
    try:
        with ended_by_signals():
            print(told(given, *run(given, progress)), flush=True)
    except Stop as stop:
        progress.say(str(stop))
        return int(stop.status)
    except OSError as fault:
        progress.say(f"the snapshot is made, and its line can't be printed: {fault.strerror}")
        return int(Status.WRITING)
    except KeyboardInterrupt:
        return INTERRUPTED
    return int(Status.DONE)


def command():
    """The program where it is one file."""
    sys.exit(main())
