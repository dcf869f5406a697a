"""The cases of checks/data/answers.tsv and answers_with_opt.tsv: names with their values and what is asked of them; and chains
that serve names.

A row 'case' begins a table of names: a number, the host of the zone as a text, and the serial. Rows 'name' have a name and its
value, rows 'query' and 'datagram' a message that comes in a datagram and its reply, or 'drop', and rows 'stream' the same over a
stream. The chain has thirteen blocks: the names are committed to in the first and opened in the last, whose height is the
serial. No chain opens a name lower: there the serial of the reply is read as that height.
"""
import contextlib
import re
import struct
import typing

from answers_model import TIMES
from common import DATA, Run, bytes_of, empty_folder, pieces, run_in
from served import server_in

from blocks import FIRST, NEW, QUERY, Chain, frame, name_script, named, outpoint
from digests import double_sha256, hash160
from name_chains import MATURITY, connect, elsewhere, salt_of

OPENED = MATURITY + 1
TABLES = ("answers.tsv", "answers_with_opt.tsv")
DROPPED = b"\x08" + bytes(4)
# What stands behind the serial in the zone's SOA record.
BEHIND_SERIAL = struct.pack(">IIII", *TIMES)


class Case(typing.NamedTuple):
    """A table of names, with the messages that come in datagrams and over streams, each with its reply."""

    number: str
    host: str
    serial: int
    names: list
    queries: list
    streams: list = ()

    def base(self):
        """The height of the base of its chain."""
        return max(self.serial - OPENED, 0)

    def tip(self):
        return self.base() + OPENED

    def reply(self, text):
        """The reply of a row with the height of the tip as the serial; None where it is 'drop'."""
        if text == "drop":
            return None
        return re.sub(b"(?s)....(?=" + re.escape(BEHIND_SERIAL) + b")", struct.pack(">I", self.tip()), bytes_of(text))


class Frames:
    """Keeps the frames that a chain writes."""

    def __init__(self):
        self.text = b""

    def write(self, text):
        self.text += text
        return len(text)


def cases(tables=TABLES):
    found = []
    for line in (line for table in tables for line in (DATA / table).read_text().splitlines()):
        kind, *words = line.split("\t")
        if kind == "case":
            found.append(Case(words[0], bytes_of(words[1]).decode("ascii"), int(words[2]), [], [], []))
        elif kind == "name":
            found[-1].names.append(tuple(map(bytes_of, words)))
        elif kind in ("query", "datagram"):
            found[-1].queries.append(tuple(words))
        elif kind == "stream":
            found[-1].streams.append(tuple(words))
    return found


def blocks_of(names, base):
    """The frames of the blocks that open names, pairs with their values, on a base of this height."""
    out = Frames()
    chain = Chain(out)
    chain.height = base
    commitments = [
        named(elsewhere(number), name_script(NEW, hash160(salt_of(number) + name))) for number, (name, _) in enumerate(names)
    ]
    openings = [
        named(outpoint(double_sha256(commitment)), name_script(FIRST, name, salt_of(number), value))
        for number, (commitment, (name, value)) in enumerate(zip(commitments, names))
    ]
    for transactions in [commitments] + [[]] * (MATURITY - 1) + [openings]:
        connect(chain, transactions)
    return out.text


def as_frame(reply):
    """The reply of the feed to a query that has this reply."""
    return DROPPED if reply is None else frame(b"\x00", reply)


@contextlib.contextmanager
def files_of_case(tally, case):
    """A folder with the files of the case's base."""
    with empty_folder() as folder:
        made = run_in(folder, ["init", "regtest", str(case.base()), "0" * 64, case.host], b"")
        tally.same(f"files of case {case.number}", made, Run(b"", 0, ""))
        yield folder


def asked(tally, case, messages):
    """The replies of the program to messages, as frames, where its chain serves the names of the case."""
    with files_of_case(tally, case) as folder:
        questions = b"".join(frame(QUERY, message) for message in messages)
        run = run_in(folder, ["replay"], blocks_of(case.names, case.base()) + questions)
    replies = pieces(run.output)
    tally.same(f"case {case.number}", (run.status, run.line), (0, ""))
    tally.same(f"blocks of case {case.number}", [reply[0] for reply in replies[:OPENED]], [0] * OPENED)
    return replies[OPENED:]


@contextlib.contextmanager
def serving_case(tally, case):
    """A server whose chain serves the names of the case."""
    with files_of_case(tally, case) as folder, server_in(folder) as server:
        with server.feeds() as feed:
            feed.say(blocks_of(case.names, case.base()))
            codes = [reply[:1] for reply in feed.replies(OPENED)]
        tally.same(f"blocks of case {case.number}, served", codes, [b"\0"] * OPENED)
        yield server
