"""Chains of names that are asked between their commands, by the frames of replays and at a server.

Each reply is that of the chain at its moment, by the models.
"""
import contextlib
import itertools
import sys

from answer_cases import as_frame
from answers_model import TCP, UDP, reply_to
from common import Run, made_folder, pieces, run_in, shown
from generated_chains import SPOILING, Stand, named
from name_chains import MATURITY, elsewhere
from served import Story, server_in

from blocks import CONNECT, DISCONNECT, FIRST, NEW, QUERY, SAVE, UPDATE, block_of, coinbase, frame, name_script
from digests import hash160

# A question that comes as a frame of the feed, which is answered as a datagram.
FEED = "feed"
SALT = b"salt"
# So many frames come in one replay, and so many messages at once at a server.
IN_A_RUN, AT_ONCE = 5_000, 50


class ByFrames:
    """Commands and questions as the frames of replays, one replay behind the other over the files of a folder."""

    ways = (FEED,)

    def __init__(self, tally, what, folder):
        self.tally, self.what, self.folder, self.frames = tally, what, folder, []

    def command(self, item, told):
        if len(self.frames) > IN_A_RUN:
            self.ends()
        self.frames.append((item, told))

    def asks(self, way, messages, replies):
        self.frames += zip((frame(QUERY, text) for text in messages), map(as_frame, replies))

    def ends(self):
        """Replays what came so far."""
        run = run_in(self.folder, ["replay"], b"".join(item for item, _ in self.frames))
        told = pieces(run.output)
        self.tally.same(f"{self.what}: status", run._replace(output=b""), Run(b"", 0, ""))
        self.tally.same(f"{self.what}: number of replies", len(told), len(self.frames))
        for (item, wanted), got in zip(self.frames, told):
            self.tally.same(f"{self.what}, frame {shown(item)}", got, wanted)
        self.frames = []


class ByServer:
    """Commands by the feed of a server, and questions by its feed, by datagrams and over streams."""

    ways = (UDP, TCP, FEED)

    def __init__(self, tally, what, server, feed):
        self.tally, self.what, self.server, self.feed = tally, what, server, feed

    def command(self, item, told):
        self.feed.say(item)
        self.tally.same(f"{self.what}, command {shown(item)}", self.feed.reply(), told)

    def asks(self, way, messages, replies):
        """Datagrams come one after the other; what comes over a stream and by the feed at once, some at a time."""
        come = {UDP: self.by_datagrams, TCP: self.on_a_stream, FEED: self.by_feed}[way]
        for start in range(0, len(messages), AT_ONCE):
            come(messages[start : start + AT_ONCE], replies[start : start + AT_ONCE])

    def by_datagrams(self, messages, replies):
        for text, told in zip(messages, replies):
            if told is None:
                self.tally.check(f"{self.what}, datagram {shown(text)}", self.server.drops(text), "something came")
            else:
                self.tally.same(f"{self.what}, datagram {shown(text)}", self.server.ask(text), told)

    def on_a_stream(self, messages, replies):
        with self.server.streams() as stream:
            got = stream.answers(messages)
        wanted = [told for told in replies if told is not None]
        self.tally.same(f"{self.what}, number of replies on a stream", len(got), len(wanted))
        for one, told in zip(got, wanted):
            self.tally.same(f"{self.what}, on a stream", one, told)

    def by_feed(self, messages, replies):
        self.feed.say(b"".join(frame(QUERY, text) for text in messages))
        for text, told in zip(messages, replies):
            self.tally.same(f"{self.what}, feed {shown(text)}", self.feed.reply(), as_frame(told))

    def ends(self):
        self.tally.check(f"{self.what}: the server", self.server.run.poll() is None, "it has ended")


@contextlib.contextmanager
def frames_out(tally, what):
    """What comes goes through replays."""
    with made_folder() as folder:
        out = ByFrames(tally, f"{what}, replayed", folder)
        yield out
        out.ends()


@contextlib.contextmanager
def server_out(tally, what):
    """What comes goes to a server."""
    with made_folder() as folder, server_in(folder) as server, server.feeds() as feed:
        out = ByServer(tally, f"{what}, served", server, feed)
        yield out
        out.ends()


class Life:
    """A chain: its blocks, each with how the names stand behind it, and those that were disconnected, the lowest of them last."""

    def __init__(self, out):
        self.out, self.story, self.blocks, self.left = out, Story(), [(None, {})], []
        self.numbers, self.has_spare = itertools.count(), False

    @property
    def height(self):
        return len(self.blocks) - 1

    @property
    def tip(self):
        return self.story.model.tip

    @property
    def zone(self):
        return self.story.zones[-1]

    def stand(self, name):
        return self.blocks[-1][1].get(name, Stand())

    def is_held(self, name):
        """Whether the name is held by the next block."""
        return self.stand(name).is_held(self.height + 1, self.story.model.profile)

    def asks(self, way, messages):
        """Messages that come so where such ones can come, and else as frames of the feed."""
        way = way if way in self.out.ways else FEED
        told = [reply_to(self.zone, text, TCP if way == TCP else UDP) for text in messages]
        self.out.asks(way, messages, [reply and reply.text() for reply in told])

    def comes(self, kind, payload):
        """A command. Whether it is accepted by the model."""
        item = frame(kind, payload)
        self.story.comes(item)
        self.out.command(item, self.story.replies[-1])
        return self.story.replies[-1][0] == 0

    def block(self, transactions=(), tip=None):
        """The next block."""
        above = self.height + 1
        return block_of(above, tip or self.tip, [coinbase(above), *transactions])

    def joins(self, block, stands):
        if not self.comes(CONNECT, block):
            sys.exit(f"{sys.argv[0]}: the model refuses a block: {self.story.replies[-1].hex()}")
        self.blocks.append((block, stands))

    def grows(self, *deeds):
        """A block of deeds: of each name its value, with which it is opened or updated, or None, where it is committed to."""
        stands, made = dict(self.blocks[-1][1]), []
        for name, value in deeds:
            item, stands[name] = self.deed(name, value)
            made.append(item)
        self.left = []
        self.joins(self.block(made), stands)

    def deed(self, name, value):
        """The transaction, and how the name stands behind it."""
        stand, above = self.stand(name), self.height + 1
        if value is None:
            made, coin = named(elsewhere(next(self.numbers)), name_script(NEW, hash160(SALT + name)))
            return made, stand._replace(waiting=coin, since=above)
        if self.is_held(name):
            made, coin = named(stand.coin, name_script(UPDATE, name, value))
            return made, stand._replace(coin=coin, held=above)
        made, coin = named(stand.waiting, name_script(FIRST, name, SALT, value))
        return made, Stand(coin, above)

    def opens(self, names):
        """Thirteen blocks, the last of which opens the names with their values."""
        self.grows(*((name, None) for name in names))
        for _ in range(MATURITY - 1):
            self.grows()
        self.grows(*names.items())

    def back(self):
        """The newest block leaves."""
        self.left.append(self.blocks.pop())
        self.comes(DISCONNECT, self.tip)

    def again(self):
        """The block that left last joins once more."""
        self.joins(*self.left.pop())

    def turns(self):
        """A command that is accepted and touches no name: an empty block, and the next time its disconnect."""
        if self.has_spare:
            self.back()
        else:
            self.grows()
        self.has_spare = not self.has_spare

    def refusals(self):
        """Commands that are refused."""
        good = self.block()
        yield CONNECT, good[:-1]
        yield CONNECT, good[:40] + bytes([good[40] ^ 1]) + good[41:]
        yield CONNECT, self.block(tip=bytes(31) + b"\x01")
        yield CONNECT, self.block([SPOILING])
        yield DISCONNECT, bytes(31) + b"\x01"

    def is_refused(self):
        for kind, payload in self.refusals():
            self.comes(kind, payload)

    def saves(self):
        self.comes(SAVE, b"")
