"""The parts by themselves: who asks when, whose place goes, whose a connection is, texts, pages of a program, and answers."""
import collections
import html
import os
import pathlib
import random
import re
import socket
import sqlite3
import struct
import subprocess
import sys
import tempfile
import threading
import time
import types

from .case import as_shown, unittest

from answers_model import QR, A, Question, Record, Reply
from common import HERE
from namecoin_explorer import dns, texts
from namecoin_explorer.asking import SHARE, Asker, Job, Tip
from namecoin_explorer.finding import Finder
from namecoin_explorer.front import Front
from namecoin_explorer.keeping import FILE, Keeper
from namecoin_explorer.layout import Frame
from namecoin_explorer.saving import BEGIN, SLICE, Saving, image_length
from namecoin_explorer.listings import CLOSE, IDLE, MOST_OPEN, NINTH, OPEN, PAGE, BadPage, Closed, Listings, Row, page_of
from namecoin_explorer.users import TABLE, users_in, users_of
from namecoin_feeder.replies import Reply as Told
from namecoin_feeder.saves import FIRST_PAUSE, LONGEST_PAUSE, MOST_BYTES, REST

BLOCK = b"\x01block"


class Slow:
    """A program that notes its frames, of which those of blocks take a while."""

    def __init__(self, seconds=0.0):
        self.frames, self.seconds = [], seconds

    def ask(self, frame):
        self.frames.append(frame)
        if frame == BLOCK:
            time.sleep(self.seconds)
        return Told(0, b"")


class Asking(unittest.TestCase):
    def asker(self, program, between=lambda: None):
        faults = []
        asker = Asker(program, lambda _: Tip(0, bytes(32)), between, faults.append)
        self.addCleanup(lambda: self.assertEqual((asker.end(10), faults), (True, [])))
        return asker

    def asks_behind_a_block(self, asker):
        """Begins to ask once the follower waits with a block; until that is asked."""
        thread = threading.Thread(target=lambda: asker.ask_for_follower(BLOCK))
        thread.start()
        while asker.frame is None:
            time.sleep(0.001)
        asker.start()
        thread.join()

    def test_one_block_between(self):
        """Jobs that wait when a block is asked are all done before the next; those of one user a few at a time."""
        program = Slow(0.02)
        asker = self.asker(program)
        over = threading.Event()

        def follows():
            while not over.is_set():
                asker.ask_for_follower(BLOCK)

        asker.start()
        thread = threading.Thread(target=follows)
        thread.start()
        chance, done = random.Random(1), []
        for number in range(300):
            # While this is held no frame of a block can be chosen, but one may be on its way.
            with asker.condition:

                def work(name=b"\x03%d" % number, begun=len(program.frames)):
                    done.append(program.frames[begun:].count(BLOCK))
                    asker.ask(name)

                asker.add(Job(number, work, lambda _: None))
            time.sleep(chance.choice((0, 0, 0, 0.005)))
        while len(done) < 300:
            time.sleep(0.01)
        over.set()
        thread.join()
        self.assertLessEqual(max(done), 1)
        self.assertGreater(program.frames.count(BLOCK), 3)

    def test_one_slice_between(self):
        """Slices follow each other where nothing waits; a job waits for one of them at most, and so does a block."""
        program, chance, waits, most = Slow(), random.Random(2), [], 400

        def between():
            if program.frames.count(SLICE) == most:
                return None
            time.sleep(0.001)
            asker.ask(SLICE)
            return 0.0

        asker = self.asker(program, between)
        asker.start()
        for number in range(100):
            with asker.condition:
                # While this is held no job can be chosen, but a slice may be on its way, which is noted.
                begun = len(program.frames)
                asker.add(Job(number, lambda begun=begun: waits.append(program.frames[begun:].count(SLICE)), lambda _: None))
            if number % 10 == 0:
                begun = len(program.frames)
                asker.ask_for_follower(BLOCK)
                # One may be under way that isn't noted yet when the block comes.
                self.assertLessEqual(program.frames[begun:].count(SLICE), 2)
            time.sleep(chance.choice((0, 0, 0.003)))
        while len(waits) < 100 or program.frames.count(SLICE) < most:
            time.sleep(0.01)
        self.assertLessEqual(max(waits), 1)
        self.assertEqual(program.frames.count(BLOCK), 10)

    def test_woken(self):
        """What may be asked between is looked at again where that is told, though nobody asks."""
        looked = []
        asker = self.asker(Slow(), lambda: looked.append(1))
        asker.start()
        for count in (1, 2, 3):
            while len(looked) < count:
                time.sleep(0.001)
            asker.wake()

    def test_readers_first(self):
        """A job that waits is done before the frame of a block that waits too."""
        program = Slow()
        asker = self.asker(program)
        asker.add(Job(1, lambda: asker.ask(b"\x03"), lambda _: None))
        self.asks_behind_a_block(asker)
        self.assertEqual(program.frames, [b"\x03", BLOCK])

    def test_what_waits_is_bounded(self):
        """Jobs whose connections are gone don't pile up while the program takes its time."""
        asker = self.asker(Slow())
        for number in range(100_000):
            job = Job(1, lambda: None, lambda _: None)
            asker.add(job)
            job.is_dropped = number % 1000 != 0
            if not job.is_dropped:
                held = job
            self.assertLess(len(asker.jobs), 300)
        self.assertIs([it for it in asker.jobs if not it.is_dropped][-1], held)
        asker.start()

    def test_shares(self):
        """One user's many jobs let blocks and another user through."""
        program = Slow()
        asker, order = self.asker(program), []
        for number in range(20):
            asker.add(Job(1, lambda number=number: (order.append(number), asker.ask(b"\x03")), lambda _: None))
        asker.add(Job(2, lambda: order.append("another"), lambda _: None))
        dropped = Job(2, lambda: order.append("dropped"), lambda _: None)
        dropped.is_dropped = True
        asker.add(dropped)
        self.asks_behind_a_block(asker)
        while len([it for it in order if isinstance(it, int)]) < 20:
            time.sleep(0.001)
        self.assertEqual(order[: SHARE + 1], [*range(SHARE), "another"])
        self.assertNotIn("dropped", order)
        self.assertEqual([it for it in order if isinstance(it, int)], list(range(20)))
        self.assertEqual(program.frames.index(BLOCK), SHARE)


class Clock:
    def __init__(self):
        self.now = 0.0

    def __call__(self):
        self.now += 1
        return self.now


class Places(unittest.TestCase):
    def setUp(self):
        self.open, self.clock = set(), Clock()
        self.listings = Listings(5, 600, self.clock)

    def ask(self, frame):
        """Sessions as docs/FORMATS.md has them, of a chain without names."""
        number = int.from_bytes(frame[5:], "little")
        if frame[:1] == OPEN:
            if len(self.open) == 8:
                return Told(31, b"")
            number = min(set(range(8)) - self.open)
            self.open.add(number)
            return Told(0, struct.pack("<I", number))
        if number not in self.open:
            return Told(32, b"")
        if frame[:1] == CLOSE:
            self.open.remove(number)
            return Told(0, b"")
        self.assertEqual(frame[:1], PAGE)
        return Told(0, b"\1" + bytes(4))

    def begin(self, user):
        return self.listings.begin(self.ask, user, Tip(0, bytes(32)))

    def users(self):
        return collections.Counter(it.user for it in self.listings.open.values())

    def test_another_users_places(self):
        """Whoever opens many loses his own, and takes none of a user who has few."""
        mine = [self.begin("reader") for _ in range(3)]
        for _ in range(100):
            self.begin("neighbour")
        self.assertEqual(self.users(), {"reader": 3, "neighbour": 5})
        self.assertEqual([self.listings.find(it.token) for it in mine], mine)
        late = self.begin("late")
        for _ in range(100):
            self.begin("neighbour")
        self.assertEqual(self.users(), {"reader": 3, "late": 1, "neighbour": 4})
        self.assertIs(self.listings.find(late.token), late)
        for _ in range(10):
            self.begin("reader")
        self.assertEqual(self.users()["late"], 1)
        self.assertEqual(len(self.open), MOST_OPEN)

    def test_the_least_recently_used(self):
        listings = [self.begin(None) for _ in range(8)]
        for place in (0, 1, 2, 4, 5, 6, 7):
            self.listings.find(listings[place].token)
        self.begin(None)
        with self.assertRaises(Closed) as closed:
            self.listings.find(listings[3].token)
        self.assertEqual(closed.exception.why, NINTH)

    def test_idle(self):
        listing = self.begin(None)
        self.assertLessEqual(self.listings.close_idle(self.ask), 600)
        self.clock.now += 600
        self.assertIsNone(self.listings.close_idle(self.ask))
        with self.assertRaises(Closed) as closed:
            self.listings.find(listing.token)
        self.assertEqual((closed.exception.why, self.open), (IDLE, set()))

    def test_what_is_remembered_is_bounded(self):
        for number in range(2000):
            self.begin(number % 3)
        self.assertEqual((len(self.listings.open), len(self.listings.closed)), (8, 256))


class Due(unittest.TestCase):
    """When saves are begun, by a clock that stands still, and a program that answers as it is told to."""

    def setUp(self):
        self.now, self.replies, self.asked, self.lines = 1000.0, [], [], []
        self.asker = types.SimpleNamespace(ask=self.ask, commands=0, command_bytes=0, tip=Tip(7, bytes(32)))
        self.saving = Saving(10, pathlib.Path("/nowhere"), self.lines.append, lambda: self.now)

    def ask(self, frame):
        self.asked.append(frame[:1])
        return Told(*self.replies.pop(0))

    def turn(self, *replies):
        """A turn in which the program gives these replies; the seconds until the next one."""
        self.replies += replies
        seconds = self.saving.turn(self.asker)
        self.assertEqual(self.replies, [])
        return seconds

    def comes(self, blocks, size=100):
        self.asker.commands += blocks
        self.asker.command_bytes += blocks * size

    def is_made(self, number=1, seconds=0.0):
        """A save of two slices, the first turn of which is due now."""
        self.assertEqual(self.turn((0, b"")), 0.0)
        self.assertEqual(self.turn((0, b"\0")), 0.0)
        self.now += seconds
        return self.turn((0, b"\1" + struct.pack("<Q", number)))

    def test_behind_blocks(self):
        self.comes(9)
        self.assertIsNone(self.turn())
        self.comes(1)
        self.assertIsNone(self.is_made())
        self.assertEqual(self.asked, [BEGIN, SLICE, SLICE])
        self.comes(9)
        self.assertIsNone(self.turn())
        self.assertIn("save 1, of height 7, was done 0 s ago", self.saving.told())

    def test_behind_bytes(self):
        self.comes(1, MOST_BYTES - 1)
        self.assertIsNone(self.turn())
        self.comes(1, 1)
        self.is_made()

    def test_at_the_tip(self):
        """Once, where something came; behind it as many blocks count as ever."""
        self.saving.is_at_tip = True
        self.assertIsNone(self.turn())
        self.comes(3)
        self.assertIsNone(self.turn())
        self.setUp()
        self.comes(3)
        self.saving.is_at_tip = True
        self.is_made()
        self.comes(3)
        self.assertIsNone(self.turn())

    def test_what_comes_while_it_is_written(self):
        """It counts for the next one."""
        self.comes(10)
        self.turn((0, b""))
        self.comes(10)
        self.turn((0, b"\1" + bytes(8)))
        self.is_made()

    def test_rest(self):
        """None is begun for a while behind one that took long."""
        self.comes(10)
        self.is_made(seconds=3.0)
        self.comes(10)
        self.assertEqual(self.turn(), 3.0 * REST)
        self.now += 3.0 * REST
        self.is_made()

    def test_pauses(self):
        """Behind one that fails there is a pause, which doubles; each is told, and none is asked for before."""
        self.comes(10)
        pauses, ways = [], ([(0xFE, b"")], [(0, b""), (34, b"")], [(0, b""), (35, b"")], [(0, b""), (0, b"\0"), (35, b"")])
        for number in range(8):
            way = ways[number % len(ways)]
            for reply in way:
                pauses.append(self.turn(reply))
            pauses = [it for it in pauses if it]
            self.assertEqual((len(pauses), len(self.lines)), (number + 1, number + 1))
            self.now += pauses[-1] / 2
            self.assertEqual(self.turn(), pauses[-1] / 2)
            self.assertIn("the last one failed: ", self.saving.told())
            self.now += pauses[-1] / 2
        self.assertEqual(pauses, [min(FIRST_PAUSE * 2**number, LONGEST_PAUSE) for number in range(8)])
        self.is_made()
        self.assertNotIn("failed", self.saving.told())
        self.comes(10)
        self.assertEqual(self.turn((0xFE, b"")), FIRST_PAUSE)

    def test_no_more(self):
        for code in (29, 30):
            self.setUp()
            self.comes(10)
            self.assertIsNone(self.turn((code, b"")))
            self.comes(1000)
            self.assertIsNone(self.turn())
            self.assertEqual((len(self.lines), f"no saves are made: code {code}" in self.saving.told()), (1, True))
        never = Saving(0, pathlib.Path("/nowhere"), self.lines.append, lambda: self.now)
        never.is_at_tip = True
        self.assertIsNone(never.turn(self.asker))

    def test_how_far(self):
        """By the file, where it has just been begun; by the slices alone where that can't be read."""
        with tempfile.TemporaryDirectory() as room:
            folder = pathlib.Path(room)
            self.assertIsNone(image_length(folder))
            (folder / "nmc.1").write_bytes(bytes(9))
            (folder / "nmc.2").write_bytes((100_000).to_bytes(8, "little"))
            self.assertEqual(image_length(folder), 100_000)
            self.saving.folder = folder
            self.comes(10)
            self.turn((0, b""))
            self.assertIn("0 bytes of the 100,000 of the image", self.saving.told())
            self.turn((0, b"\0"))
            self.assertIn("of height 7: 65,536 bytes of the 100,000 of the image", self.saving.told())
            self.turn((0, b"\0"))
            self.assertIn("the blocks that came meanwhile follow", self.saving.told())
        self.setUp()
        self.comes(10)
        self.turn((0, b""))
        self.turn((0, b"\0"))
        self.assertIn("65,536 bytes are in the file, of a length that isn't known", self.saving.told())


class Failing:
    """Names whose file fails at whatever is asked of it."""

    tip = Tip(7, bytes(32))

    def __init__(self, fault):
        self.fault, self.is_closed = fault, False

    def close(self):
        self.is_closed = True

    def __getattr__(self, name):
        def fails(*_):
            raise self.fault

        return fails


class Losing(unittest.TestCase):
    """The file of names fails while the explorer runs: by a clock that stands still, in an empty folder."""

    def setUp(self):
        room = tempfile.TemporaryDirectory()
        self.addCleanup(room.cleanup)
        self.folder, self.now, self.lines = pathlib.Path(room.name), 1000.0, []
        self.keeper = Keeper(["/nowhere"], self.folder, self.folder / FILE, self.lines.append, lambda: self.now)
        self.keeper.opened = self.now

    def fails(self, fault=sqlite3.DatabaseError("database disk image is malformed")):
        self.keeper.names = Failing(fault)
        return self.keeper.names

    def test_a_page(self):
        """Whoever asks is told; so is the operator, once; and the file goes."""
        (self.folder / FILE).write_bytes(b"damaged")
        names, finder = self.fails(), Finder(self.keeper, 25, None)
        for told in (finder.find(Frame(), "name=d/&way=have"), finder.name(Frame(), "/name/d/x", ""), finder.find(Frame(), "")):
            self.assertEqual((told.status, told.headers), (503, {"Retry-After": "10"}))
            self.assertIn(b"database disk image is malformed", told.body)
        self.assertEqual((names.is_closed, self.keeper.names, list(self.folder.iterdir())), (True, None, []))
        self.assertEqual(len(self.lines), 1)
        self.assertIn("can't be used: database disk image is malformed; it is made anew in 5 s", self.lines[0])

    def test_a_block(self):
        """Blocks come on, whether they can't be written down or can't be read."""
        for fault, block in ((sqlite3.OperationalError("disk I/O error"), b""), (None, b"\x00\x71\x00\x00")):
            self.fails(fault or sqlite3.DatabaseError("none"))
            self.keeper.changed(b"\x01\0\0\0\0" + block, Tip(8, bytes(32)))
            self.assertIsNone(self.keeper.names)
            self.keeper.changed(b"\x02\0\0\0\0" + bytes(32), Tip(7, bytes(32)))
        self.assertEqual(len(self.lines), 2)

    def test_pauses(self):
        """It is made anew later and later, and not before there is a place for it."""
        for number, pause in enumerate((5, 10, 20, 40)):
            self.fails()
            self.keeper.lost(sqlite3.DatabaseError("damage"))
            self.assertFalse(self.keeper.is_wanted())
            self.now += pause
            self.assertTrue(self.keeper.is_wanted(), number)
            self.assertEqual(self.keeper.turn(), 0.0)
        self.keeper.path = self.folder / "nowhere" / FILE
        self.assertFalse(self.keeper.is_wanted())
        self.assertGreater(self.keeper.turn(), 60)
        self.keeper.path, self.keeper.wanted = self.folder / FILE, 1 << 62
        self.now += 10_000
        self.assertFalse(self.keeper.is_wanted())

    def test_settling(self):
        """What blocks changed is settled half a second later; where that fails, the file is lost."""
        self.fails(sqlite3.OperationalError("database or disk is full"))
        self.keeper.due = self.now
        self.assertEqual(self.keeper.turn(), 5.0)
        self.assertIn("database or disk is full", self.lines[0])
        self.assertGreater(self.keeper.wanted, 1 << 20)


class PagesOfTheProgram(unittest.TestCase):
    def row(self, name, height=1, is_served=1, value=b""):
        return struct.pack("<B", len(name)) + name + struct.pack("<IBH", height, is_served, len(value)) + value

    def text(self, is_last, *rows):
        return struct.pack("<BI", is_last, len(rows)) + b"".join(rows)

    def test_the_pages_of_the_formats(self):
        """The page that stands in the documents, and the empty one."""
        value = b'{"ip":"1.2.3.4"}'
        text = bytes.fromhex("01 01000000 09 642f6578616d706c65 0d000000 01 1000") + value
        self.assertEqual(len(text), 0x26)
        self.assertEqual(page_of(text, 1), (True, [Row(b"d/example", 13, True, value)]))
        self.assertEqual(page_of(bytes.fromhex("01 00000000"), 1), (True, []))

    def test_longest(self):
        rows = [self.row(bytes([it]) * 255, 2**32 - 1, 0, b"v" * 1023) for it in range(50)]
        text = self.text(0, *rows)
        self.assertEqual(len(text), 64_305)
        is_last, found = page_of(text, 50)
        self.assertEqual((is_last, len(found), found[49]), (False, 50, Row(b"\x31" * 255, 2**32 - 1, False, b"v" * 1023)))

    def test_what_is_no_page(self):
        one, two = self.row(b"a"), self.row(b"b", value=b"xy")
        good = self.text(1, one, two)
        self.assertEqual(len(page_of(good, 5)[1]), 2)
        for cut in range(len(good)):
            self.assertRaises(BadPage, page_of, good[:cut], 5)
        bad = [good + b"\0", self.text(0, one), self.text(2, one), self.text(1, one, two, self.row(b"c"))]
        bad += [self.text(1, two, one), self.text(1, one, one)]
        bad += [self.text(1, self.row(b"a", is_served=2)), self.text(1, self.row(b"a", value=bytes(1024))), b"\1\xff\xff\xff\xff"]
        for text in bad:
            self.assertRaises(BadPage, page_of, text, 2)


class Users(unittest.TestCase):
    def test_own_connections(self):
        with socket.create_server((HERE, 0)) as server:
            ours = server.getsockname()
            with socket.create_connection(ours) as one, socket.create_connection(ours) as two:
                taken = [server.accept(), server.accept()]
                pairs = [(one.getsockname(), ours), (two.getsockname(), ours), ((HERE, 1), ours)]
                for way in (users_of, lambda pairs: users_in(TABLE, pairs)):
                    self.assertEqual(way(pairs), [os.getuid(), os.getuid(), None])
                self.assertEqual(users_in(pathlib.Path("/nowhere"), pairs[:1]), [None])
            # Nobody holds the other ends any more, which the system then gives to the user 0.
            for way in (users_of, lambda pairs: users_in(TABLE, pairs)):
                self.assertEqual(way(pairs), [None, None, None])
            for line, _ in taken:
                line.close()

    @unittest.skipIf(os.geteuid(), "this doesn't run as root")
    def test_other_users(self):
        """Another user's connection is told as his."""
        lines = "import socket, sys; line = socket.create_connection(('127.0.0.1', int(sys.argv[1]))); sys.stdin.read()"
        with socket.create_server((HERE, 0)) as server:
            python = next(it for it in ("/usr/bin/python3", sys.executable) if os.path.exists(it))
            run = subprocess.Popen([python, "-c", lines, str(server.getsockname()[1])], stdin=subprocess.PIPE, user=65534, cwd="/")
            line, theirs = server.accept()
            pairs = [(theirs, server.getsockname())]
            self.assertEqual((users_of(pairs), users_in(TABLE, pairs)), ([65534], [65534]))
            run.communicate()
            line.close()

    def test_places_of_connections(self):
        """Where all are taken, the oldest of the user with most goes, one without a whole request first."""
        front = Front(0, None, None, None)
        self.addCleanup(lambda: front.end(1))
        for number in range(64):
            line = types.SimpleNamespace(user=number % 2 and 7, knows_user=True, state="reading", begun=number, job=None)
            front.lines.append(line)
        front.lines.append(types.SimpleNamespace(user=7, knows_user=True, state="reading", begun=64, job=None))
        front.lines[1].state = "asked"
        self.assertEqual(front.victim().begun, 3)
        front.lines.append(types.SimpleNamespace(user=None, knows_user=True, state="reading", begun=65, job=None))
        self.assertEqual(front.victim().user, 7)
        front.lines.clear()


class Texts(unittest.TestCase):
    def test_bytes(self):
        for byte in range(256):
            data = b"<b>\"&'" + bytes([byte]) + b"<i>\"&'"
            made = texts.text_of(data)
            self.assertEqual(html.unescape(re.sub("<[^>]*>", "", made)), as_shown(data))
            self.assertTrue(all(0x20 <= ord(it) < 0x7F for it in made))
            self.assertEqual(set(re.findall("<[^>]*>", made)) - {'<span class="odd">', "</span>"}, set())
            self.assertNotIn("'", made)
        self.assertNotIn("<script", texts.text_of(b"<script>"))

    def test_values(self):
        chance = random.Random(3)
        good = [b'{"ip":["1.2.3.4"],"map":{"":{"ip6":"::1"}},"ip":null}', b"[1,2.5,true,null,[]]", b'"\\ud800"', b"{}", b'{"a":1e400}']
        for number in range(3000):
            text = bytearray(chance.choice(good))
            for _ in range(chance.randrange(4)):
                text[chance.randrange(len(text))] = chance.randrange(256)
            value = texts.value_of(bytes(text))
            if value is not None:
                made = texts.laid_out(value)
                self.assertNotIn("<script", made)
                self.assertTrue(all(0x20 <= ord(it) < 0x7F for it in made), text)

    def test_items_in_their_order(self):
        made = texts.laid_out(texts.value_of(b'{"ip":"1.1.1.1","<b>":"<i>","ip":"2.2.2.2"}'))
        self.assertLess(made.index("1.1.1.1"), made.index("&lt;b&gt;"))
        self.assertLess(made.index("&lt;i&gt;"), made.index("2.2.2.2"))
        self.assertIn("IPv4 address", made)

    def test_deep_values(self):
        for text in (b"[" * 511 + b"]" * 511, b'{"a":' * 170 + b"{}" + b"}" * 170, b'{"map":' * 120 + b"1" + b"}" * 120):
            value = texts.value_of(text)
            if value is not None:
                made = texts.laid_out(value)
                self.assertLess(made.count("<table") + made.count("<ul"), 20)
        self.assertIsNone(texts.value_of(b"[" * 1023))
        for text in (b"\xff", b"NaN", b"{", b"", b"{'a': 1}", b"Infinity"):
            self.assertIsNone(texts.value_of(text), text)


class Answers(unittest.TestCase):
    def test_names(self):
        rows = {"example.bit": "example bit", "example": "example bit", "d/example": "example bit", "www.example.bit.": "www example bit"}
        for text, labels in {**rows, "bit": "bit", "a.com": "a com", "<i>": "<i> bit"}.items():
            self.assertEqual(dns.labels_of(text), labels.encode().split())
        for text in ("", ".", "..", "a..b", ".bit", "a b", "\u00e4.bit", "a" * 64, "a." * 127 + "bit", "a\x00", "d/"):
            self.assertRaises(dns.BadName, dns.labels_of, text)

    def test_what_is_no_reply(self):
        """Any bytes are read, or are none: nothing else comes of them."""
        chance = random.Random(5)
        question = Question((b"a", b"bit"), A, 1, b"\1a\3bit\0\0\1\0\1")
        good = Reply(1, QR, question, [Record((b"a", b"bit"), A, (b"\x01\x02\x03\x04",))], []).text()
        self.assertEqual(dns.answer_of(good).records[0].told, [b"1.2.3.4"])
        for text in (good + b"\0", good[:-1], b""):
            self.assertRaises(dns.BadReply, dns.answer_of, text)
        for _ in range(20_000):
            text = bytearray(good)
            for _ in range(chance.randrange(1, 5)):
                text[chance.randrange(len(text))] = chance.choice((0, 1, 0xC0, 0xFF, chance.randrange(256)))
            try:
                dns.answer_of(bytes(text[: chance.choice((len(text), chance.randrange(len(text) + 1)))]))
            except dns.BadReply:
                pass


if __name__ == "__main__":
    unittest.main()
