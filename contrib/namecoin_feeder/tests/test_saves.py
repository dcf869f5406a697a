"""When the server is asked for a save, and what comes of each reply to that: blocks go on all the same."""
import re
import threading
import time
import unittest.mock

from .case import Case, unittest
from .test_words import Clock

from blocks import SAVE
from common import reply
from namecoin_feeder import saves
from namecoin_feeder.blocks import Block
from namecoin_feeder.measures import Measures
from namecoin_feeder.replies import Reply
from namecoin_feeder.saves import Saves
from namecoin_feeder.troubles import FeedEnded, ServerTrouble

ACCEPTED, MADE = 0, (1).to_bytes(8, "little")
# Seconds that a long save takes, a second more than any other answer may.
LONG = 4


class OverAFeed(Case):
    def setUp(self):
        super().setUp()
        self.node.move(self.chains.grow(self.chains.first, 30))

    def answers(self, *answers):
        """What the server answers to saves in the place of its own replies; it makes these saves all the same where that is None."""
        left = list(answers)
        self.server.before = lambda frame: left.pop(0) if left and frame[:1] == SAVE else None
        return left

    def test_at_the_first_tip(self):
        said = self.feed()
        self.assertRegex(said, r"the server has saved its index at height 30: save 1, in \d+\.\d s\n")
        self.assertEqual(self.server.saves, [ACCEPTED])
        self.assert_same()

    def test_nothing_new(self):
        self.feed()
        self.feed()
        self.assertEqual(self.server.saves, [ACCEPTED])
        self.assert_same()

    def test_never(self):
        self.assertNotIn("save", self.feed("--save-every", "0"))
        self.assertEqual(self.server.saves, [])
        self.assert_same()

    def test_behind_so_many_blocks(self):
        self.start("--save-every", "31")
        self.waits_for("the first save", lambda: self.server.saves == [ACCEPTED])
        self.reaches(self.chains.grow(self.node.tip, 29))
        time.sleep(1)
        self.assertEqual(self.server.saves, [ACCEPTED])
        # One leaves and two come, which makes 32.
        self.reaches(self.chains.grow(self.chains.back(self.node.tip, 1), 2))
        self.waits_for("the second save", lambda: self.server.saves == [ACCEPTED] * 2)
        self.assert_same()

    def test_blocks_leave_below_a_save(self):
        self.feed()
        self.server.stop()
        self.server.start()
        self.node.move(self.chains.grow(self.chains.back(self.node.tip, 25), 40))
        self.feed()
        self.assertEqual(self.server.saves, [ACCEPTED] * 2)
        self.assert_same()

    def test_refusals_are_told_once(self):
        for code, name in ((29, "CheckpointLimit"), (30, "ImageLimit")):
            with self.subTest(code=code):
                self.server.saves.clear()
                self.answers(*[reply(code)] * 9)
                run = self.start("--save-every", "5")
                self.heard(run, f"the server makes no save: code {code}, {name}: ")
                for _ in range(3):
                    self.reaches(self.chains.grow(self.node.tip, 6))
                self.assertEqual(self.server.saves, [code])
                self.assertIsNone(run.poll())
                run.kill()
                run.wait()
                self.node.move(self.chains.add(self.node.tip))
        self.server.before = None
        self.feed()
        self.assert_same()

    def test_out_of_memory(self):
        self.answers(*[reply(0xFE)] * 9)
        run = self.start("--save-every", "5")
        self.heard(run, "the server is out of memory for a save (code FE); the next one is tried in 1 min 0 s")
        self.reaches(self.chains.grow(self.node.tip, 20))
        self.assertEqual(self.server.saves, [0xFE])
        self.assert_same()

    def test_disk_fault(self):
        """The server ends behind that reply, and is started again: blocks go on, and no save is tried for a while."""
        self.answers(*[reply(0xFD)] * 9)
        run = self.start("--save-every", "5")
        self.heard(run, "disk failed at a save (code FD)")
        self.waits_for("its end", lambda: self.server.listener is None)
        self.server.start()
        self.reaches(self.chains.grow(self.node.tip, 20))
        self.assertEqual(self.server.saves, [0xFD])
        self.assert_same()

    def test_a_server_that_knows_no_saves(self):
        """It ends the connection at a bad frame, twice; then none is asked for any more."""
        del self.server.kinds[SAVE]
        run = self.start("--save-every", "5")
        self.heard(run, "the server ends the feed where it is asked for a save, as one does that knows none")
        self.reaches(self.chains.grow(self.node.tip, 40))
        self.assertEqual(self.server.connections, 3)
        self.assertEqual(self.server.saves, [])
        self.assert_same()

    def test_a_server_that_knows_no_saves_once(self):
        del self.server.kinds[SAVE]
        self.assertIn("as one does that knows none", self.feed())
        self.assert_same()

    def test_killed_at_a_save(self):
        """Killed before a save is made, and behind it: it is asked again."""
        for is_made in (False, True):
            with self.subTest(is_made=is_made):
                self.node.move(self.chains.grow(self.node.tip, 3))
                self.server.saves.clear()
                self.server.before = lambda frame: self.killed(frame, is_made) if frame[:1] == SAVE else None
                self.feed()
                self.assertEqual(self.server.saves, [ACCEPTED])
        self.assert_same()

    def killed(self, frame, is_made):
        self.server.before = None
        if is_made:
            self.server.chain.answer(frame)
        self.server.stop()
        threading.Timer(0.3, self.server.start).start()
        return b""

    def test_a_save_that_takes_long(self):
        """Longer than any other answer may: it is waited for."""
        self.server.before = lambda frame: time.sleep(LONG) if frame[:1] == SAVE else None
        said = self.feed("--timeout", str(LONG - 1))
        self.assertNotIn("no answer in time", said)
        took = re.search(r"save 1, in (\d+\.\d) s\n", said)
        self.assertTrue(took and float(took.group(1)) >= LONG, said)
        self.assertEqual((self.server.saves, self.server.connections), ([ACCEPTED], 1))
        self.assert_same()

    def test_odd_replies(self):
        for answer in (reply(ACCEPTED), reply(ACCEPTED, bytes(36)), reply(99), reply(5), reply(2, bytes(32))):
            with self.subTest(answer=answer):
                self.node.move(self.chains.add(self.node.tip))
                self.answers(answer)
                self.assertIn("is no feed that this program knows", self.feed(status=6))
        self.server.before = None
        self.assert_same()


class FakeServer:
    """Its replies to saves, one after the other; and how long each takes."""

    def __init__(self, clock, *replies, seconds=0.0):
        self.clock, self.left, self.seconds = clock, list(replies), seconds

    def save(self):
        self.clock.now += self.seconds
        told = self.left.pop(0)
        if isinstance(told, Exception):
            raise told
        return told


class OfTime(unittest.TestCase):
    def setUp(self):
        self.clock, self.said = Clock(), []
        self.saves = Saves(10, self.said.append, Measures(self.clock), self.clock)

    def come(self, blocks, size=100):
        for _ in range(blocks):
            self.saves.connected(Block(b"", b"", bytes(size)))

    def ask(self, *replies, seconds=0.0):
        server = FakeServer(self.clock, *replies, seconds=seconds)
        for _ in replies:
            self.assertTrue(self.saves.is_due())
            try:
                self.saves.ask(server, 7)
            except ServerTrouble:
                pass

    def test_by_blocks(self):
        self.come(9)
        self.assertFalse(self.saves.is_due())
        self.saves.disconnected()
        self.ask(Reply(ACCEPTED, MADE))
        self.assertFalse(self.saves.is_due())
        self.come(10)
        self.assertTrue(self.saves.is_due())

    def test_by_bytes(self):
        with unittest.mock.patch.object(saves, "MOST_BYTES", 3 * 106):
            self.come(2)
            self.assertFalse(self.saves.is_due())
            self.come(1)
            self.assertTrue(self.saves.is_due())

    def test_at_the_first_tip_alone(self):
        self.come(1)
        self.saves.is_level()
        self.ask(Reply(ACCEPTED, MADE))
        self.come(1)
        self.saves.is_level()
        self.assertFalse(self.saves.is_due())

    def test_at_a_tip_where_nothing_came(self):
        self.saves.is_level()
        self.assertFalse(self.saves.is_due())
        self.come(1)
        self.saves.is_level()
        self.assertFalse(self.saves.is_due())

    def test_rests_behind_one_that_took_long(self):
        """All saves together take a small part of the time; the one at the first tip doesn't wait."""
        self.come(10)
        self.ask(Reply(ACCEPTED, MADE), seconds=3.0)
        self.assertEqual(self.said, ["the server has saved its index at height 7: save 1, in 3.0 s"])
        self.come(10)
        self.clock.now += 59
        self.assertFalse(self.saves.is_due())
        self.clock.now += 1
        self.assertTrue(self.saves.is_due())
        self.ask(Reply(ACCEPTED, MADE), seconds=3.0)
        self.come(1)
        self.saves.is_level()
        self.assertTrue(self.saves.is_due())

    def test_pauses_behind_failures_grow(self):
        """Up to an hour, and begin anew behind a save."""
        waited = []
        for reply_ in [Reply(0xFE, b""), ServerTrouble("its disk failed")] * 4 + [Reply(ACCEPTED, MADE), Reply(0xFE, b"")]:
            self.come(10)
            self.ask(reply_)
            begun = self.clock.now
            while not self.saves.is_due() and self.saves.blocks:
                self.clock.now += 1
            waited.append(self.clock.now - begun)
        self.assertEqual(waited, [60, 120, 240, 480, 960, 1920, 3600, 3600, 0, 60])

    def test_given_up_where_the_feed_ends_twice(self):
        self.come(10)
        self.ask(FeedEnded("it"))
        self.ask(Reply(0xFE, b""))
        self.clock.now += 60
        self.ask(FeedEnded("it"), FeedEnded("it"))
        self.assertFalse(self.saves.is_due())
        self.assertEqual(len(self.said), 2)

    def test_given_up_behind_a_refusal(self):
        self.come(10)
        self.ask(Reply(29, b""))
        self.come(100)
        self.clock.now += 10**6
        self.assertFalse(self.saves.is_due())


if __name__ == "__main__":
    unittest.main()
