"""The file of names beside the model of the rules: made from a report, and while blocks come and leave; what is found in it."""
import html
import pathlib
import random
import re
import sqlite3
import tempfile
import unittest

from .case import Named
from .test_listings import ODD

from blocks import NEW
from model import Model, transactions_of
from model import operation_of as operation_by_model
from namecoin_explorer import names as of_names
from namecoin_explorer import runs
from namecoin_explorer.asking import Tip
from namecoin_explorer.blocks import operations_of
from namecoin_explorer.building import BadReport, Builder
from namecoin_explorer.counting import MOST_FIRST
from namecoin_explorer.finding import Finder
from namecoin_explorer.keeping import REST, Keeper
from namecoin_explorer.layout import Frame
from namecoin_explorer.name_pages import counted
from namecoin_explorer.names import Base, Count, Names, Unusable

PARTS = (b"", b"d/", b"name-1", b"1", b"n", b"\xff", b"\xfe", b"\x00", b"%", b"_", b"'", b'"', b"*", b"\\", b"d/name-12", b"/\xff\xfe", b"none of them")
BEGINNINGS = (*PARTS, b"\xff\xff\xff", b"d/name-\xff", bytes(range(255)), bytes(range(256))[:255], b"a" * 255, b"id/")


def base(first, profile=1, height=0):
    return Base(b"\1NMCIDX1\n" + bytes([profile]) + height.to_bytes(4, "little") + first + b"\4one.")


def built(path, model, header, size=1000):
    """The file of a model's report, whose lines come some at a time."""
    lines = model.report().split(b"\n")[:-1]
    builder = Builder(path, header)
    for at in range(0, len(lines), size):
        builder.take(lines[at : at + size])
    builder.finish(lambda: None)
    builder.in_place()
    return Names(path)


class WithNames(unittest.TestCase):
    def setUp(self):
        room = tempfile.TemporaryDirectory(prefix="jaqhumpi-")
        self.addCleanup(room.cleanup)
        self.path, self.chains = pathlib.Path(room.name) / "names.sqlite", Named()

    def built(self, model, header, **how):
        names = built(self.path, model, header, **how)
        self.addCleanup(names.close)
        return names


class Files(WithNames):
    def compare(self, names, model, chance):
        """All that is told of the names is what the model has."""
        given = model.given()
        newest = {name: values[-1] for name, values in given.items()}
        self.assertEqual((names.tip, names.number()), (Tip(model.height, model.tip), len(given)))
        self.assertEqual([(it.name, (it.height, it.registered, it.value)) for it in names.beginning(b"", None, 10**6).entries], list(newest.items()))
        self.assertEqual([it.name for it in names.having(b"", None, 10**6)[0].entries], list(newest))
        for name, values in given.items():
            told = [(it.height, it.registered, it.value) for it in names.history(name, None, 10**6)]
            self.assertEqual(told, values[::-1])
            self.assertEqual(names.served(name), model.served(name))
        self.assertEqual((names.entry(b"none"), names.history(b"none", None, 5)), (None, []))
        for height in range(model.height + 2):
            wanted = sum(value.height == height for values in given.values() for value in values)
            self.assertEqual(names.changes(height, height), {height: wanted} if wanted else {})
        least, most = sorted(chance.randrange(model.height + 2) for _ in range(2))
        self.assertEqual(names.standing(least, most), sum(least <= it.height <= most for it in newest.values()))
        self.find(names, list(newest), chance)

    def find(self, names, wanted, chance):
        behind = chance.choice([None, *wanted[:1], *(chance.choice(wanted) + chance.choice((b"", b"\0")) for _ in wanted[:1])])
        for ways, found_by in ((BEGINNINGS, lambda it, text: it.startswith(text)), (PARTS, lambda it, text: text in it)):
            for text in (*ways, *(chance.choice(wanted)[chance.randrange(3) :] for _ in wanted[:3])):
                hits = [it for it in wanted if found_by(it, text)]
                left, most = [it for it in hits if behind is None or it > behind], chance.choice((1, 3, 1000))
                if ways is BEGINNINGS:
                    found, count = names.beginning(text, behind, most), names.count_beginning(text)
                else:
                    found, count = names.having(text, behind, most)
                self.assertEqual(([it.name for it in found.entries], count), (left[:most], Count(len(hits), True)), (text, behind))
                self.assertEqual(found.behind, left[most - 1] if len(left) > most else None)

    def test_blocks_come_and_leave(self):
        """From a report of each kind of chain on, by what blocks change, over forks of many depths."""
        for seed in range(3):
            chance = random.Random(seed)
            self.chains = Named()
            # Runs are cut and joined where they are this short.
            most, runs.MOST_NAMES = runs.MOST_NAMES, chance.choice((2, 5, 1024))
            self.addCleanup(setattr, runs, "MOST_NAMES", most)
            tip = self.chains.opening(self.chains.grow(self.chains.first, chance.randrange(4)), ODD)
            tip = self.chains.updating(tip, (b"d/plain", b"{}"), (b"", b"more"), (b"d/plain", b'{"ip":"192.0.2.3"}'))
            model, path = Model(0, hash=self.chains.first), []
            for hash in self.chains.path(tip):
                model.connect(self.chains.blocks[hash].data)
                path.append(hash)
            names = self.built(model, base(self.chains.first), size=chance.choice((1, 3, 1000)))
            self.compare(names, model, chance)
            for step in range(24):
                if chance.random() < 0.4 and len(path) > 3:
                    for _ in range(chance.choice((1, 1, 2, 7, 20))):
                        if len(path) > 1:
                            model.disconnect(path.pop())
                            names.disconnected(Tip(model.height, model.tip))
                else:
                    for _ in range(chance.choice((1, 2, 9))):
                        path.append(self.chains.add(path[-1]))
                        block = self.chains.blocks[path[-1]].data
                        self.assertEqual(model.connect(block)[:1], b"\0")
                        names.connected(Tip(model.height, model.tip), operations_of(block))
                if step % 6 == 0:
                    self.compare(names, model, chance)
                if chance.random() < 0.2:
                    names.settle()
            self.compare(names, model, chance)
            names.close()
            again = Names(self.path)
            self.compare(again, model, chance)
            again.close()

    def test_registered_anew(self):
        """A name that has expired is opened again: its history goes on, and says so."""
        tip = self.chains.opening(self.chains.first, {b"d/again": b"one"})
        tip = self.chains.opening(self.chains.grow(self.chains.updating(tip, (b"d/again", b"two")), 30), {b"d/again": b"three"})
        model = Model(0, hash=self.chains.first)
        for hash in self.chains.path(tip):
            self.assertEqual(model.connect(self.chains.blocks[hash].data)[:1], b"\0")
        names = self.built(model, base(self.chains.first))
        told = [(it.height, it.registered, it.value) for it in names.history(b"d/again", None, 9)]
        self.assertEqual(told, [(57, 57, b"three"), (14, 13, b"two"), (13, 13, b"one")])

    def bounded(self, **bounds):
        """Has other bounds for the time of a test: what is looked through for a page, what at once in the pauses, names of a run."""
        for name, bound in bounds.items():
            module = runs if name == "MOST_NAMES" else of_names
            self.addCleanup(setattr, module, name, getattr(module, name))
            setattr(module, name, bound)

    def test_counts_go_on(self):
        """Not all names are looked through for a page, which says so; they are counted on in the pauses, and then the count is exact."""
        self.bounded(MOST_BYTES=50, SLICE=20, MOST_NAMES=8)
        wanted = [b"d/%03d" % number for number in range(200)]
        names = self.filled(wanted)
        for part in (b"d/", b"199", b"19", b"", b"none"):
            hits = [it for it in wanted if part in it]
            found, count = names.having(part, None, 7)
            self.assertEqual((count.is_all, count.number < len(hits) or not hits), (False, True), part)
            turns = 0
            while names.count_on():
                turns += 1
            self.assertGreater(turns, 3)
            found, count = names.having(part, None, 7)
            self.assertEqual(([it.name for it in found.entries], count), (hits[:7], Count(len(hits), True)), part)
            self.assertEqual(found.behind, hits[6] if len(hits) > 7 else None)
        self.assertFalse(names.is_counting())

    def test_counts_while_names_come_and_go(self):
        """Between two slices of a count names come and go, before and behind the place where it stands, at the edges of runs too."""
        for seed in range(60):
            chance = random.Random(seed)
            self.bounded(MOST_BYTES=chance.choice((30, 200)), SLICE=20, MOST_NAMES=chance.choice((2, 5, 1024)))
            there = {b"%03d" % chance.randrange(1000): 3 for _ in range(chance.choice((1, 40, 120)))}
            names, parts = self.filled(sorted(there)), (b"", b"1", b"00", b"9", b"777")
            for part in parts:
                names.having(part, None, 5)
            height = 9
            for _ in range(30):
                names.count_on()
                if chance.random() < 0.7 or height == 9:
                    height += 1
                    new = {b"%03d" % chance.randrange(1000) for _ in range(chance.choice((1, 3)))} - set(there)
                    names.connected(Tip(height, bytes(32)), [(0, it, b"{}") for it in sorted(new)])
                    there.update(dict.fromkeys(new, height))
                else:
                    height -= 1
                    names.disconnected(Tip(height, bytes(32)))
                    there = {name: at for name, at in there.items() if at <= height}
            while names.count_on():
                pass
            for part in parts:
                hits, most = sorted(it for it in there if part in it), chance.choice((3, 5, 50))
                found, count = names.having(part, None, most)
                while not count.is_all and names.count_on():
                    found, count = names.having(part, None, most)
                self.assertEqual((count, names.counts[part].first), (Count(len(hits), True), hits[:51]), (seed, part))
                found, count = names.having(part, None, most)
                self.assertEqual([it.name for it in found.entries], hits[:most])
            names.close()

    def test_look_again(self):
        """A page that doesn't know its count yet says so; by its link, a while later, it does. In between a quarter of the time is taken."""
        self.bounded(MOST_BYTES=50, SLICE=20, MOST_NAMES=8)
        self.now, took = 0.0, 0.0
        keeper = Keeper([], self.path.parent, self.path, print, lambda: self.now)
        keeper.names = self.filled([b"d/%03d" % number for number in range(200)])
        finder, count_on = Finder(keeper, 25, None), keeper.names.count_on

        def takes_a_while():
            self.now += 0.5
            return count_on()

        keeper.names.count_on = takes_a_while
        page = finder.find(Frame(), "name=%26+%22&way=have")
        while "so far" in page.body.decode():
            begun, left = self.now, keeper.turn()
            self.assertEqual((self.now - begun, left), (0.5, REST * 0.5 if keeper.names.is_counting() else None))
            self.assertEqual((keeper.turn(), self.now - begun), (left, 0.5))
            self.now, took = self.now + REST * 0.5, took + 0.5
            link = re.search(r'href="([^"]*)">Look again</a>', page.body.decode())[1]
            page = finder.find(Frame(), html.unescape(link).partition("?")[2])
        self.assertIn("<strong>No names</strong>", page.body.decode())
        self.assertNotIn("Look again", page.body.decode())
        self.assertGreater(took, 1)
        self.assertIsNone(keeper.turn())

    def test_counts_in_words(self):
        """What wasn't counted to its end is told as that."""
        rows = {Count(0, True): "No names", Count(1, True): "One name", Count(1234, True): "1,234 names"}
        for number, told in ((0, "No names"), (1, "One name"), (25, "25 names")):
            rows[Count(number, False)] = f"{told} so far"
        self.assertEqual({count: counted(count) for count in rows}, rows)

    def test_bounds_of_bytes(self):
        """What is looked through for a page is bounded; the next page goes on where it ended."""
        self.bounded(MOST_BYTES=50, MOST_NAMES=8)
        names = self.filled([b"d/%03d" % number for number in range(200)])
        found, count = names.having(b"199", None, 7)
        self.assertEqual((found.entries, count.is_all), ([], False))
        pages = 1
        while not found.entries:
            found, count = names.having(b"199", found.behind, 7)
            pages += 1
        self.assertEqual([it.name for it in found.entries], [b"d/199"])
        self.assertGreater(pages, 3)

    def test_what_searches_cost(self):
        """Parts that no name has, over and over, the dearest for their names: of each so many bytes are looked through at once, a bounded
        number of counts is kept, and a slice of the pauses is bounded too, however many counts wait."""
        names = self.filled([b"d/" + b"alike" * 47 + b"%07d" % it for it in range(50_000)])
        looked, run, count_of = [0], 2 * 1024 * 245, runs.count_of
        self.addCleanup(setattr, runs, "count_of", count_of)

        def counted_of(text, part):
            looked[0] += len(text)
            return count_of(text, part)

        runs.count_of = counted_of
        for number in range(2 * of_names.MOST_COUNTS):
            looked[0] = 0
            found, count = names.having(b"alike%d.none" % number, None, 25)
            self.assertEqual((found.entries, count), ([], Count(0, False)))
            self.assertLessEqual(looked[0], of_names.MOST_BYTES + run)
        self.assertEqual(len(names.counts), of_names.MOST_COUNTS)
        slices, looked[0], before = 0, 0, 0
        while names.count_on():
            slices, before, at_once = slices + 1, looked[0], looked[0] - before
            self.assertLessEqual(at_once, of_names.SLICE + run)
        self.assertEqual([(it.number, it.first) for it in names.counts.values()], [(0, [])] * of_names.MOST_COUNTS)
        self.assertLessEqual(looked[0], of_names.MOST_COUNTS * (50_000 * 245 - of_names.MOST_BYTES + run))
        pieces = [0]

        class Counted(bytes):
            """Tells how many pieces are made of it."""

            def split(self, by):
                found = super().split(by)
                pieces[0] += len(found)
                return found

        # A part that stands 47 times in each name takes no more than a few pieces of each.
        run_of_names = runs.text_of([b"d/" + b"alike" * 47 + b"%07d" % it for it in range(1000)])
        self.assertEqual((count_of(Counted(run_of_names), b"l"), pieces[0] <= 1002), (1000, True))
        names.having(b"alike", None, 25)
        self.assertEqual(max(len(it.first) for it in names.counts.values()), MOST_FIRST)

    def test_names_that_begin_alike(self):
        """Very many, and long: what begins with them is counted at once, and the last one is found by its end, page by page."""
        number = 140_000
        names = self.filled([b"d/" + b"alike" * 47 + b"%07d" % it for it in range(number)])
        last = b"d/" + b"alike" * 47 + b"%07d" % (number - 1)
        self.assertEqual((names.number(), names.count_beginning(last[:200]), names.count_beginning(last)), (number, Count(number, True), Count(1, True)))
        self.assertEqual([it.name for it in names.beginning(last[:200], last[:-1] + b"8", 5).entries], [last])
        found, count = names.having(last[-7:], None, 25)
        pages = 1
        while found.behind is not None:
            self.assertEqual((found.entries, count), ([], Count(0, False)))
            found, count = names.having(last[-7:], found.behind, 25)
            pages += 1
        self.assertEqual(([it.name for it in found.entries], pages), ([last], 9))
        found, count = names.having(b"alike", None, 25)
        self.assertEqual((len(found.entries), count.is_all), (25, False))
        while names.count_on():
            pass
        self.assertEqual(names.having(b"alike", None, 25)[1], Count(number, True))
        found, count = names.having(last[-7:], None, 25)
        self.assertEqual(([it.name for it in found.entries], found.behind, count), ([last], None, Count(1, True)))

    def filled(self, wanted):
        builder = Builder(self.path, base(bytes(32)))
        lines = [b"tip 9 " + b"00" * 32]
        for name in wanted:
            lines += [b"name %s 3 served 7b7d" % name.hex().encode(), b"  at 3 since 3 7b7d"]
        builder.take(lines)
        builder.finish(lambda: None)
        builder.in_place()
        names = Names(self.path)
        self.addCleanup(names.close)
        return names


class Reports(WithNames):
    def test_what_is_no_report(self):
        """Any line that is none of a report's is told, and no file comes of it."""
        tip, name, value = b"tip 9 " + b"ab" * 32, b"name 64 3 served 7b7d", b"  at 3 since 3 7b7d"
        bad = [[], [name], [tip, value], [tip, name], [tip, name, name], [tip, name, value, name, value], [tip, tip], [b"tap 9 " + b"ab" * 32]]
        bad += [[b"tip 9 ab"], [b"tip x " + b"ab" * 32], [tip, name, b"  at x since 3 7b"], [tip, name, b"  at 3 since 3 7"], [tip, b""], [tip, b"name 6 3 served -"]]
        bad += [[tip, b"name 65 3 served -", value, name, value], [tip, b"name"], [tip, name, b"  at 3 since"], [tip, name, value, b"name 64 1 lapsed -", value]]
        for lines in bad:
            builder = Builder(self.path, base(bytes(32)))
            with self.assertRaises(BadReport, msg=lines):
                builder.take(list(lines))
                builder.finish(lambda: None)
            builder.drop()
            self.assertEqual(list(self.path.parent.iterdir()), [])

    def test_what_is_no_file_of_names(self):
        """A damaged file, another one's, another version, one that isn't whole, one that is held: each is told in a word or two."""
        self.assertRaises(FileNotFoundError, Names, self.path)
        model = Model(0, hash=self.chains.first)
        built(self.path, model, base(self.chains.first)).close()
        good = self.path.read_bytes()
        held = Names(self.path)
        self.assertRaisesRegex(Unusable, "held by another program", Names, self.path)
        held.close()
        for damage in (b"", b"no file of SQLite", good[:100], good[:5000], good[:50] + b"\xff" * 500 + good[550:]):
            self.path.write_bytes(damage)
            self.assertRaisesRegex(Unusable, "is damaged|none of the explorer's", Names, self.path)
        self.path.write_bytes(good)
        for word, why in (("user_version=7", "has the version 7, and not 1"), ("application_id=5", "none of the explorer's")):
            self.path.write_bytes(good)
            with sqlite3.connect(self.path) as db:
                db.execute(f"PRAGMA {word}")
            db.close()
            self.assertRaisesRegex(Unusable, why, Names, self.path)
        self.path.write_bytes(good)
        with sqlite3.connect(self.path) as db:
            db.execute("DELETE FROM facts WHERE name = 'hash'")
        db.close()
        self.assertRaisesRegex(Unusable, "isn't whole", Names, self.path)


class Blocks(unittest.TestCase):
    def test_operations(self):
        """Of each block those that the model's reader finds, in their order."""
        chains = Named()
        tip = chains.updating(chains.opening(chains.grow(chains.first, 30), ODD), (b"", b"more"), (b"d/plain", b"x" * 1000), (b"", b"again"))
        seen = 0
        for hash in chains.path(tip):
            block = chains.blocks[hash].data
            wanted = []
            for transaction in transactions_of(block)[1:]:
                for _, script in transaction.outputs:
                    found = operation_by_model(script)
                    if found and found[0] != NEW:
                        wanted.append((found[0][0], found[1], found[-1]))
            self.assertEqual(operations_of(block), wanted)
            seen += len(wanted)
        self.assertGreater(seen, 40)

    def test_other_forms(self):
        """A block that was mined beside another chain's, with witnesses; and one that is cut."""
        chains = Named()
        tip = chains.opening(chains.first, ODD)
        block = chains.blocks[tip].data
        wanted = operations_of(block)
        self.assertEqual(len(wanted), len(ODD) + 1)
        plain = b"\1\0\0\0" + b"\1" + bytes(36) + b"\0" + b"\xff" * 4 + b"\1" + bytes(8) + b"\1\x51"
        parent = plain[:4] + b"\0\1" + plain[4:] + b"\2\3abc\0" + bytes(4)
        merged = parent + bytes(32) + b"\2" + bytes(64) + bytes(4) + b"\xfd\1\0" + bytes(32) + bytes(4) + bytes(80)
        version = (0x104).to_bytes(4, "little")
        other = version + block[4:80] + merged + block[80:]
        self.assertEqual(operations_of(other), wanted)
        for cut in range(80, len(other) - 1, 7):
            if b"\x00\x71\x00\x00" in other[:cut]:
                self.assertRaises((ValueError, IndexError), operations_of, other[:cut])
        self.assertEqual(operations_of(chains.blocks[chains.first].data), [])


if __name__ == "__main__":
    unittest.main()
