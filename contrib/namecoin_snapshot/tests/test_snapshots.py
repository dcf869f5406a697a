"""Snapshots of whole files, beside what the rules demand of the same outputs."""
import random
import unittest.mock

from .case import BASE, FIRST, HEIGHT, NEW, PAYS, UPDATE, Case, name_script, unittest, wanted_snapshot
from .node_files import LAYOUTS, NEWER, OLDER, Coin, file_text

from namecoin_snapshot import makes, unspent
from snapshot_model import makes_of

KEY = bytes([2]) + bytes(range(32))
# A script of each special form, and others.
PAYMENTS = [PAYS, b"\xa9\x14" + b"\x53" * 20 + b"\x87", b"\x21" + KEY + b"\xac", b"\x21\x03" + KEY[1:] + b"\xac"]
PAYMENTS += [b"\x41\x04" + b"\x53" * 63 + bytes([it]) + b"\xac" for it in (2, 3)]
PAYMENTS += [b"", b"\x51", b"\x53", b"\x6a" + bytes(30), b"\x51" * 9, b"\x00\x14" + bytes(20), b"\x53\x02d/\x01v\x51"]
FIRST_UPDATE, LONGEST = name_script(FIRST, b"d/first", b"salt", b"{}"), name_script(UPDATE, b"n" * 255, b"v" * 1023)


def some_coins(chance, count, height=HEIGHT, lowest=0):
    """Outputs of all kinds, each name once."""
    found = []
    for number in range(count):
        txid = chance.randbytes(32)
        for index in sorted(chance.sample((0, 1, 2, 127, 128, 252, 253, 255, 256, 16511, 16512, 65536), chance.randrange(1, 4))):
            made, name = chance.randrange(lowest, height + 1), b"d/%d-%d" % (number, index)
            scripts = [name_script(NEW, chance.randbytes(20)), name_script(FIRST, name, b"salt", b"{}"), chance.choice(PAYMENTS)]
            script = chance.choice([*scripts, name_script(UPDATE, name, chance.randbytes(chance.randrange(300))) + PAYS])
            amount = chance.choice((0, 1, 5, 1_000_000, 21 * 10**14, 123_456_789))
            found.append(Coin(txid, index, made, script, amount, chance.random() < 0.1))
    return found


class Snapshots(Case):
    def test_none(self):
        self.check([])
        self.check([Coin(bytes(32), index, 3, script) for index, script in enumerate(PAYMENTS)])

    def test_each_operation(self):
        scripts = [name_script(NEW, b"h" * 20), FIRST_UPDATE, LONGEST, name_script(UPDATE, b"", b"")]
        scripts.append(name_script(UPDATE, b"d/update", b"v") + PAYS)
        self.check([Coin(b"\x07" * 32, index, HEIGHT - index, script) for index, script in enumerate(scripts)])
        self.assertEqual(len(makes_of(self.snapshot.read_bytes(), "regtest", HEIGHT)), 5)

    def test_any(self):
        """Sets of outputs of all kinds: both layouts give one snapshot, the one that the rules demand."""
        chance = random.Random(1)
        for profile, height, lowest in (("regtest", 1000, 960), ("main", 23_999, 11_990), ("main", 24_000, 0), ("main", 500_000, 463_000)):
            for _ in range(4):
                coins = some_coins(chance, 60, height, lowest)
                self.check(coins, profile, height)
                makes_of(self.snapshot.read_bytes(), profile, height)

    def test_no_order(self):
        """Outputs and transactions in another order than a node's give the same snapshot."""
        chance = random.Random(2)
        coins = sorted(some_coins(chance, 200), key=lambda it: (it.txid, it.index))
        wanted = self.made(file_text(OLDER, coins))
        for _ in range(3):
            chance.shuffle(coins)
            for layout in LAYOUTS:
                self.assertEqual(self.made(file_text(layout, coins)), wanted)

    def test_order_of_the_index(self):
        """By the index as a number: neither its bytes in the file nor a node's own order, in which 16512 stands before 256, are that."""
        coins = [Coin(bytes(32), it, HEIGHT, name_script(NEW, bytes(20))) for it in (0, 1, 128, 16512, 255, 256, 65536)]
        self.check(coins)
        places = [int.from_bytes(it.at[32:], "little") for it in makes_of(self.snapshot.read_bytes(), "regtest", HEIGHT)]
        self.assertEqual(places, [0, 1, 128, 255, 256, 16512, 65536])

    def test_expired(self):
        """What is expired in the block on the base is left out, and nothing else: a commitment never is."""
        rows = [("regtest", 1000, 971), ("main", 500_000, 464_001), ("main", 30_000, 12_000)]
        rows += [("main", 48_000, 12_001), ("main", 23_998, 11_999)]
        for profile, height, last in rows:
            coins = [Coin(bytes(32), it, last - 1 + it, name_script(UPDATE, b"d/%d" % it, b"v")) for it in range(3)]
            coins.append(Coin(b"\1" * 32, 0, 0, name_script(NEW, bytes(20))))
            self.check(coins, profile, height)
            found = makes_of(self.snapshot.read_bytes(), profile, height)
            self.assertEqual([it.height for it in found], [last + 1, 0], (profile, height))
            self.assertIn("left out are 2 names that are expired", self.said)

    def test_one_name_expired_and_not(self):
        name = [name_script(UPDATE, b"d/same", value) for value in (b"old", b"new")]
        self.check([Coin(bytes(32), 0, HEIGHT - 29, name[0]), Coin(bytes(32), 1, HEIGHT - 28, name[1])])

    def test_coinbases(self):
        """What a coinbase makes is no name, whatever its script: no rule looks at it."""
        script = name_script(UPDATE, b"d/same", b"v")
        coins = [Coin(bytes(32), 0, HEIGHT, script, is_coinbase=True), Coin(b"\1" * 32, 0, HEIGHT, script)]
        coins.append(Coin(b"\2" * 32, 0, HEIGHT, name_script(NEW, b"short"), is_coinbase=True))
        self.check(coins)
        self.assertIn("1 names and 0 commitments are taken; left out are 0 names that are expired, ", self.said)
        self.assertIn(", 0 commitments that have another size than 20 bytes, and 2 outputs of coinbases with a name script\n", self.said)

    def test_what_can_never_matter(self):
        """Expired names of a form that no rule takes, and commitments of another size: they are left out and counted, and the others
        are taken."""
        forms = [name_script(UPDATE, b"n" * 256, b""), name_script(FIRST, b"n", b"", b"v" * 1024), name_script(UPDATE, b"n", b"v" * 1024)]
        coins = [Coin(b"\1" * 32, it, HEIGHT - 29, script) for it, script in enumerate(forms)]
        sizes = (0, 19, 21, 75, 520)
        coins += [Coin(b"\2" * 32, it, HEIGHT, name_script(NEW, bytes(size))) for it, size in enumerate(sizes)]
        taken = [Coin(b"\3" * 32, 0, HEIGHT, LONGEST), Coin(b"\3" * 32, 1, HEIGHT, name_script(NEW, bytes(20)))]
        for layout in LAYOUTS:
            text = self.made(file_text(layout, [*coins, *taken]))
            self.assertEqual(text, wanted_snapshot(taken))
            told = "1 names and 1 commitments are taken; left out are 3 names that are expired, 5 commitments that have another size"
            self.assertIn(told, self.said)

    def test_greatest(self):
        """The greatest height, index, amount and scripts."""
        height = 2_000_000_000
        coins = [Coin(b"\xff" * 32, index, height, script, 21 * 10**14) for index, script in ((0, LONGEST), (33_554_432, FIRST_UPDATE))]
        self.check(coins, height=height)
        older = [Coin(b"\xff" * 32, 2**32 - 1, height, LONGEST)]
        makes_of(self.made(file_text(OLDER, older), height=height), "regtest", height)

    def test_scripts_that_nobody_can_spend(self):
        """Scripts of more than 10,000 bytes are passed over, as a node does it, whatever they begin with and wherever a piece ends."""
        name = name_script(UPDATE, b"d/long", b"v")
        lengths = (10_000, 10_001, 70_000, 3 * unspent.PIECE)
        scripts = [name_script(UPDATE, b"d/%d" % it, b"v").ljust(length, b"\0") for it, length in enumerate(lengths)]
        coins = [Coin(bytes(31) + bytes([it]), 0, HEIGHT, script) for it, script in enumerate(scripts)]
        coins.append(Coin(b"\1" * 32, 0, HEIGHT, name))
        for layout in LAYOUTS:
            found = makes_of(self.made(file_text(layout, coins)), "regtest", HEIGHT)
            self.assertEqual([it.text for it in found], [b"d/0", b"d/long"])

    def test_pieces(self):
        """The same, wherever a piece of the file that is read ends."""
        coins = some_coins(random.Random(3), 50) + [Coin(b"\xff" * 32, 0, HEIGHT, bytes(10_001)), Coin(b"\xff" * 32, 1, HEIGHT, LONGEST)]
        coins += [Coin(b"\xfe" * 32, it, HEIGHT, name_script(UPDATE, b"d/%d" % it, b"v").ljust(10_000, b"\0")) for it in range(9)]
        for layout in LAYOUTS:
            text = file_text(layout, coins)
            wanted = self.made(text)
            self.assertEqual(wanted, wanted_snapshot(coins))
            for piece in (10_200, 10_201, 10_333, 11_111, 12_345, 16_384):
                with unittest.mock.patch.object(unspent, "PIECE", piece):
                    self.assertEqual(self.made(text), wanted)

    def test_pieces_of_the_copy(self):
        coins = sorted(some_coins(random.Random(4), 50), key=lambda it: (it.txid, it.index))
        wanted = self.made(file_text(NEWER, coins))
        for copied in (1, 7, 100, 1000):
            with unittest.mock.patch.object(makes, "COPIED", copied):
                self.assertEqual(self.made(file_text(NEWER, coins)), wanted)

    def test_names_of_one_hash(self):
        """Names whose hashes are the same are compared themselves."""
        coins = some_coins(random.Random(5), 100)
        with unittest.mock.patch.object(makes, "hash", lambda name: len(name) % 2, create=True):
            self.check(coins)

    def test_line(self):
        self.made(file_text(NEWER, []), "--program", "jaqhumpi")
        words = f"init-from regtest {HEIGHT} {BASE[::-1].hex()} ns.example. < {self.snapshot}\n"
        self.assertEqual(self.printed, f"jaqhumpi {words}")
        self.made(file_text(OLDER, []))
        self.assertEqual(self.printed, f"bridge_server {words}")
        self.snapshot = self.room / "a place"
        self.made(file_text(OLDER, []))
        self.assertTrue(self.printed.endswith(f" < '{self.snapshot}'\n"))

    def test_stands_in_place_of_an_older_one(self):
        self.file.write_bytes(file_text(NEWER, []))
        self.snapshot.write_bytes(b"an older one")
        self.assertEqual(self.run_main(), 0)
        self.assertEqual(self.snapshot.read_bytes(), b"NMCS\x01\0\0\0\0")
        self.assertEqual(sorted(it.name for it in self.room.iterdir()), ["outputs", "snapshot"])


if __name__ == "__main__":
    unittest.main()
