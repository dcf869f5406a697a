"""Files of Core 0.20 and 0.21, whose head has four bytes more than that of later ones: nothing but the outputs tells it."""
import random
import unittest.mock

from .case import BASE, HEIGHT, PAYS, UPDATE, Case, name_script, unittest, wanted_snapshot
from .node_files import NETWORKS, OLDER, OLDEST, Coin, bodies, file_text, head
from .test_snapshots import some_coins

from namecoin_snapshot import unspent

FILES = 60


class Oldest(Case):
    def coins(self, seed, count=40):
        chance = random.Random(seed)
        return [it for it in some_coins(chance, count) if it.txid[-4:] != bytes(4)]

    def test_the_same_snapshot(self):
        """Of chance's outputs, few and many: both heads give what the rules demand."""
        for seed in range(FILES):
            coins = self.coins(seed, seed)
            wanted = wanted_snapshot(coins)
            for layout in (OLDEST, OLDER):
                self.assertEqual(self.made(file_text(layout, coins)), wanted, (layout, seed))

    def test_pieces(self):
        """Wherever a piece of the file ends."""
        coins = self.coins(1, 900)
        wanted = wanted_snapshot(coins)
        for piece in (10_200, 10_333, 16_384):
            with unittest.mock.patch.object(unspent, "PIECE", piece):
                for layout in (OLDEST, OLDER):
                    self.assertEqual(self.made(file_text(layout, coins)), wanted, (layout, piece))

    def test_cut(self):
        """Behind its first output, at each byte: the place is the end of the file, and the output is told."""
        coins = self.coins(2, 4)
        ends = [44]
        for body in bodies(OLDEST, coins):
            ends.append(ends[-1] + len(body))
        text = file_text(OLDEST, coins)
        for length in range(ends[1], len(text)):
            inside = sum(length >= end for end in ends)
            self.bad_at(text[:length], length, f"the file is cut: it ends inside output {inside} of {len(coins)}")

    def test_bytes_behind(self):
        coins = [Coin(random.Random(3).randbytes(32), it, HEIGHT, name_script(UPDATE, b"d/%d" % it, b"v") + PAYS) for it in range(1200)]
        text = file_text(OLDEST, coins)
        self.assertEqual(self.made(text), wanted_snapshot(coins))
        self.bad_at(text + b"\0", len(text), "bytes stand behind the last of 1200 outputs")

    def test_places(self):
        """A fault behind outputs that are well is told at its own place."""
        coins = self.coins(4, 30)
        text = file_text(OLDEST, coins, count=len(coins) + 1) + b"\x07" * 32 + bytes(4)
        self.bad_at(text + b"\x80" * 9, len(text), "a VARINT is above 4294967295")

    def test_neither(self):
        """What is a file of neither is told as one of a later node."""
        self.bad_at(head(OLDEST, BASE, 3, NETWORKS["regtest"]) + b"\xff" * 900, 76, "a VARINT is above 4294967295")


if __name__ == "__main__":
    unittest.main()
