"""The model of snapshots, over rows from outside: whether the bytes are a snapshot for the base, and the place of their fault."""
import random

from .case import unittest

from common import DATA, bytes_of, rows
from snapshot_model import HEAD, Make, SnapshotFault, makes_of, snapshot_text

# One make of a name, at the height 499,000 of a base at 500,000.
VALUE = b'{"ip":"1.2.3.4"}'
ROW = bytes.fromhex("4e4d43530101000000" + "aa" * 32 + "0000000053389d070009642f6578616d706c651000") + VALUE
MAKE, TAG, HEIGHT_AT = 9, 45, 46
BAD, MADE = "bad snapshot at ", ("0", "-")


def place_of(text, profile="main", height=500_000):
    """The place of the fault; None where it is a snapshot."""
    try:
        makes_of(text, profile, height)
    except SnapshotFault as fault:
        return fault.args[0]


def of_height(height):
    return ROW[:HEIGHT_AT] + height.to_bytes(4, "little") + ROW[HEIGHT_AT + 4 :]


def listed(*texts):
    return HEAD + len(texts).to_bytes(4, "little") + b"".join(texts)


class Rows(unittest.TestCase):
    def test_one_name(self):
        self.assertEqual(len(ROW), 78)
        make = Make(b"\xaa" * 32 + bytes(4), 499_000, b"d/example", VALUE)
        self.assertEqual((makes_of(ROW, "main", 500_000), snapshot_text([make])), ([make], ROW))

    def test_expired_in_the_block_on_the_base(self):
        self.assertEqual([place_of(of_height(it)) for it in (464_001, 464_002, 500_000, 500_001)], [MAKE, None, None, MAKE])

    def test_lengths(self):
        self.assertEqual([place_of(it) for it in (ROW[:-1], b"", ROW + b"\0", ROW[:8], ROW[:9])], [77, 0, 78, 8, 9])
        self.assertEqual([place_of(ROW[:length]) for length in range(78)], list(range(78)))

    def test_head(self):
        self.assertEqual([place_of(it) for it in (b"NX", b"NM", b"NMCS\2" + ROW[5:], b"NMCSx")], [1, 2, 4, 4])

    def test_forms_come_first(self):
        """Of a make whose outpoint is the one before, too: a cut, a tag, a value that is too long."""
        one = ROW[MAKE:]
        second = MAKE + len(one)
        self.assertEqual(place_of(listed(one, one)), second)
        self.assertEqual(place_of(listed(one, one[:-1])), second + len(one) - 1)
        self.assertEqual(place_of(listed(one, one[: TAG - MAKE] + b"\x52" + one[TAG - MAKE + 1 :])), second + TAG - MAKE)
        long = one[:-18] + (1024).to_bytes(2, "little") + bytes(1024)
        self.assertEqual(place_of(listed(one, long)), second + len(one) - 18)
        self.assertIsNone(place_of(listed(one[:-18] + (1023).to_bytes(2, "little") + bytes(1023))))

    def test_order_and_names(self):
        def make(txid, index, name):
            return Make(bytes([txid]) * 32 + index.to_bytes(4, "little"), 499_000, name, b"")

        text = snapshot_text([make(1, 256, b"b"), make(1, 255, b"a"), make(0, 7, b"c")])
        self.assertEqual([it.text for it in makes_of(text, "main", 500_000)], [b"c", b"a", b"b"])
        twice = [make(0, 7, b"c"), make(1, 1, b"d"), make(2, 1, b"c")]
        self.assertEqual(place_of(snapshot_text(twice)), 9 + 2 * 45)
        self.assertIsNone(place_of(snapshot_text([it._replace(text=bytes([it.text[0], number])) for number, it in enumerate(twice)])))

    def test_commitments(self):
        """None is ever expired, and two may have one hash."""
        makes = [Make(bytes(35) + bytes([it]), 0, b"h" * 20) for it in range(3)]
        self.assertEqual(makes_of(snapshot_text(makes), "regtest", 2_000_000_000), makes)


class FromOutside(unittest.TestCase):
    def test_rows(self):
        count = 0
        for number, (words, text, status, line) in rows(DATA / "snapshots.tsv"):
            _, profile, height, *_ = words.split(" ")
            place = place_of(bytes_of(text), profile, int(height))
            with self.subTest(row=number):
                self.assertEqual((status, line), MADE if place is None else ("11", f"{BAD}{place}"))
            count += 1
        self.assertGreater(count, 200)

    def test_those_that_are_snapshots_are_written_so(self):
        for _, (words, text, status, _) in rows(DATA / "snapshots.tsv"):
            _, profile, height, *_ = words.split(" ")
            if status == "0":
                makes = makes_of(bytes_of(text), profile, int(height))
                random.Random(1).shuffle(makes)
                self.assertEqual(snapshot_text(makes), bytes_of(text))


if __name__ == "__main__":
    unittest.main()
