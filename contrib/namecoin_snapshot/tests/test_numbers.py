"""Numbers of a node's file, with the values of Bitcoin Core's own tests."""
import random

from .case import unittest
from .node_files import compact_size, compressed_amount, varint

from namecoin_snapshot import numbers
from namecoin_snapshot.numbers import MOST_32, MOST_64, MOST_AMOUNT, MOST_OF_ANY_EXPONENT, BadNumber

# serialize_tests.cpp (varints_bitpatterns), and the comment of serialize.h.
VARINTS = {
    0: "00", 0x7F: "7f", 0x80: "8000", 0x1234: "a334", 0xFFFF: "82fe7f", 0x123456: "c7e756", 0x80123456: "86ffc7e756",
    0xFFFFFFFF: "8efefefe7f", 0x7FFFFFFFFFFFFFFF: "fefefefefefefefe7f", 0xFFFFFFFFFFFFFFFF: "80fefefefefefefefe7f",
    1: "01", 255: "807f", 256: "8100", 16383: "fe7f", 16384: "ff00", 16511: "ff7f", 65535: "82fe7f", 2**32: "8efefeff00",
}
CENT, COIN = 1_000_000, 100_000_000
# compress_tests.cpp (compress_amounts).
AMOUNTS = {0: 0x0, 1: 0x1, CENT: 0x7, COIN: 0x9, 50 * COIN: 0x32, 21_000_000 * COIN: 0x1406F40}


class Varints(unittest.TestCase):
    def test_values_of_core(self):
        for number, digits in VARINTS.items():
            text = bytes.fromhex(digits)
            self.assertEqual(varint(number), text)
            self.assertEqual(numbers.varint(b"\xff" + text + b"\xff", 1, MOST_64), (number, 1 + len(text)))

    def test_all_lengths(self):
        chance = random.Random(1)
        for number in [chance.getrandbits(bits) for bits in range(1, 65) for _ in range(20)]:
            text = varint(number)
            self.assertEqual(numbers.varint(text, 0, MOST_64), (number, len(text)))
            for length in range(len(text)):
                self.assertRaises(IndexError, numbers.varint, text[:length], 0, MOST_64)

    def test_too_great(self):
        """The place is that of the first byte, also where digits go on for ever."""
        for most in (MOST_32, MOST_64):
            self.assertEqual(numbers.varint(varint(most), 0, most)[0], most)
            for text in (varint(most + 1), varint(most)[:-1] + b"\xff", b"\xff" * 20, varint(2**70), varint(most)[:-1] + b"\xff\x00"):
                with self.assertRaises(BadNumber) as bad:
                    numbers.varint(b"\0\0" + text, 2, most)
                self.assertEqual(bad.exception.at, 2)

    def test_as_core_reads(self):
        """Bitcoin Core's ReadVarInt, line by line, over random bytes."""
        chance = random.Random(2)
        for _ in range(20_000):
            digits = (chance.choice((0, 0x7F, chance.getrandbits(7))) for _ in range(chance.randrange(12)))
            text, most = bytes(it | chance.choice((0x80, 0)) for it in digits), chance.choice((MOST_32, MOST_64))
            self.assertEqual(outcome(lambda: numbers.varint(text, 0, most)), outcome(lambda: read_as_core(text, most)), text.hex())


def outcome(read):
    try:
        return read()
    except (BadNumber, IndexError) as fault:
        return type(fault)


def read_as_core(text, most):
    number, at = 0, 0
    while True:
        byte = text[at]
        at += 1
        if number > most >> 7:
            raise BadNumber(0, "")
        number = number << 7 | byte & 0x7F
        if not byte & 0x80:
            return number, at
        if number == most:
            raise BadNumber(0, "")
        number += 1


class CompactSizes(unittest.TestCase):
    def test_forms(self):
        for number in (0, 1, 0xFC, 0xFD, 0xFFFF, 0x10000, numbers.MOST_COMPACT):
            text = compact_size(number)
            self.assertEqual(numbers.compact_size(b"\0" + text + b"\0", 1), (number, 1 + len(text)))
            for length in range(len(text)):
                self.assertRaises(IndexError, numbers.compact_size, text[:length], 0)

    def test_refused(self):
        longer = ("fdfc00", "feffff0000", "ffffffffff00000000", "fd0000")
        greater = (compact_size(numbers.MOST_COMPACT + 1).hex(), "ff" * 9)
        for digits in (*longer, *greater):
            with self.assertRaises(BadNumber) as bad:
                numbers.compact_size(b"\0" + bytes.fromhex(digits), 1)
            self.assertEqual(bad.exception.at, 1)


class Amounts(unittest.TestCase):
    def test_values_of_core(self):
        for amount, compressed in AMOUNTS.items():
            self.assertEqual((compressed_amount(amount), numbers.amount_of(compressed)), (compressed, amount))

    def test_there_and_back(self):
        for unit, most in ((1, 100_000), (CENT, 10_000), (COIN, 10_000), (50 * COIN, 420_000)):
            for number in range(1, most + 1, max(1, most // 5000)):
                self.assertEqual(numbers.amount_of(compressed_amount(number * unit)), number * unit)
        for compressed in range(20_000):
            self.assertEqual(compressed_amount(numbers.amount_of(compressed)), compressed)

    def test_up_to_this_none_is_too_great(self):
        chance = random.Random(3)
        around = [MOST_OF_ANY_EXPONENT + it for it in range(-30, 30)]
        for compressed in [*around, *(chance.getrandbits(bits) for bits in range(1, 65) for _ in range(20)), *AMOUNTS.values()]:
            self.assertTrue(compressed > MOST_OF_ANY_EXPONENT or numbers.amount_of(compressed) <= MOST_AMOUNT)
        self.assertEqual(numbers.amount_of(MOST_OF_ANY_EXPONENT), MOST_AMOUNT)


if __name__ == "__main__":
    unittest.main()
