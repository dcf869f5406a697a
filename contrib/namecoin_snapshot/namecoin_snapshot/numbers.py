"""The numbers in a node's file, each with the place behind it. Where the bytes end before, an IndexError is raised."""

MOST_32, MOST_64 = 2**32 - 1, 2**64 - 1
# No compact size is longer (Bitcoin Core, MAX_SIZE).
MOST_COMPACT = 0x02000000
# The bytes of a compact size behind its first, and the least number that has them.
LEAST_OF_FORM = {0xFD: (2, 0xFD), 0xFE: (4, 0x10000), 0xFF: (8, 0x100000000)}
# A coin has 100,000,000 units, and there are no more than 21,000,000 (Bitcoin Core, MAX_MONEY).
MOST_AMOUNT = 21_000_000 * 100_000_000
# No number up to this one stands for a greater amount: with the exponent 9 it is 2,100,000 times 10^9 at most, and else less.
MOST_OF_ANY_EXPONENT = 21_000_000


class BadNumber(Exception):
    """A number that can't stand there: the place of its first byte, and what is wrong with it."""

    def __init__(self, at, text):
        super().__init__(text)
        self.at, self.text = at, text


def varint(data, at, most):
    """A VARINT (Bitcoin Core, WriteVarInt): base 128, the most significant digit first, one less in all digits but the last."""
    byte = data[at]
    if byte < 0x80:
        return byte, at + 1
    start, number = at, 0
    while byte >= 0x80:
        number = (number << 7 | byte & 0x7F) + 1
        if number > most:
            break
        at += 1
        byte = data[at]
    number = number << 7 | byte
    if number > most:
        raise BadNumber(start, f"a VARINT is above {most}")
    return number, at + 1


def compact_size(data, at):
    """A compact size (Bitcoin Core, ReadCompactSize), of the shortest form."""
    first = data[at]
    at += 1
    if first < 0xFD:
        return first, at
    length, least = LEAST_OF_FORM[first]
    end = at + length
    if end > len(data):
        raise IndexError
    number = int.from_bytes(data[at:end], "little")
    if number < least:
        raise BadNumber(at - 1, "a compact size isn't of the shortest form")
    if number > MOST_COMPACT:
        raise BadNumber(at - 1, f"a compact size is above {MOST_COMPACT}")
    return number, end


def amount_of(compressed):
    """The amount that is compressed so (Bitcoin Core, DecompressAmount): 0; or one more than a decimal exponent of at most 9 as the
    last digit, below 9 a last digit from 1 to 9 in base 9 before it, and the digits before that."""
    if not compressed:
        return 0
    number, exponent = divmod(compressed - 1, 10)
    if exponent == 9:
        return (number + 1) * 10**9
    number, digit = divmod(number, 9)
    return (10 * number + digit + 1) * 10**exponent
