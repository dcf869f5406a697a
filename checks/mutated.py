"""Bytes that are changed by chance, at one place or at some."""

EDGES = (0x00, 0x01, 0x7F, 0x80, 0xFE, 0xFF)
WIDTHS = (1, 2, 4, 8)
MOST_MOVED = 64


def with_bit(chance, text):
    at = chance.randrange(len(text))
    return text[:at] + bytes([text[at] ^ 1 << chance.randrange(8)]) + text[at + 1 :]


def with_byte(chance, text):
    at = chance.randrange(len(text))
    return text[:at] + bytes([chance.choice([*EDGES, chance.randrange(256)])]) + text[at + 1 :]


def with_number(chance, text):
    """A number of one to eight bytes, with its low byte first, is the least, the greatest, or one more or less."""
    width = chance.choice(WIDTHS)
    at, most = chance.randrange(len(text)), (1 << 8 * width) - 1
    told = int.from_bytes(text[at : at + width], "little")
    number = chance.choice([0, most, told + 1 & most, told - 1 & most])
    return text[:at] + number.to_bytes(width, "little") + text[at + width :]


def cut(chance, text):
    return text[: chance.randrange(len(text))]


def without_piece(chance, text):
    at = chance.randrange(len(text))
    return text[:at] + text[at + chance.randrange(1, MOST_MOVED) :]


def piece_of(chance, text):
    at = chance.randrange(len(text))
    return text[at : at + chance.randrange(1, MOST_MOVED)]


def with_piece(chance, text):
    """Bytes by chance, of one value, or of the text stand between two others."""
    at, count = chance.randrange(len(text) + 1), chance.choice([1, 1, 2, 4, 8, 40])
    piece = chance.choice([chance.randbytes(count), bytes([chance.choice(EDGES)]) * count, piece_of(chance, text)])
    return text[:at] + piece + text[at:]


def over_piece(chance, text):
    """A piece of the text stands over another."""
    at, piece = chance.randrange(len(text)), piece_of(chance, text)
    return text[:at] + piece + text[at + len(piece) :]


WAYS = (with_bit, with_bit, with_byte, with_byte, with_number, with_number, cut, without_piece, with_piece, over_piece)


def mutated(chance, text, ways=WAYS):
    """The text with one change, or with some."""
    for _ in range(chance.choice([1, 1, 1, 2, 3, 8])):
        text = chance.choice(ways)(chance, text) if text else chance.randbytes(chance.randrange(1, 9))
    return text


def mutated_part(chance, parts):
    """The parts with one left out, twice, in another's place, or changed by itself."""
    parts, at = list(parts), chance.randrange(len(parts))
    one = parts[at]
    parts[at : at + 1] = chance.choice([[], [one, one], [chance.choice(parts)], [mutated(chance, one)], [mutated(chance, one)]])
    return parts
