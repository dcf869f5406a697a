"""Queries with an OPT in all its forms, and with what only looks like one (RFC 6891, 6.1.2 and 6.1.3)."""
import struct

from answers_model import OPT, A

ROOT, HEADER = b"\0", 12
# A record of the root, of type A.
RECORD = ROOT + struct.pack(">HHIH", A, 1, 60, 4) + bytes([192, 0, 2, 1])
# Options by their codes: NSID, a client subnet, a cookie, a time to keep a connection, padding, and one that nobody knows.
OPTIONS = {3: b"", 8: bytes.fromhex("00011800c00002"), 10: bytes(range(8)), 11: b"", 12: bytes(20), 65001: b"x"}
SIZES = [0, 1, 511, 512, 513, 1231, 1232, 1233, 4096, 65535]


def options(codes=OPTIONS):
    return b"".join(struct.pack(">HH", code, len(OPTIONS[code])) + OPTIONS[code] for code in codes)


def opt(size=1232, extended=0, version=0, flags=0, data=b"", owner=ROOT, kind=OPT, length=None):
    """An OPT, or what looks like one: with another owner or type, or with a length that isn't its data's."""
    return owner + struct.pack(">HHBBHH", kind, size, extended, version, flags, len(data) if length is None else length) + data


def with_sections(query, counts, text):
    """The query with these counts of answer, authority and additional records, and with this text behind its question."""
    return query[:6] + struct.pack(">3H", *counts) + query[HEADER:] + text


def with_opt(query, **fields):
    return with_sections(query, (0, 0, 1), opt(**fields))


def end_of_name(query):
    """The place of the root's byte in the question's name."""
    return len(query) - 5


def places(query):
    """By what they are: OPTs that stand elsewhere, or twice, or beside other records."""
    return {
        "no records": with_sections(query, (0, 0, 1), b""),
        "twice": with_sections(query, (0, 0, 2), opt() + opt(version=1)),
        "twice, the second cut": with_sections(query, (0, 0, 2), opt() + opt()[:-1]),
        "twice, the first of version 1": with_sections(query, (0, 0, 2), opt(version=1) + opt()),
        "no count": with_sections(query, (0, 0, 0), opt()),
        "a count of 65535": with_sections(query, (0, 0, 65535), opt()),
        "the answer section": with_sections(query, (1, 0, 0), opt()),
        "the authority section": with_sections(query, (0, 1, 0), opt()),
        "the answer section and the additional one": with_sections(query, (1, 0, 1), opt() + opt()),
        "the authority section and the additional one": with_sections(query, (0, 1, 1), opt() + opt()),
        "behind a record of the answer section": with_sections(query, (1, 0, 1), RECORD + opt()),
        "behind a record of the authority section": with_sections(query, (0, 1, 1), RECORD + opt()),
        "behind a record": with_sections(query, (0, 0, 2), RECORD + opt()),
        "before a record": with_sections(query, (0, 0, 2), opt() + RECORD),
        "before bytes": with_opt(query) + b"\0\0\x29bytes",
        "behind a byte": with_sections(query, (0, 0, 1), ROOT + opt()),
    }


def owners(query):
    """OPTs whose owner isn't written as the root, and records of other types."""
    found = {
        "a pointer to the root": opt(owner=struct.pack(">H", 0xC000 | end_of_name(query))),
        "a pointer to the name": opt(owner=b"\xc0\x0c"),
        "a label": opt(owner=b"\x01x\0"),
        "a letter": opt(owner=b"x"),
        **{f"type {kind}": opt(kind=kind) for kind in (0, 1, 40, 42, 250, 0x2900, 0x2929, 65535)},
        "a cut owner": ROOT,
        "a cut type": ROOT + b"\0",
        "a cut type that is another": ROOT + b"\x29",
    }
    return {what: with_sections(query, (0, 0, 1), text) for what, text in found.items()}


def fields(query):
    """OPTs with all that their fields may have."""
    found = {
        **{f"size {size}": {"size": size} for size in SIZES},
        **{f"size {size}, DO": {"size": size, "flags": 0x8000} for size in SIZES},
        **{f"version {version}": {"version": version} for version in (1, 2, 128, 255)},
        **{f"extended RCODE {code}": {"extended": code} for code in (1, 16, 255)},
        **{f"flags {flags:04x}": {"flags": flags} for flags in (1, 0x4000, 0x7FFF, 0x8000, 0x8001, 0xFFFF)},
        "version 1, DO": {"version": 1, "flags": 0xFFFF, "extended": 255, "data": options()},
        "all options": {"data": options()},
        **{f"option {code}": {"data": options([code])} for code in OPTIONS},
        "options twice": {"data": options() + options()},
        "an option beyond the record": {"data": struct.pack(">HH", 10, 9) + bytes(8)},
        "a cut option": {"data": b"\0"},
        "many bytes": {"data": bytes(20_000)},
        "a length less than the data": {"data": options(), "length": 3},
        **{f"a length of {length} beyond the end": {"data": bytes(8), "length": 8 + length} for length in (1, 256, 65527)},
        "a length of version 1 beyond the end": {"version": 1, "length": 1},
    }
    return {what: with_opt(query, **told) for what, told in found.items()}


def headers(query):
    """Queries with an OPT and another header: bits that are looked at or not, opcodes, counts of questions."""
    good = with_opt(query, flags=0x8000)
    found = {f"flags {flags:04x}": good[:2] + struct.pack(">H", flags) + good[4:] for flags in (0x0000, 0x07FF, 0x06B0, 0x8100)}
    found |= {f"opcode {code}": good[:2] + struct.pack(">H", code << 11) + good[4:] for code in range(1, 16)}
    found |= {f"{count} questions": good[:4] + struct.pack(">H", count) + good[6:] for count in (0, 2, 256, 65535)}
    return found


def forms(query):
    """All these by what they are."""
    found = {}
    for make in (places, owners, fields, headers):
        found |= {f"{make.__name__}, {what}": message for what, message in make(query).items()}
    return found


def fronts(message):
    """All that the message begins with, itself too."""
    return [message[:length] for length in range(len(message) + 1)]


def chosen(chance, *usual, bits=16):
    return chance.choice([*usual, *usual, *usual, chance.getrandbits(bits)])


def opt_by_chance(chance):
    data = chance.choice([b"", b"", options([10]), options(), chance.randbytes(chance.randrange(40))])
    found = {"size": chosen(chance, *SIZES), "version": chosen(chance, 0, 0, 0, 1, bits=8), "flags": chosen(chance, 0, 0x8000)}
    found |= {"extended": chosen(chance, 0, bits=8), "data": data}
    if chance.randrange(12) == 0:
        found["length"] = chosen(chance, len(data), len(data) + 1)
    if chance.randrange(12) == 0:
        found["owner"] = chance.choice([b"\xc0\x0c", b"\x01x\0", b"", chance.randbytes(1)])
    if chance.randrange(12) == 0:
        found["kind"] = chosen(chance, 40, 42)
    return opt(**found)


def by_chance(chance, query):
    """The query with OPTs and other records behind it, by chance; mostly with one OPT; now and then cut, or with a byte changed."""
    if chance.randrange(4):
        message = with_sections(query, (0, 0, chosen(chance, 1, 1, 1, 2)), opt_by_chance(chance))
    else:
        parts = [chance.choice([opt_by_chance(chance), RECORD, b""]) for _ in range(3)]
        message = with_sections(query, [chosen(chance, 0, 0, 1, 1, 2, bits=2) for _ in range(3)], b"".join(parts))
    way = chance.randrange(16)
    if way == 0:
        return message[: chance.randrange(len(message))]
    if way == 1:
        at = chance.randrange(len(message))
        return message[:at] + chance.randbytes(1) + message[at + 1 :]
    return message
