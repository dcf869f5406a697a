"""Queries of DNS and what is read of their replies (docs/DNS.md, RFC 1035): as much as a page shows."""
import ipaddress
import struct
import typing

TYPES = {
    **{"A": 1, "AAAA": 28, "TXT": 16, "NS": 2, "CNAME": 5, "MX": 15, "SRV": 33, "DNAME": 39, "DS": 43, "SSHFP": 44, "TLSA": 52},
    **{"SOA": 6, "ANY": 255},
}
# The kind of a frame that asks a query.
QUERY = b"\x03"
NAMES = {number: name for name, number in TYPES.items()}
IN, OPT, RECURSION, TRUNCATED, OURS = 1, 41, 0x0100, 0x0200, 0x0400
LARGEST, LONGEST_LABEL, LONGEST_NAME = 1232, 63, 255
CODES = {
    0: ("NOERROR", "the name is there"),
    2: ("SERVFAIL", "it can't be answered: the answer would cost too much, or memory is wanting"),
    3: ("NXDOMAIN", "there is no such name now"),
    5: ("REFUSED", "only names below bit are answered"),
    6: ("YXDOMAIN", "the name that it leads to would be too long"),
}
# RDATA by its type: numbers of so many bytes, names, and the bytes or the strings that fill the rest.
NAME, BYTES, STRINGS = "name", "bytes", "strings"
FIELDS = {
    **{2: [NAME], 5: [NAME], 39: [NAME], 15: [2, NAME], 33: [2, 2, 2, NAME], 16: [STRINGS]},
    **{43: [2, 1, 1, BYTES], 44: [1, 1, BYTES], 52: [1, 1, 1, BYTES], 6: [NAME, NAME, 4, 4, 4, 4, 4]},
}


class BadReply(Exception):
    """The bytes are no reply to the query."""


class BadName(Exception):
    """The text is no name that can be asked for; told in words."""


class Record(typing.NamedTuple):
    owner: bytes
    type: str
    seconds: int
    told: list


class Answer(typing.NamedTuple):
    code: int
    is_ours: bool
    is_cut: bool
    records: list
    authority: list


def labels_of(text):
    """The labels of a host name; one without a dot, or as the name of a value (`d/..`), is meant to stand below bit."""
    if text.startswith("d/"):
        text = text[2:] + ".bit"
    text = text[:-1] if text.endswith(".") else text
    if not text or not all(0x21 <= ord(it) < 0x7F for it in text):
        raise BadName("A name such as example.bit is what can be asked for: printable letters of ASCII, without spaces.")
    labels = [it.encode() for it in (text if "." in text or text.lower() == "bit" else f"{text}.bit").split(".")]
    if not all(1 <= len(it) <= LONGEST_LABEL for it in labels):
        raise BadName("Between two dots of a name there are 1 to 63 characters.")
    if sum(1 + len(it) for it in labels) + 1 > LONGEST_NAME:
        raise BadName("A name has at most 253 characters.")
    return labels


def wire_of(labels):
    return b"".join(bytes([len(it)]) + it for it in labels) + b"\0"


def query(labels, type, number=0):
    """A query with an OPT, which says how much of an answer is taken."""
    head = struct.pack(">6H", number, RECURSION, 1, 0, 0, 1)
    return head + wire_of(labels) + struct.pack(">HH", type, IN) + b"\0" + struct.pack(">HHIH", OPT, LARGEST, 0, 0)


class Reader:
    def __init__(self, text):
        self.text, self.at = text, 0

    def take(self, length):
        part, self.at = self.text[self.at : self.at + length], self.at + length
        if len(part) < length:
            raise BadReply
        return part

    def number(self, length):
        return int.from_bytes(self.take(length), "big")

    def name(self):
        """The labels of a name, whose end may stand elsewhere."""
        labels, behind = [], None
        for _ in range(LONGEST_NAME):
            length = self.number(1)
            if length >= 0xC0:
                behind = self.at + 1 if behind is None else behind
                self.at = (length & 0x3F) << 8 | self.number(1)
            elif length > LONGEST_LABEL:
                raise BadReply
            elif length:
                labels.append(self.take(length))
            else:
                self.at = self.at if behind is None else behind
                return labels
        raise BadReply

    def record(self):
        owner = written(self.name())
        type, _, seconds, length = struct.unpack(">HHIH", self.take(10))
        end = self.at + length
        told = self.told(type, end)
        if self.at != end:
            raise BadReply
        return type, Record(owner, NAMES.get(type, f"TYPE{type}"), seconds, told)

    def told(self, type, end):
        """The fields of RDATA as texts, of bytes: what a name or a text holds may be anything."""
        if type in (1, 28):
            text = self.take(end - self.at)
            if len(text) != (4 if type == 1 else 16):
                raise BadReply
            return [str(ipaddress.ip_address(text)).encode()]
        return [self.field(kind, end) for kind in FIELDS.get(type, [BYTES])]

    def field(self, kind, end):
        if kind == NAME:
            return written(self.name())
        if kind == BYTES:
            return self.take(max(0, end - self.at)).hex().encode()
        if kind == STRINGS:
            texts = []
            while self.at < end:
                texts.append(self.take(self.number(1)))
            return b" ".join(b'"' + it + b'"' for it in texts)
        return str(self.number(kind)).encode()


def written(labels):
    """A name as people write it: dots between the labels, and one inside a label behind a backslash."""
    return b".".join(it.replace(b".", b"\\.") for it in labels) + b"."


def answer_of(text):
    """What a reply says; an OPT isn't among its records."""
    reader = Reader(text)
    _, flags, questions, *counts = struct.unpack(">6H", reader.take(12))
    for _ in range(questions):
        reader.name()
        reader.take(4)
    parts = []
    for count in counts:
        found = [reader.record() for _ in range(count)]
        parts.append([record for type, record in found if type != OPT])
    if reader.at != len(text):
        raise BadReply
    return Answer(flags & 0xF, bool(flags & OURS), bool(flags & TRUNCATED), *parts[:2])


def serial_of(text):
    """The serial of the SOA that a reply has, which is the height of the tip."""
    records = [it for it in answer_of(text).records if it.type == "SOA"]
    if len(records) != 1:
        raise BadReply
    return int(records[0].told[2])
