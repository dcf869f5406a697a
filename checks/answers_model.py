"""The replies that the rules define for messages, where the names that are served are given: a model of queries.

It is written from docs/DNS.md alone, with the values by values_model, and shares nothing with the code.
"""
import re
import struct
import typing

from values_model import LONGEST_NAME, Place, child, host, item, object_of, sources, wire_of

A, NS, CNAME, SOA, MX, TXT, AAAA, SRV, DNAME, DS, SSHFP, TLSA = 1, 2, 5, 6, 15, 16, 28, 33, 39, 43, 44, 52
OPT, IXFR, AXFR, ANY = 41, 251, 252, 255
NO_ERROR, FORM_ERROR, SERVER_FAILURE, NAME_ERROR, NOT_IMPLEMENTED, REFUSED, YX_DOMAIN = range(7)
QR, AA, TC, RD = 0x8000, 0x0400, 0x0200, 0x0100
ITEM_OF = {A: "ip", MX: "mx", TXT: "txt", AAAA: "ip6", SRV: "srv", DNAME: "translate", SSHFP: "sshfp", TLSA: "tls"}
TTL, MOST_CNAMES = 600, 8
UDP, TCP = "UDP", "TCP"
# The largest reply over UDP where no OPT names one, the largest that an OPT can have named, and the largest over TCP.
LEAST, MOST, LARGEST = 512, 1232, 65535
# Of an OPT: its first bit of flags, and the extended RCODE of BADVERS, which is 16, without its low four bits.
DO, BAD_VERSION = 0x8000, 1
TIMES = (600, 600, 7200, 600)
ZONE = (b"bit",)
DOMAIN = re.compile(rb"[a-z0-9](?:[a-z0-9-]*[a-z0-9])?")

# The fields of RDATA in their order: numbers of so many bytes, names, and the bytes or the strings that fill the rest.
NAME, BYTES, STRINGS = "name", "bytes", "strings"
FIELDS = {
    **{A: [BYTES], AAAA: [BYTES], NS: [NAME], CNAME: [NAME], DNAME: [NAME], MX: [2, NAME], TXT: [STRINGS], SRV: [2, 2, 2, NAME]},
    **{DS: [2, 1, 1, BYTES], SSHFP: [1, 1, BYTES], TLSA: [1, 1, 1, BYTES], SOA: [NAME, NAME, 4, 4, 4, 4, 4]},
}


class Record(typing.NamedTuple):
    """A record of class IN: its owner as labels, its type, and the fields of its RDATA."""

    owner: tuple
    type: int
    fields: tuple


class Question(typing.NamedTuple):
    name: tuple
    type: int
    group: int
    text: bytes


class Opt(typing.NamedTuple):
    """The OPT of a reply: its extended RCODE and its flags."""

    extended: int
    flags: int

    def text(self):
        return b"\0" + struct.pack(">HHBBHH", OPT, MOST, self.extended, 0, self.flags, 0)


class Edns(typing.NamedTuple):
    """What is read of the OPT of a query: the size that its sender takes over UDP, the version, and whether DO is set."""

    size: int
    version: int
    dnssec: bool

    def answered(self):
        """The OPT of the reply."""
        return Opt(BAD_VERSION if self.version else 0, DO if self.dnssec else 0)


class Zone(typing.NamedTuple):
    """The names that are served with their values, the host of the zone as labels, and the height of the tip."""

    names: dict
    host: tuple
    height: int

    def soa(self):
        return Record(ZONE, SOA, (self.host, (b"hostmaster", *self.host), self.height, *TIMES))


class Answer(typing.NamedTuple):
    """What a question is answered with."""

    code: int
    is_ours: bool
    records: list
    authority: list


class Reply(typing.NamedTuple):
    """A reply: its header's two first fields, the question where there is one, the records of its sections, and the OPT."""

    id: int
    flags: int
    question: typing.Optional[Question]
    records: list
    authority: list
    opt: typing.Optional[Opt] = None

    def text(self):
        """The bytes of the reply."""
        counts = (0 if self.question is None else 1, len(self.records), len(self.authority), 0 if self.opt is None else 1)
        start = struct.pack(">6H", self.id, self.flags, *counts) + (self.question.text if self.question else b"")
        records = b"".join(record_text(record, self.question.name) for record in self.records + self.authority)
        return start + records + (self.opt.text() if self.opt else b"")


def lower(name):
    return tuple(label.lower() for label in name)


def field_text(kind, field):
    if kind == NAME:
        return wire_of(field)
    if kind == BYTES:
        return field
    return field.to_bytes(kind, "big")


def rdata_text(record):
    if FIELDS[record.type] == [STRINGS]:
        return b"".join(bytes([len(string)]) + string for string in record.fields)
    return b"".join(map(field_text, FIELDS[record.type], record.fields))


def record_text(record, asked):
    owner = b"\xc0\x0c" if record.owner == lower(asked) else wire_of(record.owner)
    data = rdata_text(record)
    return owner + struct.pack(">HHIH", record.type, 1, TTL, len(data)) + data


class Asking:
    """A question on its way: the name that is asked now, and the records that were answered so far."""

    def __init__(self, zone, question):
        self.zone, self.type, self.asked, self.records = zone, question.type, lower(question.name), []

    def ends(self, code=NO_ERROR, authority=()):
        return Answer(code, True, self.records, list(authority))

    def negative(self, code=NO_ERROR):
        return self.ends(code, [self.zone.soa()])

    def adds(self, kind, owner, fields):
        self.records += [Record(owner, kind, found) for found in fields]

    def found(self, found):
        """Ends with these records of the name that is asked, each a type and fields."""
        self.records += [Record(self.asked, kind, fields) for kind, fields in found]
        return self.ends() if found else self.negative()

    def goes_on(self, target):
        """A CNAME of the name that is asked; its target is asked next. The answer, where that was the last one."""
        self.adds(CNAME, self.asked, [(target,)])
        self.asked = lower(target)
        chased = sum(record.type == CNAME for record in self.records)
        return self.ends() if self.asked[-1:] != ZONE or chased == MOST_CNAMES else None

    def answer(self):
        while True:
            told = self.step()
            if told:
                return told

    def step(self):
        """Asks one name. None where another is to be asked."""
        if self.asked == ZONE:
            own = [(SOA, self.zone.soa().fields), (NS, (self.zone.host,))]
            return self.found([item for item in own if self.type in (item[0], ANY)])
        domain = self.asked[-2]
        if not DOMAIN.fullmatch(domain) or b"d/" + domain not in self.zone.names:
            return self.negative(NAME_ERROR)
        return self.walk(sources(self.zone.names, object_of(self.zone.names[b"d/" + domain])), self.asked[-2:], self.asked[:-2])

    def walk(self, node, at, rest):
        """The way down from a node to the labels that are left."""
        place = Place(at, at[-2:])
        cut = item(node, "ns", place)
        if cut:
            return self.at_cut(node, at, place, cut)
        moved = item(node, "translate", place)
        if rest and moved:
            return self.moves(at, rest, moved[0])
        if not rest:
            return self.at_node(node, place)
        below = child(self.zone.names, node, rest[-1])
        return self.walk(below, (rest[-1], *at), rest[:-1]) if below else self.negative(NAME_ERROR)

    def at_cut(self, node, at, place, cut):
        if at == self.asked and self.type == DS:
            return self.found([(DS, fields) for fields in item(node, "ds", place)])
        return Answer(NO_ERROR, bool(self.records), self.records, [Record(at, NS, fields) for fields in cut])

    def moves(self, at, rest, target):
        self.adds(DNAME, at, [target])
        name = (*rest, *target[0])
        return self.goes_on(name) if len(wire_of(name)) <= LONGEST_NAME else self.ends(YX_DOMAIN)

    def at_node(self, node, place):
        alias = item(node, "alias", place)
        if alias:
            told = self.goes_on(*alias[0])
            return self.ends() if self.type in (CNAME, ANY) else told
        kinds = ITEM_OF if self.type == ANY else [self.type] if self.type in ITEM_OF else []
        return self.found([(kind, fields) for kind in kinds for fields in item(node, ITEM_OF[kind], place)])


def answer_to(zone, question):
    if question.group != 1 or question.type in (IXFR, AXFR) or lower(question.name[-1:]) != ZONE:
        return Answer(REFUSED, False, [], [])
    return Asking(zone, question).answer()


def question_of(message):
    """The question behind the header; None where there is none."""
    labels, at = [], 12
    while at < len(message) and 1 <= message[at] <= 63:
        labels.append(message[at + 1 : at + 1 + message[at]])
        at += 1 + message[at]
    end = at + 5
    if end > len(message) or message[at] or at + 1 - 12 > LONGEST_NAME:
        return None
    return Question(tuple(labels), *struct.unpack(">HH", message[at + 1 : end]), message[12:end])


def begins_opt(message, question):
    """Whether an OPT begins behind the question: the two sections before it are empty, the one with it isn't, and there stands a
    record of the root with the type of OPT."""
    counts, behind = struct.unpack(">3H", message[6:12]), 12 + len(question.text)
    return counts[:2] == (0, 0) and counts[2] and message[behind : behind + 3] == b"\0" + OPT.to_bytes(2, "big")


def opt_of(message, question):
    """What the OPT behind the question says. None where the message ends inside it."""
    at = 12 + len(question.text) + 3
    fields = message[at : at + 8]
    if len(fields) < 8:
        return None
    size, _, version, flags, length = struct.unpack(">HBBHH", fields)
    return Edns(size, version, flags & DO != 0) if len(message) >= at + 8 + length else None


def edns_of(message, question):
    """What the OPT of a query says; None where it has none, or a cut one."""
    return opt_of(message, question) if begins_opt(message, question) else None


def limit_of(transport, edns):
    """The most bytes that a reply has."""
    if transport == TCP:
        return LARGEST
    return LEAST if edns is None else min(max(edns.size, LEAST), MOST)


def reply_to(zone, message, transport=UDP):
    """The reply to a message that came so; None where there is none."""
    if len(message) < 12 or message[2] & 0x80:
        return None
    number, flags, count = struct.unpack(">3H", message[:6])
    kept = QR | flags & 0x7900
    if kept & 0x7800:
        return Reply(number, kept | NOT_IMPLEMENTED, None, [], [])
    question = question_of(message) if count == 1 else None
    edns = question and edns_of(message, question)
    if question is None or edns is None and begins_opt(message, question):
        return Reply(number, kept | FORM_ERROR, None, [], [])
    opt = edns and edns.answered()
    if edns and edns.version:
        return Reply(number, kept, question, [], [], opt)
    told = answer_to(zone, question)
    reply = Reply(number, kept | (AA if told.is_ours else 0) | told.code, question, told.records, told.authority, opt)
    if len(reply.text()) > limit_of(transport, edns):
        return reply._replace(flags=reply.flags | TC, records=[], authority=[])
    return reply


def failure_to(message):
    """The reply to a query for want of memory, or where too many values would have to be read."""
    number, flags = struct.unpack(">2H", message[:4])
    question = question_of(message)
    edns = edns_of(message, question)
    return Reply(number, QR | flags & RD | SERVER_FAILURE, question, [], [], edns and edns.answered())


def zone_of(names, host_text, height):
    return Zone(names, host(host_text, Place((), ())), height)
