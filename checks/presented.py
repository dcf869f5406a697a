"""What other programs read in a reply, as they present it (RFC 1035, 5.1): header, question and records, as plain values."""
import base64
import ipaddress
import re
import typing

from answers_model import BYTES, DO, FIELDS, MOST, NAME, STRINGS, TTL, A, AAAA, lower

TYPES = dict(RESERVED0=0, A=1, NS=2, CNAME=5, SOA=6, PTR=12, HINFO=13, MX=15, TXT=16, AAAA=28, SRV=33, DNAME=39)
TYPES |= dict(OPT=41, DS=43, SSHFP=44, RRSIG=46, DNSKEY=48, TLSA=52, SVCB=64, HTTPS=65, IXFR=251)
TYPES |= dict(AXFR=252, MAILB=253, MAILA=254, ANY=255, CAA=257)
CLASSES = {"RESERVED0": 0, "IN": 1, "CH": 3, "HS": 4, "NONE": 254, "ANY": 255}
CODES = {"NOERROR": 0, "FORMERR": 1, "SERVFAIL": 2, "NXDOMAIN": 3, "NOTIMP": 4, "NOTIMPL": 4, "REFUSED": 5, "YXDOMAIN": 6}
CODES["BADVERS"] = 16
OPCODES = {"QUERY": 0, "IQUERY": 1, "STATUS": 2, "NOTIFY": 4, "UPDATE": 5}
BITS = {"qr": 0x8000, "aa": 0x0400, "tc": 0x0200, "rd": 0x0100, "ra": 0x0080, "ad": 0x0020, "cd": 0x0010}
# What dig, drill and kdig show of an OPT; drill tells the code here that has bits in it.
OPT_LINE = r"^;+ (?:EDNS: )?version:? (\d+)[,;] flags: ?([a-z ]*); (?:ext-rcode: (\d+) ; )?(?:udp|UDP size): (\d+)"
OPT_SHOWN = re.compile(OPT_LINE, re.MULTILINE | re.IGNORECASE)
# A word ends at a blank, but for one that begins with a quote; a backslash keeps what it stands before.
WORD = re.compile(r'"((?:[^"\\]|\\.)*)"|((?:[^\s"\\]|\\.)(?:[^\s\\]|\\.)*)', re.DOTALL)
PIECE = re.compile(r"\\(\d\d\d)|\\(.)|(.)", re.DOTALL)


class Shown(typing.NamedTuple):
    """A reply. The question is its name as labels, its type and its class; a record its owner, type, TTL and fields; an OPT its
    version, whether DO is set, and its size. The code has the bits that the OPT has of it."""

    id: int
    opcode: int
    bits: int
    code: int
    question: typing.Optional[tuple]
    records: list
    authority: list
    opt: typing.Optional[tuple] = None


def shown(reply):
    """What a reply of the model has to be shown as. An owner that is the question's name points to it, so has its case."""
    name = reply.question.name if reply.question else ()
    question = reply.question and (name, reply.question.type, reply.question.group)
    sections = [
        [(name if it.owner == lower(name) else it.owner, it.type, TTL, it.fields) for it in section]
        for section in (reply.records, reply.authority)
    ]
    code = reply.flags & 15 | (reply.opt.extended << 4 if reply.opt else 0)
    opt = reply.opt and (0, reply.opt.flags & DO != 0, MOST)
    return Shown(reply.id, reply.flags >> 11 & 15, reply.flags & sum(BITS.values()), code, question, *sections, opt)


def written(labels):
    """A name in letters that any program reads: what isn't a letter, a digit or a hyphen by its number."""
    parts = (re.sub(rb"[^A-Za-z0-9_-]", lambda it: b"\\%03d" % it[0][0], label) for label in labels)
    return b".".join(parts).decode() + "."


def plain(text):
    """The bytes that a word stands for."""
    pieces = PIECE.findall(text)
    return b"".join(bytes([int(digits)]) if digits else (kept or letter).encode("latin-1") for digits, kept, letter in pieces)


def labels_of(text):
    if text == ".":
        return ()
    return tuple(plain(label) for label in re.findall(r"((?:[^.\\]|\\\d\d\d|\\.)+)\.", text, re.DOTALL))


def number_of(text, table, word):
    return int(text[len(word) :]) if re.fullmatch(word + r"\d+", text) else table[text]


def type_of(text):
    return number_of(text, TYPES, "TYPE")


def class_of(text):
    return number_of(text, CLASSES, "CLASS")


def bytes_shown(kind, texts):
    if kind in (A, AAAA):
        return ipaddress.ip_address(texts[0]).packed
    return bytes.fromhex("".join(texts))


def fields_of(kind, words):
    """The fields of a record's words. Bytes that fill the rest may come in several of them."""
    if FIELDS[kind] == [STRINGS]:
        return tuple(map(plain, words))
    found = []
    for place, field in enumerate(FIELDS[kind]):
        if field == BYTES:
            return (*found, bytes_shown(kind, words[place:]))
        found.append(labels_of(words[place]) if field == NAME else int(words[place]))
    return tuple(found) if len(found) == len(words) else words


def words_of(line):
    return [quoted or bare for quoted, bare in WORD.findall(line)]


def record_of(line):
    """The record of a line: owner, TTL, class, type and RDATA."""
    owner, ttl, group, kind, *words = words_of(line)
    assert group == "IN", line
    return labels_of(owner), type_of(kind), int(ttl), fields_of(type_of(kind), words)


def question_of(line):
    name, group, kind = words_of(line)
    return labels_of(name), type_of(kind), class_of(group)


def reading_of(text):
    """What dig, drill or kdig shows: a line on the header, one on its flags, and then the sections; the text where it's none of this."""
    header = re.search(r"opcode: (?:\?\? \()?(\w+)\)?[,;] (?:status|rcode): (\w+)[,;] id: (\d+)", text)
    if not header:
        return text
    opcode, code, number = header.groups()
    opcode = int(opcode) if opcode.isdigit() else OPCODES[opcode]
    flags = re.search(r"[Ff]lags: ([a-z ]*);", text)[1].split()
    sections = {"QUESTION": [], "ANSWER": [], "AUTHORITY": [], "ADDITIONAL": []}
    for name, lines in re.findall(r"^;; (\w+) SECTION:\n((?:(?!;; \w+ SECTION:)[^\n]+\n)*)", text, re.MULTILINE):
        sections[name] = lines.splitlines()
    asked = [question_of(line.lstrip("; ")) for line in sections["QUESTION"] if line.strip("; ")]
    records = [[record_of(line) for line in sections[name]] for name in ("ANSWER", "AUTHORITY", "ADDITIONAL")]
    assert len(asked) < 2 and not records[2], text
    bits, opt = sum(BITS[flag] for flag in flags), OPT_SHOWN.search(text)
    code = int(opt[3]) if opt and opt[3] else CODES[code]
    told = opt and (int(opt[1]), "do" in opt[2].split(), int(opt[4]))
    return Shown(int(number), opcode, bits, code, asked[0] if asked else None, *records[:2], told)
