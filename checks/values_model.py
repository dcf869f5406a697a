"""What a name's value says: its items, its sources and its nodes, plain and slow.

It is written from 'Values' of docs/RULES.md alone, and shares nothing with the code: the value is read by Python's json, and
all that a name imports is gathered anew for each question.
"""
import base64
import functools
import ipaddress
import itertools
import json
import re
import typing

LONGEST_NAME = 255
DEEPEST, LEVELS, IMPORTS, SOURCES = 127, 4, 8, 256
LABEL = re.compile(r"[A-Za-z0-9_-]{1,63}")
IPV4 = re.compile(r"(?:(?:0|[1-9][0-9]{0,2})(?:\.|$)){4}")
STRING = re.compile(r'"(?:[^"\\]|\\.)*"', re.DOTALL)


class Place(typing.NamedTuple):
    """Where host texts are relative to: the name of the node, and that at the top of its domain, each as its labels."""

    node: tuple
    top: tuple


def wire_of(labels):
    """The bytes of a name on the wire."""
    return b"".join(bytes([len(label)]) + label for label in labels) + b"\0"


def whole(digits):
    """A number without fraction and exponent; it isn't whole where it has a sign or more than 64 bits."""
    if digits[0] == "-" or int(digits) >= 1 << 64:
        return finite(digits)
    return int(digits)


def finite(digits):
    if float(digits) in (float("inf"), float("-inf")):
        raise ValueError(digits)
    return float(digits)


def members(pairs):
    """An object of a text, whose strings are UTF-8; of equal keys the last one stays."""
    json.dumps(pairs, ensure_ascii=False).encode()
    return dict(pairs)


def refused(word):
    raise ValueError(word)


def deepest(text):
    """How deep the text nests."""
    depth = most = 0
    for letter in STRING.sub("", text):
        depth += (letter in "[{") - (letter in "]}")
        most = max(most, depth)
    return most


@functools.lru_cache
def object_of(value):
    """The object that a value is; empty where it is none."""
    try:
        text = value.decode()
        if deepest(text) > DEEPEST:
            return {}
        found = json.loads(text, parse_int=whole, parse_float=finite, parse_constant=refused, object_pairs_hook=members)
        return found if isinstance(found, dict) else {}
    except ValueError:
        return {}


def ipv4(text):
    """The address; None where the text is that of none."""
    if not IPV4.fullmatch(text) or any(int(part) > 255 for part in text.split(".")):
        return None
    return ipaddress.IPv4Address(text).packed


def ipv6(text):
    if not re.fullmatch(r"[0-9A-Fa-f:]*", text):
        return None
    try:
        return ipaddress.IPv6Address(text).packed
    except ValueError:
        return None


def host(text, place):
    """The labels of the name that a host text is there; None where it is none, or would be too long."""
    if text in ("", "@"):
        labels, base = [], place.top
    elif text.endswith(".@"):
        labels, base = text[:-2].split("."), place.top
    elif text.endswith("."):
        labels, base = text[:-1].split("."), ()
    else:
        labels, base = text.split("."), place.node
        if ipv4(text):
            return None
    if not all(map(LABEL.fullmatch, labels)):
        return None
    name = (*(label.encode() for label in labels), *base)
    return name if len(wire_of(name)) <= LONGEST_NAME else None


def digest(text):
    """The bytes of padded base64, of which there is at least one."""
    try:
        found = base64.b64decode(text, validate=True)
    except ValueError:
        return None
    return found if found and base64.b64encode(found).decode() == text else None


def strings(texts):
    """The strings of a TXT record."""
    found = []
    for text in (text.encode() for text in texts):
        found += [text[i : i + 255] for i in range(0, max(len(text), 1), 255)]
    return tuple(found)


def number(most):
    return lambda item, _: item if type(item) is int and item <= most else None


def text_as(read):
    """Reads a text by a function of the text alone."""
    return lambda item, _: read(item) if isinstance(item, str) else None


def hosts(item, place):
    return host(item, place) if isinstance(item, str) else None


BYTE, WORD, DIGEST = number(0xFF), number(0xFFFF), text_as(digest)


def one_field(field):
    def read(item, place):
        found = field(item, place)
        return None if found is None else (found,)

    return read


def row(*fields):
    """Reads a list of these fields; None where one of them isn't there."""

    def read(item, place):
        if not isinstance(item, list) or len(item) != len(fields):
            return None
        found = tuple(field(part, place) for field, part in zip(fields, item))
        return None if None in found else found

    return read


def text_record(item, _):
    texts = [item] if isinstance(item, str) else item
    if not isinstance(texts, list) or not texts or not all(isinstance(text, str) for text in texts):
        return None
    return strings(texts)


# By item: how one of its elements is read, whether it may stand alone, and whether it may stand in a list.
ITEMS = {
    "ip": (one_field(text_as(ipv4)), True, True),
    "ip6": (one_field(text_as(ipv6)), True, True),
    "ns": (one_field(hosts), True, True),
    "alias": (one_field(hosts), True, False),
    "translate": (one_field(hosts), True, False),
    "ds": (row(WORD, BYTE, BYTE, DIGEST), False, True),
    "tls": (row(BYTE, BYTE, BYTE, DIGEST), False, True),
    "sshfp": (row(BYTE, BYTE, DIGEST), False, True),
    "txt": (text_record, True, True),
    "srv": (row(WORD, WORD, WORD, hosts), False, True),
    "mx": (row(WORD, hosts), False, True),
}


def elements(key, value, place):
    """The elements of an item, each a tuple of the fields of its record."""
    read, alone, listed = ITEMS[key]
    if isinstance(value, list):
        items = value if listed else []
    else:
        items = [value] if alone else []
    return [found for found in (read(item, place) for item in items) if found is not None]


def entry(thing, label):
    """The object under a label of the map; None where there is none."""
    table = thing.get("map")
    known = label in ("", "*") or LABEL.fullmatch(label) and label == label.lower()
    found = table.get(label) if known and isinstance(table, dict) else None
    return found if isinstance(found, dict) else None


def imports(thing):
    """The imports of a right shape: names, each with the labels of its selector."""
    told = thing.get("import")
    if isinstance(told, str):
        told = [[told]]
    elif not isinstance(told, list):
        told = []
    elif told and isinstance(told[0], str):
        told = [told]
    for item in told:
        texts = isinstance(item, list) and 1 <= len(item) <= 2 and all(isinstance(part, str) for part in item)
        labels = item[1].split(".") if texts and item[1:] not in ([], [""]) else []
        if texts and all(map(LABEL.fullmatch, labels)):
            yield item[0].encode(), labels


def imported(names, name, labels):
    """The object that an import names; None where there is none."""
    thing = object_of(names[name]) if name in names else None
    for label in reversed(labels):
        thing = thing and entry(thing, label)
    return thing


def all_sources(names, thing, depth):
    yield thing
    plain = entry(thing, "")
    if plain is not None:
        yield plain
    if depth < LEVELS:
        for name, labels in itertools.islice(imports(thing), IMPORTS):
            found = imported(names, name, labels)
            if found is not None:
                yield from all_sources(names, found, depth + 1)


def sources(names, thing):
    """The sources of an object, where the table of names has the values of those that are served."""
    return list(itertools.islice(all_sources(names, thing, 0), SOURCES))


def child(names, node, label):
    """The sources of the node under a label, given in lower case; none where there is no such node."""
    text = label.decode("latin-1")
    for key in (text if LABEL.fullmatch(text) else "*", "*"):
        entries = [found for found in (entry(thing, key) for thing in node) if found is not None]
        if entries:
            joined = itertools.chain.from_iterable(all_sources(names, thing, 0) for thing in entries)
            return list(itertools.islice(joined, SOURCES))
    return []


def item(node, key, place):
    """The elements of the item of a node: of the first source that has its key."""
    for thing in node:
        if key in thing:
            return elements(key, thing[key], place)
    return []
