"""Tables of names whose values use all items, and questions about them, all chosen by chance.

Most hosts stay among these names, so that aliases, imports and moved domains meet, and loop.
"""
import base64
import json
import struct

from answers_model import ANY, CNAME, DS, ITEM_OF, NS, SOA, ZONE
from values_model import wire_of

DOMAINS = ["alpha", "beta", "gamma", "delta", "eps", "x-1"]
LABELS = ["www", "mail", "_tcp", "_443", "ns1", "a", "b-b", "x_y"]
ELSEWHERE = ["example.org.", "Mail.Example.NET.", "ns.elsewhere.test."]
TEXTS = ["", "v=spf1 mx -all", 'quotes " and \\ and ;', "\u00e4\u00f6 \u20ac", "tab\tand line\n", "$ORIGIN @ ( ) \x7f"]
TEXTS += ["long " * 60, "~" * 255]
TYPES = [*ITEM_OF, NS, CNAME, SOA, DS]
# Types that no record of the zone has: of PTR, of HINFO, and one without a name.
OTHER_TYPES = [12, 13, 1234]
TYPE_OF = {**{key: kind for kind, key in ITEM_OF.items()}, "ns": NS, "alias": CNAME, "ds": DS}
# By the kind of a digest: its bytes in DS (RFC 4034, 5.1.4; RFC 4509; RFC 6605) and in SSHFP (RFC 4255, 3.1.2; RFC 6594).
DIGEST_LENGTHS = {1: 20, 2: 32, 4: 48}
FINGERPRINT_LENGTHS = {1: 20, 2: 32}
LONGEST_VALUE = 1023


class Maker:
    """Makes values by chance."""

    def __init__(self, chance):
        self.chance = chance
        self.items = {
            "ip": lambda: self.many(self.ipv4),
            "ip6": lambda: self.many(self.ipv6),
            "txt": lambda: self.many(self.text),
            "mx": lambda: self.some(lambda: [self.below(16), self.host()]),
            "srv": lambda: self.some(lambda: [self.below(16), self.below(16), self.below(16), self.host()]),
            "tls": lambda: self.some(lambda: [self.below(8), self.below(8), self.below(8), self.digest(32)]),
            "sshfp": lambda: self.some(lambda: [self.below(8), *self.kind_of(FINGERPRINT_LENGTHS)]),
            "ds": lambda: self.some(lambda: [self.below(16), self.below(8), *self.kind_of(DIGEST_LENGTHS)]),
            "ns": lambda: self.many(self.host),
            "alias": self.host,
            "translate": self.host,
            "import": lambda: self.many(self.import_, alone=False),
            "map": lambda: {self.chance.choice([*LABELS, "*", ""]): self.thing(2) for _ in range(3)},
        }
        # What hides the other items of its node comes more seldom.
        self.weights = {"ns": 1, "alias": 1, "translate": 1, "map": 18, "import": 3, "ds": 2}

    def below(self, bits):
        """A number of so many bits; its ends come more often."""
        return self.chance.choice([0, 1, (1 << bits) - 1, self.chance.getrandbits(bits)])

    def some(self, make):
        return [make() for _ in range(self.chance.randrange(1, 4))]

    def many(self, make, alone=True):
        """A list of some, or one alone."""
        return make() if alone and self.chance.randrange(2) else self.some(make)

    def ipv4(self):
        return ".".join(str(self.below(8)) for _ in range(4))

    def ipv6(self):
        groups = ["%x" % self.below(16) for _ in range(8)]
        return self.chance.choice([":".join(groups), "::" + groups[0], ":".join(groups[:3]) + "::" + groups[3], "2001:db8::"])

    def text(self):
        return self.chance.choice(TEXTS)

    def digest(self, length):
        return base64.b64encode(self.chance.randbytes(length)).decode()

    def kind_of(self, lengths):
        """A kind of digest, and one of its length."""
        kind = self.chance.choice(list(lengths))
        return kind, self.digest(lengths[kind])

    def host(self):
        label, domain = self.chance.choice(LABELS), self.chance.choice(DOMAINS)
        forms = ["@", label, f"{label}.@", f"{domain}.bit.", f"{label}.{domain}.BIT.", self.chance.choice(ELSEWHERE)]
        return self.chance.choice(forms)

    def import_(self):
        name = "d/" + self.chance.choice(DOMAINS)
        return self.chance.choice([[name], [name, self.chance.choice(LABELS)]])

    def thing(self, deeper):
        """An object; nodes below it stand in it at most so deep."""
        known = [key for key in self.items if deeper or key != "map"]
        weights = [self.weights.get(key, 9) for key in known]
        chosen = self.chance.choices(known, weights, k=self.chance.randrange(1, 6))
        made = {key: self.items[key]() for key in chosen if key != "map"}
        if "ns" in made:
            made["ds"] = self.items["ds"]()
        if "map" in chosen:
            made["map"] = {self.chance.choice([*LABELS, "*", ""]): self.thing(deeper - 1) for _ in range(2)}
        return made

    def value(self):
        """The text of an object, of which a chain takes so many bytes."""
        while True:
            text = json.dumps(self.thing(3), ensure_ascii=bool(self.chance.randrange(2)), separators=(",", ":")).encode()
            if len(text) <= LONGEST_VALUE:
                return text

    def names(self):
        return {b"d/" + domain.encode(): self.value() for domain in DOMAINS}


def nodes(names):
    """The nodes that the values tell: each its name as labels, and the object there."""
    found = []

    def under(thing, at):
        found.append((at, thing))
        for label, below in thing.get("map", {}).items():
            under(below, ((label or "www").encode().replace(b"*", b"any"), *at))

    for name, value in names.items():
        under(json.loads(value), (name[2:], b"bit"))
    return found


def odd_names(name):
    return [ZONE, (b"nowhere", *ZONE), (b"-x", *ZONE), (b"example", b"org"), (), (b"a.b;c\"\\ \x00\xff", *name)]


def message(number, name, kind, group=1):
    """A query with this ID, in which recursion is desired."""
    return struct.pack(">6H", number, 0x0100, 1, 0, 0, 0) + wire_of(name) + struct.pack(">HH", kind, group)


def question(chance, number, names):
    """Mostly it asks a node for what its object has; else for anything, or a name below it, or an odd one."""
    name, thing = chance.choice(nodes(names))
    kinds = [TYPE_OF[key] for key in thing if key in TYPE_OF]
    kind = chance.choice(kinds) if kinds and chance.randrange(3) else chance.choice([*TYPES, ANY, ANY, *OTHER_TYPES])
    way = chance.randrange(16)
    if way < 3:
        name = (chance.choice(LABELS).encode(), *name)
    if way == 3:
        name = chance.choice(odd_names(name))
    name = tuple(label.upper() if chance.randrange(5) == 0 else label for label in name)
    return message(number, name, kind, 3 if chance.randrange(60) == 0 else 1)
