"""How a domain comes to its answers: the names whose values are read for it, and those that it leads to (docs/RULES.md, Values)."""
import functools
import itertools
import re

from .drawings import Node
from .texts import Pairs, value_of
from .wanted import as_typed, name_of_domain, name_path

LEVELS, IMPORTS, SOURCES = 4, 8, 256
# Of a tree so many names are shown, and names below a domain so deep.
MOST_NODES, MOST_BELOW = 40, 3
LABEL = re.compile(r"[A-Za-z0-9_-]{1,63}")
IPV4 = re.compile(r"(?:(?:0|[1-9][0-9]?|1[0-9]{2}|2[0-4][0-9]|25[0-5])(?:\.|$)){4}")
LONGEST = 253
# What leads from a name to another, and what is said of it; where there are name servers, nothing else is looked at.
CUT = {"ns": "a name server that answers for it"}
LEADS = {"alias": "an alias leads to it", "translate": "all names below are those below it"}


def plain(value):
    """A value of JSON without Pairs: of equal keys the last one counts."""
    if isinstance(value, Pairs):
        return {key: plain(item) for key, item in value.items}
    return [plain(it) for it in value] if isinstance(value, list) else value


def object_of(value):
    read = plain(value_of(value)) if value is not None else None
    return read if isinstance(read, dict) else {}


def entry_of(thing, label):
    """The object under a label of the map; None where there is none."""
    table = thing.get("map")
    is_label = label in ("", "*") or LABEL.fullmatch(label) and label == label.lower()
    found = table.get(label) if is_label and isinstance(table, dict) else None
    return found if isinstance(found, dict) else None


def imports_of(thing):
    """The names that an object imports, each with its selector's labels: those of the right shape, the first eight."""
    told = thing.get("import")
    if isinstance(told, str):
        told = [[told]]
    elif isinstance(told, list) and told and isinstance(told[0], str):
        told = [told]
    found = []
    for item in told if isinstance(told, list) else ():
        is_text = isinstance(item, list) and 1 <= len(item) <= 2 and all(isinstance(it, str) for it in item)
        labels = item[1].split(".") if is_text and len(item) == 2 and item[1] else []
        if is_text and all(map(LABEL.fullmatch, labels)):
            found.append((item[0].encode("utf-8"), labels))
    return found[:IMPORTS]


class Ways:
    """`served` gives the value that is served for a name, or None."""

    def __init__(self, served):
        self.value_of = functools.lru_cache(None)(served)
        self.object_of = functools.lru_cache(None)(lambda name: object_of(self.value_of(name)))
        self.left = MOST_NODES

    # The rules

    def imported(self, name, labels):
        """The object that an import names; None where there is none."""
        thing = self.object_of(name) if self.value_of(name) is not None else None
        for label in reversed(labels):
            thing = thing and entry_of(thing, label)
        return thing

    def all_sources(self, thing, depth=0):
        yield thing
        bare = entry_of(thing, "")
        if bare is not None:
            yield bare
        for name, labels in imports_of(thing) if depth < LEVELS else ():
            found = self.imported(name, labels)
            if found is not None:
                yield from self.all_sources(found, depth + 1)

    def sources(self, things):
        return list(itertools.islice(itertools.chain.from_iterable(map(self.all_sources, things)), SOURCES))

    # The tree

    def tree(self, name, domain):
        """The tree of a name whose domain this is."""
        thing = self.object_of(name)
        self.left -= 1
        return Node(domain, "", None, self.below([thing], self.sources([thing]), domain, domain, 0))

    def below(self, things, sources, at, top, depth):
        """What stands below a node in the tree: where it leads to, what it imports, and the names below it."""
        cut, imports = list(self.leads(CUT, sources, at, top)), [it for thing in things for it in self.imports(thing, 0)]
        if cut or depth == MOST_BELOW:
            return [*imports, *cut]
        return [*imports, *self.leads(LEADS, sources, at, top), *self.names_below(sources, at, top, depth)]

    def may(self):
        """Whether one more name may be shown."""
        self.left -= 1
        return self.left >= 0

    def leads(self, keys, sources, at, top):
        for key, what in keys.items():
            told = next((it[key] for it in sources if key in it), None)
            texts = told if isinstance(told, list) and key == "ns" else [told]
            for text in (it for it in texts if isinstance(it, str)):
                host = host_of(text, at, top)
                if host is not None and self.may():
                    name = name_of_domain(host.encode())
                    yield Node(host, what, name and name_path(name), [])

    def imports(self, thing, depth):
        for name, labels in imports_of(thing) if depth < LEVELS else ():
            if not self.may():
                return
            found = self.imported(name, labels)
            below = list(self.imports(found, depth + 1)) if found is not None else []
            part = f", of it {'.'.join(labels)}" if labels else ""
            what = f"its items are taken over{part}" if found is not None else f"its items would be taken over{part}: there are none"
            yield Node(as_typed(name), what, name_path(name), below)

    def names_below(self, sources, at, top, depth):
        labels = {}
        for thing in sources:
            for label in thing["map"] if isinstance(thing.get("map"), dict) else ():
                if label and entry_of(thing, label) is not None:
                    labels.setdefault(label)
        for label in labels:
            if not self.may():
                return
            entries = [found for found in (entry_of(it, label) for it in sources) if found is not None]
            name = f"{label}.{at}"
            what = "a name below it" if label != "*" else "all other names below it"
            yield Node(name, what, None, self.below(entries, self.sources(entries), name, top, depth + 1))


def host_of(text, at, top):
    """The name that a host text is at a node, without its last dot; None where it is none."""
    if text in ("", "@"):
        return top
    if text.endswith(".@"):
        labels, base = text[:-2].split("."), f".{top}"
    elif text.endswith("."):
        labels, base = text[:-1].split("."), ""
    else:
        labels, base = text.split("."), f".{at}"
        if IPV4.fullmatch(text):
            return None
    name = ".".join(labels) + base
    return name if all(map(LABEL.fullmatch, labels)) and len(name) <= LONGEST else None
