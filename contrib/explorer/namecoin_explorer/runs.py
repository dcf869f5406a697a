"""Runs of names in the order of their bytes, each as one text in which parts of names are found: how names stand in it.

A run's text is an end, and then each name with an end behind it. Bytes that stand for something there are written as a mark and two
others, none of which begins a byte of a name: so a part's own text stands in that of a name just where the part is in the name.
"""
import bisect
import re

END, MARK = b"\xff", b"\xfe"
# Where a part is found more than once in so many names, to look at each name is the cheaper way to count them.
MANY_HITS = 4
# A run that has more names is cut into two.
MOST_NAMES = 1024
ODD = re.compile(rb"[\xfb-\xff]")
MARKED = re.compile(rb"\xfe[\xfb-\xfd]{2}")
WRITTEN = {bytes([byte]): MARK + bytes([0xFB + place // 3, 0xFB + place % 3]) for place, byte in enumerate(range(0xFB, 0x100))}
READ = {text: byte for byte, text in WRITTEN.items()}


def written(name):
    """A name, or a part of one, as it stands in a run."""
    return ODD.sub(lambda found: WRITTEN[found[0]], name)


def read(text):
    return MARKED.sub(lambda found: READ[found[0]], text) if MARK in text else text


def text_of(names):
    """The text of a run."""
    is_plain = ODD.search(b"".join(names)) is None
    return END.join([b"", *(names if is_plain else map(written, names)), b""])


def names_of(text):
    names = text[1:-1].split(END)
    return [read(it) for it in names] if MARK in text else names


def with_name(text, name):
    """The names of a run with one more."""
    names = names_of(text)
    bisect.insort(names, name)
    return names


def halves(names):
    """The names as they are, or in two parts where they are too many for one run."""
    middle = len(names) // 2
    return [names] if len(names) <= MOST_NAMES else [names[:middle], names[middle:]]


def count_of(text, part):
    """How many names of a run have this part, which is written."""
    if not part:
        return text.count(END) - 1
    hits = text.count(part)
    if not hits:
        return 0
    if MANY_HITS * hits > text.count(END):
        # A name may have very many hits: so names are looked at, and not hits.
        return sum(part in it for it in text.split(END))
    pieces = text.split(part)
    # Between two hits in one name there is no end.
    return len(pieces) - 1 - sum(END not in it for it in pieces[1:-1])


def having(text, part):
    """The names of a run that have this part, which is written, in their order."""
    at = text.find(part, 1)
    while 0 <= at < len(text):
        end = text.index(END, at)
        yield read(text[text.rindex(END, 0, at) + 1 : end])
        at = text.find(part, end + 1)
