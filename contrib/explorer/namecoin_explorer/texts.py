"""Bytes of names and values as HTML: printable ASCII as it is, any other byte as \\xNN; and the items of a value."""
import html
import json
import math
import re
import typing

ODD = re.compile(rb"[^\x20-\x7e]+")
# A value nests no deeper than this on a page; what is below stands there as text.
DEEPEST = 12
# The program reads no JSON that nests deeper (docs/RULES.md).
MOST_LEVELS = 127
# A text of JSON in quotes, or a bracket.
BRACKETS = re.compile(rb'"(?:[^"\\]|\\.)*"|[\[\]{}]', re.DOTALL)


def text_of(data):
    """Any bytes as HTML."""
    made, at = [], 0
    for odd in ODD.finditer(data):
        made.append(html.escape(data[at : odd.start()].decode("ascii")))
        made.append('<span class="odd">' + "<wbr>".join(f"\\x{it:02x}" for it in odd[0]) + "</span>")
        at = odd.end()
    return "".join([*made, html.escape(data[at:].decode("ascii"))]) or '<span class="none">empty</span>'


def words_of(text):
    """A text of Python as HTML: what isn't printable ASCII stands as the bytes of its UTF-8."""
    return text_of(text.encode("utf-8", "surrogatepass"))


class Pairs(typing.NamedTuple):
    """The items of an object of JSON in their order, two with the same key included."""

    items: list


# What an item of a value says (IFA-0001), in a few words.
MEANINGS = {
    "ip": "IPv4 address",
    "ip6": "IPv6 address",
    "ns": "name server",
    "alias": "is another name for",
    "translate": "all names below are those below",
    "ds": "key of signed answers (DS)",
    "tls": "certificate (TLSA)",
    "sshfp": "key of SSH (SSHFP)",
    "txt": "text",
    "srv": "service (SRV)",
    "mx": "mail server (MX)",
    "map": "names below",
    "import": "takes over the items of",
    "email": "e-mail address",
    "info": "about it",
}


def nests(data):
    """How deep the brackets of a text of JSON nest."""
    depth = deepest = 0
    for mark in BRACKETS.findall(data):
        depth += (mark in b"[{") - (mark in b"]}")
        deepest = max(deepest, depth)
    return deepest


def value_of(data):
    """A value as JSON, an object as Pairs; None where it isn't JSON, or none that the program reads: since it nests too deep, has a
    number that no float of 64 bits holds, or half a pair of surrogates."""
    if nests(data) > MOST_LEVELS:
        return None
    try:
        numbers = {"parse_int": whole, "parse_float": finite, "parse_constant": no_constant}
        value = json.loads(data.decode("utf-8"), object_pairs_hook=Pairs, **numbers)
        # Half a pair has no UTF-8.
        json.dumps(value, ensure_ascii=False).encode("utf-8")
        return value
    except (ValueError, RecursionError):
        return None


def no_constant(name):
    raise ValueError(name)


def finite(digits):
    number = float(digits)
    if math.isinf(number):
        raise ValueError(digits)
    return number


def whole(digits):
    finite(digits)
    return int(digits)


def laid_out(value, depth=0):
    """A value of JSON as HTML."""
    if depth >= DEEPEST and isinstance(value, (list, Pairs)):
        return f"<code>{words_of(json.dumps(plain(value)))}</code>"
    if isinstance(value, Pairs):
        if not value.items:
            return '<span class="none">an empty object</span>'
        rows = (f"<tr><th scope=row>{key_of(key, depth)}</th><td>{laid_out(item, depth + 1)}</td></tr>" for key, item in value.items)
        return f"<table class=items>{''.join(rows)}</table>"
    if isinstance(value, list):
        if not value:
            return '<span class="none">an empty list</span>'
        return "<ul>" + "".join(f"<li>{in_list(item, depth + 1)}</li>" for item in value) + "</ul>"
    if isinstance(value, str):
        return f"<code>{words_of(value)}</code>"
    return f"<code>{words_of(json.dumps(value))}</code>"


def in_list(value, depth):
    """An item of a list; one that is a short list itself, as that of a record, stands on a line."""
    if isinstance(value, list) and value and not any(isinstance(it, (list, Pairs)) for it in value):
        return ", ".join(laid_out(it, depth + 1) for it in value)
    return laid_out(value, depth)


def key_of(key, depth):
    meaning = MEANINGS.get(key) if depth in (0, 2) or key in ("ip", "ip6") else None
    return f"<code>{words_of(key)}</code>" + (f"<small>{meaning}</small>" if meaning else "")


def plain(value):
    """A value without Pairs."""
    if isinstance(value, Pairs):
        return {key: plain(item) for key, item in value.items}
    return [plain(item) for item in value] if isinstance(value, list) else value
