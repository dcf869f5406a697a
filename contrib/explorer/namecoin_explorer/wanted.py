"""What people type for names, and how names stand in addresses."""
import re
import urllib.parse

from .layout import NAME

LONGEST = 255
ESCAPE = re.compile(rb"\\(?:x([0-9A-Fa-f]{2})|(\\))")
# A name of a domain, whose rest stands below bit; and a domain as people write it, maybe with labels below it.
DOMAIN = re.compile(rb"d/([a-z0-9](?:[a-z0-9-]{0,61}[a-z0-9])?)")
BELOW_BIT = re.compile(rb"(?:[^./\s]+\.)*([a-z0-9](?:[a-z0-9-]{0,61}[a-z0-9])?)\.bit\.?", re.IGNORECASE)
PRINTABLE = range(0x20, 0x7F)


def typed(text):
    """The bytes that a text stands for: \\xNN is a byte, \\\\ a backslash, and spaces around it don't count."""
    return ESCAPE.sub(lambda found: bytes.fromhex(found[1].decode()) if found[1] else b"\\", text.strip(b" \t\r\n"))


def as_typed(data):
    """The text that stands for these bytes."""
    text = "".join(chr(it) if it in PRINTABLE and it != 0x5C else "\\\\" if it == 0x5C else f"\\x{it:02x}" for it in data)
    return text if text == text.strip() else "".join(f"\\x{it:02x}" for it in data)


def name_of_domain(text):
    """The name of a domain as people write it, as d/example of www.example.bit; None where it is none."""
    found = BELOW_BIT.fullmatch(text)
    return found and b"d/" + found[1].lower()


def domain_of(name):
    """The domain of a name, as example.bit; None where it has none."""
    found = DOMAIN.fullmatch(name)
    return found and f"{found[1].decode()}.bit"


def name_path(name):
    """The address of a name's page."""
    return NAME + urllib.parse.quote(name, safe="/:@!$'()*+,;=&")


def name_in(path):
    """The name in the address of its page."""
    return urllib.parse.unquote_to_bytes(path[len(NAME) :])


def fields_of(words, most):
    """The fields of a question as bytes; ValueError where there are more than so many, or it is none."""
    parts = [it for it in words.split("&") if it]
    if len(parts) > most:
        raise ValueError
    pairs = (it.partition("=") for it in parts)
    return {unquoted(name).decode("ascii"): unquoted(value) for name, _, value in pairs}


def unquoted(text):
    return urllib.parse.unquote_to_bytes(text.replace("+", " "))
