"""What the checks of resolvers share: a server with names, questions, and what `dig` says to them over a resolver.

Of the names, some have replies of more than 512 bytes, which a resolver gets in one datagram where it sends an OPT, and else over
TCP; and some have more than 1,232, which come over TCP alone.
"""
import base64
import contextlib
import json
import os
import shutil
import socket
import subprocess
import sys
import time
import typing

from common import TOP, Tally, free_port, program

from blocks import FIRST, NEW, block_hash, block_of, coinbase, name_script, named, outpoint
from digests import double_sha256, hash160

FEEDER = TOP / "contrib" / "namecoin_feeder"
sys.path.insert(0, str(FEEDER))

from tests.serving import room, serving

PATH = os.pathsep.join([os.environ.get("PATH", ""), "/usr/sbin", "/sbin"])
MAGIC, SECONDS, MATURITY = bytes.fromhex("fabfb5da"), 20, 12

# More records of one type than BIND takes.
CROWD = "crowd"
# The names with long replies: what they are asked for, and the elements of their items.
LONG = {
    "fifty": ("A", [f"10.0.0.{number}" for number in range(50)]),
    "strings": ("TXT", [[f"string {number} of many" for number in range(40)]]),
    "eighty": ("A", [f"10.1.1.{number}" for number in range(80)]),
    "hosts": ("MX", [[number, f"m{number}"] for number in range(75)]),
    "texts": ("TXT", [f"a{number}" for number in range(100)]),
    CROWD: ("TXT", [f"b{number}" for number in range(101)]),
    "many": ("AAAA", [f"2001:db8::{number:x}" for number in range(1, 60)]),
}
ITEMS = {"A": "ip", "AAAA": "ip6", "TXT": "txt", "MX": "mx"}


def data_of(name, kind, element):
    """The data of a record as dig shows it."""
    if kind == "TXT":
        return " ".join(f'"{text}"' for text in ([element] if isinstance(element, str) else element))
    return f"{element[0]} {element[1]}.{name}." if kind == "MX" else element


def long_rows():
    """Each long name, and the long one below a name that is moved."""
    for label, (kind, elements) in LONG.items():
        name = f"{label}.bit"
        yield name, kind, "NOERROR", [f"{name}. {kind} {data_of(name, kind, element)}" for element in elements]
    moved = ["far.bit. DNAME eighty.bit.", "deep.far.bit. CNAME deep.eighty.bit."]
    yield "deep.far.bit", "A", "NOERROR", [*moved, *(f"deep.eighty.bit. A {element}" for element in LONG["eighty"][1])]


def long_value(kind, elements):
    item = f'"{ITEMS[kind]}":{json.dumps(elements, separators=(",", ":"))}'
    return f"{{{item}}}".encode()


def long_values():
    found = {f"d/{label}".encode(): long_value(*told) for label, told in LONG.items()}
    # The addresses are those of what is below it, too.
    found[b"d/eighty"] = found[b"d/eighty"][:-1] + b',"map":{"deep":{"import":"d/eighty"}}}'
    return found


VALUES = {
    b"d/example": b"""{"ip": ["192.0.2.1", "192.0.2.2"], "ip6": "2001:db8::1", "txt": "v=spf1 -all", "mx": [[10, "mail"]],
        "sshfp": [[1, 1, "%s"]], "map": {"www": {"alias": "@"}, "mail": {"ip": "192.0.2.3"}, "*": {"ip": "192.0.2.4"},
        "_tcp": {"map": {"_443": {"tls": [[3, 1, 1, "%s"]]}, "_sip": {"srv": [[1, 2, 5060, "mail.example.bit."]]}}}}}"""
    % (base64.b64encode(bytes(20)), base64.b64encode(bytes(32))),
    b"d/other": b'{"alias": "www.example.bit."}',
    b"d/moved": b'{"translate": "example.bit."}',
    b"d/cut": b'{"ns": ["ns1.example.org.", "ns2.example.org."], "ds": [[60485, 8, 2, "%s"]]}' % base64.b64encode(bytes(32)),
    b"d/far": b'{"translate": "eighty.bit."}',
    b"d/long": b'{"translate": "%s.bit."}' % b".".join([b"label-of-a-name"] * 8),
    b"d/loop": b'{"alias": "loop.bit."}',
    b"d/empty": b"{}",
    **long_values(),
}

TWO = ["example.bit. A 192.0.2.1", "example.bit. A 192.0.2.2"]
MOVED = ["moved.bit. DNAME example.bit.", "mail.moved.bit. CNAME mail.example.bit."]

# With its suffix replaced it would have more than 255 bytes.
TOO_LONG = "another-label-of-a-name." * 7 + "long.bit"

# The name and the type that are asked; the status; and the records of the answer, each its owner, type and data.
ROWS = [
    ("example.bit", "A", "NOERROR", TWO),
    ("ExAmPlE.BIT", "AAAA", "NOERROR", ["example.bit. AAAA 2001:db8::1"]),
    ("example.bit", "TXT", "NOERROR", ['example.bit. TXT "v=spf1 -all"']),
    ("example.bit", "MX", "NOERROR", ["example.bit. MX 10 mail.example.bit."]),
    ("example.bit", "SSHFP", "NOERROR", ["example.bit. SSHFP 1 1 " + 40 * "0"]),
    ("_443._tcp.example.bit", "TLSA", "NOERROR", ["_443._tcp.example.bit. TLSA 3 1 1 " + 64 * "0"]),
    ("_sip._tcp.example.bit", "SRV", "NOERROR", ["_sip._tcp.example.bit. SRV 1 2 5060 mail.example.bit."]),
    ("www.example.bit", "A", "NOERROR", ["www.example.bit. CNAME example.bit.", *TWO]),
    ("any.example.bit", "A", "NOERROR", ["any.example.bit. A 192.0.2.4"]),
    ("other.bit", "A", "NOERROR", ["other.bit. CNAME www.example.bit.", "www.example.bit. CNAME example.bit.", *TWO]),
    ("mail.moved.bit", "A", "NOERROR", [*MOVED, "mail.example.bit. A 192.0.2.3"]),
    ("example.bit", "CAA", "NOERROR", []),
    ("empty.bit", "A", "NOERROR", []),
    ("none.bit", "A", "NXDOMAIN", []),
    ("below.empty.bit", "A", "NXDOMAIN", []),
    ("moved.bit", "DNAME", "NOERROR", MOVED[:1]),
    ("www.example.bit", "CNAME", "NOERROR", ["www.example.bit. CNAME example.bit."]),
    ("cut.bit", "DS", "NOERROR", ["cut.bit. DS 60485 8 2 " + 64 * "0"]),
    ("bit", "NS", "NOERROR", ["bit. NS ns.example."]),
    (TOO_LONG, "A", "YXDOMAIN", ["long.bit. DNAME " + "label-of-a-name." * 8 + "bit."]),
    ("loop.bit", "A", "SERVFAIL", []),
    *long_rows(),
]


class Answer(typing.NamedTuple):
    status: str
    records: list


def found(name):
    return shutil.which(name, path=PATH)


def opened():
    """The blocks of a chain that registers the names: its first one, and those above it."""
    salt = b"salt"
    commits = {name: named(outpoint(b"\xee" * 32, number), name_script(NEW, hash160(salt + name))) for number, name in enumerate(VALUES)}
    opens = [named(outpoint(double_sha256(made)), name_script(FIRST, name, salt, VALUES[name])) for name, made in commits.items()]
    blocks, tip = [], bytes(32)
    for height, transactions in enumerate([[], commits.values(), *[[]] * (MATURITY - 1), opens]):
        blocks.append(block_of(height, tip, [coinbase(height), *transactions]))
        tip = block_hash(blocks[-1])
    return blocks


@contextlib.contextmanager
def server_of_names(folder):
    """A server that was fed the names from a block file, by the feeder."""
    blocks, path = opened(), folder / "blk00000.dat"
    path.write_bytes(b"".join(MAGIC + len(block).to_bytes(4, "little") + block for block in blocks))
    (folder / "files").mkdir()
    with serving(folder / "files", block_hash(blocks[0])) as server:
        words = ["-m", "namecoin_feeder", "--blocks", path, "--server", f"127.0.0.1:{server.feed}", "--patience", "10"]
        subprocess.run([sys.executable, *words], cwd=FEEDER, check=True, stderr=subprocess.DEVNULL)
        yield server


def asked(port, name, kind):
    """What dig says of a question; None where it has no answer."""
    words = [found("dig"), "@127.0.0.1", "-p", str(port), "+time=3", "+tries=2", "+noall", "+comments", "+answer", name, kind]
    lines = subprocess.run(words, stdout=subprocess.PIPE, text=True, timeout=SECONDS).stdout.splitlines()
    status = next((line.split("status: ")[1].split(",")[0] for line in lines if "status: " in line), None)
    records = (line.split() for line in lines if line and not line.startswith(";"))
    # unbound tells a DNAME twice now and then.
    told = {f"{owner.lower()} {kind} {shown(kind, data)}" for owner, _, _, kind, *data in records}
    return status and Answer(status, sorted(told))


def shown(kind, data):
    """The data of a record. Long hexadecimal is cut into pieces by dig."""
    fixed = {"SSHFP": 2, "TLSA": 3, "DS": 3}.get(kind, len(data))
    return " ".join([*data[:fixed], *["".join(data[fixed:])][: len(data) - fixed]])


@contextlib.contextmanager
def started(words, port, name):
    """A resolver that answers on a port, as soon as it does. What it says is printed where it doesn't."""
    run = subprocess.Popen(words, stdout=subprocess.PIPE, stderr=subprocess.STDOUT, stdin=subprocess.DEVNULL, text=True)
    try:
        until = time.monotonic() + SECONDS
        while run.poll() is None and asked(port, name, "SOA") is None:
            if time.monotonic() > until:
                break
        yield run
    finally:
        run.terminate()
        said, _ = run.communicate(timeout=SECONDS)
        if run.returncode not in (0, -15):
            print(f"{words[0]} ended with {run.returncode}: {said[-2000:]}")


class Setting(typing.NamedTuple):
    """Lines more of a resolver's settings, and by a name what it answers to it in another way than the row says."""

    lines: tuple
    other: dict = {}


def check_resolver(names, words_of, settings):
    """Asks each question of a resolver over a server, once in each of the settings, which are by what they say. `words_of` writes
    one, and gives the words."""
    tally = Tally()
    program()
    missing = [name for name in (*names, "dig") if found(name) is None]
    if missing:
        tally.leaves_out("all of it", f"{', '.join(missing)} is missing")
        return 0
    with room() as folder, server_of_names(folder) as server:
        for what, setting in settings.items():
            begun = time.monotonic()
            port = free_port(socket.SOCK_DGRAM, socket.SOCK_STREAM)
            with room() as own, started(words_of(own, port, server.udp, setting.lines), port, "bit"):
                for name, kind, status, records in ROWS:
                    status, records = setting.other.get(name, (status, records))
                    tally.same(f"{what}: {name} {kind}", asked(port, name, kind), Answer(status, sorted(records)))
            print(f"{what}: {time.monotonic() - begun:.1f} s", file=sys.stderr)
    return tally.end()


__all__ = ["CROWD", "FEEDER", "ROWS", "TOO_LONG", "VALUES", "Answer", "Setting", "asked", "check_resolver", "found", "room", "started"]
