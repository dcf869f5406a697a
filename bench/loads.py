"""What measures the answering of queries shares: the program of clients, servers that run, queries for many names, and NSD."""
import contextlib
import os
import pathlib
import random
import shutil
import socket
import statistics
import struct
import subprocess
import sys
import time
import typing

from blocks import Chain
from name_chains import connect_names
from ports import server_ports
from stores import PROGRAM

LOAD = pathlib.Path(__file__).resolve().with_name("load.c")
# A for name0.bit.
QUERY = bytes.fromhex("123401000001000000000000") + b"\x05name0\x03bit\0" + bytes.fromhex("00010001")
# The same with an OPT behind it, for replies of up to 1,232 bytes (RFC 6891).
WITH_OPT = QUERY[:11] + b"\x01" + QUERY[12:] + bytes.fromhex("000029 04d0 00000000 0000")
ADDRESS = bytes([192, 0, 2, 1])
TURNS = "1000000000"
SEED = 17
# So many names, and so many queries that are drawn by Zipf's law.
MANY, DRAWN = 100_000, 500_000
# A zone with the records that the program answers, and what NSD is told: how many processes answer, nothing in a reply beside the
# answer, and no limit to the queries of one address.
ZONE = """$TTL 600
@ SOA ns.example. hostmaster.ns.example. 1 600 600 7200 600
@ NS ns.example.
"""
NSD = """
server:
    ip-address: 127.0.0.1@{port}
    do-ip6: no
    server-count: {count}
    username: ""
    zonesdir: "{folder}"
    database: ""
    pidfile: ""
    logfile: "{folder}/log"
    xfrdfile: ""
    zonelistfile: "{folder}/zone.list"
    xfrdir: "{folder}"
    minimal-responses: yes
    rrl-ratelimit: 0
    rrl-whitelist-ratelimit: 0
remote-control:
    control-enable: no
zone:
    name: "bit"
    zonefile: "zone"
"""


class Way(typing.NamedTuple):
    """How queries come: what it is called, how bench/load.c calls it, the query, and the most system calls each may take."""

    name: str
    kind: str
    query: bytes
    most_calls: float


DATAGRAMS = Way("datagrams", "udp", QUERY, 2.1)


def answers(number):
    """Waits until a query is answered there."""
    with socket.socket(type=socket.SOCK_DGRAM) as asking:
        asking.connect(("127.0.0.1", number))
        asking.settimeout(0.1)
        for _ in range(600):
            with contextlib.suppress(OSError):
                asking.send(QUERY)
                return asking.recv(65536)
            time.sleep(0.05)
    sys.exit("serve: no reply within a minute")


@contextlib.contextmanager
def running(command, folder, number):
    """The process, once it answers."""
    run = subprocess.Popen(command, cwd=folder, stdin=subprocess.DEVNULL, stdout=subprocess.DEVNULL)
    try:
        answers(number)
        yield run
    finally:
        run.terminate()
        run.wait()


def asked(load, way, number, clients, seconds, drawn=None):
    """How many replies came, and the last one. The queries are those of a file where one is given."""
    words = ["draw" if drawn else "ask", way.kind, str(number), str(clients), str(int(seconds * 1000)), drawn or way.query.hex()]
    replies, lost, last = subprocess.run([load, *words], stdout=subprocess.PIPE, check=True).stdout.split()
    if int(lost):
        print(f"  {int(lost)} queries had no reply within a second")
    return int(replies), bytes.fromhex(last.decode())


def children(process):
    """The processes that a process has started."""
    return [int(it) for it in pathlib.Path(f"/proc/{process}/task/{process}/children").read_text().split()]


def processor_seconds(process):
    """What a process and all below it took, of the user's time and the system's."""
    fields = pathlib.Path(f"/proc/{process}/stat").read_text().rpartition(")")[2].split()
    return (int(fields[11]) + int(fields[12])) / 100 + sum(map(processor_seconds, children(process)))


def speed_of(run, load, way, number, clients, seconds, drawn=None):
    """The same of a process that runs."""
    before = processor_seconds(run.pid)
    replies, last = asked(load, way, number, clients, seconds, drawn)
    return replies / seconds, 1e6 * (processor_seconds(run.pid) - before) / replies, last


def build(room):
    """The program of clients and of the echo."""
    load = pathlib.Path(room) / "load"
    subprocess.run(["gcc", "-O2", "-o", load, LOAD], check=True)
    return load


def checked(way, last):
    """Ends where the last reply isn't the address."""
    told = last if way.query == QUERY else last[: -len(WITH_OPT) + len(QUERY)]
    if not told.endswith(ADDRESS):
        sys.exit(f"serve: {way.name}: the last reply is {last.hex()}")


def middle(figures):
    """The middle replies a second, and the middle processor time."""
    return tuple(map(statistics.median, zip(*figures)))


def fill(folder, names):
    """Has the files of a folder keep so many names."""
    with open(folder / "stream", "wb") as out:
        connect_names(Chain(out), names)
    with open(folder / "stream", "rb") as stream:
        subprocess.run([PROGRAM, "replay"], cwd=folder, stdin=stream, stdout=subprocess.DEVNULL, check=True)
    (folder / "stream").unlink()


def query_for(place, number):
    """The query at a place of a list for a name, behind its length."""
    label = b"name%d" % number
    text = struct.pack(">H", place & 0xFFFF) + QUERY[2:12] + bytes([len(label)]) + label + QUERY[-9:]
    return struct.pack(">H", len(text)) + text


def lists(room, names):
    """Files of queries, by how they are spread over the names."""
    chance, found = random.Random(SEED), {}
    order = chance.sample(range(names), names)
    shares = [1 / place for place in range(1, names + 1)]
    for told, numbers in (("evenly", order), ("by Zipf's law", chance.choices(order, shares, k=DRAWN))):
        found[told] = pathlib.Path(room) / f"list{len(found)}"
        found[told].write_bytes(b"".join(query_for(place, number) for place, number in enumerate(numbers)))
    return found


@contextlib.contextmanager
def nsd(room, names, count=1):
    """NSD with a zone of the same names and so many processes that answer, and its number; None where it isn't installed, which is
    told."""
    command = shutil.which("nsd", path=f"{os.environ['PATH']}:/usr/sbin")
    if command is None:
        print("no nsd here: nothing to compare with")
        yield None
        return
    number = server_ports()[0]
    address = socket.inet_ntoa(ADDRESS)
    (room / "zone").write_text(ZONE + "".join(f"name{it} A {address}\n" for it in range(names)))
    (room / "nsd.conf").write_text(NSD.format(port=number, folder=room, count=count))
    with running([command, "-d", "-c", room / "nsd.conf"], room, number) as run:
        yield run, number
