"""What other programs that read DNS messages show of replies: dnspython, dig, drill and kdig. Each is left out where it is missing.

dig and kdig read no file: dig asks a server on this machine, which hands out the reply that has the ID asked with.
"""
import concurrent.futures
import contextlib
import os
import pathlib
import shutil
import socket
import subprocess
import sys
import tempfile
import threading

from answers_model import AXFR, DO, IXFR
from common import HERE
from presented import Shown, fields_of, labels_of, reading_of, words_of, written

# Debian keeps its packages of Python here, whichever Python runs this.
sys.path.append("/usr/lib/python3/dist-packages")
try:
    import dns.exception
    import dns.flags
    import dns.message
    import dns.name
    import dns.query
except ImportError:
    dns = None

SECONDS = 60
# dig cuts a line of its list that is longer.
LONGEST_LINE = 1000
DIG_OPTIONS = ["+tries=1", "+time=5", "+nosplit", "+nostats", "+nocmd", "+noidnin", "+noidnout"]
# A question in one datagram, without an OPT.
PLAIN = ("+noedns", "+notcp", "+ignore", "+nocookie")
# QR, AA, TC, RD, RA, AD and CD.
BITS_OF_FLAGS = 0x87B0


def read_by_dnspython(replies):
    """What dnspython reads in each reply, or the error's text."""
    return [dnspython_reading(reply) for reply in replies]


def dnspython_reading(reply):
    try:
        return dnspython_shown(dns.message.from_wire(reply, one_rr_per_rrset=True))
    except (dns.exception.DNSException, ValueError) as error:
        return f"{type(error).__name__}: {error}"


def dnspython_shown(message):
    asked = [(it.name.labels[:-1], int(it.rdtype), int(it.rdclass)) for it in message.question]
    sections = [[dnspython_record(it) for it in section] for section in (message.answer, message.authority)]
    assert len(asked) < 2 and not message.additional, message
    bits, code = message.flags & BITS_OF_FLAGS, int(message.rcode())
    opt = None if message.edns < 0 else (message.edns, message.ednsflags & DO != 0, message.payload)
    return Shown(message.id, int(message.opcode()), bits, code, asked[0] if asked else None, *sections, opt)


def dnspython_record(rrset):
    (data,) = rrset
    kind = int(rrset.rdtype)
    return labels_of(rrset.name.to_text()), kind, rrset.ttl, fields_of(kind, words_of(data.to_text()))


def knows_opcode(reply):
    """Whether dnspython has a name for the reply's opcode: it reads no other message."""
    return (reply.flags >> 11 & 15) in (0, 1, 2, 4, 5)


def read_by_drill(replies):
    """What drill shows of each reply, which it reads from a file."""
    workers = concurrent.futures.ThreadPoolExecutor(len(os.sched_getaffinity(0)))
    with tempfile.TemporaryDirectory() as folder, workers as side_by_side:

        def read(number, reply):
            path = pathlib.Path(folder) / str(number)
            path.write_text(reply.hex())
            return reading_of(told(["drill", "-i", path]))

        return list(side_by_side.map(read, range(len(replies)), replies))


def told(words):
    run = subprocess.run(words, stdin=subprocess.DEVNULL, stdout=subprocess.PIPE, stderr=subprocess.STDOUT, timeout=SECONDS)
    return run.stdout.decode("latin-1")


@contextlib.contextmanager
def serving(answer):
    """A server on a free UDP port of this machine, which answers each message by the function. Gives the port."""
    with socket.socket(socket.AF_INET, socket.SOCK_DGRAM) as server:
        server.bind(("127.0.0.1", 0))

        def serve():
            while True:
                message, client = server.recvfrom(65535)
                if not message:
                    return
                server.sendto(answer(message), client)

        thread = threading.Thread(target=serve)
        thread.start()
        try:
            yield server.getsockname()[1]
        finally:
            server.sendto(b"", server.getsockname())
            thread.join()


def can_dig(question):
    """Whether dig asks it as one datagram: it makes zone transfers in another way."""
    return question is not None and question.type not in (IXFR, AXFR)


def dig_words(number, question):
    name, kind, group = question
    return ["-q", written(name), "-t", f"TYPE{kind}", "-c", f"CLASS{group}", f"+qid={number}"]


def read_by_dig(asked):
    """By ID: what dig shows of the reply that it gets with this ID, where a question and a reply are given by ID."""
    with serving(lambda message: asked[int.from_bytes(message[:2], "big")][1]) as port:
        return dug(port, {number: question for number, (question, _) in asked.items()})


def dug(port, questions, options=PLAIN):
    """By ID: what dig shows where it asks these questions, given by ID, at the port."""
    server, alone = ["@127.0.0.1", "-p", str(port), *DIG_OPTIONS, *options], []
    with tempfile.NamedTemporaryFile("w") as batch:
        for number, question in questions.items():
            line = " ".join(dig_words(number, question))
            if len(line) > LONGEST_LINE:
                alone.append(told(["dig", *server, *dig_words(number, question)]))
            else:
                batch.write(f"{line}\n")
        batch.flush()
        text = "".join([told(["dig", *server, "-f", batch.name]), *alone])
    shown = [reading_of(part) for part in text.split(";; Got answer:")[1:]]
    return {reading.id: reading for reading in shown}


def drilled(port, question, options=()):
    """What drill shows where it asks the question at the port; its ID is by chance."""
    name, kind, group = question
    assert group == 1, question
    return reading_of(told(["drill", *options, "-p", str(port), written(name), "@127.0.0.1", f"TYPE{kind}"]))


def kdug(port, question, options=()):
    """What kdig shows where it asks the question at the port; its ID is by chance."""
    name, kind, group = question
    words = ["kdig", "@127.0.0.1", "-p", str(port), "-q", written(name), "-t", f"TYPE{kind}", "-c", f"CLASS{group}", *options]
    return reading_of(told([*words, "+retry=0", "+timeout=5", "+noidn"]))


def dnspython_asked(port, question, asks, **options):
    """What dnspython reads where it asks by this function of `dns.query`, with these options of a query; or the error's text."""
    name, kind, group = question
    query = dns.message.make_query(dns.name.Name((*name, b"")), kind, group, **options)
    try:
        return dnspython_shown(asks(query, HERE, port))
    except (dns.exception.DNSException, OSError, ValueError) as error:
        return f"{type(error).__name__}: {error}"


def over_udp(query, address, port):
    return dns.query.udp(query, address, port=port, timeout=SECONDS, one_rr_per_rrset=True)


def over_tcp(query, address, port):
    return dns.query.tcp(query, address, port=port, timeout=SECONDS, one_rr_per_rrset=True)


def over_udp_then_tcp(query, address, port):
    """Over UDP, and where that is truncated over TCP."""
    return dns.query.udp_with_fallback(query, address, port=port, timeout=SECONDS, one_rr_per_rrset=True)[0]


def has_program(name):
    return shutil.which(name) is not None


def has_dnspython():
    return dns is not None
