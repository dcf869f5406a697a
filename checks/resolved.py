"""A zone with all kinds of records, and what the resolver unbound makes of it."""
import contextlib
import pathlib
import shutil
import socket
import subprocess
import tempfile
import time

from answers_model import A, AAAA, ANY, CNAME, DNAME, DS, MX, NS, SOA, SRV, SSHFP, TLSA, TXT, lower, reply_to
from common import HERE, SECONDS, free_port

from generated_zones import message
from other_programs import dug
from presented import shown

TYPES = [A, AAAA, NS, CNAME, SOA, MX, TXT, SRV, DNAME, DS, SSHFP, TLSA, ANY]
# 32 bytes of hash, 20 bytes of fingerprint.
DIGEST, FINGERPRINT = "q83v" * 10 + "q80=", "q83v" * 6 + "q80="
NAMES = {
    b"d/kinds": b'{"ip":["192.0.2.5","192.0.2.6"],"ip6":"2001:db8::5","mx":[[10,"mail"],[20,"mx.example.org."]],'
    b'"txt":["v=spf1 mx -all",["two \\"strings\\"","of one; record"]],"sshfp":[[4,1,"%s"]],"map":{'
    b'"www":{"alias":"@"},"far":{"alias":"there.other.bit."},"out":{"alias":"www.example.org."},'
    b'"_tcp":{"map":{"_443":{"tls":[[3,1,1,"%s"]]},"_xmpp":{"srv":[[5,0,5269,"mail"]]}}},'
    b'"old":{"translate":"other.bit."},"cut":{"ns":["ns1.example.org.","ns2.example.org."],"ds":[[60485,8,2,"%s"]]}}}'
    % (FINGERPRINT.encode(), DIGEST.encode(), DIGEST.encode()),
    b"d/other": b'{"ip":"192.0.2.9","map":{"there":{"ip":"192.0.2.10"},"*":{"txt":"any"}}}',
    b"d/empty": b"{}",
}
ASKED = ["", "kinds", "www.kinds", "far.kinds", "out.kinds", "_443._tcp.kinds", "_xmpp._tcp.kinds", "old.kinds", "there.old.kinds"]
ASKED += ["cut.kinds", "deep.cut.kinds", "none.kinds", "empty", "WWW.Kinds", "absent", "other", "some.other"]
# unbound asks other servers there.
BEYOND = ("out.kinds", "deep.cut.kinds")
UNBOUND = """
server:
    interface: {here}
    port: {port}
    directory: "{folder}"
    pidfile: "{folder}/unbound.pid"
    chroot: ""
    username: ""
    use-syslog: no
    do-not-query-localhost: no
    do-ip6: no
    module-config: "iterator"
    use-caps-for-id: yes
    domain-insecure: "bit"
stub-zone:
    name: "bit"
    stub-addr: {here}@{server}
remote-control:
    control-enable: no
"""


def name_of(text):
    return (*(label.encode() for label in text.split(".") if label), b"bit")


def questions_of_all_kinds():
    """By ID: the messages that ask each of the names for each of the types."""
    pairs = [(name_of(text), kind) for text in ASKED for kind in TYPES]
    return {number: message(number, name, kind) for number, (name, kind) in enumerate(pairs)}


@contextlib.contextmanager
def unbound(server):
    """The port of an unbound that asks this port of this machine for all below `bit.`."""
    port = free_port(socket.SOCK_DGRAM, socket.SOCK_STREAM)
    with tempfile.TemporaryDirectory(prefix="jaqhumpi-unbound-") as folder:
        path = pathlib.Path(folder, "unbound.conf")
        path.write_text(UNBOUND.format(here=HERE, port=port, folder=folder, server=server))
        with open(pathlib.Path(folder, "log"), "wb") as log:
            run = subprocess.Popen([shutil.which("unbound"), "-d", "-c", path], stdout=log, stderr=subprocess.STDOUT)
        try:
            await_answer(port, run, pathlib.Path(folder, "log"))
            yield port
        finally:
            run.kill()
            run.wait(timeout=SECONDS)


def await_answer(port, run, log):
    until = time.monotonic() + SECONDS
    while time.monotonic() < until and run.poll() is None:
        with socket.socket(socket.AF_INET, socket.SOCK_DGRAM) as client:
            client.connect((HERE, port))
            client.settimeout(0.1)
            with contextlib.suppress(TimeoutError, ConnectionRefusedError):
                client.send(message(1, (b"localhost",), A))
                client.recv(65535)
                return
        time.sleep(0.05)
    raise SystemExit(f"unbound doesn't answer: {log.read_text()}")


def has_answer(text, kind):
    """Whether unbound answers it from the zone alone; it asks for all types in its own way."""
    return text not in BEYOND and kind != ANY and (kind == DS) == (text == "cut.kinds")


def compare_resolved(tally, server, zone):
    """Asks an unbound that asks the server. A resolver keeps answers for a time, so the TTL isn't compared, nor is the order."""
    wanted = {}
    for number, text in questions_of_all_kinds().items():
        place, kind = divmod(number, len(TYPES))
        if has_answer(ASKED[place], TYPES[kind]):
            wanted[number] = shown(reply_to(zone, text))
    with unbound(server.udp) as port:
        got = dug(port, {number: reading.question for number, reading in wanted.items()})
    for number, reading in wanted.items():
        told = got.get(number)
        tally.same(f"unbound, {reading.question}", told and (told.code, records_of(told)), (reading.code, records_of(reading)))


def records_of(reading):
    """The records of the answer in any order, with their names in lower case: a resolver writes some as pointers to others."""
    return {(lower(owner), kind, tuple(map(lower_name, fields))) for owner, kind, _, fields in reading.records}


def lower_name(field):
    return lower(field) if isinstance(field, tuple) else field
