"""What the tests share: a chain with names of all kinds, a node that has it, the explorer as a program of its own, and readers."""
import contextlib
import html
import http.client
import os
import pathlib
import re
import shlex
import signal
import socket
import subprocess
import sys
import tempfile
import threading
import time
import typing
import unittest
import urllib.parse

from . import EXPLORER, FEEDER
from .fed import Chains, FakeNode, first_out, name_of
from .model_program import FAULT, initialised
from blocks import FIRST, NEW, UPDATE, name_script, named, outpoint
from common import HERE, free_port
from digests import hash160
from listings_model import rows_of
from model import Model
from stores import PROGRAM

SECONDS, MEMORY, MATURITY = 30, "/dev/shm", 12
# Whatever is waited for comes within so many seconds, on a machine with much other work too.
LONGEST = 240
# The tests are run over a model, and where this variable says so over the built program.
OVER, BUILT = "EXPLORER_OVER", "built"
IS_BUILT = os.environ.get(OVER) == BUILT
CHILD = [PROGRAM] if IS_BUILT else [sys.executable, EXPLORER / "tests" / "model_program.py"]
TAG = re.compile(r"<[^>]*>")


class Page(typing.NamedTuple):
    status: int
    headers: dict
    html: str

    @property
    def text(self):
        """What a reader reads of it."""
        return text_of(self.html)

    @property
    def links(self):
        return [html.unescape(it) for it in re.findall(r'href="([^"]*)"', self.html)]

    def next(self):
        """The link to the page behind it; None where there is none."""
        found = re.search(r'<a rel=next href="([^"]*)"', self.html)
        return found and found[1]

    def shown(self, pattern):
        """What a reader reads of the first part of the HTML that fits."""
        return html.unescape(TAG.sub("", re.search(pattern, self.html, re.DOTALL)[1]))

    def names(self):
        """The names of a page, as they are shown."""
        rows = re.findall(r'<tr><td><a href="[^"]*"><code>(.*?)</code></a>', self.html)
        return [html.unescape(TAG.sub("", it)) for it in rows]

    def row_links(self):
        """The links to the pages of its names."""
        return re.findall(r'<tr><td><a href="([^"]*)"><code>', self.html)


def text_of(page):
    """The text of a page's HTML, each tag being the end of a line."""
    body = re.sub(r"<style>.*?</style>|<wbr>", "", page, flags=re.DOTALL)
    return html.unescape(TAG.sub("\n", body))


def as_shown(data):
    """Bytes as pages are to show them."""
    return "".join(chr(it) if 0x20 <= it < 0x7F else f"\\x{it:02x}" for it in data) or "empty"


def finding(text, way="begin", **more):
    """The address of the page on which names are found."""
    return "/find?" + urllib.parse.urlencode({"name": text, "way": way, **more})


def request(port, path, method="GET", headers=None, seconds=SECONDS):
    line = http.client.HTTPConnection(HERE, port, timeout=seconds)
    with contextlib.closing(line):
        line.request(method, path, headers=headers or {})
        told = line.getresponse()
        return Page(told.status, {name.lower(): value for name, value in told.getheaders()}, told.read().decode())


def raw(port, data, seconds=SECONDS):
    """All that comes back for some bytes on a connection."""
    with socket.create_connection((HERE, port), seconds) as line:
        line.settimeout(seconds)
        with contextlib.suppress(BrokenPipeError, ConnectionResetError):
            line.sendall(data)
        text = b""
        with contextlib.suppress(ConnectionResetError):
            while piece := line.recv(65536):
                text += piece
        return text


class Named(Chains):
    """Chains whose blocks may also open and update names of any bytes. The last transaction of each such name is known."""

    def __init__(self):
        super().__init__()
        self.last, self.commits = {}, 0

    def opening(self, tip, names):
        """A tip above that has these names with these values: committed to in one block, opened twelve blocks later."""
        salt, commits = b"salt", []
        for name in names:
            self.commits += 1
            commits.append(named(outpoint(b"\xdd" * 28 + self.commits.to_bytes(4, "little")), name_script(NEW, hash160(salt + name))))
        opens = [named(first_out(it), name_script(FIRST, name, salt, value)) for it, (name, value) in zip(commits, names.items())]
        self.last.update(zip(names, opens))
        return self.add(self.grow(self.add(tip, commits), MATURITY - 1), opens)

    def updating(self, tip, *changes):
        """A block on a tip that gives names new values, one after the other; a name may come several times."""
        updates = []
        for name, value in changes:
            self.last[name] = named(first_out(self.last[name]), name_script(UPDATE, name, value))
            updates.append(self.last[name])
        return self.add(tip, updates)


class Explorer:
    """A run of the explorer, over a program in a folder."""

    def __init__(self, node, cookie, folder, *more, program=CHILD, rows=5):
        self.port = free_port(socket.SOCK_STREAM)
        fast = ("--every", "0.05", "--longest-pause", "0.2", "--timeout", "5")
        places = ("--port", self.port, "--folder", folder, "--program", shlex.join(map(str, program)), "--rows", rows)
        words = [sys.executable, "-m", "namecoin_explorer", *places, "--node", node.url, "--cookie", cookie, *fast, *more]
        self.run = subprocess.Popen(list(map(str, words)), cwd=EXPLORER, stderr=subprocess.PIPE, text=True)
        self.said = []
        self.listener = threading.Thread(target=self.listen, daemon=True)
        self.listener.start()

    def listen(self):
        for line in self.run.stderr:
            self.said.append(line.rstrip("\n"))

    def waits_for(self, what, holds):
        until = time.monotonic() + LONGEST
        while not holds():
            if time.monotonic() > until or self.run.poll() is not None and not holds():
                raise AssertionError(f"waited for {what}: {self.run.poll()}, {self.said}")
            time.sleep(0.02)
        return self

    def hears(self, text):
        return self.waits_for(text, lambda: any(text in it for it in self.said))

    def started(self):
        return self.hears("the pages are at")

    def reaches(self, height):
        """Waits until the pages tell this height."""
        self.started()
        return self.waits_for(f"height {height}", lambda: f"stands at height {height:,}\n" in self.get("/").text)

    def get(self, path, method="GET", **headers):
        return request(self.port, path, method, {name.replace("_", "-"): value for name, value in headers.items()})

    def begin(self):
        """The path of the first page of a new listing."""
        told = self.get("/names/new")
        if told.status != 303:
            raise AssertionError(f"{told.status}: {told.text}")
        return told.headers["location"]

    def ended(self):
        """Its status, where it ends by itself; and what it said."""
        status = self.run.wait(LONGEST)
        self.listener.join(SECONDS)
        return status, "\n".join(self.said)

    def stop(self, number=signal.SIGTERM):
        if self.run.poll() is None:
            self.run.send_signal(number)
        return self.ended()

    def children(self):
        """The processes that it has started."""
        found = [path.read_text().split() for path in pathlib.Path(f"/proc/{self.run.pid}/task").glob("*/children")]
        return [int(number) for numbers in found for number in numbers]

    def kill(self):
        """Kills it, and waits until what it has started is over too, and has let go of the program's files."""
        children = self.children()
        self.run.kill()
        self.run.wait()
        self.waits_until_over(children)
        self.listener.join(SECONDS)
        self.run.stderr.close()


    def waits_until_over(self, processes):
        until = time.monotonic() + LONGEST
        while any(map(is_running, processes)):
            if time.monotonic() > until:
                raise AssertionError(f"of {processes} one doesn't end")
            time.sleep(0.02)


def is_running(process):
    """Whether a process has files open still: one that nobody has waited for yet has none."""
    try:
        return pathlib.Path(f"/proc/{process}/stat").read_text().rpartition(")")[2].split()[0] != "Z"
    except (FileNotFoundError, ProcessLookupError):
        return False


class Case(unittest.TestCase):
    def setUp(self):
        room = tempfile.TemporaryDirectory(prefix="jaqhumpi-", dir=MEMORY if os.access(MEMORY, os.W_OK) else None)
        self.addCleanup(room.cleanup)
        self.room, self.chains = pathlib.Path(room.name), Named()
        self.folder, self.cookie = self.room / "files", self.room / "cookie"
        self.folder.mkdir()
        self.initialise()
        self.node = FakeNode(self.chains, self.chains.first, cookie=self.cookie)
        self.addCleanup(self.node.stop)

    def initialise(self):
        """Makes the program's files."""
        if IS_BUILT:
            words = ["init", "regtest", "0", self.chains.first[::-1].hex(), "ns.example."]
            subprocess.run([PROGRAM, *words], cwd=self.folder, check=True)
        else:
            initialised(self.folder, self.chains.first)

    def explorer(self, *more, **how):
        run = Explorer(self.node, self.cookie, self.folder, *more, **how)
        self.addCleanup(run.kill)
        return run

    def faults(self, *lines):
        """What is wrong with the program from now on."""
        (self.folder / FAULT).write_text("".join(f"{it}\n" for it in lines))

    def ends(self, run, status, *told):
        """It ends by itself with this status, and says this."""
        found, said = run.ended()
        self.assertEqual(found, status, said)
        for it in told:
            self.assertIn(it, said)
        self.assertNotIn("Traceback", said)

    def model_at(self, tip):
        """The model of a chain."""
        model = Model(0, hash=self.chains.first)
        for hash in self.chains.path(tip):
            model.connect(self.chains.blocks[hash].data)
        self.assertEqual(model.tip, tip)
        return model

    def names_at(self, tip):
        """The rows of the names of a chain."""
        return rows_of(self.model_at(tip))

    def has_names(self, names, more=0):
        """The node has a chain with these names, and so many blocks behind. Its tip's height."""
        tip = self.chains.grow(self.chains.opening(self.node.tip, names), more)
        self.node.move(tip)
        return self.chains.blocks[tip].height


__all__ = ["BUILT", "CHILD", "EXPLORER", "FEEDER", "IS_BUILT", "OVER", "Case", "Explorer", "Named", "Page", "SECONDS"]
__all__ += ["as_shown", "finding", "initialised", "name_of", "raw", "request", "text_of", "unittest"]
