"""Requests of all kinds: what is no page's gets none, and nobody keeps another from reading or the blocks from coming."""
import contextlib
import os
import re
import socket
import subprocess
import sys
import threading
import time

from .case import SECONDS, Case, raw, request, unittest
from .test_listings import ODD

from common import HERE
from namecoin_explorer import front
from namecoin_explorer.layout import PLAIN_HEADERS

GOOD = b"Host: 127.0.0.1\r\n"
NOBODY = 65534
# Holds as many connections as it can, begins listings without end, and says when it has begun some.
NEIGHBOUR = """
import http.client, socket, sys, threading
port = int(sys.argv[1])
def holds():
    lines = []
    while True:
        try:
            lines = [*lines[-150:], socket.create_connection(("127.0.0.1", port), 5)]
            lines[-1].sendall(b"GET / HTTP/1.1\\r\\n")
        except OSError:
            pass
def asks(path):
    count = 0
    while True:
        try:
            line = http.client.HTTPConnection("127.0.0.1", port, timeout=5)
            line.request("GET", path)
            told = line.getresponse()
            told.read()
            line.close()
            count += told.status == 303
        except (OSError, http.client.HTTPException):
            continue
        if path == "/names/new" and count == 20:
            print("begun 20", flush=True)
threading.Thread(target=asks, args=("/answer?name=plain.bit&type=ANY",)).start()
threading.Thread(target=holds).start()
asks("/names/new")
"""


def status_of(told):
    found = re.match(rb"HTTP/1\.1 ([0-9]{3}) ", told)
    return found and int(found[1])


class Strangers(Case):
    def setUp(self):
        super().setUp()
        self.height = self.has_names(ODD)
        self.run_ = self.explorer().reaches(self.height)
        self.port = self.run_.port

    def gets(self, text, status, what=""):
        told = raw(self.port, text)
        self.assertEqual(status_of(told), status, what or text[:80])
        return told

    def test_headers(self):
        told = self.run_.get("/")
        for name, value in PLAIN_HEADERS.items():
            self.assertEqual(told.headers[name.lower()], value)
        policy = told.headers["content-security-policy"]
        self.assertTrue(policy.startswith("default-src 'none'; style-src 'sha256-"))
        for word in ("script-src", "unsafe", "http:", "https:", "*", "data:"):
            self.assertNotIn(word, policy)
        self.assertEqual((told.headers["cache-control"], told.headers["connection"]), ("no-store", "close"))
        for name in ("set-cookie", "server", "access-control-allow-origin"):
            self.assertNotIn(name, told.headers)

    def test_hosts(self):
        """A page of another site whose name was made to lead to this machine has another host."""
        for host in ("127.0.0.1", "localhost", "LOCALHOST", f"127.0.0.1:{self.port}", f"localhost:{self.port}"):
            self.gets(b"GET / HTTP/1.1\r\nHost: %s\r\n\r\n" % host.encode(), 200, host)
        wrong = ("evil.example", "127.0.0.1.evil.example", "localhost.evil.example", "evil.example:80", "127.0.0.1@evil.example", "", "[::1]")
        for host in (*wrong, "0.0.0.0", "127.0.0.2", "localhost:x", "localhost:123456", "127.0.0.1 evil.example", "127.0.0.1,evil.example"):
            told = self.gets(b"GET / HTTP/1.1\r\nHost: %s\r\n\r\n" % host.encode(), 421, host)
            self.assertNotIn(str(self.height).encode(), told)
        self.gets(b"GET / HTTP/1.1\r\n\r\n", 400)
        self.gets(b"GET / HTTP/1.1\r\nHost: 127.0.0.1\r\nHost: evil.example\r\n\r\n", 400)
        self.gets(b"GET http://evil.example/ HTTP/1.1\r\n" + GOOD + b"\r\n", 400)

    def test_other_sites(self):
        """What a browser loads for a page of another site gets nothing; a link leads here, and closes no listing."""
        parts = {"Sec-Fetch-Site": "cross-site", "Sec-Fetch-Mode": "no-cors"}
        paths = [self.run_.begin() for _ in range(8)]
        for path in ("/", "/names/new", paths[0]):
            self.assertEqual(request(self.port, path, headers=parts).status, 403)
            self.assertEqual(request(self.port, path, headers={**parts, "Sec-Fetch-Site": "same-site"}).status, 403)
        link = {"Sec-Fetch-Site": "cross-site", "Sec-Fetch-Mode": "navigate"}
        self.assertEqual(request(self.port, "/", headers=link).status, 200)
        for _ in range(10):
            told = request(self.port, "/names/new", headers=link)
            self.assertEqual((told.status, "Begin a listing" in told.text), (200, True))
        self.assertEqual({self.run_.get(it).status for it in paths}, {200})
        own = {"Sec-Fetch-Site": "same-origin", "Sec-Fetch-Mode": "navigate"}
        self.assertEqual(request(self.port, "/names/new", headers=own).status, 303)

    def test_methods(self):
        for method in ("POST", "PUT", "DELETE", "OPTIONS", "CONNECT", "TRACE", "get", "X"):
            told = self.gets(b"%s / HTTP/1.1\r\n%s\r\n" % (method.encode(), GOOD), 405, method)
            self.assertIn(b"\r\nAllow: GET, HEAD\r\n", told)
        self.gets(b"POST / HTTP/1.1\r\n" + GOOD + b"Content-Length: 1000000\r\n\r\n" + b"x" * 100_000, 405)
        told = self.gets(b"HEAD / HTTP/1.1\r\n" + GOOD + b"\r\n", 200)
        self.assertTrue(told.endswith(b"\r\n\r\n"))
        self.gets(b"GET / HTTP/1.1\r\n" + GOOD + b"Content-Length: 5\r\n\r\nabcde", 400)
        self.gets(b"GET / HTTP/1.1\r\n" + GOOD + b"Transfer-Encoding: chunked\r\n\r\n0\r\n\r\n", 400)

    def test_long_requests(self):
        self.gets(b"GET /" + b"a" * 3000 + b" HTTP/1.1\r\n" + GOOD + b"\r\n", 414)
        self.gets(b"GET /" + b"a" * 1_000_000, 414)
        self.gets(b"GET / HTTP/1.1\r\n" + GOOD + b"X: " + b"a" * 1_000_000 + b"\r\n\r\n", 431)
        self.gets(b"GET / HTTP/1.1\r\n" + GOOD + b"a: b\r\n" * 65 + b"\r\n", 431)
        self.gets(b"GET / HTTP/1.1\r\n" + GOOD + b"a: b\r\n" * 63 + b"\r\n", 200)
        self.gets(b"GET / HTTP/1.1\r\n" + GOOD + b"a: b\r\n" * 1_000_000 + b"\r\n", 431)

    def test_odd_requests(self):
        rows = (b"\r\n\r\n", b"GET\r\n\r\n", b"GET /\r\n\r\n", b"GET / HTTP/2.0\r\n", b"GET  / HTTP/1.1\r\n", b"GET / HTTP/1.1 \r\n", b"\0" * 50)
        for row in (*rows, b"GET /\xff HTTP/1.1\r\n", b"GET /\x7f HTTP/1.1\r\n", b"G\0T / HTTP/1.1\r\n"):
            self.gets(row + GOOD + b"\r\n\r\n", 400)
        for row in (b"no colon", b" folded: x", b"na me: x", b": x", b"a: b\nc: d", b"a: \0", b"a\0: b"):
            self.gets(b"GET / HTTP/1.1\r\n" + GOOD + row + b"\r\n\r\n", 400, row)
        paths = ("*", "evil", "//", "/..", "/../../etc/passwd", "/%2e%2e/etc/passwd", "/names/../../etc/passwd", "/favicon.ico", "/names/")
        for path in (*paths, "/names/new/", "/tip", "/index.html"):
            told = self.gets(b"GET %s HTTP/1.1\r\n" % path.encode() + GOOD + b"\r\n", 404 if path.startswith("/") else 400, path)
            self.assertNotIn(b"root:", told)

    def test_two_requests_at_once(self):
        """One request a connection: what follows it isn't read as another one."""
        told = self.gets((b"GET / HTTP/1.1\r\n" + GOOD + b"\r\n") * 3, 200)
        self.assertEqual(told.count(b"HTTP/1.1 "), 1)

    def test_pieces(self):
        with socket.create_connection((HERE, self.port), SECONDS) as line:
            for byte in b"GET / HTTP/1.1\r\n" + GOOD + b"\r\n":
                line.sendall(bytes([byte]))
                time.sleep(0.002)
            self.assertEqual(status_of(line.recv(100)), 200)

    def test_words_in_questions(self):
        rows = ("name=%00", "name=%ff", "name=a%20b", "name=" + "a" * 1500, "name=..", "name=" + "a." * 130, "name=x&type=NONE")
        for words in (*rows, "a=1&" * 100, "name=", "name=" + "a" * 64, "name=x&type=%3Cscript%3E", "name=%3Cscript%3E%C3%A4"):
            told = request(self.port, f"/answer?{words}")
            self.assertEqual((told.status, "<script" in told.html), (400, False), words)
        told = request(self.port, "/answer?name=%3Cscript%3Ealert(1)%3C/script%3E&type=A")
        self.assertEqual((told.status, "<script" in told.html, "<script>alert(1)</script>.bit" in told.text), (200, False, True))

    def numbers(self):
        """How many descriptors the explorer has."""
        return len(os.listdir(f"/proc/{self.run_.run.pid}/fd"))

    def test_idle_connections(self):
        """Many that send nothing or a part, or take nothing: others read all the same, and blocks come."""
        with contextlib.ExitStack() as held:
            lines = []
            for number in range(200):
                with contextlib.suppress(OSError):
                    line = held.enter_context(socket.create_connection((HERE, self.port), SECONDS))
                    line.sendall((b"", b"GET / HT", b"GET / HTTP/1.1\r\n" + GOOD, b"GET / HTTP/1.1\r\n" + GOOD + b"\r\n")[number % 4])
                    lines.append(line)
            self.assertEqual(len(lines), 200)
            self.run_.waits_for("its connections", lambda: self.numbers() >= front.MOST_LINES)
            self.assertLessEqual(self.numbers(), front.MOST_LINES + 20)
            path = self.run_.begin()
            self.assertEqual(self.run_.get(path).status, 200)
            self.node.move(self.chains.grow(self.node.tip, 5))
            self.run_.reaches(self.height + 5)

    def test_silent_connections_end(self):
        with socket.create_connection((HERE, self.port), SECONDS) as line:
            line.sendall(b"GET / HTTP/1.1\r\n")
            self.assertEqual(line.recv(10), b"")

    def test_many_requests_while_blocks_come(self):
        """Readers who ask without end don't keep blocks from coming, and the explorer's memory doesn't grow with them."""
        over, counts = threading.Event(), [0] * 8

        def asks(place):
            while not over.is_set():
                with contextlib.suppress(OSError, ValueError):
                    path = ("/", "/names/new", "/answer?name=plain.bit&type=ANY")[place % 3]
                    counts[place] += request(self.port, path).status in (200, 303)

        threads = [threading.Thread(target=asks, args=(it,)) for it in range(len(counts))]
        for thread in threads:
            thread.start()
        try:
            self.run_.waits_for("requests", lambda: min(counts) > 3)
            before = self.memory()
            for _ in range(3):
                self.node.move(self.chains.grow(self.node.tip, 4))
                self.height += 4
                self.run_.reaches(self.height)
        finally:
            over.set()
            for thread in threads:
                thread.join(SECONDS)
        self.assertLess(self.memory() - before, 40_000)

    @unittest.skipIf(os.geteuid(), "this doesn't run as root")
    def test_a_neighbour(self):
        """Another user of the machine takes what he can of connections and listings: ours stay, and blocks come."""
        paths = [self.run_.begin() for _ in range(3)]
        python = next(it for it in ("/usr/bin/python3", sys.executable) if os.path.exists(it))
        run = subprocess.Popen([python, "-c", NEIGHBOUR, str(self.port)], stdout=subprocess.PIPE, user=NOBODY, cwd="/", text=True)
        self.addCleanup(run.stdout.close)
        self.addCleanup(run.wait)
        self.addCleanup(run.kill)
        self.assertEqual(run.stdout.readline(), "begun 20\n")
        for number in range(1, 31):
            for path in paths:
                self.assertEqual(self.run_.get(path).status, 200)
            if number % 10 == 0:
                self.node.move(self.chains.grow(self.node.tip, 2))
                self.height += 2
                self.run_.reaches(self.height)
        later = self.run_.begin()
        self.assertIsNone(run.poll())
        self.assertEqual({self.run_.get(it).status for it in [*paths, later]}, {200})

    def memory(self):
        """Kibibytes that the explorer holds."""
        with open(f"/proc/{self.run_.run.pid}/status") as status:
            return int(re.search(r"VmRSS:\s+(\d+)", status.read())[1])

    def test_here_alone(self):
        """No other address of this machine is listened at."""
        with open("/proc/net/tcp") as table:
            rows = [line.split() for line in table]
        mine = [row[1] for row in rows if row[1].endswith(f":{self.port:04X}") and row[3] == "0A"]
        self.assertEqual(mine, [f"0100007F:{self.port:04X}"])


if __name__ == "__main__":
    unittest.main()
