"""The pages in a real browser: what it makes of them, and that nothing of a name or a value is run."""
import contextlib
import functools
import html
import http.server
import os
import re
import shutil
import struct
import subprocess
import tempfile
import threading
import zlib

from .case import Case, as_shown, finding, unittest

from common import HERE
from namecoin_explorer.layout import DARK, LIGHT, PLAIN_HEADERS

BROWSER, SECONDS = "chromium", 120
WORDS = ("--headless", "--disable-gpu", "--no-first-run", "--disable-extensions", "--disable-dev-shm-usage")
WORDS += ("--hide-scrollbars", "--window-size=1000,900")
RAN = "ran"
SCRIPT = b"<script>document.documentElement.id='ran'</script>"
IMAGE = b"<img src=x onerror=\"document.documentElement.id='ran'\">"
NAMES = {
    b"d/script": b"<script>alert(1)</script>",
    b"d/runs": SCRIPT,
    b"d/image": IMAGE,
    b"d/json": b'{"txt":"' + SCRIPT.replace(b"'", b"") + b'","<b onclick=x>":1}',
    SCRIPT: b"{}",
    b"\x00\xff\r\n<": bytes(range(64)),
}


class Bare(http.server.BaseHTTPRequestHandler):
    """A page with a script that isn't escaped; below `/guarded` with the explorer's headers."""

    def do_GET(self):
        text = b"<!doctype html><title>bare</title>" + SCRIPT + IMAGE
        self.send_response(200)
        for name, value in (PLAIN_HEADERS if self.path == "/guarded" else {"Content-Type": "text/html"}).items():
            self.send_header(name, value)
        self.send_header("Content-Length", str(len(text)))
        with contextlib.suppress(OSError):
            self.end_headers()
            self.wfile.write(text)

    def log_message(self, *_):
        pass


def browsed(profile, url, *words):
    """What the browser has made of a page."""
    sandbox = ["--no-sandbox"] if os.geteuid() == 0 else []
    run = [BROWSER, *WORDS, *sandbox, f"--user-data-dir={profile}", *words, url]
    return subprocess.run(run, stdout=subprocess.PIPE, stderr=subprocess.DEVNULL, timeout=SECONDS, text=True).stdout


@functools.lru_cache(None)
def why_not():
    """Why no browser is asked here; None where one is."""
    if not shutil.which(BROWSER):
        return f"{BROWSER} is missing"
    with tempfile.TemporaryDirectory() as profile:
        told = browsed(profile, "data:text/html,<title>it</title>", "--dump-dom")
    return None if "<title>it</title>" in told else f"{BROWSER} shows nothing here"


class Browser(Case):
    def setUp(self):
        if why := why_not():
            self.skipTest(why)
        super().setUp()

    def browse(self, url, *words):
        return browsed(self.room / "profile", url, *words)

    def seen(self, run, path):
        """The elements of a page behind whatever ran in it."""
        return self.browse(f"http://127.0.0.1:{run.port}{path}", "--dump-dom")

    def texts(self, elements, pattern):
        found = re.findall(pattern, elements, re.DOTALL)
        return [html.unescape(re.sub("<[^>]*>", "", it)) for it in found]

    def has_run(self, elements):
        return f'id="{RAN}"' in elements.partition(">")[0] + elements.partition("<html")[2].partition(">")[0]

    def test_names_and_values(self):
        run = self.explorer(rows=50).reaches(self.has_names(NAMES))
        path = run.begin()
        elements = self.seen(run, path)
        self.assertFalse(self.has_run(elements))
        self.assertNotIn("<script", elements)
        self.assertNotIn("<img", elements)
        names = self.texts(elements, r'<tr><td><a href="[^"]*"><code>(.*?)</code>')
        self.assertEqual(names, [as_shown(name) for name, *_ in self.names_at(self.node.tip)])
        values = self.texts(elements, r"<td data-of=\"Value\"><code>(.*?)</code></td></tr>")
        self.assertEqual(values, [as_shown(value) for *_, value in self.names_at(self.node.tip)])
        for name, link in zip(names, run.get(path).row_links()):
            if name in ("d/script", "d/runs", "d/json"):
                elements = self.seen(run, link)
                self.assertFalse(self.has_run(elements) or "<script" in elements or "<b " in elements)
                self.assertEqual(self.texts(elements, r"as it is</h2><p><code>(.*?)</code>"), [as_shown(NAMES[name.encode()])])
        elements = self.seen(run, "/answer?name=%3Cscript%3Ealert(1)%3C/script%3E&type=ANY")
        self.assertEqual(self.texts(elements, "<h1>(.*?)</h1>"), ["<script>alert(1)</script>.bit ANY"])

    def test_begin_leads_to_the_first_page(self):
        run = self.explorer(rows=50).reaches(self.has_names(NAMES))
        elements = self.seen(run, "/names/new")
        self.assertIn("Names 1 to ", self.texts(elements, "<h1>(.*?)</h1>")[0])
        self.assertIn("1 of 8", run.get("/").text)

    def test_another_site_leads_to_no_listing(self):
        """A page of another place that is made of ours, or loads them, gets nothing, and opens no listing."""
        run = self.explorer().reaches(self.has_names(NAMES))
        place = f"http://127.0.0.1:{run.port}"
        text = f'<!doctype html><iframe src="{place}/"></iframe><img src="{place}/names/new"><link rel=stylesheet href="{place}/names/new">'
        page = self.room / "page.html"
        page.write_text(text)
        self.browse(page.as_uri(), "--dump-dom")
        self.assertIn("0 of 8", run.get("/").text)

    def test_what_would_run(self):
        """The same bytes that aren't escaped do run, so the browser would tell; and don't with the explorer's headers alone."""
        server = http.server.ThreadingHTTPServer((HERE, 0), Bare)
        self.addCleanup(server.server_close)
        self.addCleanup(server.shutdown)
        threading.Thread(target=server.serve_forever, args=(0.01,), daemon=True).start()
        place = f"http://127.0.0.1:{server.server_address[1]}"
        self.assertTrue(self.has_run(self.browse(f"{place}/", "--dump-dom")))
        elements = self.browse(f"{place}/guarded", "--dump-dom")
        self.assertIn("<title>bare</title>", elements)
        self.assertFalse(self.has_run(elements))

    def test_looks(self):
        """The style is taken, in the light and in the dark: the page's corner has its colour."""
        run = self.explorer().reaches(self.has_names(NAMES))
        picture = self.room / "picture.png"
        for palette, words in ((LIGHT, ()), (DARK, ("--blink-settings=preferredColorScheme=0",))):
            self.browse(f"http://127.0.0.1:{run.port}/", f"--screenshot={picture}", *words)
            self.assertEqual(corner(picture.read_bytes()).hex(), palette["back"][1:])

    def test_found_names(self):
        """Names that are found, each one's page with its history, what a resolver gets and the drawings: nothing of a name is run there."""
        names = {**NAMES, b"d/tree": b'{"import":"<script>","alias":"a.example.","map":{"www":{"ns":"ns.example."}}}'}
        tip = self.chains.updating(self.chains.opening(self.node.tip, names), (b"d/runs", b'{"txt":"<b>"}'), (b"d/runs", SCRIPT), (b"d/runs", IMAGE))
        self.node.move(tip)
        run = self.explorer(rows=50).reaches(self.chains.blocks[tip].height)
        run.waits_for("names", lambda: run.get("/name/d/tree").status == 200)
        for text in ("", "d/", "<script", "'"):
            elements = self.seen(run, finding(text, "have"))
            wanted = [as_shown(name) for name, *_ in self.names_at(tip) if text.encode() in name]
            self.assertEqual(self.texts(elements, r'<tr><td><a href="[^"]*"><code>(.*?)</code>'), wanted)
            self.assertFalse(self.has_run(elements) or "<script" in elements or "<img" in elements)
        elements = self.seen(run, "/name/d/runs")
        self.assertFalse(self.has_run(elements) or "<script" in elements or "<img" in elements or "<b>" in elements)
        self.assertEqual(len(self.texts(elements, "<h3>At height (.*?)</h3>")), 4)
        tree = self.seen(run, "/name/d/tree").partition('<svg class="tree"')[2].partition("</svg>")[0]
        self.assertEqual(self.texts(tree, r'<text x="[^"]*" y="[^"]*">(.*?)</text>'), ["tree.bit", "<script>", "a.example", "www.tree.bit", "ns.example"])
        elements = self.seen(run, "/")
        self.assertEqual(len(self.texts(elements, '<svg class="plot"(.*?)</svg>')), 2)
        self.assertGreater(elements.count("<rect"), 2)


def corner(picture):
    """The first pixel's red, green and blue of a PNG: whatever its filter, the first bytes of the first row are themselves."""
    at, data = 8, b""
    while at < len(picture):
        length, kind = struct.unpack(">I4s", picture[at : at + 8])
        data += picture[at + 8 : at + 8 + length] if kind == b"IDAT" else b""
        at += 12 + length
    return zlib.decompress(data)[1:4]


if __name__ == "__main__":
    unittest.main()
