"""What WCAG 2.2 (AA) asks of the pages as far as it can be read off them: contrast, names of fields, headings, order, language; and in
a browser that nothing stands beside the page at 320 pixels, that targets are large enough, and in which order the keyboard goes."""
import collections
import contextlib
import html
import html.parser
import http.server
import json
import re
import threading

from . import test_browser
from .case import Case, finding, unittest
from .test_finding import FAMILY
from .test_listings import ODD

from common import HERE
from namecoin_explorer.layout import DARK, LIGHT, STYLE

# Text on what it stands on, and what only has to be told from it (1.4.3, 1.4.11).
TEXTS = [(text, back) for text in ("text", "soft", "link", "odd", "good") for back in ("back", "box")] + [("text", "warn"), ("odd", "warn"), ("link", "warn")]
SHAPES = [("field", "back"), ("field", "box"), ("link", "back"), ("link", "box"), ("bar", "box"), ("bar", "back"), ("edge", "warn"), ("edge", "back")]
VOID = {"meta", "input", "link", "br", "wbr", "rect", "circle", "path", "img", "hr"}
# Fields and links are at least so many pixels high and wide, but for links in a line of text (2.5.8).
TARGET = 24
# What a script of the test's own tells of a page that a browser has laid out.
SCRIPT = """
const round = it => Math.round(it * 10) / 10;
const all = [...document.querySelectorAll('a, button, input, select, summary')];
const told = {
  wide: document.documentElement.scrollWidth, window: window.innerWidth,
  over: [...document.querySelectorAll('main *, header *')].filter(it => it.getBoundingClientRect().right > window.innerWidth + 1).map(it => it.tagName),
  small: all.filter(it => it.closest('p, li, td, h1, h2, h3, figure ul') === null && !it.classList.contains('skip')).map(it => [it, it.getBoundingClientRect()])
    .filter(([_, box]) => box.width && (box.height < 23.5 || box.width < 23.5)).map(([it, box]) => [it.outerHTML.slice(0, 60), round(box.width), round(box.height)]),
  tabs: all.map(it => it.tabIndex), colour: getComputedStyle(document.body).color,
};
parent.document.getElementById('told').textContent = JSON.stringify(told);
"""


def luminance(colour):
    """The relative luminance of #rrggbb (WCAG 2.2)."""
    parts = [int(colour[at : at + 2], 16) / 255 for at in (1, 3, 5)]
    red, green, blue = (it / 12.92 if it <= 0.04045 else ((it + 0.055) / 1.055) ** 2.4 for it in parts)
    return 0.2126 * red + 0.7152 * green + 0.0722 * blue


def contrast(one, other):
    high, low = sorted((luminance(one), luminance(other)), reverse=True)
    return (high + 0.05) / (low + 0.05)


class Colours(unittest.TestCase):
    def test_contrast(self):
        """Of texts at least 4.5, and of what is to be told from its surroundings at least 3."""
        self.assertEqual(round(contrast("#000000", "#ffffff"), 2), 21)
        for palette in (LIGHT, DARK):
            for pairs, least in ((TEXTS, 4.5), (SHAPES, 3.0)):
                for one, other in pairs:
                    self.assertGreaterEqual(contrast(palette[one], palette[other]), least, (one, other, palette[one], palette[other]))

    def test_all_colours_are_these(self):
        """No other colour stands in the style, and each is of both palettes."""
        self.assertEqual(set(re.findall(r"#[0-9a-f]{6}", STYLE)), {*LIGHT.values(), *DARK.values()})
        self.assertEqual(set(LIGHT), set(DARK))
        used = set(re.findall(r"var\(--([a-z]+)\)", STYLE))
        self.assertEqual(used, set(LIGHT))
        # Lines between rows say nothing by themselves.
        self.assertEqual(used - {"line"}, {name for pair in TEXTS + SHAPES for name in pair})


class Elements(html.parser.HTMLParser):
    """The elements of a page: what is wrong with how they stand in each other, and what is told of the fields, headings and drawings."""

    def __init__(self, text):
        super().__init__()
        self.open, self.wrong, self.headings, self.ids = [], [], [], collections.Counter()
        self.fields, self.drawings, self.cells, self.landmarks = [], [], [], collections.Counter()
        self.feed(text)
        self.close()

    def handle_starttag(self, tag, words):
        words = dict(words)
        if "id" in words:
            self.ids[words["id"]] += 1
        if tag in ("input", "select"):
            self.fields.append("label" in self.open or "aria-label" in words)
        if tag == "svg":
            self.drawings.append(words)
        if tag == "th":
            self.cells.append(words.get("scope"))
        if re.fullmatch("h[1-6]", tag):
            self.headings.append(int(tag[1]))
        if tag in ("header", "main", "footer", "nav"):
            self.landmarks[tag] += 1
        if tag in ("script", "img", "iframe") or any(it.startswith("on") for it in words):
            self.wrong.append((tag, words))
        if "tabindex" in words or "style" in words:
            self.wrong.append((tag, words))
        if tag not in VOID:
            self.open.append(tag)

    def handle_endtag(self, tag):
        if tag in VOID:
            return
        if not self.open or self.open.pop() != tag:
            self.wrong.append(f"</{tag}> behind {self.open[-3:]}")


class Pages(Case):
    def setUp(self):
        super().setUp()
        tip = self.chains.opening(self.chains.first, {**ODD, **FAMILY})
        tip = self.chains.updating(tip, (b"d/example", b'{"ip":"192.0.2.7","ns":[]}'), (b"d/example", b'{"map":{"www":{"ip":"192.0.2.8"}}}'))
        self.node.move(self.chains.grow(tip, 3))
        self.run_ = self.explorer(rows=25).reaches(self.chains.blocks[self.node.tip].height)
        self.run_.waits_for("names", lambda: self.run_.get("/name/d/example").status == 200)

    def paths(self):
        listing = self.run_.begin()
        asked = "/answer?name=example.bit&type=A"
        paths = ["/", "/names", "/answer", asked, "/answer?name=%20", listing, f"{listing}/3", "/name/d/example", "/name/d/deep", "/name/id/alice"]
        return [*paths, "/name/none", finding(""), finding("d/e", "have"), finding("zz"), finding("example.bit"), "/find?way=x", "/nowhere"]

    def test_elements(self):
        """Each page: one language, one title, one main part, headings in order, labels of all fields, names of all drawings."""
        titles = {}
        for path in self.paths():
            text = self.run_.get(path).html
            self.assertTrue(text.startswith("<!doctype html>\n<html lang=en><head><meta charset=utf-8>"), path)
            self.assertNotIn("maximum-scale", text)
            page = Elements(text)
            self.assertEqual((page.wrong, page.open), ([], []), path)
            self.assertEqual([it for it, count in page.ids.items() if count > 1], [], path)
            self.assertEqual((page.headings[0], page.headings.count(1)), (1, 1), path)
            self.assertTrue(all(below <= above + 1 for above, below in zip(page.headings, page.headings[1:])), (path, page.headings))
            self.assertTrue(page.fields and all(page.fields), path)
            self.assertTrue(all(it in ("col", "row") for it in page.cells), path)
            self.assertEqual((page.landmarks["main"], page.landmarks["header"]), (1, 1), path)
            for drawing in page.drawings:
                self.assertEqual(drawing.get("role"), "img", path)
                self.assertTrue(all(page.ids[it] == 1 for it in drawing["aria-labelledby"].split()), path)
            titles[path] = re.search("<title>(.*?)</title>", text)[1]
            self.assertIn('<a class=skip href="#main">', text)
        self.assertEqual(len({titles[it] for it in ("/", "/names", "/answer", "/name/d/example", "/name/id/alice", finding("zz"))}), 6)

    def test_links(self):
        """All links of all pages lead to pages."""
        seen, left = set(), self.paths()
        while left and len(seen) < 150:
            path = left.pop()
            if path in seen or path.startswith("#") or path.endswith("/end"):
                continue
            seen.add(path)
            told = self.run_.get(path)
            self.assertIn(told.status, (200, 303, 400, 404, 410), path)
            if told.status == 200:
                left += told.links
                self.assertTrue(all(it.startswith(("/", "#")) for it in told.links), told.links)
        self.assertGreater(len(seen), 100)

    def test_at_three_widths(self):
        """In a browser: nothing beside the page, targets that can be hit, and the keyboard goes through them as they stand."""
        if why := test_browser.why_not():
            self.skipTest(why)
        server = self.framed()
        for path in (it for it in self.paths() if self.run_.get(it).status == 200):
            for width in (320, 768, 1280):
                server.shown = self.run_.get(path).html
                seen = test_browser.browsed(self.room / "profile", f"http://{HERE}:{server.server_address[1]}/{width}", "--dump-dom")
                told = json.loads(html.unescape(re.search(r'<pre id="told">(.*?)</pre>', seen, re.DOTALL)[1]))
                self.assertEqual((told["wide"] <= told["window"], told["window"], told["over"]), (True, width, []), (path, width))
                self.assertEqual(told["small"], [], (path, width))
                self.assertEqual(set(told["tabs"]), {0}, path)
                # The style was taken: the colour of text isn't the browser's own.
                self.assertEqual(told["colour"], "rgb(29, 35, 38)", path)

    def framed(self):
        """A server that shows a page of the explorer, with a script that measures it, in a frame of some width."""
        server = http.server.ThreadingHTTPServer((HERE, 0), Framed)
        self.addCleanup(server.server_close)
        self.addCleanup(server.shutdown)
        threading.Thread(target=server.serve_forever, args=(0.01,), daemon=True).start()
        return server


class Framed(http.server.BaseHTTPRequestHandler):
    def do_GET(self):
        if self.path == "/page":
            text = self.server.shown.replace("</body>", f"<script>{SCRIPT}</script></body>")
        else:
            text = f'<!doctype html><body style="margin:0"><iframe src="/page" width="{self.path[1:]}" height="900" style="border:0"></iframe><pre id="told"></pre>'
        self.send_response(200)
        self.send_header("Content-Type", "text/html; charset=utf-8")
        self.send_header("Content-Length", str(len(text.encode())))
        with contextlib.suppress(OSError):
            self.end_headers()
            self.wfile.write(text.encode())

    def log_message(self, *_):
        pass


if __name__ == "__main__":
    unittest.main()
