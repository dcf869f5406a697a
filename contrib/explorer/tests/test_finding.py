"""Names that are found by a text, a name's page with its history, and what a reader gets while the chain moves or names are being read."""
import concurrent.futures
import html
import json
import os
import re
import shutil
import sqlite3
import subprocess
import time

from .case import IS_BUILT, Case, as_shown, finding, raw, unittest
from .test_listings import ODD

from namecoin_explorer.keeping import FILE
from namecoin_explorer.wanted import as_typed, name_path, typed

EXAMPLE = {"ip": "192.0.2.1", "map": {"www": {"ip": "192.0.2.2"}, "old": {"alias": "@"}}, "email": "a@example.org"}
FAMILY = {b"d/example": json.dumps(EXAMPLE).encode(), b"d/exam": b"{}", b"d/examples": b'{"ip":"192.0.2.5"}', b"id/example": b"1", b"id/alice": b'{"name":"Alice"}'}
TEXTS = ("", "d/", "d/exam", "d/example", "exam", "id/", "zzz", "%", "_", "'", '"', "*", "?", "[a-z]", "\\xff", "\\x00", "\\\\", "d/%", "d/_xample", "name-1")


class Finding(Case):
    def setUp(self):
        super().setUp()
        self.height = self.has_names({**ODD, **FAMILY}, 2)
        self.run_ = self.explorer().reaches(self.height)
        self.finds(self.height)

    def finds(self, height):
        """Waits until names are found of this height; blocks that are on their way change it."""
        told = f"stands at height {height:,}"
        return self.run_.waits_for(told, lambda: f"Of the chain as it {told}," in self.run_.get(finding("none")).text)

    def pages(self, path):
        while path:
            page = self.run_.get(path)
            self.assertEqual(page.status, 200, page.text)
            yield page
            path = page.next()
            path = path and html.unescape(path)

    def told_count(self, page):
        return page.shown(r"<p><strong>(.*?)</strong>")

    def test_found(self):
        """By each text, in all ways: those that have it, each once, in order, with how many there are, of one chain."""
        names = [name for name, *_ in self.names_at(self.node.tip)]
        for text in TEXTS:
            for way, has in (("begin", bytes.startswith), ("have", bytes.__contains__)):
                wanted = [as_shown(it) for it in names if has(it, typed(text.encode()))]
                pages = list(self.pages(finding(text, way)))
                self.assertEqual([it for page in pages for it in page.names()], wanted, (text, way))
                number = {0: "No names", 1: "One name"}.get(len(wanted), f"{len(wanted)} names")
                self.assertEqual({self.told_count(page) for page in pages}, {number}, (text, way))
                self.assertTrue(all("<script" not in page.html for page in pages))

    def test_rows(self):
        """Each row leads to its name's page, which has the value, the height and the state of the model's entry."""
        rows = {as_shown(name): row for name, *row in self.names_at(self.node.tip)}
        for page in self.pages(finding("")):
            for name, link in zip(page.names(), page.row_links()):
                height, is_served, value = rows[name]
                told = self.run_.get(html.unescape(link))
                self.assertEqual((told.status, "<script" in told.html), (200, False), name)
                self.assertEqual(told.shown(r"<h1><code>(.*?)</code></h1>"), name)
                self.assertEqual(told.shown(r"as it is</h2><p><code>(.*?)</code></p>"), as_shown(value))
                self.assertEqual(told.shown(r"Changed</th><td>(.*?)</td>"), f"at height {height:,}")
                self.assertTrue(told.shown(r"State</th><td>(.*?)</td>").startswith("served" if is_served else "lapsed"))

    def test_a_name_by_its_text(self):
        for text, name in (("d/example", b"d/example"), ("example.bit", b"d/example"), ("WWW.Example.bit.", b"d/example"), (" id/alice ", b"id/alice")):
            told = self.run_.get(finding(text, "are"))
            self.assertEqual((told.status, told.headers.get("location")), (303, name_path(name)), text)
            told = self.run_.get(finding(text))
            self.assertIn(f'There is a name of just this text: <a href="{name_path(name)}">', told.html)
        self.assertEqual(self.run_.get("/name/d/example").status, 200)
        told = self.run_.get(finding("d/exampl", "are"))
        self.assertEqual((told.status, told.names()), (200, ["d/example", "d/examples"]))
        told = self.run_.get("/name/d/nobody")
        self.assertEqual((told.status, "There is no name \nd/nobody\n" in told.text), (404, True))
        for name in ODD:
            self.assertEqual(self.run_.get(finding(as_typed(name), "are")).headers["location"], name_path(name))
            self.assertEqual(self.run_.get(name_path(name)).status, 200)

    def test_bad_questions(self):
        """Bytes of all kinds are a text like any other; what is no question is told, and nothing is run or broken by any."""
        for text in ("%00", "%ff%fe", "%27%22;DROP%20TABLE%20names;--", "%3Cscript%3Ealert(1)%3C/script%3E", "a" * 255, "a" * 256, "%ff" * 255, "\\x", "\\xzz", "+"):
            for way in ("begin", "have", "are"):
                told = self.run_.get(f"/find?name={text}&way={way}")
                self.assertEqual((told.status in (200, 303), "<script" in told.html), (True, False), text)
        for words in ("way=like", "behind=x", "behind=6", "of=z", "a=1&" * 9, "%ff=1", "way=%ff", "name=a&behind=%00"):
            self.assertEqual(self.run_.get(f"/find?{words}").status, 400, words)
        for words in ("from=x", "from=-1", "from=0", "from=99999999999999999999", "a=1&" * 9, "from="):
            self.assertEqual(self.run_.get(f"/name/d/example?{words}").status, 400, words)
        for words in ("from=999999999", "from=1"):
            self.assertIn(self.run_.get(f"/name/d/example?{words}").status, (200, 404))
        self.assertEqual(self.run_.get("/name/" + "%ff" * 300).status, 404)
        self.assertEqual(raw(self.run_.port, b"GET /find?name=%s HTTP/1.1\r\nHost: 127.0.0.1\r\n\r\n" % (b"a" * 3000))[9:12], b"414")
        self.assertEqual(self.run_.get(finding("d/example")).names(), ["d/example", "d/examples"])

    def test_history(self):
        """Each value that the chain has, the newest first, with what changed; and what is left of it where blocks leave."""
        changed = {**EXAMPLE, "ip": "192.0.2.9", "txt": "new", "map": {"www": {"ip": "192.0.2.2", "ip6": "::1"}}}
        del changed["email"]
        below = self.node.tip
        tip = self.chains.updating(below, (b"d/example", json.dumps(changed).encode()), (b"d/example", b"no JSON"))
        tip = self.chains.updating(tip, (b"d/example", json.dumps(changed).encode()), (b"d/example", json.dumps(changed, indent=1).encode()))
        self.node.move(self.chains.grow(tip, 1))
        self.finds(self.height + 3)
        told = self.run_.get("/name/d/example")
        values = re.findall(r"<p><code>(.*?)</code></p>", told.html.partition("Its history")[2])
        wanted = [as_shown(it.value) for it in self.model_at(self.node.tip).given()[b"d/example"]][::-1]
        self.assertEqual([html.unescape(re.sub("<[^>]*>", "", it)) for it in values], wanted)
        heights = re.findall(r"<h3>At height ([0-9]+) (.*?)</h3>", told.html)
        first = f"{self.height - 2}"
        self.assertEqual([it for it, _ in heights], [f"{self.height + 2}"] * 2 + [f"{self.height + 1}"] * 2 + [first])
        self.assertEqual([it for _, it in heights], ["it was changed"] * 4 + ["it was registered"])
        for text in ("says the same in other words", "no members, so they can't be compared", "ip\nhas changed from", "txt\nwas added:", "email\nhas gone:"):
            self.assertIn(text, told.text.replace(" \n", "\n").replace("\n ", "\n"))
        self.assertIn("\u203a", told.text)
        self.assertEqual(told.shown(r"Registered</th><td>(.*?)</td>"), f"at height {first}")
        # Where its blocks leave, so do its values.
        self.node.move(self.chains.grow(below, 4))
        self.finds(self.height + 4)
        self.assertEqual(re.findall(r"<h3>At height ([0-9]+) ", self.run_.get("/name/d/example").html), [first])

    def test_a_long_history(self):
        """More values than a page has: the older ones are on pages of their own, each once, and each says what changed."""
        tip = self.chains.updating(self.node.tip, *((b"d/exam", b'{"txt":"%d"}' % number) for number in range(60)))
        self.node.move(tip)
        self.finds(self.height + 1)
        pages = list(self.pages("/name/d/exam"))
        values = [it for page in pages for it in re.findall(r"<p><code>([^<]*)</code></p>", page.html.partition("Its history")[2])]
        self.assertEqual([html.unescape(it) for it in values], [f'{{"txt":"{it}"}}' for it in range(59, -1, -1)] + ["{}"])
        self.assertEqual(len(pages), 3)
        self.assertEqual(sum(page.html.count("has changed from") for page in pages), 59)

    def test_expires(self):
        """The page says when; and behind it that it has, while it can still be found."""
        tip = self.node.tip
        for more, state in ((1, "served"), (27, "served"), (28, "lapsed"), (35, "lapsed")):
            self.node.move(self.chains.grow(tip, more))
            self.finds(self.height + more)
            told = self.run_.get("/name/d/example")
            left = self.height - 2 + 30 - (self.height + more)
            when = f"at height {self.height + 28}, " + (f"in {left} blocks: about" if left > 0 else f"{-left} blocks ago" if left else "the tip")
            self.assertIn(when, told.text)
            self.assertTrue(told.shown(r"State</th><td>(.*?)</td>").startswith(state), more)
            self.assertEqual(state == "served", "192.0.2.1\n" in told.text.partition("What a resolver gets")[2].partition("Its history")[0])

    def test_a_reorganisation_while_a_result_is_shown(self):
        """The next page is of the chain that holds then, and says so."""
        page = self.run_.get(finding(""))
        self.assertNotIn("has changed since", page.text)
        again = self.run_.get(html.unescape(page.next()))
        self.assertNotIn("has changed since", again.text)
        tip = self.chains.opening(self.chains.back(self.node.tip, 14), {b"a new one": b"{}"})
        self.node.move(self.chains.grow(tip, 3))
        self.finds(self.chains.blocks[self.node.tip].height)
        again = self.run_.get(html.unescape(page.next()))
        self.assertIn("The chain has changed since the page before", again.text)
        names = [name for page in self.pages(finding("")) for name in page.names()]
        self.assertEqual(names, [as_shown(name) for name, *_ in self.names_at(self.node.tip)])

    def test_nine_readers(self):
        """Nine search while blocks come and leave: each result is right for the chain that it says."""
        wanted, tips = {}, [self.node.tip]
        for number in range(6):
            tips.append(self.chains.grow(self.chains.back(tips[-1], number % 3), 2 + number % 3))
        for tip in tips:
            for hash in self.chains.path(tip):
                if hash not in wanted:
                    wanted[hash[::-1].hex()] = [as_shown(name) for name, *_ in self.names_at(hash) if b"name" in name]

        def searches(_):
            right = 0
            while not over:
                told = self.run_.get(finding("name", "have"))
                block = told.shown(r"<span class=hash>(.*?)</span>")
                self.assertEqual(told.names(), wanted[block][:5])
                self.assertEqual(self.told_count(told), {0: "No names", 1: "One name"}.get(len(wanted[block]), f"{len(wanted[block])} names"))
                right += 1
            return right

        over = []
        with concurrent.futures.ThreadPoolExecutor(9) as readers:
            running = [readers.submit(searches, it) for it in range(9)]
            try:
                for tip in tips[1:]:
                    self.node.move(tip)
                    self.finds(self.chains.blocks[tip].height)
            finally:
                over.append(1)
            self.assertGreater(min(it.result() for it in running), 2)

    def test_from_a_listing(self):
        """A name of a listing leads to its page with its history, and that to what is asked of it."""
        page = self.run_.get(self.run_.begin())
        told = self.run_.get(page.row_links()[0])
        link = next(it for it in told.links if it.startswith("/name/"))
        self.assertEqual(self.run_.get(link).status, 200)


class Starting(Case):
    def test_anew_at_each_start(self):
        """The file is made from the report; one that is there from before is read until then, or told where it can't be."""
        height = self.has_names(FAMILY, 2)
        run = self.explorer().reaches(height).hears("names with all their values are in")
        self.assertEqual(run.get(finding("d/example")).names(), ["d/example", "d/examples"])
        run.stop()
        path = self.folder / FILE
        good = path.read_bytes()
        self.assertEqual(sorted(it.name for it in self.folder.iterdir() if it.name.startswith("names")), [FILE])
        for damage, why in ((b"no file of SQLite", "is damaged: file is not a database"), (good[:5000], "is damaged"), (b"", "is none of the explorer's")):
            path.write_bytes(damage)
            run = self.explorer().reaches(height).hears(f"where names are looked up, {why}")
            self.assertEqual(run.get(finding("d/example")).names(), ["d/example", "d/examples"])
            status, said = run.stop()
            self.assertIn("it is made anew", said)
        with sqlite3.connect(path) as db:
            db.execute("PRAGMA user_version=9")
        db.close()
        run = self.explorer().reaches(height).hears("has the version 9, and not 1: it is made anew")
        self.assertEqual(run.get(finding("id/")).names(), ["id/alice", "id/example"])
        run.stop()
        with sqlite3.connect(path, isolation_level=None) as db:
            db.execute("PRAGMA locking_mode=EXCLUSIVE")
            db.execute("BEGIN EXCLUSIVE")
            run = self.explorer().reaches(height).hears("is held by another program: it is made anew")
            self.assertEqual(run.get(finding("id/")).names(), ["id/alice", "id/example"])
            db.execute("ROLLBACK")
        db.close()

    def test_other_files(self):
        """Where the program has other files by now, the names of those before aren't shown."""
        height = self.has_names(FAMILY, 2)
        run = self.explorer().reaches(height)
        run.stop()
        kept = (self.folder / FILE).read_bytes()
        shutil.rmtree(self.folder)
        self.folder.mkdir()
        other = self.chains.first
        self.chains.first = bytes(31) + b"\1"
        self.initialise()
        (self.folder / FILE).write_bytes(kept)
        self.explorer("--again", "600").started().hears("is that of other files of the program: it is made anew")
        self.chains.first = other

    def test_lost_and_made_anew(self):
        """Where the file can't be made, all else goes on, and pages say so; once it can, it is made, for which listings are closed."""
        height = self.has_names(FAMILY, 2)
        place = self.room / "elsewhere" / "of names"
        run = self.explorer("--names", place).reaches(height).hears("can't be used: No such file or directory; it is made anew in 5 s")
        told = run.get(finding("d/"))
        self.assertEqual((told.status, "No name can be looked up just now" in told.text, "Retry-After".lower() in told.headers), (503, True, True))
        self.assertEqual(run.get("/name/d/example").status, 503)
        self.assertIn("No name can be looked up just now", run.get("/").text)
        path = run.begin()
        time.sleep(6)
        self.assertEqual(run.get(path).status, 200)
        self.assertNotIn("are read anew: listings", " ".join(run.said))
        self.assertIn("192.0.2.1", run.get("/answer?name=example.bit&type=A").text)
        place.parent.mkdir()
        run.hears("the names are read anew: listings are closed")
        run.waits_for("names", lambda: run.get(finding("d/exam")).status == 200 and run.get("/names").status == 200)
        self.assertEqual(run.get(finding("d/exam")).names(), ["d/exam", "d/example", "d/examples"])
        told = run.get(path)
        self.assertEqual((told.status, "The names had to be read anew" in told.text), (410, True))
        self.node.move(self.chains.grow(self.node.tip, 3))
        run.reaches(height + 3)
        self.assertEqual(run.get(run.begin()).status, 200)

    def test_somebody_elses_file(self):
        """A file that the word names, and that isn't the explorer's, is left as it is."""
        place = self.room / "a text"
        for text in (b"my text\n", b"SQLite format 3\0" + bytes(100)):
            place.write_bytes(text)
            self.ends(self.explorer("--names", place), 2, "a text is there, and is no file of names: it isn't touched")
            self.assertEqual(place.read_bytes(), text)
        place.write_bytes(b"")
        run = self.explorer("--names", place).started().hears("names with all their values are in")
        run.stop()
        self.explorer("--names", place).started().hears("names with all their values are in")

    @unittest.skipIf(os.geteuid(), "this doesn't run as root")
    def test_a_full_disk(self):
        """Where the disk has no room for the file, that is told, and nothing else is held up; with room it is made, and not before."""
        height = self.has_names({b"d/%04d" % number: b"x" * 1000 for number in range(300)}, 2)
        place = self.room / "of names"
        place.mkdir()
        if subprocess.run(["mount", "-t", "tmpfs", "-o", "size=256k", "none", place], stderr=subprocess.DEVNULL).returncode:
            self.skipTest("nothing can be mounted here")
        self.addCleanup(subprocess.run, ["umount", "--lazy", place])
        run = self.explorer("--names", place / "names").reaches(height).hears("; it is made anew in 5 s")
        self.assertRegex(run.get(finding("d/")).text, "database or disk is full|No space left on device")
        self.node.move(self.chains.grow(self.node.tip, 2))
        path = run.reaches(height + 2).begin()
        time.sleep(6)
        self.assertEqual((run.get(path).status, list(place.iterdir())), (200, []))
        self.assertNotIn("are read anew: listings", " ".join(run.said))
        subprocess.run(["mount", "-o", "remount,size=64m", place], check=True)
        run.waits_for("names", lambda: run.get(finding("d/000")).status == 200)
        self.assertEqual(run.get(finding("d/000")).names(), [f"d/{number:04}" for number in range(5)])

    def test_killed(self):
        """A run that is killed leaves a file that the next one reads from, or makes anew."""
        height = self.has_names(FAMILY, 2)
        run = self.explorer().reaches(height)
        run.waits_for("names", lambda: run.get(finding("d/exam")).status == 200)
        run.kill()
        run = self.explorer().reaches(height)
        self.assertEqual(run.get(finding("d/exam")).names(), ["d/exam", "d/example", "d/examples"])

    @unittest.skipIf(IS_BUILT, "its slowness is ordered")
    def test_pages_meanwhile(self):
        """While the program tells its names, and while it is started, pages are served: those of the names from the run before."""
        height = self.has_names(FAMILY, 2)
        run = self.explorer().reaches(height)
        run.waits_for("names", lambda: run.get(finding("d/exam")).status == 200)
        run.stop()
        self.faults("dump slow 2", "01 slow 2")
        run = self.explorer()
        run.waits_for("a page", lambda: self.gets(run, "/"))
        told = run.get("/")
        self.assertEqual((told.status, "The explorer is starting" in told.text, "are being read: 0 so far" in told.text), (200, True, True))
        told = run.get(finding("d/exam"))
        self.assertEqual((told.status, told.names()), (200, ["d/exam", "d/example", "d/examples"]))
        self.assertIn(f"as an earlier run left it at height {height}", told.text)
        self.assertEqual(run.get("/name/d/example").status, 200)
        for path in ("/names", "/names/new", "/answer?name=example.bit"):
            self.assertEqual((run.get(path).status, run.get(path).headers["retry-after"]), (503, "10"), path)
        run.waits_for("the new file", lambda: "Of the chain as it stands" in run.get(finding("d/exam")).text)
        run.started()

    @unittest.skipIf(IS_BUILT, "its slowness is ordered")
    def test_ended_while_names_are_read(self):
        self.faults("dump slow 60")
        run = self.explorer()
        run.waits_for("a page", lambda: self.gets(run, "/"))
        begun = time.monotonic()
        status, said = run.stop()
        self.assertEqual((status, "Traceback" in said), (0, False), said)
        self.assertLess(time.monotonic() - begun, 10)

    @unittest.skipIf(IS_BUILT, "its faults are ordered")
    def test_reports_that_are_none(self):
        for text in (b"", b"tip 0", b"hello\n", b"tip 0 " + b"00" * 32 + b"\nname\n"):
            self.faults(f"dump text {text.hex()}")
            self.ends(self.explorer(), 6, "a line of `dump` that is none of a report's")
        self.faults("dump end 8 out of memory")
        self.ends(self.explorer(), 7, "dump, in ", "has ended with status 8: out of memory; it wants more memory")

    def gets(self, run, path):
        try:
            return run.get(path)
        except OSError:
            return None


if __name__ == "__main__":
    unittest.main()
