"""Listings over a chain that moves: each name once, of one chain; who has a place, who loses one, and which pages are kept."""
from .case import Case, as_shown, unittest

ODD = {
    b"d/plain": b'{"ip":"192.0.2.1"}',
    b"d/script": b"<script>alert(1)</script>",
    b"<script>alert(2)</script>": b'{"txt":"</code><script>alert(3)</script>"}',
    b"": b"",
    bytes(range(256))[:255]: bytes(range(256)),
    b"id/\xff\xfe\x00\r\n": b'{"ip": ["192.0.2.7", 5], "map": {"www": {"alias": ""}}, "ip": "\\u202e"}',
    b'"&\'<>`=/ ': b"[[[[[[[[[[[[[[[[[[[[[[[[[[1]]]]]]]]]]]]]]]]]]]]]]]]]]",
    b"d/deep": b'{"map":' * 60 + b"{}" + b"}" * 60,
}


class Listings(Case):
    def names_from(self, run, path, between=lambda: None):
        """The names of all pages from one on, and these pages."""
        names, pages = [], []
        while path:
            page = run.get(path)
            self.assertEqual(page.status, 200, page.text)
            names += page.names()
            pages.append(page)
            path = page.next()
            between()
        return names, pages

    def shown(self, tip):
        return [as_shown(name) for name, *_ in self.names_at(tip)]

    def test_all_names_with_odd_bytes(self):
        height = self.has_names(ODD, 3)
        run = self.explorer().reaches(height)
        names, pages = self.names_from(run, run.begin())
        self.assertEqual(names, self.shown(self.node.tip))
        self.assertTrue(set(map(as_shown, ODD)) <= set(names))
        for page in pages:
            self.assertNotIn("<script", page.html)
            self.assertTrue(all(0x20 <= ord(it) < 0x7F or it in "\n\u2190\u2192" for it in page.html))
        # Each row's own page has its value, and the height and the state of its entry.
        rows = {as_shown(name): row for name, *row in self.names_at(self.node.tip)}
        for page in pages:
            for name, link in zip(page.names(), page.row_links()):
                height, is_served, value = rows[name]
                told = run.get(link)
                self.assertEqual((told.status, "<script" in told.html), (200, False), name)
                self.assertEqual(told.shown(r"<h1><code>(.*?)</code></h1>"), name)
                self.assertEqual(told.shown(r"as it is</h2><p><code>(.*?)</code></p>"), as_shown(value))
                self.assertEqual(told.shown(r"Height of its value</th><td>(.*?)</td>"), f"{height:,}")
                self.assertTrue(told.shown(r"State</th><td>(.*?)</td>").startswith("served" if is_served else "lapsed"))

    def test_blocks_come_and_leave_while_pages_turn(self):
        """A reader who turns pages sees each name of one chain once; and a second one that of another."""
        height = self.has_names(ODD, 2)
        run, tip = self.explorer(rows=2).reaches(height), self.node.tip
        first, moves = run.begin(), []

        def moved():
            if len(moves) < 4:
                below = self.chains.back(self.node.tip, len(moves) % 3)
                self.node.move(self.chains.grow(below, 2 + len(moves) % 3))
                moves.append(run.reaches(self.chains.blocks[self.node.tip].height))

        names, pages = self.names_from(run, first, moved)
        self.assertEqual(names, self.shown(tip))
        self.assertEqual(len(names), len(set(names)))
        self.assertEqual(len(moves), 4)
        self.assertIn(f"as it stood at height {height:,}", pages[-1].text)
        self.assertIn("The tip has moved to height", pages[-1].text)
        names, _ = self.names_from(run, run.begin())
        self.assertEqual(names, self.shown(self.node.tip))

    def test_turned_back(self):
        self.has_names(ODD)
        run = self.explorer(rows=1).reaches(self.chains.blocks[self.node.tip].height)
        path = run.begin()
        names, pages = self.names_from(run, path)
        again, _ = self.names_from(run, path)
        self.assertEqual(again, names)
        number = len(pages)
        told = run.get(f"{path[:-2]}/{number + 1}")
        self.assertEqual((told.status, "the newest is page" in told.text), (404, True))
        self.assertEqual(run.get(path[:-2]).headers["location"], f"{path[:-2]}/{number}")
        self.assertEqual(run.get(f"{path[:-2]}/{number}/2").status, 404)

    def test_pages_are_dropped(self):
        names = {b"d/%03d" % it: b"it" for it in range(44)}
        run = self.explorer(rows=1).reaches(self.has_names(names))
        path = run.begin()
        shown, _ = self.names_from(run, path)
        self.assertEqual(shown, self.shown(self.node.tip))
        told = run.get(path)
        self.assertEqual(told.status, 410)
        self.assertIn("the newest 40 pages are kept", told.text)
        self.assertIn("/names/new", told.links)
        oldest = len(shown) - 40 + 1
        self.assertEqual(run.get(f"{path[:-2]}/{oldest}").names(), shown[oldest - 1 : oldest])
        self.assertNotIn("rel=prev", run.get(f"{path[:-2]}/{oldest}").html)

    def test_a_ninth_reader(self):
        run = self.explorer().reaches(self.has_names(ODD))
        paths = [run.begin() for _ in range(8)]
        self.assertEqual({run.get(it).status for it in paths}, {200})
        self.assertIn("8 of 8", run.get("/").text)
        # The second is unused for the longest time.
        run.get(paths[0])
        ninth = run.begin()
        self.assertEqual(run.get(ninth).status, 200)
        told = run.get(paths[1])
        self.assertEqual(told.status, 410)
        self.assertIn("Another reader began one", told.text)
        self.assertIn("/names/new", told.links)
        self.assertEqual({run.get(it).status for it in [paths[0], *paths[2:]]}, {200})

    def test_idle(self):
        run = self.explorer("--idle", "0.3").reaches(self.has_names(ODD))
        path = run.begin()
        run.waits_for("no listing", lambda: "0 of 8" in run.get("/").text)
        told = run.get(path)
        self.assertEqual((told.status, "Nobody had used it" in told.text), (410, True))

    def test_ended_by_its_reader(self):
        run = self.explorer().reaches(self.has_names(ODD))
        path = run.begin()
        self.assertEqual(run.get(f"{path[:-2]}/end", "HEAD").status, 405)
        self.assertEqual(run.get(path).status, 200)
        self.assertEqual(run.get(f"{path[:-2]}/end").status, 200)
        self.assertEqual(run.get(path).status, 410)
        self.assertIn("0 of 8", run.get("/").text)

    def test_wrong_tokens(self):
        run = self.explorer().reaches(self.has_names(ODD))
        path = run.begin()
        token = path.split("/")[2]
        self.assertGreaterEqual(len(token), 22)
        for wrong in ("A" * 22, token[:-1], token + "A", token[:-1] + ("B" if token[-1] == "A" else "A"), "%2e%2e", "..", token.swapcase()):
            told = run.get(f"/names/{wrong}/1")
            self.assertEqual(told.status, 404, wrong)
        for place in ("0", "01", "-1", "+1", "x", "99999999999", "1/0", "1/01", "1/100", "1/1/1"):
            self.assertEqual(run.get(f"/names/{token}/{place}").status, 404, place)
        self.assertEqual(run.get(path).status, 200)

    def test_no_names(self):
        run = self.explorer().reaches(0)
        page = run.get(run.begin())
        self.assertIn("No names", page.text)
        self.assertIsNone(page.next())

    def test_head_turns_nothing(self):
        run = self.explorer().reaches(self.has_names(ODD))
        self.assertEqual(run.get("/names/new", "HEAD").status, 405)
        path = run.begin()
        second = run.get(path).next()
        self.assertEqual(run.get(second, "HEAD").status, 405)
        self.assertEqual(run.get(second).status, 200)
        told = run.get(second, "HEAD")
        self.assertEqual((told.status, told.html), (200, ""))
        self.assertGreater(int(told.headers["content-length"]), 1000)


if __name__ == "__main__":
    unittest.main()
