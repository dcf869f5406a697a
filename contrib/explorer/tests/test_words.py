"""The words, and the page that tells them."""
import contextlib
import io
import pathlib
import re
import tempfile

from . import EXPLORER, FEEDER, SNAPSHOT
from .case import unittest

from namecoin_explorer import __version__, front, listings, names
from namecoin_explorer.command_line import main, words
from namecoin_explorer.statuses import INTERRUPTED, Status
from pip_installed import version_told
from told_words import same_words

PAGE = (EXPLORER / "README.md").read_text()


class Words(unittest.TestCase):
    def test_wrong_words(self):
        rows = ("--nothing", "more", "--port 0", "--port 65536", "--port x", "--rows 0", "--rows 51", "--rows 01", "--rows +1", "--rows 1.0")
        rows += ("--idle 0", "--idle -1", "--node https://h:1/", "--node h", "--every 0", "--deepest -1", "--program", "--blocks x", "--server h:1")
        for given in [*map(str.split, rows), ["--program", ""], ["--program", "'"], ["--user", "name", "--password-file", "/nowhere"]]:
            said = io.StringIO()
            with contextlib.redirect_stderr(said):
                try:
                    status = main(given)
                except SystemExit as end:
                    status = end.code
            self.assertEqual(status, Status.WORDS, given)
            self.assertTrue(said.getvalue())

    def test_page(self):
        """The page has all words, statuses and limits, and no other."""
        told = words().format_help()
        same_words(self, PAGE, told, [*Status, INTERRUPTED])
        for limit in (front.MOST_LINES, f"{front.MOST_HEAD:,}", front.MOST_HEADERS, f"{front.MOST_TARGET:,}", f"{listings.MOST_PAGE_BYTES:,}"):
            self.assertIn(f"{limit} ", PAGE)
        self.assertIn(f"**{listings.MOST_KEPT} pages**", PAGE)
        self.assertIn(f"{names.MOST_BYTES:,} bytes of names are looked through for one page", PAGE)
        self.assertIn(f"of {names.MOST_COUNTS} parts", PAGE)
        for name, default in re.findall(r"--([a-z-]+) [A-Z].*?\(([^()\s]+)\)$", re.sub(r"\n {10,}", " ", told), re.MULTILINE):
            row = re.search(rf"^\| `--{name} .*$", PAGE, re.MULTILINE)[0]
            self.assertTrue(default in row or name == "folder", (name, default))

    def test_runs_where_it_is_installed(self):
        made = tempfile.TemporaryDirectory()
        self.addCleanup(made.cleanup)
        told = version_told(self, pathlib.Path(made.name), "namecoin-explorer", FEEDER, SNAPSHOT, EXPLORER)
        self.assertEqual(told, f"namecoin-explorer {__version__}\n")


if __name__ == "__main__":
    unittest.main()
