"""The words, the page that tells them, and what is told on the way."""
import contextlib
import io
import os
import pathlib

from . import FEEDER, SNAPSHOT
from .case import Case, Status, unittest
from .node_files import NETWORKS, NEWER, file_text

from namecoin_snapshot import __version__
from namecoin_snapshot.command_line import main, words
from namecoin_snapshot.profiles import PROFILES
from namecoin_snapshot.progress import Progress
from namecoin_snapshot.statuses import INTERRUPTED
from pip_installed import version_told
from told_words import same_words

PAGE = (SNAPSHOT / "README.md").read_text()


class Words(Case):
    def wrong(self, *given, told=""):
        said = io.StringIO()
        with contextlib.redirect_stderr(said):
            try:
                status = main([*map(str, given)])
            except SystemExit as end:
                status = end.code
        self.assertEqual(status, Status.WORDS, given)
        self.assertIn(told, said.getvalue())

    def test_wrong_words(self):
        self.file.write_bytes(file_text(NEWER, []))
        good = self.words()
        rows = [good[:-4], good[:3], [], ["none", *good[1:]], [*good, "more"], [*good, "--node", "http://127.0.0.1:1/"], good[1:]]
        hosts = ("", "ns.example", ".", "a..b.", "a b.", "ä.", "a" * 64 + ".", ("a" * 60 + ".") * 4, "ns.example.\n", "a@.")
        rows += [[*good, "--host", it] for it in hosts]
        rows += [[*good, "--height", it] for it in ("", "-1", "01", "+1", "1_0", " 1", "2000000001", "9" * 5000, "x", "١")]
        rows += [[*good[:-2], "--node", it] for it in ("localhost", "https://h:1/", "http://h/")]
        for given in rows:
            self.wrong(*given, told="error: ")
        self.wrong(*good[:-2], "--user", "name", told="--user wants --password-file")
        self.assertEqual(list(self.room.iterdir()), [self.file])

    def test_good_words(self):
        text = file_text(NEWER, [])
        for host in ("a.", "ns.example.", "1.2.3.4.", "a_b-C.d.", ("a" * 60 + ".") * 3 + "b" * 59 + "."):
            self.made(text, "--host", host)
            self.assertIn(f" {host} < ", self.printed)
        for height in (0, 1, 2_000_000_000):
            self.made(text, height=height)

    def test_files(self):
        self.wrong(*self.words(), told="outputs can't be read: No such file")
        self.file.mkdir()
        self.wrong(*self.words(), told="outputs can't be read: Is a directory")

    def test_what_stands_in_the_place(self):
        """Neither a folder, a pipe nor the file itself is replaced, by whatever name."""
        self.file.write_bytes(file_text(NEWER, []))
        self.snapshot.mkdir()
        self.wrong(*self.words(), told="snapshot is no file")
        self.snapshot.rmdir()
        os.mkfifo(self.snapshot)
        self.wrong(*self.words(), told="snapshot is no file")
        self.snapshot.unlink()
        for make in (lambda: os.link(self.file, self.snapshot), lambda: self.snapshot.symlink_to(self.file)):
            make()
            self.wrong(*self.words(), told="is the file that is read")
            self.snapshot.unlink()
        self.snapshot = self.room / "none" / "snapshot"
        self.wrong(*self.words(), told="none is no folder")
        self.assertEqual(list(self.room.iterdir()), [self.file])

    def test_page(self):
        """The page has all words and statuses, and no other; and each profile's node and cookie."""
        same_words(self, PAGE, words().format_help(), [*Status, INTERRUPTED])
        for profile in PROFILES.values():
            self.assertTrue(profile.node in PAGE and profile.cookie in PAGE)

    def test_networks(self):
        self.assertEqual({name: it.magic for name, it in PROFILES.items()}, NETWORKS)

    def test_runs_where_it_is_installed(self):
        told = version_told(self, pathlib.Path(self.room), "namecoin-snapshot", FEEDER, SNAPSHOT)
        self.assertEqual(told, f"namecoin-snapshot {__version__}\n")


class Told(unittest.TestCase):
    def test_a_line_every_ten_seconds(self):
        moments, out = iter(range(0, 1000)), io.StringIO()
        progress = Progress(out, lambda: next(moments))
        for count in range(1, 31):
            progress.at(1000 * count, 100_000)
        progress.at(100_000, 100_000)
        progress.end()
        lines = out.getvalue().splitlines()
        self.assertEqual(lines[0], "namecoin_snapshot: 10000 outputs of 100000, 1000 outputs/s, 1 min 30 s left")
        told = [it.split(",")[0][len("namecoin_snapshot: ") :] for it in lines[1:]]
        self.assertEqual(told, [f"{count} outputs of 100000" for count in (20000, 30000, 100000)])


if __name__ == "__main__":
    unittest.main()
