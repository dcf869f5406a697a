"""Saves in slices: when they are begun, what is read and told meanwhile, and what comes of one that fails."""
import time

from .case import IS_BUILT, SECONDS, Case, unittest
from .test_listings import ODD

from namecoin_explorer.statuses import Status
from stores import saves_of

SAVED = "has saved its index of height"


class Saves(Case):
    def test_at_the_first_tip(self):
        """Once in a run that brought something, and then behind so many blocks; the next run starts from there."""
        height = self.has_names(ODD)
        run = self.explorer("--save-every", height + 5).reaches(height).hears(f"{SAVED} {height}: save 1, ")
        run.waits_for("the page to say it", lambda: f"save 1, of height {height}, was done" in run.get("/").text)
        self.node.move(self.chains.grow(self.node.tip, height))
        run.reaches(2 * height)
        self.assertEqual(saves_of(self.folder), 1)
        # A block leaves, and so each of these counts.
        self.node.move(self.chains.grow(self.chains.back(self.node.tip, 1), 5))
        height = 2 * height + 4
        run.reaches(height).hears("save 2, ")
        listing = run.get(run.begin()).names()
        status, said = run.stop()
        self.assertEqual((status, said.count(SAVED)), (Status.DONE, 2), said)
        self.assertEqual(saves_of(self.folder), 2)
        run = self.explorer().reaches(height)
        self.assertEqual(run.get(run.begin()).names(), listing)
        self.assertIn("none was made in this run yet", run.get("/").text)
        status, said = run.stop()
        self.assertNotIn(SAVED, said)

    def test_never(self):
        height = self.has_names(ODD)
        run = self.explorer("--save-every", "0").reaches(height)
        self.assertIn("no saves are made: --save-every is 0", run.get("/").text)
        run.stop()
        self.assertEqual(saves_of(self.folder), 0)

    def test_many_bytes(self):
        """An image of several slices, whose files another run opens."""
        names = {b"d/%04d" % number: b"%04d" % number * 250 for number in range(300)}
        height = self.has_names(names)
        run = self.explorer(rows=50).reaches(height).hears(f"{SAVED} {height}: save 1, ")
        size = int(run.said[-1].partition("save 1, ")[2].partition(" bytes")[0].replace(",", ""))
        self.assertGreater(size, 300 * 1000)
        self.assertEqual((self.folder / "nmc.2").read_bytes()[:8], size.to_bytes(8, "little"))
        run.stop()
        run = self.explorer(rows=50).reaches(height)
        self.assertEqual(len(run.get(run.begin()).names()), 50)


@unittest.skipIf(IS_BUILT, "its faults are ordered")
class FailingSaves(Case):
    def test_read_while_it_is_written(self):
        """Each slice takes a while: pages are read and blocks come meanwhile, and the page of the tip tells how far it is."""
        names = {b"d/%04d" % number: b"%04d" % number * 250 for number in range(400)}
        self.faults("09 slow 0.5")
        height = self.has_names(names)
        run = self.explorer().reaches(height)
        run.waits_for("a save that runs", lambda: "one is written now" in run.get("/").text)
        begun, seen = time.monotonic(), set()
        path = run.begin()
        self.node.move(self.chains.grow(self.node.tip, 2))
        while SAVED not in " ".join(run.said) and time.monotonic() < begun + SECONDS:
            asked = time.monotonic()
            told = run.get("/").text
            self.assertLess(time.monotonic() - asked, 3)
            seen.add(told.partition("one is written now, ")[2].partition("\n")[0])
            self.assertEqual(run.get(path).status, 200)
        self.assertGreaterEqual(len(seen - {""}), 3, seen)
        self.assertTrue(any(f"of height {height}: {65_536 * slices:,} bytes of the " in it for it in seen for slices in range(1, 7)), seen)
        run.reaches(height + 2).hears(f"{SAVED} {height}: save 1")
        self.assertEqual(saves_of(self.folder), 1)
        run.stop()
        self.faults()
        self.explorer().reaches(height + 2)

    def test_what_fails(self):
        """Each is told once, with what comes then; pages and blocks go on, and it isn't asked for at once again."""
        rows = {
            "08 fe00000000": ("is out of memory for a save (code FE); the next one is begun in 1 min 0 s", "the last one failed: "),
            "08 1d00000000": ("makes no save: code 29, CheckpointLimit", "no saves are made: code 29"),
            "08 1e00000000": ("makes no save: code 30, ImageLimit", "no saves are made: code 30"),
            "09 2200000000": ("says that no save runs (code 34), though one was begun; the next one is begun in 1 min 0 s", "the last one failed: "),
            "09 2300000000": ("have no room for its index with the blocks that came meanwhile (code 35); the next", "the last one failed: "),
        }
        height = self.has_names(ODD)
        for fault, (said, shown) in rows.items():
            self.faults(fault)
            run = self.explorer("--save-every", "1").reaches(height)
            height += 2
            self.node.move(self.chains.grow(self.node.tip, 2))
            run.reaches(height).hears(said)
            run.waits_for("the page to say it", lambda: shown in run.get("/").text)
            self.assertEqual(run.get(run.begin()).status, 200)
            time.sleep(0.3)
            status, lines = run.stop()
            self.assertEqual((status, lines.count(said), SAVED in lines), (Status.DONE, 1, False), lines)

    def test_one_that_runs_already(self):
        """The program says that one runs: it is written to its end."""
        self.faults("08 2100000000", "09 00090000000107" + "00" * 7)
        run = self.explorer().reaches(self.has_names(ODD)).hears("says that a save runs already (code 33): that one is written to its end")
        run.hears("save 7, in ")

    def test_odd_replies(self):
        for fault, told in {
            "08 000100000000": "code 0 to the beginning of a save, payload 00",
            "08 0500000000": "code 5 to the beginning of a save",
            "09 000100000002": "code 0 to a slice of a save, payload 02",
            "09 00080000000100000000000000": "code 0 to a slice of a save",
            "09 2100000000": "code 33 to a slice of a save",
            "09 fe00000000": "code 254 to a slice of a save",
        }.items():
            self.faults(fault)
            run = self.explorer()
            self.node.move(self.chains.grow(self.node.tip, 1))
            self.ends(run, Status.SERVER, told)
            self.node.move(self.chains.first)

    def test_the_disk_fails(self):
        height = self.has_names(ODD)
        for kind in ("08", "09"):
            self.faults(f"{kind} disk")
            run = self.explorer()
            self.ends(run, Status.PROGRAM, "has ended with status 5: disk fault", "is the disk full?")
            self.faults()
            self.explorer("--save-every", "0").reaches(height).stop()
            self.node.move(self.chains.grow(self.node.tip, 1))
            height += 1

    def test_a_program_without_slices(self):
        self.faults("08 end 4 bad frame at 99")
        self.node.move(self.chains.grow(self.node.tip, 1))
        self.ends(self.explorer(), Status.PROGRAM, "has ended with status 4: bad frame at 99; does this program know saves in slices?")


if __name__ == "__main__":
    unittest.main()
