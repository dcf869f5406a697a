"""A program that is short of memory, slow, ends, or answers what none answers that knows `list`: by the model, whose faults are ordered."""
import contextlib
import re

from .case import Case, unittest
from .test_listings import ODD

from namecoin_explorer.statuses import Status


class Faults(Case):
    def test_no_memory(self):
        self.faults("05 fe00000000")
        run = self.explorer().reaches(self.has_names(ODD))
        told = run.get("/names/new")
        self.assertEqual((told.status, "out of memory" in told.text), (503, True))
        self.assertEqual((run.get("/names/new").status, run.get("/").status), (503, 200))
        run.hears("out of memory for a listing").stop()
        self.assertEqual(sum("out of memory for a listing" in it for it in run.said), 1)

    def test_the_program_ends(self):
        height = self.has_names(ODD)
        for kind in ("06", "03", "01"):
            self.faults()
            run = self.explorer().reaches(height)
            self.faults(f"{kind} disk")
            with contextlib.suppress(OSError, AssertionError):
                if kind == "01":
                    self.has_names({b"d/more": b"{}"})
                else:
                    run.get("/answer?name=plain.bit")
                    run.begin()
            self.ends(run, Status.PROGRAM, "has ended with status 5: disk fault", "`dump`, at a terminal, tells the cause")

    def test_the_program_says_odd_things(self):
        self.faults("05 end 77 one\x1b[2Jtwo \N{BULLET}" + "x" * 3000)
        run = self.explorer().started()
        with contextlib.suppress(OSError):
            run.begin()
        _, said = run.ended()
        self.assertIn("status 77: one?[2Jtwo", said)
        self.assertTrue(said.isascii() and "\x1b" not in said and len(said) < 2000)

    def test_replies_that_are_none_of_lists(self):
        odd = {
            "05 0003000000000000": "code 0 to an opening",
            "05 1f00000000": "code 31 to an opening",
            "06 2000000000": "code 32 to a page",
            "06 000500000002" + "00000000": "code 0 to a page",
            "06 000500000000" + "00000000": "code 0 to a page",
            "06 000500000001" + "01000000": "code 0 to a page",
            "06 000600000001" + "0000000000": "code 0 to a page",
            "06 0015000000 0102000000 0161 01000000 01 0000 0161 01000000 01 0000": "code 0 to a page",
            "06 00ffffffff": "a reply of 4294967295 bytes",
            "03 0001000000aa": "a query for the SOA",
            "01 0001000000aa": "what answers at",
        }
        for fault, told in odd.items():
            first, _, rest = fault.partition(" ")
            self.faults(f"{first} {rest.replace(' ', '')}")
            run = self.explorer()
            with contextlib.suppress(OSError, AssertionError):
                run.started()
                run.begin()
            self.ends(run, Status.SERVER, told)

    def test_names_that_come_again(self):
        """A page that doesn't go on behind the one before."""
        rows = "".join(f"01{letter:02x} 01000000 01 0000" for letter in b"abcde").replace(" ", "")
        self.faults(f"06 00{5 + len(rows) // 2:02x}000000" + "00" + "05000000" + rows)
        run = self.explorer().started()
        told = run.get(run.begin())
        self.assertEqual(told.names(), [*"abcde"])
        with contextlib.suppress(OSError):
            run.get(told.next())
        self.ends(run, Status.SERVER, "code 0 to a page")

    def test_slow_blocks(self):
        """Pages are read between the blocks."""
        self.faults("01 slow 0.4")
        run, told = self.explorer().started(), set()
        self.node.move(self.chains.grow(self.chains.first, 12))
        while 12 not in told:
            told.add(int(re.search(r"stands at height ([0-9]+)\n", run.get("/").text)[1]))
        self.assertGreater(len(told), 4)


if __name__ == "__main__":
    unittest.main()
