"""What an operator reads when something fails, and how the explorer ends."""
import contextlib
import os
import pathlib
import signal
import socket
import time

from .case import CHILD, EXPLORER, Case, unittest
from .fed import RpcFault
from .test_listings import ODD

from blocks import name_script, named, outpoint
from common import HERE
from namecoin_explorer.statuses import INTERRUPTED, Status


def children_of(number):
    """The processes that any thread of a process has begun."""
    return [int(it) for path in pathlib.Path(f"/proc/{number}/task").glob("*/children") for it in path.read_text().split()]


class Ends(Case):
    def test_signals(self):
        """Each ends it and the program, whose files have all blocks; the next run goes on from there."""
        height = self.has_names(ODD)
        for number, status in ((signal.SIGTERM, Status.DONE), (signal.SIGINT, INTERRUPTED), (signal.SIGTERM, Status.DONE)):
            run = self.explorer().reaches(height)
            path = run.begin()
            self.assertEqual(run.get(path).status, 200)
            (child,) = children_of(run.run.pid)
            # An interrupt of the terminal reaches the explorer alone.
            self.assertNotEqual(os.getpgid(child), os.getpgid(run.run.pid))
            found, said = run.stop(number)
            self.assertEqual((found, "Traceback" in said, "killed" in said), (status, False, False), said)
            self.assertFalse(os.path.exists(f"/proc/{child}"))
            height += 2
            self.node.move(self.chains.grow(self.node.tip, 2))

    def test_killed(self):
        """The program ends by itself at the end of its input, and the files can be opened again."""
        height = self.has_names(ODD)
        run = self.explorer().reaches(height)
        (child,) = children_of(run.run.pid)
        run.kill()
        until = time.monotonic() + 10
        while os.path.exists(f"/proc/{child}") and time.monotonic() < until:
            time.sleep(0.02)
        self.explorer().reaches(height)

    def test_not_initialised(self):
        for path in self.folder.iterdir():
            path.unlink()
        self.ends(self.explorer(), Status.PROGRAM, "has ended with status 3: not initialised", "`init` or `init-from`")

    def test_a_program_without_list(self):
        old = ["sh", "-c", "echo bad words >&2; exit 2"]
        self.ends(self.explorer(program=old), Status.PROGRAM, "has ended with status 2: bad words", "does this program know `list`?")

    def test_places_from_here(self):
        """A program and a folder are meant from where the explorer is started."""
        program = os.path.relpath(CHILD[-1], EXPLORER)
        self.folder = pathlib.Path(os.path.relpath(self.folder, EXPLORER))
        self.explorer(program=[program]).reaches(self.has_names(ODD))

    def test_no_program(self):
        self.ends(self.explorer(program=["/nowhere/program"]), Status.WORDS, "/nowhere/program can't be started")

    def test_no_folder(self):
        self.folder = self.room / "none"
        self.ends(self.explorer(), Status.WORDS, "can't be started in", "none: No such file")

    def test_a_port_that_is_taken(self):
        first = self.explorer().started()
        with socket.create_server((HERE, 0)) as taken:
            run = self.explorer("--port", taken.getsockname()[1])
            self.ends(run, Status.WORDS, "can't be had: Address already in use")
        self.assertEqual(first.get("/").status, 200)

    def test_the_program_is_killed(self):
        run = self.explorer().reaches(self.has_names(ODD))
        os.kill(children_of(run.run.pid)[0], signal.SIGKILL)
        with contextlib.suppress(OSError):
            run.get("/names/new")
        self.ends(run, Status.PROGRAM, "was ended by the signal 9")


class Nodes(Case):
    def test_away_and_back(self):
        """The pages go on, and say so; readers' listings stay."""
        height = self.has_names(ODD)
        run = self.explorer().reaches(height)
        path = run.begin()
        self.assertNotIn("isn't followed", run.get("/").text)
        self.node.stop()
        run.waits_for("the page to say it", lambda: "The node isn't followed just now" in run.get("/").text)
        run.hears("gives no whole answer")
        run.waits_for("the page to say why", lambda: "Connection refused" in run.get(path).text)
        self.assertEqual(run.get(run.get(path).next()).status, 200)
        self.assertIn("192.0.2.1", run.get("/answer?name=plain.bit&type=A").text)
        self.node.start()
        self.node.move(self.chains.grow(self.node.tip, 3))
        run.reaches(height + 3)
        run.waits_for("no warning", lambda: "isn't followed" not in run.get("/").text)

    def test_no_node_at_the_start(self):
        self.node.stop()
        run = self.explorer().started()
        run.waits_for("the page to say it", lambda: "The node isn't followed just now" in run.get("/").text)
        self.assertIn("stands at height 0", run.get("/").text)
        self.assertIn("it wasn't heard yet", run.get("/").text)
        self.node.start()
        run.reaches(self.has_names(ODD))

    def test_no_cookie(self):
        self.cookie.unlink()
        run = self.explorer().started()
        run.hears("can't be read: No such file or directory; is the node running?")
        self.assertEqual(run.get("/").status, 200)
        self.node.set_word("user:another")
        run.reaches(self.has_names(ODD))

    def test_a_bad_cookie(self):
        self.cookie.write_text("user:wrong")
        run = self.explorer().started().hears("refuses the name and the password (HTTP status 401); the next try is in 10 min 0 s")
        self.assertIn("The following of blocks is held up: the node at", run.get("/").text)
        run.stop()
        status, said = self.explorer("--again", "0").ended()
        self.assertEqual((status, "refuses the name" in said), (Status.NODE, True))

    def test_words_of_a_node(self):
        """What a node says stands as text."""
        run = self.explorer().started()
        text = '<script>alert(1)</script>\u202e"\x00'
        self.node.before = lambda method, _: (_ for _ in ()).throw(RpcFault(-1, text)) if method == "getbestblockhash" else None
        run.waits_for("the page to say it", lambda: "error -1" in run.get("/").text)
        told = run.get("/")
        self.assertNotIn("<script", told.html)
        self.assertIn("<script>alert(1)</script>\n\\xe2\\x80\\xae\n\"", told.text)

    def refused(self):
        """The tip of a chain whose last block breaks a rule."""
        stray = named(outpoint(b"\x01" * 32), name_script(b"\x53", b"d/stolen", b"{}"))
        return self.chains.add(self.chains.grow(self.chains.first, 2), [stray])

    def test_a_refused_block(self):
        bad = self.refused()
        self.node.move(bad)
        run = self.explorer("--again", "300").reaches(2).hears("refuses block")
        self.assertIn("UpdateWithoutInput", run.get("/").text)
        self.assertIn("The following of blocks is held up", run.get("/").text)
        # It goes on at once where the node leaves that block.
        self.node.move(self.chains.grow(self.chains.back(bad, 1), 3))
        run.reaches(5)
        run.waits_for("no warning", lambda: "held up" not in run.get("/").text)
        run.stop()
        self.node.move(self.chains.grow(bad, 5))
        status, said = self.explorer("--again", "0").ended()
        self.assertEqual((status, "UpdateWithoutInput" in said), (Status.REFUSED, True), said)

    def test_another_chain(self):
        self.node.move(self.chains.grow(self.chains.first, 3))
        self.explorer().reaches(3).stop()
        other = self.chains.grow(self.chains.first, 5)
        self.node.move(other)
        run = self.explorer("--again", "0", "--deepest", "2")
        status, said = run.ended()
        self.assertEqual((status, "more than 2 of its newest blocks" in said), (Status.OTHER_CHAIN, True), said)
        self.explorer().reaches(5)


if __name__ == "__main__":
    unittest.main()
