"""The figures that the feeder tells at a port, and who may hold that port up."""
import contextlib
import re
import socket
import threading
import time
import urllib.error
import urllib.request

from .case import Case, unittest
from .test_refusals import GREEDY

from common import free_port
from namecoin_feeder.measures import SPAN, Measures, Port
from namecoin_feeder.troubles import Status, Stop

LINE = re.compile(r"(# (HELP|TYPE) namecoin_feeder_[a-z_]+ .+|namecoin_feeder_[a-z_]+(\{[a-z]+=\"[^\"]*\"\})? [-+.\de]+)")


def asked(port, path="/metrics"):
    with urllib.request.urlopen(f"http://127.0.0.1:{port}{path}", timeout=10) as reply:
        return reply.headers["Content-Type"], reply.read().decode()


def figures(port):
    lines = (line.split(" ") for line in asked(port)[1].splitlines() if not line.startswith("#"))
    return {name.replace("namecoin_feeder_", ""): float(value) for name, value in lines}


class OfARun(Case):
    def begun(self, *more):
        self.port = free_port(socket.SOCK_STREAM)
        return self.start("--metrics", str(self.port), *more)

    def tells(self, **wanted):
        def holds():
            with contextlib.suppress(OSError):
                told = figures(self.port)
                return all(told.get(name) == value for name, value in wanted.items())

        self.waits_for(f"{wanted}", holds)

    def test_forward_back_and_refused(self):
        run = self.begun("--again", "0.3", "--base", "10")
        tip = self.chains.grow(self.chains.first, 40)
        self.reaches(tip)
        self.tells(server_height=40, node_height=40, blocks_connected_total=40, reorganisations_total=0, waiting=0, saves_total=1)
        self.tells(blocks_above_base=30)
        self.assertNotIn("last_reorganisation_seconds", figures(self.port))
        told = figures(self.port)
        self.assertGreater(told["blocks_per_second"], 0)
        self.assertLess(told["last_block_age_seconds"], 20)
        self.reaches(self.chains.grow(self.chains.back(tip, 5), 7))
        self.tells(server_height=42, blocks_disconnected_total=5, reorganisations_total=1, refusals_total=0, blocks_above_base=32)
        self.waits_for("how long that took", lambda: figures(self.port).get("last_reorganisation_seconds", 60) < 20)
        self.node.move(self.chains.back(self.node.tip, 4))
        self.tells(waiting=1, server_height=42, node_height=38)
        tip = self.chains.grow(self.node.tip, 5)
        self.node.move(self.chains.add(tip, [GREEDY]))
        self.waits_for("refusals", lambda: figures(self.port)["refusals_total"] >= 2)
        self.tells(server_height=43, node_height=44, waiting=0)
        self.assertIsNone(run.poll())

    def test_before_the_node_answers(self):
        """What isn't known has no line; troubles are counted."""
        self.node.stop()
        self.begun()
        self.waits_for("troubles", lambda: self.troubles() >= 2)
        self.assertNotIn("node_height", figures(self.port))

    def troubles(self):
        with contextlib.suppress(OSError):
            return figures(self.port)["troubles_total"]
        return 0

    def test_port_in_use(self):
        with socket.create_server(("127.0.0.1", 0)) as taken:
            said = self.feed("--metrics", str(taken.getsockname()[1]), status=2)
        self.assertIn("for --metrics can't be had: Address already in use", said)


class OfAPort(unittest.TestCase):
    def setUp(self):
        self.number = free_port(socket.SOCK_STREAM)
        self.measures = Measures()
        self.port = Port(self.number, self.measures)
        self.addCleanup(self.port.close)

    def test_text_form(self):
        kind, text = asked(self.number)
        self.assertEqual(kind, "text/plain; version=0.0.4; charset=utf-8")
        self.assertTrue(text.endswith("\n"))
        for line in text.splitlines():
            self.assertRegex(line, f"^{LINE.pattern}$")
        self.assertNotIn("_height", text.replace("# HELP", ""))
        self.assertNotIn("last_save_seconds", text)
        self.measures.is_connected(7)
        self.measures.is_saved(1.25)
        text = asked(self.number)[1]
        for line in ("server_height 7", "saves_total 1", "last_save_seconds 1.250"):
            self.assertIn(f"\nnamecoin_feeder_{line}\n", text)

    def test_other_places(self):
        self.assertEqual(asked(self.number, "/")[1].count("troubles_total"), 3)
        with self.assertRaises(urllib.error.HTTPError) as told:
            asked(self.number, "/other")
        self.assertEqual(told.exception.code, 404)
        told.exception.close()
        self.assertIn(b"405", self.said(b"POST /metrics HTTP/1.1\r\n\r\n"))
        self.assertTrue(self.said(b"HEAD /metrics HTTP/1.1\r\n\r\n").endswith(b"\r\n\r\n"))
        self.assertIn(b" 404 ", self.said(b"GET\r\n\r\n"))
        self.assertIn(b" 405 ", self.said(b"\r\n\r\n"))

    def said(self, request):
        with socket.create_connection(("127.0.0.1", self.number), timeout=10) as line:
            line.sendall(request)
            with contextlib.suppress(ConnectionResetError):
                return line.makefile("rb").read()
        return b""

    def test_who_is_slow_is_turned_away(self):
        """Idle connections, one that drips, and one that never ends its request: whoever asks gets the figures all the same."""
        with contextlib.ExitStack() as lines:
            idle = [lines.enter_context(socket.create_connection(("127.0.0.1", self.number))) for _ in range(3)]
            dripping = threading.Event()

            def drip():
                with contextlib.suppress(OSError):
                    while not dripping.wait(0.1):
                        idle[0].sendall(b"G")

            thread = threading.Thread(target=drip)
            thread.start()
            begun = time.monotonic()
            self.assertIn("troubles_total", asked(self.number)[1])
            self.assertLess(time.monotonic() - begun, 8)
            dripping.set()
            thread.join()
        self.assertEqual(self.said(b"GET / HTTP/1.1\r\nA: " + b"x" * 100_000), b"")
        self.assertIn("troubles_total", asked(self.number)[1])

    def test_here_alone(self):
        self.assertEqual(self.port.listener.getsockname()[0], "127.0.0.1")

    def test_ports_that_are_none(self):
        with self.assertRaises(Stop) as stop:
            Port(self.number, self.measures)
        self.assertEqual(stop.exception.status, Status.WORDS)


class OfTime(unittest.TestCase):
    def test_blocks_a_second_are_those_of_a_minute(self):
        now = [1000.0]
        measures = Measures(lambda: now[0])
        for height in range(100):
            now[0] += 0.1
            measures.is_connected(height)
        self.assertAlmostEqual(measures.speed(), 10)
        now[0] += 30
        self.assertAlmostEqual(measures.speed(), 100 / 40)
        now[0] += SPAN
        self.assertEqual(measures.speed(), 0)
        self.assertIn("last_block_age_seconds 90.000\n", measures.text())


if __name__ == "__main__":
    unittest.main()
