"""The pages behind a web server, by the pages of settings that are installed for it: nginx and Caddy, where they are here."""
import base64
import contextlib
import os
import shutil
import socket
import subprocess
import time

from . import TOP
from .case import SECONDS, Case, finding, request, unittest
from .test_finding import FAMILY

from common import HERE, free_port

NAME, PASSWORD = "alice", "a long password"
WORD = "Basic " + base64.b64encode(f"{NAME}:{PASSWORD}".encode()).decode()
PATH = os.pathsep.join([os.environ.get("PATH", ""), "/usr/sbin", "/sbin"])
NGINX = """daemon off; master_process off; pid {room}/pid; error_log {room}/log;
events {{}}
http {{ access_log off; {places} include {page}; }}
"""
PLACES = ("client_body", "proxy", "fastcgi", "uwsgi", "scgi")


class WebServers(Case):
    def setUp(self):
        super().setUp()
        self.height = self.has_names(FAMILY, 2)
        self.run_ = self.explorer().reaches(self.height)
        self.run_.waits_for("names", lambda: self.run_.get(finding("d/")).status == 200)
        self.port = free_port(socket.SOCK_STREAM)

    def page_of(self, name, *changes):
        """The settings with other ports and places than those that stand there."""
        text = (TOP / "contrib" / name / "namecoin-explorer.conf").read_text()
        self.assertLessEqual(len(text.splitlines()), 11)
        for one, other in (("127.0.0.1:5380", f"{HERE}:{self.run_.port}"), *changes):
            self.assertIn(one, text)
            text = text.replace(one, str(other))
        path = self.room / f"{name}.conf"
        path.write_text(text)
        return path

    def begin(self, *words, **how):
        run = subprocess.Popen(list(map(str, words)), cwd=self.room, stdin=subprocess.DEVNULL, stdout=subprocess.DEVNULL, stderr=subprocess.PIPE, **how)
        self.addCleanup(run.stderr.close)
        self.addCleanup(run.wait)
        self.addCleanup(run.kill)
        until = time.monotonic() + SECONDS
        while time.monotonic() < until:
            with contextlib.suppress(OSError), socket.create_connection((HERE, self.port), 1):
                return
            if run.poll() is not None:
                self.fail(run.stderr.read().decode())
            time.sleep(0.05)
        self.fail("nobody listens")

    def check(self, host=None):
        """Who has no word gets nothing; who has it gets the pages, and can begin and turn a listing."""
        more = {"Host": host} if host else {}
        self.assertEqual(request(self.port, "/", headers=more).status, 401)
        self.assertEqual(request(self.port, "/", headers={**more, "Authorization": WORD[:-4]}).status, 401)
        given = {**more, "Authorization": WORD, "Sec-Fetch-Site": "same-origin", "Sec-Fetch-Mode": "navigate"}
        told = request(self.port, "/", headers=given)
        self.assertEqual((told.status, f"stands at height {self.height}\n" in told.text), (200, True))
        self.assertIn("default-src 'none'", told.headers["content-security-policy"])
        self.assertEqual(request(self.port, finding("d/exam"), headers=given).names(), ["d/exam", "d/example", "d/examples"])
        path = request(self.port, "/names/new", headers=given).headers["location"]
        self.assertTrue(path.startswith("/names/"), path)
        self.assertEqual(request(self.port, path, headers=given).status, 200)
        self.assertEqual(request(self.port, "/", headers={**given, "Sec-Fetch-Site": "cross-site", "Sec-Fetch-Mode": "no-cors"}).status, 403)

    def test_nginx(self):
        program = shutil.which("nginx", path=PATH)
        if not program:
            self.skipTest("nginx is missing")
        told = subprocess.run(["openssl", "passwd", "-apr1", PASSWORD], stdout=subprocess.PIPE, text=True, check=True).stdout
        (self.room / "users").write_text(f"{NAME}:{told}")
        page = self.page_of("nginx", ("listen 8080", f"listen {HERE}:{self.port}"), ("/etc/nginx/namecoin.users", self.room / "users"))
        places = " ".join(f"{it}_temp_path {self.room}/{it};" for it in PLACES)
        settings = self.room / "nginx.main"
        settings.write_text(NGINX.format(room=self.room, places=places, page=page))
        self.begin(program, "-c", settings, "-p", self.room)
        self.check()

    def test_caddy(self):
        program = shutil.which("caddy", path=PATH)
        if not program:
            self.skipTest("caddy is missing")
        home = {**os.environ, "HOME": str(self.room), "XDG_CONFIG_HOME": str(self.room), "XDG_DATA_HOME": str(self.room)}
        told = subprocess.run([program, "hash-password", "--plaintext", PASSWORD], stdout=subprocess.PIPE, text=True, check=True, env=home).stdout.strip()
        page = self.page_of("caddy", ("names.example.org", f"http://names.example.org:{self.port}"), (f"{NAME} HASH", f"{NAME} {told}"))
        page.write_text("{\n admin off\n}\n" + page.read_text())
        self.begin(program, "run", "--config", page, "--adapter", "caddyfile", env=home)
        self.check("names.example.org")


if __name__ == "__main__":
    unittest.main()
