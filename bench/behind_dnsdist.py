"""Servers behind dnsdist, with the settings of contrib/dnsdist and other ports."""
import contextlib
import pathlib
import shutil
import subprocess
import time
import urllib.request

from stores import TOP

SETTINGS = TOP / "contrib" / "dnsdist"
SERIALS = "/usr/local/share/jaqhumpi/dnsdist/serials.lua"
SECONDS = 20
# What stands once in the settings, by the name by which something else is given for it.
LINES = {
    "ports": "local ports = { 5300 }",
    "addresses": 'local addresses = { "0.0.0.0:53", "[::]:53" }',
    "askers": 'local askers = { "127.0.0.0/8", "::1/128", "10.0.0.0/8", "172.16.0.0/12", "192.168.0.0/16", "fc00::/7", "fe80::/10" }',
    "most_a_second": "local most_a_second = 500",
    "figures": 'local figures = "127.0.0.1:8083"',
    "log_switch": 'local log_switch = "/etc/dnsdist/log-questions"',
    "threads": "local threads = 1",
}
TLS = 'local tls_port, certificate, key = 853, "/etc/dnsdist/tls.crt", "/etc/dnsdist/tls.key"'


def dnsdist():
    """The program; None where it isn't installed."""
    return shutil.which("dnsdist")


def written(value):
    """A value as Lua writes it."""
    if isinstance(value, (list, tuple)):
        return "{ " + ", ".join(map(written, value)) + " }"
    return f'"{value}"' if isinstance(value, (str, pathlib.Path)) else str(value)


def settings(tls=None, **given):
    """The text of the settings, with these values in the place of its own; `tls` is the port, the certificate and its key."""
    text = (SETTINGS / "dnsdist.conf").read_text()
    pairs = [(LINES[name], f"local {name} = {written(value)}") for name, value in given.items()]
    pairs += [(SERIALS, str(SETTINGS / "serials.lua"))]
    if tls:
        pairs.append((TLS, f"local tls_port, certificate, key = {', '.join(map(written, tls))}"))
    for old, new in pairs:
        if text.count(old) != 1:
            raise SystemExit(f"dnsdist.conf has {text.count(old)} times {old}")
        text = text.replace(old, new)
    return text


def figures_of(address):
    """The figures by their names."""
    with urllib.request.urlopen(f"http://{address}/metrics", timeout=SECONDS) as reply:
        lines = (line.rpartition(" ") for line in reply.read().decode().splitlines() if line[:1] not in ("#", ""))
        return {name: float(value) for name, _, value in lines}


@contextlib.contextmanager
def running(folder, **given):
    """A dnsdist, as soon as it tells figures; what it says is in the file `log` of the folder. `figures` has to be given."""
    (folder / "dnsdist.conf").write_text(settings(**given))
    words = [dnsdist(), "--supervised", "--disable-syslog", "-C", folder / "dnsdist.conf"]
    with open(folder / "log", "wb") as log:
        run = subprocess.Popen(words, cwd=folder, stdin=subprocess.DEVNULL, stdout=log, stderr=log)
    try:
        until = time.monotonic() + SECONDS
        while True:
            with contextlib.suppress(OSError):
                figures_of(given["figures"])
                break
            if run.poll() is not None or time.monotonic() > until:
                raise SystemExit(f"dnsdist doesn't run: {(folder / 'log').read_text()}")
            time.sleep(0.05)
        yield run
    finally:
        run.terminate()
        try:
            run.wait(10)
        except subprocess.TimeoutExpired:
            run.kill()
            run.wait()
