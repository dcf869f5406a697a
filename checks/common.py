"""What the scripts of this folder share: the built program, frames and replies, tables, and the count of what passed."""
import pathlib
import struct
import subprocess
import sys
import typing

TOP = pathlib.Path(__file__).resolve().parent.parent
DATA = TOP / "checks" / "data"
BASE_HASH = bytes(32)
SECONDS = 60
HERE = "127.0.0.1"
# The makers of blocks and of folders stand with the benchmarks.
sys.path.insert(0, str(TOP / "bench"))

from blocks import pieces
from ports import free_port, kept_port, server_ports
from stores import PROGRAM, empty_folder, knows_starts, made_folder

BAD_WORDS = 2


class Run(typing.NamedTuple):
    """What came of a run of the program."""

    output: bytes
    status: int
    line: str


def program():
    """The built program. Where it is missing, the script ends with an error."""
    if not PROGRAM.exists():
        sys.exit(f"{pathlib.Path(sys.argv[0]).name}: {PROGRAM} is missing; build it first (./demo does)")
    return PROGRAM


def run_in(folder, words, given, output=subprocess.PIPE, **how):
    """Runs the program in a folder, with these words, and bytes or a file as its standard input."""
    source = {"input": given} if isinstance(given, bytes) else {"stdin": given}
    run = subprocess.run([program(), *words], cwd=folder, stdout=output, stderr=subprocess.PIPE, timeout=SECONDS, **source, **how)
    return Run(run.stdout or b"", run.returncode, run.stderr.decode().strip())


def replay(given, output=subprocess.PIPE):
    """Runs a replay in a folder of its own, with the files of a new store."""
    program()
    with made_folder() as folder:
        return run_in(folder, ["replay"], given, output)


def reply(code, payload=b""):
    return bytes([code]) + struct.pack("<I", len(payload)) + payload


def bytes_of(field):
    """The bytes of a table's field: hexadecimal, or '-' for none."""
    return b"" if field == "-" else bytes.fromhex(field)


def rows(path):
    """The rows of a table with their numbers: fields between tabulators. Lines that begin with '#' are no rows."""
    for number, line in enumerate(path.read_text().splitlines(), 1):
        if line and not line.startswith("#"):
            yield number, line.split("\t")


class Tally:
    """Counts what passed, and prints a line for each thing that didn't."""

    def __init__(self):
        self.name, self.passed, self.failed = pathlib.Path(sys.argv[0]).name, 0, 0

    def check(self, what, holds, told=""):
        """Counts one more; where it doesn't hold, what it is and what is told of it are printed."""
        self.passed += bool(holds)
        self.failed += not holds
        if not holds:
            print(f"{what}: {told}")
        return holds

    def leaves_out(self, what, why):
        """Tells that something isn't looked at here, and why. `.ci/run` counts these lines, and names them at its end."""
        print(f"{self.name}: left out: {what}: {why}", flush=True)

    def same(self, what, got, wanted):
        return self.check(what, got == wanted, f"{shown(got)}, and not {shown(wanted)}")

    def end(self):
        """Prints the counts. The status of the script: 0 where all passed, and something did."""
        print(f"{self.name}: {self.passed} passed, {self.failed} failed")
        return 1 if self.failed or not self.passed else 0


def shown(value):
    """Bytes in hexadecimal, and anything else as Python writes it; both cut where they are long."""
    text = value.hex() if isinstance(value, bytes) else str(value)
    return text if len(text) < 400 else text[:400] + ".."
