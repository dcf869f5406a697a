"""The index in plain Rust over std's maps (plain_image.rs), compiled by `rustc -O`."""
import contextlib
import pathlib
import shutil
import subprocess
import tempfile

SOURCE = pathlib.Path(__file__).with_name("plain_image.rs")


@contextlib.contextmanager
def plain_rust(where):
    """The program, in a folder below this one for as long as the block lasts; None where it can't be compiled, which is told."""
    if shutil.which("rustc") is None:
        print("no rustc here: nothing to compare with")
        yield None
        return
    with tempfile.TemporaryDirectory(dir=where) as room:
        program = pathlib.Path(room) / "plain_image"
        subprocess.run(["rustc", "--edition", "2021", "-O", "-o", program, SOURCE], check=True)
        yield program
