"""The crates of this repository, what stands below each, and what the kit's prover is told of one.

Libraries stand in each crate's out/rlib, as `rt ci` and ./demo leave them: with their statements alone, which is what the
crates above them need. They serve no other command of rt, which makes its own.
"""
import pathlib
import shutil
import sys

TOP = pathlib.Path(__file__).resolve().parent.parent


def kit():
    """The kit's folder."""
    command = shutil.which("rt")
    if command is None:
        sys.exit("rt is missing: the command of the Rattle kit")
    return pathlib.Path(command).resolve().parent.parent


def uses():
    """By crate: what it names in crates.txt, crates of this repository and libraries of the kit."""
    lines = (line.split("#")[0].strip() for line in (TOP / "crates.txt").read_text().splitlines())
    return {line.partition(":")[0].split()[0]: line.partition(":")[2].split() for line in lines if line}


def below(table, crate):
    """The crates of this repository that stand below one, in no order."""
    found = {it for it in table[crate] if it in table}
    return found.union(*(below(table, it) for it in found))


def library(crate):
    """Where the crate's library stands."""
    return TOP / "crates" / crate / "out" / "rlib" / f"{crate}.rlib"


def words(table, crate):
    """What the prover is told of a crate and of those that it stands on."""
    at = kit()
    source = next(it for it in ("src/lib.rt", "src/main.rt") if (TOP / "crates" / crate / it).exists())
    told = ["--crate-name", crate, source]
    for it in ["std", *table[crate]]:
        told += ["--extern", f"{it}={library(it) if it in table else at / 'rlibs' / f'{it}.rlib'}"]
    for place in [at / "rlibs", *(library(it).parent for it in sorted(below(table, crate)))]:
        told += ["-L", f"dependency={place}"]
    told += ["--antt-project", at / "rattle/logic/antt-project.json", "--logic-built", at / "logic_built", "--links", f"{crate}="]
    return [str(it) for it in told]
