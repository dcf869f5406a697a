"""Which libraries the files of a crate cite: in code, in ghost code, in specs/ and in proofs/.

Code cites a library by a path that begins with its name, as in `use byte_io::Source;` or `hex::encode(..)`, by a derive or a macro of
its own (`thiserror::Error`), and every other text by a module's whole name, as in `Rattle.byte_io.specs.Source`. What stands in a
comment or a text cites nothing.
"""
import re

import prover

CODE = re.compile(r"(?<![\w:.])([a-z_][a-z0-9_]*)::")
WHOLE = re.compile(r"(?<![\w:.])(?:use|extern crate) ([a-z_][a-z0-9_]*)(?: as \w+)?;")
GHOST = re.compile(r"(?<![\w.])Rattle\.([a-z_][a-z0-9_]*)(?=[.;\s])")
# A text is taken first, so that what looks like a comment inside one is none.
UNREAD = re.compile(r'"(?:\\.|[^"\\])*"|//[^\n]*|/\*.*?\*/', re.DOTALL)
UNREAD_IN_SPECS = re.compile(r'"(?:\\.|[^"\\])*"|--[^\n]*')


def cited_in(path):
    """The names that a file cites, those of its own modules among them."""
    text = path.read_text()
    if path.suffix == ".antt":
        return set(GHOST.findall(UNREAD_IN_SPECS.sub(" ", text)))
    bare = UNREAD.sub(" ", text)
    return {*CODE.findall(bare), *WHOLE.findall(bare), *GHOST.findall(bare)}


def files_of(crate):
    """The files of a crate that may cite a library."""
    folder = prover.TOP / "crates" / crate
    return [it for it in sorted(folder.rglob("*")) if it.suffix in (".rt", ".antt") and "out" not in it.relative_to(folder).parts]


def cited(crate, libraries):
    """Those of the libraries that a crate cites."""
    return set().union(*map(cited_in, files_of(crate))).intersection(libraries) - {crate}


def libraries():
    """All that may be cited but std: the crates of this repository, and the libraries of the kit."""
    kit = {it.stem for it in (prover.kit() / "rlibs").glob("*.rlib")}
    return (kit | set(prover.uses())) - {"std"}
