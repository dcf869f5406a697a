"""Numbers that count things of the tree, and where the pages have them."""
import re

from edits import edits
from prover import TOP

TEST = re.compile(r"^\s*#\[test\]", re.MULTILINE)
# By page: each row's text, with the numbers in the place of their names.
PLACES = {
    "docs/TESTING.md": [
        "| {edits}, in {crates with edits} crates |",
        "| {tests}, in {crates with tests} crates, ",
        "| {tables} scripts |",
        "The {tables of changed inputs} tables `mutated_..` and ",
    ],
    "docs/CONTRIBUTING.md": ["{edits} edits in {crates with edits} of {crates} crates"],
}


def tests():
    """The number of tests, by the crate that has some."""
    found = {}
    for path in sorted((TOP / "crates").glob("*/src/**/*.rt")):
        crate = path.relative_to(TOP / "crates").parts[0]
        found[crate] = found.get(crate, 0) + len(TEST.findall(path.read_text()))
    return {crate: number for crate, number in found.items() if number}


def tables():
    """The names of the tables of checks/."""
    return sorted(path.name for path in (TOP / "checks").glob("*_table"))


def counts():
    """Each number, by its name."""
    every, by_crate = edits(), tests()
    return {
        "crates": len(list((TOP / "crates").iterdir())),
        "edits": len(every),
        "crates with edits": len({it.crate for it in every}),
        "tests": sum(by_crate.values()),
        "crates with tests": len(by_crate),
        "tables": len(tables()),
        "tables of changed inputs": sum(it.startswith("mutated_") for it in tables()),
    }


def pattern_of(row):
    """What finds a row in a page, whatever its numbers are."""
    return re.sub(r"\\\{.*?\\\}", r"[0-9,]+", re.escape(row))


def row_with(row, numbers):
    """A row with its numbers, in threes."""
    return re.sub(r"\{(.*?)\}", lambda found: f"{numbers[found[1]]:,}", row)
