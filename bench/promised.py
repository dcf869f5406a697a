"""The promises of docs/promises.tsv: each with its calls and clauses as they stand in the crates, and the tables of docs/CLAUSES.md.

A line of that file is a heading, which is one field; or what is promised, a crate, a call, clauses and definitions, between
tabulators. Where the first field is empty, the promise is that of the line before. A call is a function, `Type::method`, or a type of
whose values something holds; `private` stands before one that isn't public. A clause is a label, `result` where the clause has none,
or `requires:label` for a condition. A definition that a clause cites is a name of a crate's specs/, `Name.field` for a field; before it
stands `crate:` or `crate/Module:` where more than one has it. What no clause says has `-` as its crate and its call.
"""
import functools
import re
import typing

from contracts import AT_THE_EDGE, CRATES, calls_in, labels_of, sources
from prover import TOP

# What is promised in plain words, and the page of tables behind it.
DATA, PLAIN, PAGE = (TOP / "docs" / it for it in ("promises.tsv", "PROMISES.md", "CLAUSES.md"))
NONE, FIELDS = "-", 5
MOST_WORDS, MOST_COLUMNS, MOST_IN_A_CELL = 1800, 120, 40
PRIVATE, CONDITION = "private ", "requires:"
DEFINITION = re.compile(r"^( *)(?:abbrev pub|unfoldable pub|pub record|pub data) (\w+)(.*(?:\n(?:\1 +.*)?$)*)", re.MULTILINE)


class Promise(typing.NamedTuple):
    """A line of the file: a call with clauses that carry a promise."""

    section: str
    text: str
    crate: str
    call: str
    clauses: tuple
    by: tuple

    def what(self):
        return f"{self.crate}: {' '.join(self.clauses)} of {self.call}"


class Definition(typing.NamedTuple):
    """A definition of a crate's specs/, with the lines of its body."""

    crate: str
    module: str
    body: str


def promises_in(text):
    """The promises that the file tells."""
    section = promise = ""
    for line in filter(None, text.splitlines()):
        fields = line.split("\t")
        if line.startswith("#"):
            continue
        if len(fields) == 1:
            section = line
            continue
        told, crate, call, clauses, by = [*fields, *[""] * FIELDS][:FIELDS]
        promise = told or promise
        yield Promise(section, promise, crate, call, tuple(clauses.split()), tuple(by.split()))


def promises():
    """All of them, in their order."""
    return list(promises_in(DATA.read_text()))


# ---- the calls and clauses of a crate


@functools.cache
def placed(crate):
    """The calls of a crate, each with its file."""
    return [(file, it) for file in sources(crate) for it in calls_in(file.read_text())]


def found_calls(promise):
    """The calls that a promise names, with their files: public ones, or with `private` those that aren't."""
    words = promise.call.removeprefix(PRIVATE)
    of, _, name = words.rpartition("::")
    is_private = promise.call.startswith(PRIVATE)
    here = [(file, it) for file, it in placed(promise.crate) if it.name == name and of == (it.of or it.trait)]
    return [(file, it) for file, it in here if (not is_private if promise.crate in AT_THE_EDGE else it.is_public != is_private)]


def conditions(file, name):
    """The labels of the conditions of a file's functions of a name."""
    heads = re.findall(rf"\bfn {name}\b.*?^ *\{{", file.read_text(), re.MULTILINE | re.DOTALL)
    return {label for head in heads for label in re.findall(r"^ *requires (\w+) \{", head, re.MULTILINE)}


def clauses_of(file, call):
    """What may be named of a call: the labels of its clauses, and those of its conditions."""
    return labels_of(call) | {CONDITION + label for label in conditions(file, call.name)}


# ---- definitions


@functools.cache
def definitions():
    """By name: the definitions of the crates' specs/."""
    found = {}
    for path in sorted(CRATES.glob("*/specs/**/*.antt")):
        crate = path.relative_to(CRATES).parts[0]
        for _, name, body in DEFINITION.findall(path.read_text()):
            found.setdefault(name, []).append(Definition(crate, path.stem, body))
    return found


def found_definitions(promise, words):
    """The definitions that the words name: those of the promise's crate, where it has some, else those of any."""
    place, _, name = words.rpartition(":")
    crate, _, module = place.partition("/")
    name, _, field = name.partition(".")
    here = [it for it in definitions().get(name, []) if crate in ("", it.crate) and module in ("", it.module)]
    here = [it for it in here if it.crate == promise.crate] or here if not crate else here
    return [it for it in here if not field or re.search(rf"^ +(?:pub )?{field} :", it.body, re.MULTILINE)]


# ---- what is wrong


def faults(promise):
    """What of a promise isn't in the crates, in words."""
    if promise.crate == NONE:
        return [] if promise.call == NONE else ["a call without a crate"]
    if not (CRATES / promise.crate).is_dir():
        return [f"there is no crate {promise.crate}"]
    found = found_calls(promise)
    if len(found) != 1:
        return [f"{promise.crate} has {len(found)} calls {promise.call}"]
    file, call = found[0]
    missing = [it for it in promise.clauses if it not in clauses_of(file, call)]
    told = [f"{promise.call} has no clause {it}" for it in missing] + ["no clause is named"] * (not promise.clauses)
    for words in promise.by:
        places = [f"{it.crate}/{it.module}" for it in found_definitions(promise, words)]
        told += [f"{len(places)} definitions are {words}: {', '.join(places)}"] * (len(places) != 1)
    return told


# ---- the tables


def ticked(words):
    return f"`{words}`"


def file_cell(promise):
    return NONE if promise.crate == NONE else ticked(str(found_calls(promise)[0][0].relative_to(CRATES)))


def call_text(promise):
    """A call with its clauses."""
    if promise.crate == NONE:
        return NONE
    clauses = [f"condition {ticked(it.removeprefix(CONDITION))}" if it.startswith(CONDITION) else ticked(it) for it in promise.clauses]
    return f"{PRIVATE * promise.call.startswith(PRIVATE)}{ticked(promise.call.removeprefix(PRIVATE))}: {', '.join(clauses)}"


def by_cell(promise):
    """The definitions, by their files."""
    names = {}
    for words in promise.by:
        it = found_definitions(promise, words)[0]
        names.setdefault(f"{it.crate}/specs/{it.module}.antt", []).append(ticked(words.rpartition(":")[2]))
    return "; ".join(f"{', '.join(found)} ({ticked(file)})" for file, found in names.items())


def cells():
    """The rows of the table, with their sections: calls of one file stand together, as many as a cell holds."""
    rows = []
    for it in promises():
        section, *row = it.section, it.text, file_cell(it), call_text(it), by_cell(it)
        if rows and rows[-1][0] == section and rows[-1][1][:2] == row[:2] and rows[-1][1][3] == row[3]:
            joined = f"{rows[-1][1][2]}; {row[2]}"
            if len(joined.split()) <= MOST_IN_A_CELL:
                rows[-1][1][2] = joined
                continue
        rows.append((section, row))
    return rows


def tables():
    """The page behind its head: a table for each section."""
    lines, section, promise = [], "", ""
    for told, row in cells():
        if told != section:
            lines += ["", f"## {told}", "", "| Promise | File of `crates/` | Call: clauses | Definitions |", "|---|---|---|---|"]
        lines.append(f"| {' | '.join(['' if row[0] == promise and told == section else row[0], *row[1:]])} |".replace("  ", " "))
        section, promise = told, row[0]
    return "\n".join(lines) + "\n"


def front_of(page):
    """What stands on the page before its tables."""
    return page.partition("\n## ")[0]


def page_with(page):
    """The page with its tables written anew."""
    return front_of(page).rstrip("\n") + "\n" + tables()
