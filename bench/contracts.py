"""What the Rattle files of a crate say, read by the layout that `rt fmt` gives them: calls with the labels of their clauses."""
import functools
import re
import typing

from prover import TOP

CRATES = TOP / "crates"
BLOCK = re.compile(r"(?:pub )?(?P<kind>impl|trait)\b\s*(?P<rest>.*)")
CALL = re.compile(r"\s*(?P<public>pub(?:\([a-z ]+\))? )?(?:const )?(?:unsafe )?fn (?P<name>\w+)")
CLAUSE = re.compile(r"\s*ensures\*?(?: (?P<label>\w+))?\s*\{")
# What an `impl` says by a trait's own words, as `ghost cmp = {..}` or `ghost output = {..}`.
SAID = re.compile(r"    ghost (?P<label>\w+) =")
# A type, and what holds of each of its values: `ghost up_to: {..}` among its fields.
TYPE = re.compile(r"(?P<public>pub(?:\([a-z ]+\))? )?struct (?P<name>\w+)")
HOLDS = re.compile(r"    ghost (?P<label>\w+):")
# What a clause without a label is called.
UNNAMED = "result"
# A crate at the system's edge: its public calls can tell nothing of the system, and its contracts are those of what stands inside.
AT_THE_EDGE = {"system_io"}


class Call(typing.NamedTuple):
    """A function or a method; or a type, with what holds of its values."""

    name: str
    # The type that it is a method of, and the trait, if any.
    of: str
    trait: str
    is_public: bool
    # What its `impl` says by the trait's words.
    said: tuple
    labels: tuple


def sources(crate):
    """The files of code of a crate, without its tests."""
    found = sorted((CRATES / crate / "src").rglob("*.rt"))
    return [it for it in found if "tests" not in it.relative_to(CRATES).parts and it.name != "tests.rt"]


def without_parameters(text):
    """A text without what stands in <..>."""
    found, depth = "", 0
    for at, sign in enumerate(text):
        is_arrow = sign == ">" and text[at - 1 : at] in ("-", "=")
        depth += (sign == "<") - (sign == ">" and not is_arrow)
        if depth == 0 and (sign != ">" or is_arrow):
            found += sign
    return found


def head_of(kind, rest):
    """The type and the trait of a block of methods, by what stands behind `impl` or `trait`."""
    words = re.split(r"\bwhere\b|\{|(?<!:):(?!:)", without_parameters(rest))[0].strip()
    if kind == "trait":
        return "", words
    trait, _, of = words.rpartition(" for ")
    return of.split("::")[-1].strip(), trait.split("::")[-1].strip()


def calls_in(text):
    """The calls of a file, with their clauses."""
    of, trait, said, found = "", "", [], []
    for line in text.splitlines():
        if block := BLOCK.match(line):
            (of, trait), said = head_of(block["kind"], block["rest"]), []
        elif kind := TYPE.match(line):
            found.append([kind["name"], "", "", kind["public"] == "pub ", (), []])
        elif line.startswith("}"):
            of, trait, said = "", "", []
        elif (held := HOLDS.match(line)) and found and not of and not trait:
            found[-1][-1].append(held["label"])
        elif word := SAID.match(line):
            said.append(word["label"])
        elif call := CALL.match(line):
            found.append([call["name"], of, trait, call["public"] == "pub " or bool(trait), tuple(said), []])
        elif (clause := CLAUSE.match(line)) and found:
            found[-1][-1].append(clause["label"] or UNNAMED)
    return [Call(*it[:-1], tuple(it[-1])) for it in found]


@functools.cache
def calls(crate):
    """The calls of a crate."""
    return [it for file in sources(crate) for it in calls_in(file.read_text())]


@functools.cache
def promised(trait, name):
    """The labels that the traits of this repository give a method: those of an `impl` that has no clause of its own."""
    every = [it for crate in sorted(CRATES.iterdir()) for it in calls(crate.name)]
    return {label for it in every if (it.of, it.trait, it.name) == ("", trait, name) for label in it.labels}


def labels_of(call):
    """The labels of a call's clauses. A trait of the kit gives its methods what their `impl` says by the trait's words."""
    if call.labels or not call.trait:
        return set(call.labels)
    return promised(call.trait, call.name) or {*call.said, *[UNNAMED] * bool(call.said)}


def named(crate, words):
    """The public calls of a crate that the words name: a name, or `Type::name`; or a type, of whose values something holds."""
    of, _, name = words.rpartition("::")
    is_seen = crate in AT_THE_EDGE
    return [it for it in calls(crate) if (it.is_public or is_seen) and it.name == name and of in ("", it.of or it.trait)]
