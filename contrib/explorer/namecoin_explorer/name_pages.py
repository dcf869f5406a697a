"""The pages of names that were found, and of a name with its history, as HTML."""
import html
import typing

from namecoin_feeder.progress import spoken

from .changes import ADDED, GONE, MOST, changes_of
from .layout import ARE, BEGIN, HAVE, facts_table, hash_of, names_table, response
from .pages import items_of, told_state
from .texts import laid_out, text_of, words_of
from .wanted import as_typed, name_path

# A block of Namecoin comes every ten minutes.
BLOCK_SECONDS = 600


class Result(typing.NamedTuple):
    """Names that were found: how, by which bytes, and of which domain these are; the name that the bytes are, if any; the names of the
    page, how many there are, the addresses of the next page and of this one; and whether this isn't the first page, and the one before was of another
    chain."""

    way: str
    bytes: bytes
    domain: typing.Optional[bytes]
    exact: typing.Any
    found: typing.Any
    count: typing.Any
    next: typing.Optional[str]
    again: str
    is_later: bool
    has_moved: bool


class History(typing.NamedTuple):
    """Values of a name, the newest first; the one before the oldest of them, and its place; and whether the first one is the newest of
    all."""

    values: list
    below: typing.Any
    next: typing.Optional[int]
    is_newest: bool


def of_chain(names, early):
    """Of which chain a page is."""
    text = f"Of the chain as it stands at height {names.tip.height:,}, block {hash_of(names.tip.hash)}."
    if early:
        text = f"Of the chain as an earlier run left it at height {names.tip.height:,}, block {hash_of(names.tip.hash)}. {html.escape(early)}"
    return f"<p class=soft>{text}</p>"


def counted(count):
    """How many names were found, in words."""
    number = {0: "No names", 1: "One name"}.get(count.number, f"{count.number:,} names")
    if count.is_all:
        return number
    return f"{number} so far"


def found_title(result):
    """What was looked for, as HTML."""
    text = f"<code>{text_of(result.bytes)}</code>" if result.bytes else ""
    if not text:
        return "All names"
    return {BEGIN: f"Names that begin with {text}", HAVE: f"Names with {text} in them", ARE: f"No name is {text}"}[result.way]


def found_page(frame, names, result, early):
    told = []
    if result.has_moved:
        text = "The chain has changed since the page before: names that came or went in between may be missing here, or stand there too."
        told.append(f"<p class=warn role=status>{text}</p>")
    if result.domain:
        told.append(f"<p>The domain <code>{text_of(result.domain)}</code> is that of the name <code>{text_of(result.bytes)}</code>.</p>")
    if result.way == ARE:
        told.append("<p>No name is this text. Those that begin with it are these:</p>")
    if result.exact is not None and not result.is_later:
        link = f'<a href="{html.escape(name_path(result.bytes))}"><code>{text_of(result.bytes)}</code></a>'
        told.append(f"<p>There is a name of just this text: {link}</p>")
    rows = [(html.escape(name_path(it.name)), it.name, it.height, names.is_served(it), it.value) for it in result.found.entries]
    table = names_table(rows) if rows else ""
    count = f"<p><strong>{counted(result.count)}</strong>{', in the order of their bytes' if len(rows) > 1 else ''}.</p>"
    if not result.count.is_all:
        text = "Not all names were looked through yet, which takes a moment more where there are very many."
        count += f'<p class=soft role=status>{text} <a href="{html.escape(result.again)}">Look again</a></p>'
    turn = f'<nav class=turn aria-label="More names"><a rel=next href="{html.escape(result.next)}">More names \u2192</a></nav>' if result.next else ""
    main = f"<h1>{found_title(result)}</h1>{''.join(told)}{count}{of_chain(names, early)}{table}{turn}"
    return response(frame, f"Names: {as_typed(result.bytes)}" if result.bytes else "All names", main)


def no_name_page(frame, names, name, early):
    main = f"<h1>There is no name <code>{text_of(name)}</code></h1><p>It was never given a value on this chain.</p>{of_chain(names, early)}"
    return response(frame, "There is no such name", main, 404)


def expiry_of(names, entry):
    """When a name expires, in words."""
    profile, tip = names.base.profile, names.tip
    height = first_expired(profile, entry.height)
    blocks = height - tip.height
    if blocks <= 0:
        return f"at height {height:,}, {-blocks:,} blocks ago" if blocks else f"at height {height:,}, the tip"
    return f"at height {height:,}, in {blocks:,} blocks: about {spoken(blocks * BLOCK_SECONDS)}, at ten minutes a block, unless it is changed before"


def first_expired(profile, height):
    """The height at which a value of this height is expired: the least one behind it, by the rule of the profile."""
    low, high = height, height + 1
    while profile.last_expired(high) < height:
        low, high = high, high + 2 * (high - height)
    while high - low > 1:
        middle = (low + high) // 2
        low, high = (low, middle) if profile.last_expired(middle) >= height else (middle, high)
    return high


def name_page(frame, names, entry, domain, history, resolved, early):
    is_served = names.is_served(entry)
    rows = [("State", told_state(is_served)), ("Registered", f"at height {entry.registered:,}"), ("Changed", f"at height {entry.height:,}")]
    rows += [("Expires" if is_served else "Expired", expiry_of(names, entry)), ("Bytes of its value", f"{len(entry.value):,}")]
    rows += [("Domain", f"<code>{html.escape(domain)}</code>")] if domain else []
    value = f"{items_of(entry.value)}<h2>The value as it is</h2><p><code>{text_of(entry.value)}</code></p>" if history.is_newest else ""
    main = f"<h1><code>{text_of(entry.name)}</code></h1>{of_chain(names, early)}{facts_table(rows)}{value}{resolved}{history_of(entry, history)}"
    return response(frame, as_typed(entry.name) or "The empty name", main)


def history_of(entry, history):
    """All values of a name on the chain, the newest first, each with what changed."""
    parts = [told_value(value, before) for value, before in zip(history.values, [*history.values[1:], history.below])]
    if history.next is not None:
        path = f"{name_path(entry.name)}?from={history.next}"
        parts.append(f'<nav class=turn aria-label="Older values"><a rel=next href="{html.escape(path)}">Older values \u2192</a></nav>')
    return "<h2>Its history</h2>" + "".join(parts)


def told_value(value, before):
    """A value and what changed by it; `before` is the value before it, or None where there is none."""
    if before is None or value.height == value.registered and before.registered != value.registered:
        how, told = ("it was registered" if before is None else "it was registered anew"), ""
    else:
        how = "it was changed"
        told = told_changes(before.value, value.value)
    as_it_is = f"<p><code>{text_of(value.value)}</code></p>"
    return f"<h3>At height {value.height:,} {how}</h3>{told}{as_it_is}"


def told_changes(before, behind):
    if before == behind:
        return "<p class=soft>Its value stayed the same.</p>"
    changes = changes_of(before, behind)
    if changes is None:
        return "<p class=soft>One of the two values has no members, so they can't be compared.</p>"
    if not changes:
        return "<p class=soft>It says the same in other words.</p>"
    more = f"<li>and {len(changes) - MOST:,} more</li>" if len(changes) > MOST else ""
    return f"<ul>{''.join(f'<li>{told_change(it)}</li>' for it in changes[:MOST])}{more}</ul>"


def told_change(change):
    keys = " \u203a ".join(f"<code>{words_of(it)}</code>" for it in change.keys)
    if change.what == ADDED:
        return f"<ins>{keys} was added:</ins> {laid_out(change.behind)}"
    if change.what == GONE:
        return f"<del>{keys} has gone:</del> {laid_out(change.before)}"
    return f"{keys} has changed from {laid_out(change.before)} to {laid_out(change.behind)}"
