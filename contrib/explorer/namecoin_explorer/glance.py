"""The chain at a glance: how many names are served and when they expire, and changes a block over the last weeks, as two small plots."""
from .drawings import bars
from .layout import facts_table

# Blocks of a day, at ten minutes a block, and of what else is told.
DAY = 144
SPANS = (("a day", DAY), ("a week", 7 * DAY), ("a month", 30 * DAY))
# How many bars a plot has at most, and of how many blocks it is.
EXPIRING, CHANGING, WEEKS = 30, 28, 28 * DAY


def expiring(names, blocks):
    """How many names that are served now expire within so many blocks, where they aren't changed before."""
    least, most = names.last_expired, names.base.profile.last_expired(names.tip.height + blocks)
    return names.standing(least + 1, min(most, names.tip.height))


def shown(names):
    """All of it as HTML."""
    number, tip = names.number(), names.tip.height
    served = names.standing(names.last_expired + 1, tip)
    rows = [("Names that were ever registered", f"{number:,}"), ("Served now", f"{served:,}"), ("Expired", f"{number - served:,}")]
    rows += [(f"Expire within {name} ({blocks:,} blocks)", f"{expiring(names, blocks):,}") for name, blocks in SPANS]
    return f"<h2>Names</h2>{facts_table(rows)}<div class=plots>{expiring_plot(names)}{changing_plot(names)}</div>"


def expiring_plot(names):
    """Names that expire, by the blocks in which they do."""
    tip, profile = names.tip.height, names.base.profile
    depth = tip - profile.last_expired(tip)
    step = max(1, min(DAY, depth // EXPIRING))
    sums = [expiring(names, step * number) for number in range(EXPIRING + 1)]
    rows = [(f"{tip + step * number + 1:,} to {tip + step * (number + 1):,}", sums[number + 1] - sums[number]) for number in range(EXPIRING)]
    title = f"Names that expire in the next {step * EXPIRING:,} blocks"
    return bars("expiring", title, "names", rows, "now", f"in {step * EXPIRING:,} blocks")


def changing_plot(names):
    """Values that were given, a block, over the last weeks; below the base of the files they aren't all known."""
    tip = names.tip.height
    blocks = min(WEEKS, tip - names.base.height)
    if blocks <= 0:
        return ""
    step = -(-blocks // CHANGING)
    changes, rows = names.changes(tip - blocks + 1, tip), []
    for first in range(tip - blocks + 1, tip + 1, step):
        last = min(first + step - 1, tip)
        rows.append((f"{first:,} to {last:,}", sum(changes.get(height, 0) for height in range(first, last + 1)) / (last - first + 1)))
    return bars("changing", f"Changes a block, of the last {blocks:,} blocks", "changes a block", rows, f"{blocks:,} blocks ago", "now")
