"""Drawings in SVG, made by the page: bars, and trees of names. Beside each stands what it shows, for who doesn't see it."""
import html
import typing

WIDTH, HEIGHT, GAP = 300, 100, 0.2
# A tree: pixels of a line, of a step to the right and of a letter, and letters of a name that are drawn.
LINE, STEP, LETTER, MOST_LETTERS = 36, 20, 8.5, 34


def number_of(value):
    return f"{value:,}" if isinstance(value, int) else f"{value:,.1f}"


def bars(name, title, unit, rows, first, last):
    """Bars from the left to the right, each a row of what it is of and its number; `first` and `last` stand below the ends."""
    most = max((value for _, value in rows), default=0)
    step = WIDTH / max(1, len(rows))
    made = []
    for place, (_, value) in enumerate(rows):
        height = HEIGHT * 0.94 * value / most if most else 0
        x, y, width = place * step + step * GAP / 2, HEIGHT - height, step * (1 - GAP)
        made.append(f'<rect x="{x:.2f}" y="{y:.2f}" width="{width:.2f}" height="{height:.2f}"/>' if value else "")
    whole = sum(value for _, value in rows)
    told = f"{len(rows)} bars, the highest of {number_of(most)} {unit}" + (f", {number_of(whole)} in all" if isinstance(whole, int) else "")
    lines = "".join(f"<tr><td>{what}</td><td class=number>{number_of(value)}</td></tr>" for what, value in rows)
    head = f"<thead><tr><th scope=col>Blocks</th><th scope=col class=number>{unit.capitalize()}</th></tr></thead>"
    table = f"<table>{head}<tbody>{lines}</tbody></table>"
    return (
        f'<figure><figcaption id="{name}">{title}</figcaption><p class=axis><span>up to {number_of(most)} {unit}</span></p>'
        f'<svg class=plot role=img aria-labelledby="{name} {name}-told" viewBox="0 0 {WIDTH} {HEIGHT}" preserveAspectRatio=none>'
        f'<desc id="{name}-told">{told}</desc>{"".join(made)}</svg>'
        f"<p class=axis><span>{first}</span><span>{last}</span></p><details><summary>As a table</summary>{table}</details></figure>"
    )


class Node(typing.NamedTuple):
    """A name in a tree: its text, what it is to the one above, the address of its page where there is one, and what is below it."""

    text: str
    what: str
    path: typing.Optional[str]
    below: list


def tree(title, root):
    """A tree of names, one on a line, each below and to the right of the one that leads to it; and the same as a list."""
    lines = list(lines_of(root, 0, None, [0]))
    width = max(30 + depth * STEP + max(len(cut(node.text)) * LETTER, 30 + len(node.what) * 6.5) for depth, _, _, node in lines)
    made = "".join(drawn(*it) for it in lines)
    return (
        f'<figure><figcaption id=tree>{title}</figcaption><svg class=tree role=img aria-labelledby="tree tree-told" width="{width:.0f}" '
        f'height="{len(lines) * LINE + 18}" viewBox="0 0 {width:.0f} {len(lines) * LINE + 18}"><desc id=tree-told>{len(lines)} names; the list '
        f"below has the same.</desc>{made}</svg><details><summary>As a list, with links</summary><ul>{listed(root)}</ul></details></figure>"
    )


def lines_of(node, depth, above, count):
    """The nodes in the order of their lines: how deep each stands, its line, that of the one above it, and itself."""
    line = count[0]
    count[0] += 1
    yield depth, line, above, node
    for it in node.below:
        yield from lines_of(it, depth + 1, line, count)


def drawn(depth, line, above, node):
    x, y = 12 + depth * STEP, line * LINE + 16
    path = "" if above is None else f'<path d="M{x - STEP} {above * LINE + 22}V{y}H{x - 6}"/>'
    what = f'<text class=what x="{x + 10}" y="{y + 18}">{html.escape(node.what)}</text>' if node.what else ""
    return f'{path}<circle cx="{x}" cy="{y}" r="4"/><text x="{x + 10}" y="{y + 5}">{html.escape(cut(node.text))}</text>{what}'


def cut(text):
    return text if len(text) <= MOST_LETTERS else f"{text[: MOST_LETTERS - 2]}.."


def listed(node):
    text = f"<code>{html.escape(node.text)}</code>"
    link = f'<a href="{html.escape(node.path)}">{text}</a>' if node.path else text
    what = f" <span class=soft>{html.escape(node.what)}</span>" if node.what else ""
    below = f"<ul>{''.join(map(listed, node.below))}</ul>" if node.below else ""
    return f"<li>{link}{what}{below}</li>"
