"""What all pages have: their frame, their style, and the headers that let a browser run nothing; all without scripts."""
import base64
import hashlib
import html
import http
import typing

from namecoin_feeder.blocks import shown

from .texts import text_of, words_of

# Colours by what they are for: `palettes` of the tests compares them, as WCAG 2.2 (1.4.3, 1.4.11) has it.
LIGHT = {
    **{"back": "#fbfbf9", "text": "#1d2326", "soft": "#566167", "line": "#d9dedd", "field": "#737f85", "link": "#0b6470", "box": "#ffffff"},
    **{"warn": "#fdf3d8", "edge": "#a87b0c", "odd": "#a03c14", "good": "#1c7040", "bar": "#2b8793"},
}
DARK = {
    **{"back": "#14191b", "text": "#e3e8e8", "soft": "#9daab0", "line": "#2f393d", "field": "#7f8e95", "link": "#6fc7d2", "box": "#1b2224"},
    **{"warn": "#362c10", "edge": "#b8932f", "odd": "#f0a07a", "good": "#7fd0a0", "bar": "#4fa9b5"},
}


def variables(palette):
    return " ".join(f"--{name}: {colour};" for name, colour in palette.items())


STYLE = f"""
:root {{ color-scheme: light dark; {variables(LIGHT)} }}
@media (prefers-color-scheme: dark) {{ :root {{ {variables(DARK)} }} }}
""" + """
* { box-sizing: border-box; }
body { margin: 0; background: var(--back); color: var(--text); font: 16px/1.5 system-ui, sans-serif; }
header, main, footer { max-width: 62rem; margin: 0 auto; padding: 0 1.25rem; }
header { display: flex; flex-wrap: wrap; gap: .5rem 1.5rem; align-items: center; padding-top: 1rem; padding-bottom: .8rem; }
header strong { font-size: 1.1rem; }
header nav { display: flex; flex-wrap: wrap; gap: 0 1.25rem; margin-right: auto; }
header nav a, .turn a, .turn span, summary { padding: .25rem 0; }
header nav a[aria-current] { font-weight: 600; text-decoration-thickness: .15em; }
header form { margin: 0; flex: 0 1 27rem; }
.skip { position: absolute; left: .5rem; top: -4rem; background: var(--box); padding: .5rem 1rem; }
.skip:focus { top: .5rem; }
main { border-top: 1px solid var(--line); padding-top: 1.1rem; }
footer { color: var(--soft); font-size: .85rem; padding-top: 1.5rem; padding-bottom: 2rem; }
a { color: var(--link); text-underline-offset: .15em; }
:focus-visible { outline: 3px solid var(--link); outline-offset: 2px; border-radius: .15rem; }
h1 { font-size: 1.45rem; line-height: 1.25; margin: .2rem 0 .8rem; overflow-wrap: anywhere; }
h2 { font-size: 1.1rem; margin: 1.7rem 0 .5rem; overflow-wrap: anywhere; }
h3 { font-size: 1rem; margin: 1.2rem 0 .4rem; }
p { margin: .6rem 0; max-width: 46rem; overflow-wrap: anywhere; }
code, .hash { font-family: ui-monospace, "DejaVu Sans Mono", monospace; font-size: .92em; overflow-wrap: anywhere; }
small, .soft, .none { color: var(--soft); }
th small { display: block; font-weight: normal; }
.odd { color: var(--odd); }
.good { color: var(--good); }
.warn { background: var(--warn); border-left: .3rem solid var(--edge); padding: .55rem .9rem; margin: 0 0 1rem; overflow-wrap: anywhere; }
table { border-collapse: collapse; width: 100%; background: var(--box); border: 1px solid var(--line); }
caption { text-align: left; color: var(--soft); padding: .3rem 0; }
th, td { text-align: left; vertical-align: top; padding: .4rem .7rem; border-top: 1px solid var(--line); }
thead th { border-top: 0; color: var(--soft); font-weight: 600; font-size: .85rem; }
td.number, th.number { text-align: right; font-variant-numeric: tabular-nums; white-space: nowrap; }
table.facts { width: auto; }
table.facts th, table.items th { color: var(--soft); font-weight: 600; }
table.names td:first-child { width: 34%; }
table.items th { width: 1%; min-width: 7rem; }
table.items table.items { border-style: dashed; }
.items .items .items, .items .items .items :is(tbody, tr, th, td) { display: block; width: auto; min-width: 0; }
.items .items .items { border-style: solid; border-width: 0 0 0 2px; }
.items .items .items th { padding-bottom: 0; }
.items .items .items td { border-top: 0; padding-top: .1rem; padding-right: 0; }
.items .items .items small { display: inline; margin-left: .5rem; }
.none { font-style: italic; }
td ul { margin: 0; padding-left: 1.1rem; }
.turn { display: flex; flex-wrap: wrap; gap: 0 1.4rem; margin: .9rem 0; align-items: baseline; }
.turn .end { margin-left: auto; }
form { display: flex; flex-wrap: wrap; gap: .6rem; margin: .8rem 0 1rem; align-items: end; }
label { display: grid; gap: .15rem; font-size: .85rem; color: var(--soft); flex: 1 1 12rem; max-width: 24rem; }
label.short { flex: 0 0 auto; }
input, select, button, .button { font: inherit; color: var(--text); background: var(--box); padding: .3rem .6rem; min-height: 2.3rem;
  border: 1px solid var(--field); border-radius: .3rem; }
input { width: 100%; min-width: 0; }
::placeholder { color: var(--soft); opacity: 1; }
button, .button { color: var(--link); border-color: var(--link); text-decoration: none; display: inline-block; cursor: pointer; }
figure { margin: 1rem 0; }
figcaption { font-weight: 600; margin-bottom: .3rem; }
.plot { display: block; width: 100%; height: 7rem; background: var(--box); border: 1px solid var(--line); }
.plot rect { fill: var(--bar); }
.axis { display: flex; justify-content: space-between; gap: 1rem; color: var(--soft); font-size: .85rem; margin: .15rem 0; max-width: none; }
.plots { display: grid; grid-template-columns: repeat(auto-fit, minmax(min(100%, 22rem), 1fr)); gap: 0 2rem; }
.tree { display: block; max-width: 100%; height: auto; }
.tree text { fill: var(--text); font: 14px ui-monospace, "DejaVu Sans Mono", monospace; }
.tree .what { fill: var(--soft); font: 12px system-ui, sans-serif; }
.tree path { stroke: var(--field); fill: none; stroke-width: 1.5; }
.tree circle { fill: var(--bar); }
ins, del { text-decoration: none; }
ins::before { content: "+\\a0"; color: var(--good); font-weight: 600; }
del::before { content: "\\2212\\a0"; color: var(--odd); font-weight: 600; }
@media (max-width: 44rem) {
  header, main, footer { padding-left: .85rem; padding-right: .85rem; }
  th, td { padding: .35rem .5rem; }
  table.items, table.items tbody, table.items tr, table.items th, table.items td { display: block; width: auto; min-width: 0; }
  table.items th { padding-bottom: 0; }
  table.items td { border-top: 0; padding-top: .1rem; padding-right: 0; }
  table.items small { display: inline; margin-left: .5rem; }
  table.items table.items { border-style: solid; border-width: 0 0 0 2px; }
  table.items table.items > tbody > tr:first-child > th { border-top: 0; padding-top: 0; }
  table.stack thead { position: absolute; clip-path: inset(50%); height: 1px; width: 1px; overflow: hidden; }
  table.stack, table.stack tbody, table.stack tr, table.stack td { display: block; width: auto; }
  table.stack tr { border-top: 1px solid var(--line); padding: .3rem 0; }
  table.stack td, table.stack td.number { border: 0; text-align: left; padding: .1rem .6rem; white-space: normal; }
  table.stack td[data-of]::before { content: attr(data-of) ": "; color: var(--soft); }
  table.names td:first-child { width: auto; }
}
"""
STYLE_HASH = base64.b64encode(hashlib.sha256(STYLE.encode()).digest()).decode()
POLICY = f"default-src 'none'; style-src 'sha256-{STYLE_HASH}'; form-action 'self'; base-uri 'none'; frame-ancestors 'none'"
# They go with every response.
PLAIN_HEADERS = {
    "Content-Type": "text/html; charset=utf-8",
    "Content-Security-Policy": POLICY,
    "X-Content-Type-Options": "nosniff",
    "X-Frame-Options": "DENY",
    "Referrer-Policy": "no-referrer",
    "Cross-Origin-Opener-Policy": "same-origin",
    "Cross-Origin-Resource-Policy": "same-origin",
    "Cache-Control": "no-store",
}
TIP, NAMES, NEW, ASK, FIND, NAME = "/", "/names", "/names/new", "/answer", "/find", "/name/"
PLACES = ((TIP, "Tip"), (NAMES, "Names"), (ASK, "How a name is answered"))
# How names are found by a text: they begin with it, have it in them, or are it.
BEGIN, HAVE, ARE = "begin", "have", "are"
WAYS = {BEGIN: "begins with", HAVE: "has in it", ARE: "is"}
LONGEST_FIELD = 600
# Bytes of a value in a listing; its own page has all.
PREVIEW = 160


class Response(typing.NamedTuple):
    status: int
    body: bytes
    headers: dict = {}

    @property
    def reason(self):
        return http.HTTPStatus(self.status).phrase


class Frame(typing.NamedTuple):
    """What stands on every page: the tip, where it is known, and what is told of the node, where something is wrong; and what the box
    in which names are found holds."""

    tip: typing.Any = None
    warning: str = ""
    text: str = ""
    way: str = BEGIN


def options(rows, chosen):
    return "".join(f'<option value="{value}"{" selected" if value == chosen else ""}>{name}</option>' for value, name in rows)


def field_text(text):
    return html.escape("".join(it if it.isprintable() else "?" for it in text))


def find_form(frame):
    """The box on each page, in which names are found."""
    box = f'<input name=name value="{field_text(frame.text)}" maxlength={LONGEST_FIELD} placeholder="d/example" autocomplete=off spellcheck=false>'
    ways = f"<select name=way>{options(WAYS.items(), frame.way)}</select>"
    labels = f"<label class=short>Find a name that{ways}</label><label>this text{box}</label>"
    return f'<form role=search action="{FIND}">{labels}<button>Find</button></form>'


def response(frame, title, main, status=200, place="", **headers):
    links = "".join(f'<a href="{path}"{" aria-current=page" if path == place else ""}>{name}</a>' for path, name in PLACES)
    head = f"<title>{html.escape(title)} - Namecoin names</title><style>{STYLE}</style>"
    warning = f"<p class=warn role=status>{words_of(frame.warning)}</p>" if frame.warning else ""
    tip = f"<footer>The tip is at height {frame.tip.height:,}.</footer>" if frame.tip else ""
    text = f"""<!doctype html>
<html lang=en><head><meta charset=utf-8><meta name=viewport content="width=device-width, initial-scale=1">{head}</head>
<body><a class=skip href="#main">To the content</a>
<header><strong>Namecoin names</strong><nav aria-label=Pages>{links}</nav>{find_form(frame)}</header>
<main id=main>{warning}{main}</main>{tip}</body></html>
"""
    return Response(status, text.encode(), headers)


def told(frame, status, title, *texts, again=False, **headers):
    """A page of a few sentences; with a link to begin a listing anew."""
    link = f'<p><a class=button href="{NEW}">Begin a new listing</a></p>' if again else ""
    return response(frame, title, f"<h1>{html.escape(title)}</h1>" + "".join(f"<p>{html.escape(it)}</p>" for it in texts) + link, status, **headers)


def refusal(status, text, **headers):
    """A page for a request that gets nothing else, made without the program."""
    return told(Frame(), status, http.HTTPStatus(status).phrase, text, **headers)


def goes_to(path):
    return Response(303, b"", {"Location": path})


def hash_of(hash):
    return f"<span class=hash>{shown(hash)}</span>"


def facts_table(rows):
    """A table of facts, each with its name, both HTML."""
    return "<table class=facts>" + "".join(f"<tr><th scope=row>{name}</th><td>{text}</td></tr>" for name, text in rows) + "</table>"


def state_of(is_served):
    return "<span class=good>served</span>" if is_served else "<span class=soft>lapsed</span>"


def names_table(rows):
    """Names with their values, each with the address of its page, its height, and whether it is served."""
    head = "<thead><tr><th scope=col>Name</th><th scope=col class=number>Height</th><th scope=col>State</th><th scope=col>Value</th></tr></thead>"
    lines = "".join(
        f'<tr><td><a href="{path}"><code>{text_of(name)}</code></a></td><td class=number data-of=Height>{height:,}</td>'
        f"<td data-of=State>{state_of(is_served)}</td>"
        f"<td data-of=Value><code>{text_of(value[:PREVIEW])}</code>{' ..' if len(value) > PREVIEW else ''}</td></tr>"
        for path, name, height, is_served, value in rows
    )
    return f'<table class="names stack">{head}<tbody>{lines}</tbody></table>'
