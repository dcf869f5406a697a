"""The pages of the tip, of listings and of answers as HTML: what is shown of names and values is escaped by `texts`, and nothing else of
it stands in them."""
import html
import urllib.parse

from .dns import CODES, TYPES
from .layout import ASK, NAMES, NEW, TIP, facts_table, field_text, hash_of, names_table, options, response, state_of
from .texts import Pairs, laid_out, text_of, value_of, words_of

# The tip

def tip_page(frame, node, listings, saves, glance):
    """`listings` tells how many are read; `glance` is the chain at a glance, as HTML."""
    tip = frame.tip
    rows = [("Height", f"{tip.height:,}"), ("Block", hash_of(tip.hash)), ("The node", words_of(node))]
    rows += [("Listings that are read", listings), ("Saves of the index", words_of(saves))]
    main = f"""<h1>The chain stands at height {tip.height:,}</h1>{facts_table(rows)}{glance}
<h2>All names</h2><p>A listing shows every name that has a value on the chain as it stands when you begin, page by page, in the order
of their bytes. Blocks that come while you read change nothing of it.</p><p><a class=button href="{NEW}">Begin a listing</a></p>
<h2>How a name is answered</h2>{ask_form()}"""
    return response(frame, "The tip", main, place=TIP)


# Listings

def names_page(frame, most, kept, minutes):
    main = f"""<h1>All names</h1><p>A listing shows every name that has a value on the chain as it stands when you begin, those that are
expired too, page by page, in the order of their bytes. Blocks that come while you read change nothing of it: each name comes
exactly once.</p><p><a class=button href="{NEW}">Begin a listing</a></p>
<p class=soft>At most {most} listings are open at a time. Where one more is begun, the one that was unused for the longest time is closed; so is
one that nobody used for {minutes}. The newest {kept} pages of a listing can be turned back to.</p>"""
    return response(frame, "All names", main, place=NAMES)


def page_path(listing, number):
    return f"/names/{listing.token}/{number}"


def turns(listing, number):
    """The links to the pages before and behind one, and to begin and end."""
    links = []
    if number > listing.oldest:
        links.append(f'<a rel=prev href="{page_path(listing, number - 1)}">\u2190 Page {number - 1}</a>')
    links.append(f"<span>Page {number}</span>")
    if number < listing.turned or not listing.is_over:
        links.append(f'<a rel=next href="{page_path(listing, number + 1)}">Page {number + 1} \u2192</a>')
    else:
        links.append("<span class=soft>This is the last page</span>")
    end = f'<a class=end href="/names/{listing.token}/end">End this listing</a>'
    return f"<nav class=turn aria-label=Pages>{''.join(links)}{end}</nav>"


def pinned(listing, tip):
    """Of which chain a listing is."""
    text = f"of the chain as it stood at height {listing.tip.height:,}, block {hash_of(listing.tip.hash)}"
    if tip == listing.tip:
        return f"{text}, which is the tip now"
    return f"{text}. The tip has moved to height {tip.height:,} since, which changes nothing of this listing"


def list_page(frame, listing, number, rows, size):
    first = (number - 1) * size + 1
    title = f"Names {first:,} to {first + len(rows) - 1:,}" if rows else "No names" if number == 1 else "No more names"
    lines = [(f"{page_path(listing, number)}/{place}", *row) for place, row in enumerate(rows, 1)]
    table = names_table(lines) if rows else "<p>The chain has no names there.</p>"
    main = f"<h1>{title}</h1><p class=soft>A listing {pinned(listing, frame.tip)}.</p>{turns(listing, number)}{table}"
    return response(frame, title, main + (turns(listing, number) if len(rows) > 10 else ""), place=NAMES)


def items_of(value):
    """What a value says, laid out."""
    if not value:
        return ""
    read = value_of(value)
    if isinstance(read, Pairs):
        return f"<h2>Items</h2>{laid_out(read)}"
    what = "JSON, but no object" if read is not None else "no JSON that is read"
    return f"<h2>Items</h2><p>The value is {what}: for DNS it has no items.</p>"


def told_state(is_served):
    return state_of(is_served) + ("" if is_served else " <small>(expired: DNS has no answer for it)</small>")


def name_page(frame, listing, number, row, domain, now):
    """A name with its value; `domain` is its name below bit, where it may have one, and `now` the address of the page with its history."""
    rows = [("Height of its value", f"{row.height:,}"), ("State", told_state(row.is_served)), ("Bytes of its value", f"{len(row.value):,}")]
    if domain:
        links = ", ".join(f'<a href="{html.escape(ask_path(domain, it))}">{it}</a>' for it in ("A", "AAAA", "TXT", "NS", "ANY"))
        rows.append((f"How <code>{html.escape(domain)}</code> is answered now", links))
    back = f'<p><a href="{page_path(listing, number)}">\u2190 Page {number} of the listing</a></p>'
    main = f"""{back}<h1><code>{text_of(row.name)}</code></h1><p class=soft>A name {pinned(listing, frame.tip)}.
<a href="{html.escape(now)}">As it is now, with its history</a></p>
{facts_table(rows)}{items_of(row.value)}<h2>The value as it is</h2><p><code>{text_of(row.value)}</code></p>"""
    return response(frame, "A name and its value", main, place=NAMES)


# Answers

def ask_path(name, type):
    return f"{ASK}?{urllib.parse.urlencode({'name': name, 'type': type})}"


def ask_form(name="", type="A"):
    field = f'<input name=name value="{field_text(name)}" placeholder=example.bit maxlength=260 required autocomplete=off spellcheck=false>'
    types = f"<select name=type>{options(((it, it) for it in TYPES), type)}</select>"
    return f'<form action="{ASK}"><label>Name{field}</label><label class=short>Type{types}</label><button>Ask</button></form>'


def ask_page(frame, name="", type="A", trouble=""):
    main = f"<h1>How a name is answered</h1>{f'<p class=warn>{html.escape(trouble)}</p>' if trouble else ''}{ask_form(name, type)}"
    main += "<p class=soft>The answer is the one that a resolver gets now, from the names of the tip.</p>"
    return response(frame, "How a name is answered", main, 400 if trouble else 200, place=ASK)


def answer_page(frame, name, type, asked, answer):
    """`asked` is the name as it was asked; the answer is None where there is none."""
    title = f"{asked} {type}"
    if answer is None:
        said = "<p>There is no reply to this query.</p>"
    else:
        code, meaning = CODES.get(answer.code, (f"RCODE {answer.code}", "an error"))
        if answer.code == 0 and not answer.records:
            is_delegated = not answer.is_ours and answer.authority
            meaning = "answered by the name servers below" if is_delegated else "the name is there, and has nothing of this type"
        said = f"<p><strong>{code}</strong>: {meaning}.</p>"
        if answer.is_cut:
            said += "<p class=warn>The answer is too long for this page: it would be told over TCP.</p>"
        said += records_table("Answer", answer.records) + records_table("Authority", answer.authority)
    main = f"<h1>{html.escape(asked)} <small>{html.escape(type)}</small></h1>{said}<h2>Ask again</h2>{ask_form(name, type)}"
    return response(frame, title, main, place=ASK)


def records_table(title, records):
    if not records:
        return ""
    return f"<h2>{title}</h2>{rows_of(records)}"


def rows_of(records):
    """Records of DNS as a table."""
    head = "<thead><tr><th scope=col>Owner</th><th scope=col class=number>Seconds</th><th scope=col>Type</th><th scope=col>Says</th></tr></thead>"
    rows = "".join(
        f"<tr><td><code>{text_of(it.owner)}</code></td><td class=number data-of=Seconds>{it.seconds}</td><td data-of=Type>{it.type}</td>"
        f"<td data-of=Says><code>{' '.join(map(text_of, it.told))}</code></td></tr>"
        for it in records
    )
    return f"<table class=stack>{head}<tbody>{rows}</tbody></table>"
