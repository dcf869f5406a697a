"""What a resolver gets for a domain: the records of all types that it has now, and the way to them as a tree of names."""
import html

from namecoin_feeder.replies import ACCEPTED
from namecoin_feeder.server import frame

from . import dns
from .drawings import tree
from .layout import ASK
from .pages import rows_of
from .ways import Ways

# The types that are asked for; the SOA is the same for all names, and all are asked for one by one.
TYPES = [it for it in dns.TYPES if it not in ("SOA", "ANY")]


def answers_of(ask, domain):
    """The answer for each type; None where there is none that can be read."""
    labels = dns.labels_of(domain)
    for type in TYPES:
        reply = ask(frame(dns.QUERY, dns.query(labels, dns.TYPES[type])))
        try:
            yield type, dns.answer_of(reply.payload) if reply.code == ACCEPTED else None
        except dns.BadReply:
            yield type, None


def shown(ask, names, entry, domain):
    """All of it as HTML."""
    answers = dict(answers_of(ask, domain))
    records = list(dict.fromkeys(freeze(it) for answer in answers.values() if answer for it in answer.records))
    servers = list(dict.fromkeys(freeze(it) for answer in answers.values() if answer for it in answer.authority if it.type != "SOA"))
    texts = [f"<p>The answers for <code>{html.escape(domain)}</code>, of all types together; by one: {type_links(domain)}</p>"]
    texts += sorted({trouble_of(type, answer) for type, answer in answers.items()} - {""})
    if records:
        texts.append(rows_of(records))
    if servers:
        texts.append(f"<h3>Answered by the name servers of the domain itself</h3>{rows_of(servers)}")
    if not records and not servers:
        texts.append("<p>It has no records.</p>")
    way = tree("The way to them", Ways(names.served).tree(entry.name, domain)) if names.is_served(entry) else ""
    return f"<h2>What a resolver gets</h2>{''.join(texts)}{way}"


def freeze(record):
    return record._replace(told=tuple(record.told))


def trouble_of(type, answer):
    """What a reader is to know of an answer, as HTML; nothing where it is as usual."""
    if answer is None:
        return f"<p class=warn>The reply for {type} can't be read here.</p>"
    if answer.code == 3:
        return "<p>There is no such name for a resolver now.</p>"
    if answer.code:
        name, meaning = dns.CODES.get(answer.code, (f"RCODE {answer.code}", "an error"))
        return f"<p class=warn>{name}: {meaning}.</p>"
    return f"<p class=warn>The answer for {type} is too long for this page: it would be told over TCP.</p>" if answer.is_cut else ""


def type_links(domain):
    return ", ".join(f'<a href="{ASK}?name={html.escape(domain)}&amp;type={it}">{it}</a>' for it in TYPES)
