"""Which page a request gets. All of it is done on the asking thread."""
import html
import re
import time
import urllib.parse

from namecoin_feeder.progress import spoken
from namecoin_feeder.replies import ACCEPTED
from namecoin_feeder.server import frame

from . import dns, glance, layout, pages, resolving
from .asking import Tip
from .dns import QUERY
from .feeding import ProgramFeed
from .finding import Finder
from .layout import Frame, goes_to, told
from .listings import ANEW, ASKED, IDLE, MOST_KEPT, MOST_OPEN, NINTH, Closed, NoMemory
from .program import unexpected
from .wanted import domain_of, name_path

LISTING = re.compile(r"/names/([A-Za-z0-9_-]{22})(?:/([1-9][0-9]{0,9}|end)(?:/([1-9][0-9]?))?)?")
MOST_FIELDS = 4
# Seconds from one line on want of memory to the next.
QUIET = 600.0
CLOSED = {
    NINTH: (
        "Your listing was closed",
        f"At most {MOST_OPEN} listings are open at a time. Another reader began one, and yours was the one that was unused for the longest time.",
    ),
    IDLE: ("Your listing was closed", "Nobody had used it for a while."),
    ASKED: ("Your listing was ended", "You, or somebody with its address, ended it."),
    ANEW: ("Your listing was closed", "The names had to be read anew, for which the program was started anew: its listings are gone by that."),
    None: ("There is no such listing", "It was closed some time ago, belongs to an earlier run, or its address isn't whole."),
}


def tip_of(asker):
    """The tip at the start, as the program's replies tell it: the hash by the probe of the feeder, the height by the SOA of bit."""
    feed = ProgramFeed(asker.ask)
    feed.open()
    reply = asker.ask(frame(QUERY, dns.query([b"bit"], dns.TYPES["SOA"])))
    try:
        if reply.code != ACCEPTED:
            raise dns.BadReply
        return Tip(dns.serial_of(reply.payload), feed.tip)
    except dns.BadReply:
        raise unexpected(f"code {reply.code} to a query for the SOA of bit") from None


class Site:
    """`news` gives what is told of the node, `node_height` its height; `say` tells the operator."""

    def __init__(self, asker, listings, keeper, saving, news, node_height, say, clock=time.monotonic):
        self.asker, self.listings, self.keeper, self.saving = asker, listings, keeper, saving
        self.news, self.node_height, self.say, self.clock = news, node_height, say, clock
        self.finder = Finder(keeper, listings.rows, self.resolved)
        # No want of memory is told before this moment.
        self.quiet_until = clock()

    def answer(self, request):
        """The response to a request."""
        if request.path == layout.FIND:
            return self.finder.find(self.frame(), request.words)
        if request.path.startswith(layout.NAME):
            return self.finder.name(self.frame(), request.path, request.words)
        if self.asker.tip is None:
            return self.not_yet(request)
        if request.path == layout.TIP:
            return self.tip()
        if request.path == layout.ASK:
            return self.asked(request)
        if request.path == layout.NAMES:
            return pages.names_page(self.frame(), MOST_OPEN, MOST_KEPT, spoken(self.listings.idle))
        if request.path == layout.NEW:
            return self.begin(request)
        if parts := LISTING.fullmatch(request.path):
            return self.of_listing(request, *parts.groups())
        return told(self.frame(), 404, "There is no such page", "The pages are the tip, the names, and how a name is answered.")

    def not_yet(self, request):
        """The program can't be asked yet."""
        texts = [self.keeper.told() if self.keeper.is_reading else "The names are read, and the program is being started."]
        if self.keeper.names is not None:
            texts.append("Names can be found by the box meanwhile.")
        status = 200 if request.path == layout.TIP else 503
        return told(self.frame(), status, "The explorer is starting", *texts, "Try again in a while.", **{"Retry-After": "10"})

    def frame(self):
        """What stands on every page."""
        news, warning = self.news(), ""
        if news.trouble:
            kind = "The following of blocks is held up" if news.is_held else "The node isn't followed just now"
            warning = f"{kind}: {news.trouble}. What is shown is the chain as it is known; it is tried again."
        return Frame(self.asker.tip, warning)

    def tip(self):
        listings = f"{len(self.listings.open)} of {MOST_OPEN}"
        shown = self.finder.found(self.frame(), glance.shown) if self.keeper.names is not None else None
        at_once = shown if isinstance(shown, str) else f"<h2>Names</h2><p>{html.escape(self.keeper.told())}</p>"
        return pages.tip_page(self.frame(), self.node(), listings, self.saving.told(), at_once)

    def node(self):
        news, height = self.news(), self.node_height()
        if news.heard is None:
            return "it wasn't heard yet"
        heard = f"heard {spoken(max(0.0, self.clock() - news.heard))} ago"
        left = height - self.asker.tip.height if height is not None else 0
        return f"{heard}, at height {height:,}" + (f": {left:,} blocks are to come" if left > 0 else "") if height is not None else heard

    def resolved(self, names, entry, domain):
        """What a resolver gets for a domain, where the program can be asked."""
        return resolving.shown(self.asker.ask, names, entry, domain) if self.asker.tip is not None else ""

    # Listings

    def begin(self, request):
        """A new listing with its first page."""
        if request.method != "GET":
            return self.by_get()
        if not request.is_own:
            # Another site's page can lead here, but not close listings by that.
            return pages.names_page(self.frame(), MOST_OPEN, MOST_KEPT, spoken(self.listings.idle))
        try:
            listing = self.listings.begin(self.asker.ask, request.user, self.asker.tip)
        except NoMemory:
            self.tell_of_memory()
            why = "The program is out of memory for one more listing. Try again in a while."
            return told(self.frame(), 503, "No listing can be begun now", why, again=True, **{"Retry-After": "60"})
        self.listings.turn(self.asker.ask, listing)
        return goes_to(pages.page_path(listing, 1))

    def tell_of_memory(self):
        if self.clock() >= self.quiet_until:
            self.quiet_until = self.clock() + QUIET
            self.say("the program is out of memory for a listing (code FE); where that stays so, start the explorer anew, with more memory")

    def by_get(self):
        return told(self.frame(), 405, "A page is turned by GET alone", "HEAD turns none.", Allow="GET")

    def of_listing(self, request, token, number, place):
        try:
            listing = self.listings.find(token)
        except Closed as closed:
            title, why = CLOSED[closed.why]
            return told(self.frame(), 404 if closed.why is None else 410, title, why, again=True)
        if number is None:
            return goes_to(pages.page_path(listing, listing.turned))
        if number == "end":
            return self.end(request, listing) if place is None else self.no_page(listing)
        return self.page(request, listing, int(number), place)

    def end(self, request, listing):
        if request.method != "GET":
            return self.by_get()
        self.listings.close(self.asker.ask, listing, "asked")
        return told(self.frame(), 200, "Your listing is ended", "Its place is free for another reader.", again=True)

    def page(self, request, listing, number, place):
        if number == listing.turned + 1 and not listing.is_over and place is None:
            if request.method != "GET":
                return self.by_get()
            self.listings.turn(self.asker.ask, listing)
        if number > listing.turned:
            return self.no_page(listing)
        if number not in listing.kept:
            why = f"Of each listing the newest {MOST_KEPT} pages are kept, and the oldest of yours is page {listing.oldest} now."
            return told(self.frame(), 410, f"Page {number} isn't kept any more", why, "A new listing begins with its first page.", again=True)
        rows = self.listings.page(listing, number)
        if place is None:
            return pages.list_page(self.frame(), listing, number, rows, self.listings.rows)
        if int(place) > len(rows):
            return self.no_page(listing)
        row = rows[int(place) - 1]
        return pages.name_page(self.frame(), listing, number, row, domain_of(row.name), name_path(row.name))

    def no_page(self, listing):
        why = f"Pages come one after the other, and the newest is page {listing.turned}" + (", the last." if listing.is_over else ".")
        return told(self.frame(), 404, "There is no such page of this listing", why)

    # Answers

    def asked(self, request):
        """How a name is answered now, or the form that asks for one."""
        try:
            fields = dict(urllib.parse.parse_qsl(request.words, keep_blank_values=True, max_num_fields=MOST_FIELDS, errors="strict"))
        except ValueError:
            return pages.ask_page(self.frame(), trouble="This question can't be read.")
        if not fields:
            return pages.ask_page(self.frame())
        name, type = fields.get("name", "").strip(), fields.get("type", "A").upper()
        if type not in dns.TYPES:
            return pages.ask_page(self.frame(), name, trouble="There is no such type here.")
        try:
            labels = dns.labels_of(name)
        except dns.BadName as why:
            return pages.ask_page(self.frame(), name, type, str(why))
        reply = self.asker.ask(frame(QUERY, dns.query(labels, dns.TYPES[type])))
        asked = b".".join(labels).decode()
        try:
            answer = dns.answer_of(reply.payload) if reply.code == ACCEPTED else None
        except dns.BadReply:
            # Names are made by anybody, so what can't be read doesn't end the explorer.
            return told(self.frame(), 502, f"{asked} {type}", "The program's reply to this query can't be read here.")
        return pages.answer_page(self.frame(), name, type, asked, answer)
