"""The three files of a store: what commands and saves write to them, what opening finds in them, and how a replay of frames ends.

It is written from docs/FORMATS.md alone, and shares nothing with the code. A store is its three files, the index that they stand
for, and the number of selections; the commands behind the image of the selected area are followed by the index alone. The files are
made of a base, and of the makes of a snapshot where they are made from one.
"""
from common import Run, reply

from answers_model import reply_to, zone_of
from images_model import BYTES_OF_PROFILES, PROFILE_BYTES, Base, ImageFault, Index, index_of, number
from model import HIGHEST, MOST_SELECTIONS
from snapshot_model import SnapshotFault, makes_of
from values_model import Place, host, wire_of

from blocks import CONNECT, DISCONNECT, QUERY, SAVE

OPEN, CLOSED = b"\x01", b"\x00"
MARK = b"NMCIDX1\n"
LEAST_INITIALISED, LONGEST_HOST = 50, 244
MOST_AREA, MOST_IMAGE, LONGEST_BLOCK = 2**42, 2**37, 8_388_608
HASH, SELECTION = 32, 6
LENGTHS = {CONNECT: (0, LONGEST_BLOCK), DISCONNECT: (HASH, HASH), QUERY: (0, 65_535), SAVE: (0, 0)}


class Unopened(Exception):
    """The files aren't opened: the line that says why."""


def damaged(file, place):
    return Unopened(f"damaged file {file} at {place}")


def header_of(base, host_text):
    """The header of file 0."""
    fields = bytes([BYTES_OF_PROFILES[base.profile]]) + number(4, base.height) + base.hash
    return OPEN + MARK + fields + number(1, len(host_text)) + host_text.encode()


def read_header(text):
    """The base and the host of a header."""
    if len(text) < LEAST_INITIALISED or text[:1] != OPEN:
        raise Unopened("not initialised")
    if text[1:9] != MARK:
        raise damaged(0, 1)
    if text[9] not in PROFILE_BYTES:
        raise damaged(0, 9)
    height = int.from_bytes(text[10:14], "little")
    if height > HIGHEST:
        raise damaged(0, 10)
    name = text[47 : 47 + text[46]]
    if len(name) < text[46] or not is_host(name):
        raise damaged(0, 47)
    return Base(PROFILE_BYTES[text[9]], height, bytes(text[14:46])), name.decode()


def is_host(name):
    """Whether the bytes are an absolute host text whose name isn't too long."""
    if not name.isascii() or not name.endswith(b".") or name == b".":
        return False
    labels = host(name.decode(), Place((), ()))
    return labels is not None and len(wire_of(labels)) <= LONGEST_HOST


def journal_of(file, text, gate, limit):
    """The records behind a gate, each with its gate, and at last the closed gate with None."""
    if gate >= len(text):
        raise damaged(file, gate)
    while text[gate] == OPEN[0]:
        length = int.from_bytes(text[gate + 1 : gate + 5], "little")
        end = gate + 5 + length
        if gate + 5 > len(text) or end >= len(text) or end + 1 > limit:
            raise damaged(file, gate)
        yield gate, bytes(text[gate + 5 : end])
        gate = end
    yield gate, None


def area_text(image):
    """An area with this image, before any command."""
    return bytearray(number(8, len(image)) + image + CLOSED)


def area_of(selections):
    """The file that is selected after so many selections."""
    return 2 if selections % 2 else 1


class Store:
    """The files of a base, which has a host, as `init` makes them; or `init-from`, of the makes of a snapshot."""

    def __init__(self, base, host_text, makes=()):
        self.base, self.host, self.index, self.selections = base, host_text, Index.of_makes(base, makes), 0
        header, image = header_of(base, host_text), self.index.text() if makes else b""
        self.files = [bytearray(header + CLOSED), area_text(image), bytearray()]
        # The places of the closed gates behind the selections, and behind the commands of the selected area.
        self.gates = [len(header), 8 + len(image)]

    @classmethod
    def opened(cls, files):
        """The store that the files stand for. Unopened where there is none."""
        base, host_text = read_header(files[0])
        store = cls(base, host_text)
        store.files, start = [bytearray(text) for text in files], store.gates[0]
        for gate, record in journal_of(0, files[0], start, start + 1 + SELECTION * MOST_SELECTIONS):
            if record is None:
                store.gates[0] = gate
            elif record != bytes([area_of(store.selections + 1)]):
                raise damaged(0, gate)
            else:
                store.selections += 1
        store.read_area()
        return store

    height = property(lambda self: self.index.height)
    tip = property(lambda self: self.index.tip)
    profile = property(lambda self: self.index.profile)
    # The file that is selected.
    area = property(lambda self: area_of(self.selections))

    def read_area(self):
        """Reads the image of the selected area, and follows the commands behind it."""
        text = self.files[self.area]
        length = int.from_bytes(text[:8], "little")
        if len(text) < 9 or 9 + length > len(text) or length > MOST_IMAGE:
            raise damaged(self.area, 0)
        try:
            self.index = index_of(bytes(text[8 : 8 + length]), self.base) if length else Index(self.base)
        except ImageFault as fault:
            raise damaged(self.area, 8 + fault.args[0]) from None
        for gate, record in journal_of(self.area, text, 8 + length, MOST_AREA):
            self.gates[1] = gate
            if record is not None and not self.follows(record[:1], record[1:]):
                raise damaged(self.area, gate)

    def follows(self, kind, payload):
        """Whether a record is that of a command without a refusal, which is done then."""
        least, most = LENGTHS[kind] if kind in (CONNECT, DISCONNECT) else (1, 0)
        return least <= len(payload) <= most and self.commanded(kind, payload)[0] == 0

    def commanded(self, kind, payload):
        return self.index.connect(payload) if kind == CONNECT else self.index.disconnect(payload)

    def answer(self, frame):
        """The reply to a whole frame."""
        kind, payload = frame[:1], frame[5:]
        if kind == QUERY:
            return self.asked(payload)
        if kind == SAVE:
            return self.saved()
        before = self.index.copy()
        told = self.commanded(kind, payload)
        if told[0] == 0 and self.gates[1] + 1 + 5 + 1 + len(payload) > MOST_AREA:
            self.index, told = before, reply(5)
        if told[0] == 0:
            self.gates[1] = self.append(self.area, self.gates[1], kind + payload)
        return told

    def append(self, file, gate, record):
        """Writes a record behind a closed gate. The place of the next gate."""
        text = self.files[file]
        behind = number(4, len(record)) + record + CLOSED
        text[gate : gate + 1 + len(behind)] = OPEN + behind
        return gate + len(behind)

    def saved(self):
        image = self.index.text()
        if refusal := self.refusal_of(image):
            return refusal
        self.files[3 - self.area] = area_text(image)
        return reply(0, number(8, self.selects(8 + len(image))))

    def refusal_of(self, image):
        """The reply that refuses a save with this image; None where there is no refusal."""
        if self.selections == MOST_SELECTIONS:
            return reply(29)
        return reply(30) if len(image) > MOST_IMAGE else None

    def selects(self, gate):
        """The other area is selected, which is whole and has its closed gate at that place. The number of selections."""
        self.gates = [self.append(0, self.gates[0], bytes([3 - self.area])), gate]
        self.selections += 1
        return self.selections

    def asked(self, message):
        names = {name: items[-1].value for name, items in self.index.histories.items() if self.index.served(name) is not None}
        told = reply_to(zone_of(names, self.host, self.index.height), message)
        return reply(8) if told is None else reply(0, told.text())

    def replayed(self, given):
        """What a replay of the bytes tells, and how it ends."""
        return answered(self.answer, given)


def answered(answer, given, lengths=LENGTHS):
    """What a run tells that reads the kinds of frames with these lengths and answers each so, and how it ends."""
    told, at = [], 0
    while at < len(given):
        least, most = lengths.get(given[at : at + 1], (1, 0))
        length = int.from_bytes(given[at + 1 : at + 5], "little")
        if least > most or len(given) - at >= 5 and not least <= length <= most:
            return Run(b"".join(told), 4, f"bad frame at {at}")
        if len(given) - at < 5 + length or len(given) - at < 5:
            return Run(b"".join(told), 4, f"cut frame at {at}")
        told.append(answer(given[at : at + 5 + length]))
        at += 5 + length
    return Run(b"".join(told), 0, "")


def made(words, makes=()):
    """The store that `init` makes of its words, which are right; or `init-from`, of these makes."""
    profile, height, hash, host_text = words[1:]
    return Store(Base(profile, int(height), bytes.fromhex(hash)[::-1]), host_text, makes)


def begun(words, given, files):
    """What `init` or `init-from` comes to, and the files behind it."""
    if len(files[0]) >= LEAST_INITIALISED and files[0][:1] == OPEN:
        return Run(b"", 3, "already initialised"), files
    try:
        makes = makes_of(given, words[1], int(words[2])) if words[0] == "init-from" else ()
    except SnapshotFault as fault:
        return Run(b"", 11, f"bad snapshot at {fault.args[0]}"), files
    return Run(b"", 0, ""), [*map(bytes, made(words, makes).files[:2]), files[2]]


def run_of(words, given, files):
    """What a run of the program comes to over the files, which are None where there are none, and the files behind it."""
    files = [text or b"" for text in files]
    if words[0] in ("init", "init-from"):
        return begun(words, given, files)
    try:
        store = Store.opened(files)
    except Unopened as why:
        return Run(b"", 3, str(why)), files
    run = Run(store.index.report(), 0, "") if words[0] == "dump" else store.replayed(given)
    return run, [bytes(text) for text in store.files]
