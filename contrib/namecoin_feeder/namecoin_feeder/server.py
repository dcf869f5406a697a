"""The feed of a server: frames go out and their replies come back in order, over a connection or another way."""
import collections
import select
import socket
import struct

from .blocks import NO_HASH, shown
from .replies import ACCEPTED, AT_BASE, DISK_FAILED, HEIGHT_LIMIT, NO_MEMORY, NOT_ON_TIP, NOT_TIP, OTHER_ROOT, SAVE_REFUSALS, Reply
from .troubles import FeedEnded, ServerTrouble, Status, Stop

CONNECT, DISCONNECT, SAVE = b"\x01", b"\x02", b"\x04"
MOST_PAYLOAD = 65_535
# The reply to a save comes once the index is on the disk: of a server that has gone, the connection's end comes sooner.
SAVE_SECONDS = 3600.0
ROOM = 65_536

# A block that no server takes: its previous hash and its Merkle root are 32 zero bytes. It is refused with the hash of the
# tip; or with the root of its transaction, where the tip is 32 zero bytes itself. A refused disconnect tells the tip too, but
# not where the server stands on its base.
PROBE = b"".join(
    [
        struct.pack("<I32s32sIII", 1, NO_HASH, NO_HASH, 0, 0, 0),
        b"\x01" + struct.pack("<I", 1),
        b"\x01" + bytes(36) + b"\0" + bytes(4),
        b"\x01" + bytes(8) + b"\0" + bytes(4),
    ]
)


def frame(kind, payload):
    return kind + struct.pack("<I", len(payload)) + payload


class Feed:
    """Where a server's chain stands, as its replies tell it. How frames go out and replies come back is left to the classes below:
    `reach` makes the way where there is none, `send` takes frames, `reply` gives the next reply, and `drop` lets go of the way."""

    name = ""

    def __init__(self):
        self.tip = None
        # The height that the reply to the last accepted command told.
        self.height = None
        # What was sent and isn't answered yet, the oldest first.
        self.sent = collections.deque()

    @property
    def title(self):
        return f"the server at {self.name}"

    def open(self):
        """Makes the way to the server and asks for the tip, where that isn't done. Whether it was done now."""
        self.reach()
        if self.tip is not None:
            return False
        self.send([frame(CONNECT, PROBE)])
        self.tip = self.tip_of(self.read())
        return True

    def forget(self):
        """Whatever was sent and isn't answered may or may not be in the chain."""
        self.tip = None
        self.sent.clear()

    def tip_of(self, reply):
        """The tip that the reply to the block which no server takes tells."""
        if reply.code == NOT_ON_TIP and len(reply.payload) == len(NO_HASH):
            return reply.payload
        if reply.code in (OTHER_ROOT, HEIGHT_LIMIT):
            return NO_HASH
        raise self.unexpected(reply)

    def connect(self, blocks):
        """Sends blocks, in order; `answer` gives their replies."""
        self.sent.extend(blocks)
        self.send([frame(CONNECT, block.data) for block in blocks])

    def answer(self):
        """The oldest block that isn't answered yet, and its reply."""
        reply = self.read()
        block = self.sent.popleft()
        if reply.code == ACCEPTED:
            self.accepts(reply)
            if self.tip != block.hash:
                raise self.unexpected(reply)
        return block, reply

    def disconnect(self):
        """Takes the newest block off; False where the chain has none on its base."""
        self.send([frame(DISCONNECT, self.tip)])
        reply = self.read()
        if reply.code == ACCEPTED:
            self.accepts(reply)
        elif reply.code == NOT_TIP:
            raise self.moved(reply)
        elif reply.code != AT_BASE:
            raise self.unexpected(reply)
        return reply.code == ACCEPTED

    def is_on_base(self):
        """Whether the chain has no block on its base: what the refusal of a disconnect tells whose hash is no block's."""
        self.send([frame(DISCONNECT, NO_HASH)])
        reply = self.read()
        if reply.code not in (AT_BASE, NOT_TIP):
            raise self.unexpected(reply)
        return reply.code == AT_BASE

    def save(self):
        """Asks for a save, all blocks being answered. Its reply: how many saves there were, a refusal of one, or that memory is wanting."""
        self.send([frame(SAVE, b"")])
        reply = self.reply(SAVE_SECONDS)
        if reply.code == DISK_FAILED:
            self.drop()
            raise ServerTrouble("the server's disk failed at a save (code FD): is there room for its index once more?")
        if reply.code == ACCEPTED and len(reply.payload) != 8 or reply.code not in (ACCEPTED, NO_MEMORY, *SAVE_REFUSALS):
            raise self.unexpected(reply)
        return reply

    def accepts(self, reply):
        if len(reply.payload) != 4 + len(NO_HASH):
            raise self.unexpected(reply)
        self.height, self.tip = reply.number, reply.payload[4:]

    def moved(self, reply):
        """The trouble that the server stands on another block than it said; the reply tells which."""
        if len(reply.payload) != len(NO_HASH):
            return self.unexpected(reply)
        self.tip = reply.payload
        return ServerTrouble(f"the server stands on another block than before, {shown(self.tip)}: who else feeds it?")

    def read(self):
        """The next reply to a block. The two that tell of the server's own want are troubles."""
        return self.wanted(self.reply())

    def wanted(self, reply):
        if reply.code == DISK_FAILED:
            self.drop()
            raise ServerTrouble("the server's disk failed (code FD)")
        if reply.code == NO_MEMORY:
            self.drop()
            raise ServerTrouble("the server is out of memory (code FE)")
        return reply

    def unexpected(self, reply):
        self.drop()
        told = f"code {reply.code}, payload {reply.payload[:40].hex() or 'empty'}"
        return Stop(Status.SERVER, f"what answers at {self.name} is no feed that this program knows: {told}")


class Server(Feed):
    """One connection at a time."""

    def __init__(self, address, seconds):
        super().__init__()
        self.address, self.seconds = address, seconds
        self.socket = self.stream = None

    @property
    def name(self):
        return "{}:{}".format(*self.address)

    def reach(self):
        if self.socket is not None and not self.sent and self.is_readable():
            raise self.lost(None)
        try:
            if self.socket is None:
                self.socket = socket.create_connection(self.address, self.seconds)
                self.socket.setsockopt(socket.IPPROTO_TCP, socket.TCP_NODELAY, 1)
                self.stream = self.socket.makefile("rb", ROOM)
        except OSError as fault:
            self.drop()
            raise ServerTrouble(f"{self.title} isn't reached: {told(fault)}") from None

    def is_readable(self):
        """Whether something comes unasked, which is the connection's end: the server may have been started anew."""
        return bool(select.select([self.socket], [], [], 0)[0])

    def drop(self):
        """Closes the connection."""
        for item in (self.stream, self.socket):
            if item is not None:
                item.close()
        self.socket = self.stream = None
        self.forget()

    def send(self, frames):
        try:
            self.socket.sendall(b"".join(frames))
        except OSError as fault:
            raise self.lost(fault) from None

    def reply(self, seconds=0.0):
        """The next reply, whatever it is; it may take so many seconds, where that is longer than usual."""
        if seconds <= self.seconds:
            return self.next_reply()
        self.socket.settimeout(seconds)
        reply = self.next_reply()
        self.socket.settimeout(self.seconds)
        return reply

    def next_reply(self):
        head = self.take(5)
        length = int.from_bytes(head[1:], "little")
        if length > MOST_PAYLOAD:
            raise self.unexpected(Reply(head[0], b""))
        return Reply(head[0], self.take(length))

    def take(self, length):
        try:
            text = self.stream.read(length)
        except OSError as fault:
            raise self.lost(fault) from None
        if len(text) < length:
            raise self.lost(None)
        return text

    def lost(self, fault):
        """The trouble that the connection is lost."""
        self.drop()
        kind = ServerTrouble if isinstance(fault, socket.timeout) else FeedEnded
        return kind(f"{self.title} " + (f"is lost: {told(fault)}" if fault else "closed the feed"))


def told(fault):
    """What a fault of the system says, in few words."""
    if isinstance(fault, socket.timeout):
        return "no answer in time"
    return fault.strerror or str(fault) or type(fault).__name__
