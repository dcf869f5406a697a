"""A Namecoin Core node as the source of blocks, by its JSON-RPC."""
import collections
import itertools
import re

from .blocks import BELOW_ALL, MOST_BYTES, NO_HASH, Header, Place, block_of, hash_of, shown, too_long
from .http_calls import Calls, RpcError, TooLong
from .troubles import Moved, NodeTrouble, Status, Stop

NOT_FOUND, OUT_OF_RANGE, MISC = -5, -8, -1
# What may be held of a reply: the hexadecimal of the longest block, and some.
MOST_TEXT = 2 * MOST_BYTES + 4096
# Hashes are asked for so many at a time, and blocks in runs: so many runs ahead, each of so many blocks at most, which come to
# some 512 KiB if they are as long as those before.
HASHES, RUNS, MOST_IN_A_RUN, RUN_BYTES = 500, 4, 16, 524_288
# No chain that the server takes is higher.
MOST_HEIGHT = 2_000_000_000
# The work of a chain, as nodes write it: 256 bits in hexadecimal.
WORK = re.compile("[0-9A-Fa-f]{64}")


def whole(number, least, most):
    """A whole number within its bounds; JSON has others, and texts, and nothing at all."""
    if type(number) is not int or not least <= number <= most:
        raise ValueError
    return number


def header_of(hash, found):
    """What a node tells of a block; an error where that isn't what nodes tell."""
    if found["hash"] != shown(hash) or not WORK.fullmatch(found["chainwork"]):
        raise ValueError
    height = whole(found["height"], 0, MOST_HEIGHT)
    previous = hash_of(found["previousblockhash"]) if height or "previousblockhash" in found else NO_HASH
    if len(previous) != len(NO_HASH):
        raise ValueError
    confirmations = whole(found["confirmations"], -1, MOST_HEIGHT + 1)
    return Header(hash, previous, height, confirmations >= 0, int(found["chainwork"], 16), max(0, confirmations))


class Node:
    name = "the node"
    is_fixed = False
    knows_heights = True

    def __init__(self, url, credentials, seconds):
        self.calls = Calls(url, credentials, seconds)
        self.last_best = None

    def close(self):
        self.calls.close()

    def ask(self, *request):
        """The result of one request; an error of the node's is raised."""
        [result] = self.calls.start([request]).results(MOST_TEXT)
        if isinstance(result, RpcError):
            raise result
        return result

    def best(self):
        """The tip of the node's best chain."""
        hash = self.read_hash(self.wanted("getbestblockhash"))
        if self.last_best is None or self.last_best.hash != hash:
            header = self.header(hash)
            if header is None:
                raise NodeTrouble("the node doesn't know its own best block")
            self.last_best = Place(hash, header.height, header.work)
        return self.last_best

    def header(self, hash):
        """What the node knows of a block; None where it doesn't know it."""
        if hash == NO_HASH:
            return BELOW_ALL
        try:
            found = self.ask("getblockheader", shown(hash))
        except RpcError as error:
            if error.code == NOT_FOUND:
                return None
            raise NodeTrouble(str(error)) from None
        try:
            return header_of(hash, found)
        except (LookupError, TypeError, ValueError):
            raise NodeTrouble("the node gives a header that can't be read") from None

    def is_downloading(self):
        """Whether the node says that it is in its initial download: its best chain may be any old one."""
        return self.chain_state()[0]

    def lacks_blocks(self):
        """Whether the node knows headers above its best block."""
        _, blocks, headers = self.chain_state()
        return headers > blocks

    def chain_state(self):
        """Whether the node is in its initial download; the height of its best chain; and that of its headers."""
        found = self.wanted("getblockchaininfo")
        try:
            is_downloading = found["initialblockdownload"]
            if type(is_downloading) is not bool:
                raise ValueError
            return is_downloading, *(whole(found[it], 0, MOST_HEIGHT) for it in ("blocks", "headers"))
        except (LookupError, TypeError, ValueError):
            raise NodeTrouble("the node tells of its download what can't be read") from None

    def has_rejected(self, hash):
        """Whether the block is the tip of a branch that the node holds to be invalid."""
        tips = self.wanted("getchaintips")
        try:
            return any(tip["hash"] == shown(hash) and tip["status"] == "invalid" for tip in tips)
        except (LookupError, TypeError):
            raise NodeTrouble("the node tells of its branches what can't be read") from None

    def wanted(self, *request):
        try:
            return self.ask(*request)
        except RpcError as error:
            raise NodeTrouble(str(error)) from None

    def transaction(self, hash, index):
        """The txid of a block's transaction, as people write it; None where the node doesn't tell it."""
        try:
            return str(self.ask("getblock", shown(hash), 1)["tx"][index])
        except (RpcError, NodeTrouble, TooLong, LookupError, TypeError):
            return None

    def runs(self, first, last):
        """The blocks of the best chain from one height to another, some at a time; several runs are asked for ahead."""
        hashes, asked, size = self.hashes(first, last), collections.deque(), 1
        try:
            while True:
                while len(asked) < RUNS and (part := list(itertools.islice(hashes, size))):
                    asked.append((part, self.start(part)))
                if not asked:
                    return
                for blocks in self.arrived(*asked.popleft()):
                    yield blocks
                    longest = max(len(block.data) for block in blocks)
                    size = max(1, min(MOST_IN_A_RUN, 2 * size, RUN_BYTES // longest))
        finally:
            for _, call in asked:
                call.drop()

    def hashes(self, first, last):
        for start in range(first, last + 1, HASHES):
            heights = range(start, min(start + HASHES, last + 1))
            for result in self.calls.start([("getblockhash", height) for height in heights]).results(MOST_TEXT):
                yield self.read_hash(self.good(result))

    def start(self, hashes):
        return self.calls.start([("getblock", shown(hash), 0) for hash in hashes])

    def arrived(self, hashes, call):
        """The blocks of a call; one at a time where they are too long together."""
        try:
            results = call.results(MOST_TEXT)
        except TooLong:
            if len(hashes) == 1:
                raise too_long(hashes[0]) from None
            for hash in hashes:
                yield from self.arrived([hash], self.start([hash]))
            return
        yield [self.read_block(hash, result) for hash, result in zip(hashes, results)]

    def good(self, result):
        """A result that is no error. Where the block isn't there any more, the best chain has moved."""
        if not isinstance(result, RpcError):
            return result
        if result.code in (NOT_FOUND, OUT_OF_RANGE):
            raise Moved
        if result.code == MISC and "pruned" in result.text:
            raise Stop(Status.NODE, f"the node has pruned a block that the server needs: {result.text}")
        raise NodeTrouble(str(result))

    def read_hash(self, text):
        try:
            hash = hash_of(text)
        except (TypeError, ValueError):
            hash = b""
        if len(hash) != len(NO_HASH):
            raise NodeTrouble("the node gives a hash that can't be read")
        return hash

    def read_block(self, hash, result):
        try:
            block = block_of(bytes.fromhex(self.good(result)))
        except (TypeError, ValueError):
            raise NodeTrouble("the node gives a block that can't be read") from None
        if block.hash != hash:
            raise NodeTrouble(f"the node gives another block than {shown(hash)}")
        return block
