"""Files of unspent outputs as `dumptxoutset` writes them, of each layout. Nothing of the reader's is used."""
import itertools
import struct
import typing

# The network magic of each profile (Namecoin Core, chainparams.cpp).
NETWORKS = {"main": b"\xf9\xbe\xb4\xfe", "regtest": b"\xfa\xbf\xb5\xda"}
OLDEST, OLDER, NEWER = "oldest", "older", "newer"
# Those that a head or nothing tells apart; the oldest is known by its outputs, so that their transactions may have no odd hashes.
LAYOUTS = (OLDER, NEWER)
# How many transactions the chain has, as the oldest layout tells it.
CHAIN_COUNT = 7_654_321


class Coin(typing.NamedTuple):
    txid: bytes
    index: int
    height: int
    script: bytes
    amount: int = 1_000_000
    is_coinbase: bool = False


def varint(number):
    """Bitcoin Core's WriteVarInt, line by line."""
    digits = [number & 0x7F]
    while number > 0x7F:
        number = (number >> 7) - 1
        digits.append(number & 0x7F | 0x80)
    return bytes(reversed(digits))


def compact_size(number):
    for limit, mark, form in ((0xFD, b"", "<B"), (2**16, b"\xfd", "<H"), (2**32, b"\xfe", "<I")):
        if number < limit:
            return mark + struct.pack(form, number)
    return b"\xff" + struct.pack("<Q", number)


def compressed_amount(amount):
    """Bitcoin Core's CompressAmount."""
    if amount == 0:
        return 0
    exponent = 0
    while amount % 10 == 0 and exponent < 9:
        amount //= 10
        exponent += 1
    if exponent == 9:
        return 1 + (amount - 1) * 10 + 9
    return 1 + (amount // 10 * 9 + amount % 10 - 1) * 10 + exponent


def compressed_script(script):
    """Bitcoin Core's CompressScript and its Serialize: special scripts by a number, all others behind their length and six."""
    if len(script) == 25 and script[:3] == b"\x76\xa9\x14" and script[23:] == b"\x88\xac":
        return b"\0" + script[3:23]
    if len(script) == 23 and script[:2] == b"\xa9\x14" and script[22:] == b"\x87":
        return b"\1" + script[2:22]
    if len(script) == 35 and script[0] == 33 and script[1] in (2, 3) and script[34:] == b"\xac":
        return script[1:34]
    if len(script) == 67 and script[:2] == b"\x41\x04" and script[66:] == b"\xac":
        return bytes([4 + script[65] % 2]) + script[2:34]
    return varint(len(script) + 6) + script


def coin_text(coin):
    return varint(2 * coin.height + coin.is_coinbase) + varint(compressed_amount(coin.amount)) + compressed_script(coin.script)


def head(layout, base, count, network):
    marks = b"utxo\xff" + struct.pack("<H", 2) + network if layout == NEWER else b""
    behind = struct.pack("<I", CHAIN_COUNT) if layout == OLDEST else b""
    return marks + base + struct.pack("<Q", count) + behind


def bodies(layout, coins):
    """The bytes of each coin, with the outpoint or what is left of it before them."""
    for _, group in itertools.groupby(coins, lambda coin: coin.txid):
        group = list(group)
        for place, coin in enumerate(group):
            if layout != NEWER:
                yield coin.txid + struct.pack("<I", coin.index) + coin_text(coin)
            else:
                yield (b"" if place else coin.txid + compact_size(len(group))) + compact_size(coin.index) + coin_text(coin)


def file_text(layout, coins, base=bytes(range(32)), network=NETWORKS["regtest"], count=None):
    """A whole file; coins of one transaction stand together."""
    return head(layout, base, len(coins) if count is None else count, network) + b"".join(bodies(layout, coins))
