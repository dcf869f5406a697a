"""The summary of a self-test, by the models of chains and of answers: it is written from docs/FORMATS.md, and shares nothing with the
code.
"""
import struct
import typing

from answers_model import A, reply_to, zone_of
from generated_zones import message
from model import Model

from blocks import CONNECT, DISCONNECT, FIRST, NEW, NOWHERE, UPDATE, block_hash, block_of, coinbase, frame, name_script, named, outpoint
from digests import double_sha256, hash160

HOST = "ns.example."
NAMES, REJOINS, SAVES = 64, 20, 50
# So many blocks behind its NAME_NEW a name is opened, and so many behind its last change it is committed to anew.
WAITS, STANDS = 12, 30
MULTIPLIER, INCREMENT, MODULUS = 6364136223846793005, 1442695040888963407, 1 << 64


class Made(typing.NamedTuple):
    """The output of a name transaction, and the height of its block."""

    coin: bytes
    height: int


class Stand(typing.NamedTuple):
    """What is known of a name: its NAME_NEW that waits, and its last change."""

    waiting: typing.Optional[Made] = None
    changed: typing.Optional[Made] = None


def drawn(seed):
    """Numbers without an end, each told by the seed."""
    while True:
        seed = (seed * MULTIPLIER + INCREMENT) % MODULUS
        yield seed >> 33


def rand_of(height):
    return struct.pack("<I", height)


def value_of(height):
    return b'{"ip":"10.0.%d.%d"}' % (height // 256 % 256, height % 256)


def deed_of(name, stand, height):
    """What the block of a height does to a name: its name transaction, or None; and how the name stands behind it."""
    if stand.waiting and stand.waiting.height + WAITS > height:
        return None, stand
    if stand.waiting:
        script, spent = name_script(FIRST, name, rand_of(stand.waiting.height), value_of(height)), stand.waiting.coin
    elif stand.changed and height < stand.changed.height + STANDS:
        script, spent = name_script(UPDATE, name, value_of(height)), stand.changed.coin
    else:
        script, spent = name_script(NEW, hash160(rand_of(height) + name)), outpoint(NOWHERE, height)
    made = named(spent, script)
    coin = Made(outpoint(double_sha256(made)), height)
    return made, stand._replace(waiting=coin) if script[:1] == NEW else Stand(changed=coin)


def is_answered(model, number, height):
    """Whether the query of a block has a reply with RCODE 0 and an answer."""
    served = {name: value for name in model.given() if (value := model.served(name)) is not None}
    query = message(height % 65536, (b"n%d" % number, b"bit"), A)
    text = reply_to(zone_of(served, HOST, model.height), query).text()
    return text[3] & 0x0F == 0 and text[6:8] != b"\0\0"


def summary_of(blocks, seed):
    """The lines of `selftest`, where memory isn't wanting."""
    model, stands, draws, answers = Model(), [Stand()] * NAMES, drawn(seed), 0
    for height, draw in zip(range(1, blocks + 1), draws):
        number = draw % NAMES
        made, stands[number] = deed_of(b"d/n%d" % number, stands[number], height)
        block = block_of(height, model.tip, [coinbase(height), *([made] if made else [])])
        frames = [frame(CONNECT, block)]
        if height % REJOINS == 0:
            frames += [frame(DISCONNECT, block_hash(block)), frame(CONNECT, block)]
        for code, *_ in map(model.answer, frames):
            if code != 0:
                raise ValueError(f"the block of height {height} is refused: {code}")
        if height % SAVES == 0:
            model.save()
        answers += 2 * is_answered(model, number, height)
    names = list(model.given())
    figures = {
        "blocks": blocks,
        "tip": model.tip[::-1].hex(),
        "names": len(names),
        "served": sum(model.served(name) is not None for name in names),
        "answers": answers,
        "hits": blocks,
        "missed": 0,
        "saves": model.selections,
    }
    return "".join(f"{word} {figure}\n" for word, figure in figures.items()).encode()
