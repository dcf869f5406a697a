#!/usr/bin/env python3
"""Writes the frames that connect 13 made blocks on a base of the height 0: the last registers `d/example`, with one address.

usage: bench/example_feed.py > data/example_feed.bin
"""
import struct
import sys

from blocks import CONNECT, FIRST, NEW, block_hash, block_of, coinbase, name_script, named, outpoint
from digests import double_sha256, hash160

NAME, SALT, VALUE = b"d/example", b"\x01\x02\x03\x04", b'{"ip":"192.0.2.7"}'
NO_COIN = outpoint(b"\xee" * 32, 1)
MATURITY = 12


def blocks():
    """A commitment in the first block, and its opening 12 blocks later."""
    commitment = named(NO_COIN, name_script(NEW, hash160(SALT + NAME)))
    opening = named(outpoint(double_sha256(commitment)), name_script(FIRST, NAME, SALT, VALUE))
    tip = bytes(32)
    for height in range(1, 2 + MATURITY):
        block = block_of(height, tip, [coinbase(height), *{1: [commitment], 1 + MATURITY: [opening]}.get(height, [])])
        tip = block_hash(block)
        yield block


if __name__ == "__main__":
    for block in blocks():
        sys.stdout.buffer.write(CONNECT + struct.pack("<I", len(block)) + block)
