"""Snapshots of many names, in order, each with a short value: 54 bytes a make, for up to a million of them."""
import struct

from blocks import UPDATE

HEAD, VALUE = b"NMCS\x01", b"{}"


def name_of(number):
    return b"d/%06d" % number


def write_snapshot(path, names, heights):
    """A snapshot of so many names, whose heights are these by turns. Its length."""
    with open(path, "wb", 1 << 20) as out:
        out.write(HEAD + struct.pack("<I", names))
        for number in range(names):
            name, height = name_of(number), heights[number % len(heights)]
            at = number.to_bytes(4, "big") * 8 + struct.pack("<I", 1)
            out.write(at + UPDATE + struct.pack("<IB", height, len(name)) + name + struct.pack("<H", len(VALUE)) + VALUE)
    return path.stat().st_size
