"""Name scripts: the scripts of outputs that hold a name (docs/FORMATS.md)."""

# NAME_NEW, with the hash that it commits to; NAME_FIRSTUPDATE, with name, salt and value; NAME_UPDATE, with name and value.
NEW, FIRST, UPDATE = 0x51, 0x52, 0x53
# How many pushes stand behind each.
PUSHES = {NEW: 1, FIRST: 3, UPDATE: 2}
# OP_DROP, OP_2DROP and OP_NOP end them.
DROPS = (0x75, 0x6D, 0x61)
# The bytes of the length behind OP_PUSHDATA1, 2 and 4. Below these an opcode is the length itself.
MOST_DIRECT, WIDTHS = 0x4B, {0x4C: 1, 0x4D: 2, 0x4E: 4}


def pushes_of(script):
    """What a name script pushes, in order; None where it is none."""
    pushes, at, end = [], 1, len(script)
    for _ in range(PUSHES.get(script[0], 0) if script else 0):
        if at >= end:
            return None
        length = script[at]
        at += 1
        if length > MOST_DIRECT:
            width = WIDTHS.get(length)
            if width is None:
                return None
            length = int.from_bytes(script[at : at + width], "little")
            at += width
        start, at = at, at + length
        if at > end:
            return None
        pushes.append(script[start:at])
    return pushes if pushes and at < end and script[at] in DROPS else None
