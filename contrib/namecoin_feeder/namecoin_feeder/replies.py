"""The codes of replies, with the names of the refusals and what they say: docs/FORMATS.md and docs/RULES.md have them."""
import typing

ACCEPTED, NO_BLOCK, NOT_ON_TIP, OTHER_ROOT, HEIGHT_LIMIT, NO_ROOM, NOT_TIP, AT_BASE = range(8)
MOST_SAVES, LONG_IMAGE, DISK_FAILED, NO_MEMORY = 29, 30, 0xFD, 0xFE

# Refusals of a block by what it is, or by what the server has room for.
BLOCK_REFUSALS = {
    NO_BLOCK: ("BadBlock", "the bytes are no block"),
    OTHER_ROOT: ("MerkleMismatch", "the header's Merkle root isn't that of the transactions"),
    HEIGHT_LIMIT: ("HeightLimit", "the tip has the greatest height"),
    NO_ROOM: ("JournalFull", "the server's files have no room for it"),
}

# Refusals of a save.
SAVE_REFUSALS = {
    MOST_SAVES: ("CheckpointLimit", "4,294,967,295 saves were made, and the files have no room for one more"),
    LONG_IMAGE: ("ImageLimit", "the text of the index has more than 137,438,953,472 bytes"),
}

# Refusals by a rule on names: of a transaction.
RULES = {
    10: ("MultipleNameInputs", "it has two name inputs or more"),
    11: ("MultipleNameOutputs", "it has two name outputs or more"),
    12: ("PlainWithNameInput", "it isn't of the version of names, and has a name input"),
    13: ("PlainWithNameOutput", "it isn't of the version of names, and has a name output"),
    14: ("NameWithoutOutput", "it is of the version of names, and has no name output"),
    15: ("Greedy", "the amount of its name output is below the least one"),
    16: ("NewWithNameInput", "NAME_NEW with a name input"),
    17: ("NewWrongSize", "NAME_NEW of a hash that hasn't 20 bytes"),
    18: ("UpdateWithoutInput", "it changes a name, and spends no live coin of one"),
    19: ("NameTooLong", "the name has more than 255 bytes"),
    20: ("ValueTooLong", "the value has more than 1023 bytes"),
    21: ("UpdateOfNew", "NAME_UPDATE that spends a commitment"),
    22: ("NameMismatch", "NAME_UPDATE that spends the coin of another name"),
    23: ("FirstNotFromNew", "NAME_FIRSTUPDATE that spends no commitment"),
    24: ("Immature", "NAME_FIRSTUPDATE fewer than 12 blocks after the commitment"),
    25: ("RandTooLong", "NAME_FIRSTUPDATE with a salt of more than 20 bytes"),
    26: ("CommitMismatch", "NAME_FIRSTUPDATE of what the commitment isn't for"),
    27: ("NameTaken", "NAME_FIRSTUPDATE of a name that isn't expired"),
    28: ("DuplicateOutpoint", "a live coin stands at its name output already"),
}


class Reply(typing.NamedTuple):
    code: int
    payload: bytes

    @property
    def number(self):
        """The payload's number of four bytes: an offset, a transaction's index, the height before the hash, or how many saves."""
        return int.from_bytes(self.payload[:4], "little")

    @property
    def is_rule(self):
        return self.code in RULES


def reason(reply, transaction=None):
    """Why a block was refused: the code, the refusal's name, and the transaction or the place; None for no refusal of a block."""
    if reply.is_rule:
        name, meaning = RULES[reply.code]
        told = f", {transaction}" if transaction else ""
        return f"code {reply.code}, {name}: {meaning}: transaction {reply.number} of the block{told}"
    if reply.code not in BLOCK_REFUSALS:
        return None
    name, meaning = BLOCK_REFUSALS[reply.code]
    place = f", from byte {reply.number} on" if reply.code == NO_BLOCK else ""
    return f"code {reply.code}, {name}: {meaning}{place}"
