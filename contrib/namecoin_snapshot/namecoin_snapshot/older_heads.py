"""Which head a file without a magic has: Core 0.20 and 0.21 have the number of the chain's transactions behind that of the outputs,
and later nodes don't. Nothing in the head tells it, so it is told by the outputs behind."""
from .coins import INDEX, MOST_SCRIPT, RAW, TXID, coin_at, script_end
from .numbers import MOST_COMPACT, BadNumber

# The number of the chain's transactions.
CHAIN_COUNT = 4
# So many outputs are looked at; at a wrong place the index of one is bytes of a txid, of which one in 128 passes.
LOOKED_AT = 1000


def has_chain_count(data, is_all, count, height):
    """Whether the outputs that begin the bytes stand behind four bytes more, by which place more of them are outputs of blocks up to
    the height. `is_all`: nothing stands behind the bytes."""
    passed, is_well = outputs_from(data, 0, is_all, count, height)
    return not is_well and outputs_from(data, CHAIN_COUNT, is_all, count, height)[0] > passed


def outputs_from(data, at, is_all, count, height):
    """How many outputs the bytes have from a place on, of those that are looked at, and one more where all stand there and nothing
    behind them; and whether nothing speaks against them."""
    for number in range(min(count, LOOKED_AT)):
        index_at = at + TXID
        at = index_at + INDEX
        if at > len(data):
            return number, True
        if int.from_bytes(data[index_at:at], "little") > MOST_COMPACT:
            return number, False
        try:
            _, size, start = coin_at(data, at, height)
        except BadNumber:
            return number, False
        except IndexError:
            return number, True
        at = script_end(size, start)
        if size > RAW + MOST_SCRIPT:
            return number, False
        if at > len(data):
            return number, True
    is_well = at == len(data) or count > LOOKED_AT or not is_all
    return count + is_well, is_well
