"""The two profiles: the network's magic, where its node is found, and for how many blocks a name stands (docs/RULES.md)."""
import typing

# No base is higher.
MOST_HEIGHT = 2_000_000_000


class Profile(typing.NamedTuple):
    magic: bytes
    node: str
    cookie: str
    depth: typing.Callable

    def last_expired(self, height):
        """The greatest height of which the names are expired at this one; below 0 where none are."""
        return height - self.depth(height)


def regtest_depth(height):
    return 30


def main_depth(height):
    if height < 24_000:
        return 12_000
    return height - 12_000 if height < 48_000 else 36_000


# The magic is the network's, by which its nodes begin each message (Namecoin Core, chainparams.cpp).
PROFILES = {
    "regtest": Profile(bytes.fromhex("fabfb5da"), "http://127.0.0.1:18443/", "~/.namecoin/regtest/.cookie", regtest_depth),
    "main": Profile(bytes.fromhex("f9beb4fe"), "http://127.0.0.1:8336/", "~/.namecoin/.cookie", main_depth),
}
