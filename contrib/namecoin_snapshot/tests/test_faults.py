"""Files that no node writes: each fault is named with its place, and nothing is left of a snapshot."""
import unittest.mock

from .case import BASE, FIRST, HEIGHT, NEW, PAYS, UPDATE, Case, Status, name_script, unittest
from .node_files import LAYOUTS, NETWORKS, NEWER, OLDER, Coin, bodies, file_text, head
from .node_files import coin_text, compact_size, compressed_amount, varint

from namecoin_snapshot import makes, unspent

HEADS = {OLDER: 40, NEWER: 51}
# Where an output begins whose outpoint is the first of a file, behind that outpoint.
COINS = {OLDER: 40 + 36, NEWER: 51 + 32 + 1 + 1}
COIN = Coin(b"\x01" * 32, 0, HEIGHT, name_script(UPDATE, b"d/one", b"v"))
COINS_OF_ALL = [
    Coin(b"\x01" * 32, 0, HEIGHT, name_script(UPDATE, b"d/one", b"v" * 80) + PAYS, 123_456_789),
    Coin(b"\x01" * 32, 300, 500, PAYS, 21 * 10**14),
    Coin(b"\x02" * 32, 1, 0, name_script(NEW, bytes(20))),
    Coin(b"\x03" * 32, 0, HEIGHT - 1, name_script(FIRST, b"d/two", b"salt", b"{}"), is_coinbase=True),
]
NETWORK = NETWORKS["regtest"]


def with_coin(layout, text, outpoint=COIN):
    """A file of one output with these bytes behind its outpoint."""
    at = outpoint.txid + (outpoint.index.to_bytes(4, "little") if layout == OLDER else b"\x01" + compact_size(outpoint.index))
    return head(layout, BASE, 1, NETWORK) + at + text


class Faults(Case):
    def test_cut(self):
        """At each byte: the place is the end of the file, and the output is told."""
        for layout in LAYOUTS:
            text = file_text(layout, COINS_OF_ALL)
            ends = [HEADS[layout]]
            for body in bodies(layout, COINS_OF_ALL):
                ends.append(ends[-1] + len(body))
            self.assertEqual(ends[-1], len(text))
            for length in range(len(text)):
                behind = sum(length >= end for end in ends)
                inside = "its head" if not behind else f"output {behind} of 4"
                self.bad_at(text[:length], length, f"the file is cut: it ends inside {inside}")

    def test_cut_in_a_long_script(self):
        for layout in LAYOUTS:
            text = file_text(layout, [Coin(bytes(32), 0, 1, bytes(30_000)), COIN])
            for length in (100, 20_000, 30_010):
                with unittest.mock.patch.object(unspent, "PIECE", 11_000):
                    self.bad_at(text[:length], length, "the file is cut: it ends inside output 1 of 2")
            self.bad_at(with_coin(layout, varint(1) + varint(1) + varint(2**32 - 1) + bytes(50)), COINS[layout] + 7 + 50, "is cut")

    def test_magic(self):
        """What has neither the magic nor a number of outputs that there can be is a file of neither layout."""
        text = file_text(NEWER, COINS_OF_ALL)
        for place in range(5):
            odd = bytearray(text)
            odd[place] ^= 1
            self.bad_at(bytes(odd), 0, "the magic 7574786fff isn't there")
        self.bad_at(b"PK\3\4" + b"\x99" * 100, 0, "the magic 7574786fff isn't there")

    def test_version(self):
        text = file_text(NEWER, COINS_OF_ALL)
        for version in (0, 1, 3, 258, 65535):
            self.bad_at(text[:5] + version.to_bytes(2, "little") + text[7:], 5, f"the file has version {version}, and only 2 is read")

    def test_network(self):
        main = file_text(NEWER, COINS_OF_ALL, network=NETWORKS["main"])
        self.bad_at(main, 7, "of another network: its magic is f9beb4fe, and not fabfb5da")
        regtest = file_text(NEWER, COINS_OF_ALL)
        self.bad_at(regtest, 7, "of another network: its magic is fabfb5da, and not f9beb4fe", profile="main")
        self.bad_at(file_text(NEWER, [], network=b"\xf9\xbe\xb4\xd9"), 7, "f9beb4d9", profile="main")

    def test_count(self):
        """Above all that there can be; more than there are; fewer than there are."""
        self.bad_at(file_text(NEWER, [], count=2**40 + 1), 43, f"the number of outputs is {2**40 + 1}, which is more than there can be")
        for layout in LAYOUTS:
            text = file_text(layout, COINS_OF_ALL, count=5)
            self.bad_at(text, len(text), "the file is cut: it ends inside output 5 of 5")
            text = file_text(layout, COINS_OF_ALL, count=2**40)
            self.bad_at(text, len(text), f"inside output 5 of {2**40}")
            last = len(list(bodies(layout, COINS_OF_ALL))[-1])
            fewer = file_text(layout, COINS_OF_ALL, count=3)
            self.bad_at(fewer, len(fewer) - last, "bytes stand behind the last of 3 outputs")

    def test_count_of_a_transaction(self):
        begins = head(NEWER, BASE, 2, NETWORK) + b"\x01" * 32
        self.bad_at(begins + compact_size(3) + bytes(99), 83, "the number of a transaction's outputs is 3, and 2 are left of all")
        self.bad_at(begins + compact_size(0) + bytes(99), 83, "the number of a transaction's outputs is 0")
        text = file_text(NEWER, COINS_OF_ALL, count=1)
        self.bad_at(text, 83, "the number of a transaction's outputs is 2, and 1 are left of all")

    def test_compact_sizes(self):
        begins = head(NEWER, BASE, 2, NETWORK) + b"\x01" * 32
        for number, told in (("fd0100", "isn't of the shortest form"), ("ff" * 9, "above 33554432"), ("fe01000002", "above 33554432")):
            self.bad_at(begins + bytes.fromhex(number) + bytes(99), 83, told)
            self.bad_at(begins + b"\x01" + bytes.fromhex(number) + bytes(99), 84, told)

    def test_bytes_behind(self):
        for layout in LAYOUTS:
            text = file_text(layout, COINS_OF_ALL)
            for rest in (b"\0", b"\0" * 20_000, b"\0" * (unspent.PIECE + 1)):
                self.bad_at(text + rest, len(text), "bytes stand behind the last of 4 outputs")
            empty = file_text(layout, [])
            self.bad_at(empty + b"\0", len(empty), "bytes stand behind the last of 0 outputs")
            with unittest.mock.patch.object(unspent, "PIECE", len(text)):
                self.bad_at(text + b"\0", len(text), "bytes stand behind")

    def test_varints(self):
        """Height, amount and size of a script that have more bits than a node reads."""
        for layout in LAYOUTS:
            at = COINS[layout]
            behind = bytes(30)
            self.bad_at(with_coin(layout, varint(2**32) + behind), at, "a VARINT is above 4294967295")
            self.bad_at(with_coin(layout, b"\x80" * 40), at, "a VARINT is above 4294967295")
            self.bad_at(with_coin(layout, varint(8) + varint(2**64) + behind), at + 1, "a VARINT is above 18446744073709551615")
            self.bad_at(with_coin(layout, varint(8) + varint(9) + varint(2**32) + behind), at + 2, "a VARINT is above 4294967295")

    def test_heights(self):
        """Also those of outputs without a name."""
        for layout in LAYOUTS:
            for script in (COIN.script, PAYS):
                text = file_text(layout, [COIN._replace(script=script)])
                self.bad_at(text, COINS[layout], f"an output has the height {HEIGHT}, above the base's, {HEIGHT - 1}", height=HEIGHT - 1)
                self.made(text)

    def test_amounts(self):
        most = 21 * 10**14
        for layout in LAYOUTS:
            for amount in (most + 1, 10**17, most + 10**9):
                text = with_coin(layout, varint(2) + varint(compressed_amount(amount)) + b"\x06")
                self.bad_at(text, COINS[layout] + 1, f"an output has the amount {amount}, more than there can be")
            self.made(with_coin(layout, varint(2) + varint(compressed_amount(most)) + b"\x06"))

    def test_lengths(self):
        """Names and values that are too long, where they aren't expired."""
        scripts = [(name_script(UPDATE, b"n" * 256, b""), "a name has 256 bytes, and 255 at most are allowed")]
        scripts += [(name_script(FIRST, b"n" * 256, b"", b""), "a name has 256 bytes")]
        scripts += [(name_script(FIRST, b"n", b"", b"v" * 1024), "a value has 1024 bytes")]
        scripts += [(name_script(UPDATE, b"n", b"v" * 1024), "a value has 1024 bytes, and 1023 at most are allowed")]
        for layout in LAYOUTS:
            for script, told in scripts:
                coin = COIN._replace(script=script)
                self.bad_at(file_text(layout, [coin]), COINS[layout] + len(coin_text(coin)) - len(script), told)

    def test_an_output_twice(self):
        """Also of two commitments; the place is that of the second one's script."""
        for layout in LAYOUTS:
            for script in (COIN.script, name_script(NEW, bytes(20))):
                coins = [COIN._replace(script=script), COIN._replace(txid=bytes(32), script=PAYS), COIN._replace(script=script)]
                text = file_text(layout, coins)
                self.bad_at(text, len(text) - len(script), f"the output {'01' * 32}:0 is there a second time")

    def test_one_name_twice(self):
        """Of two outputs that aren't expired both outpoints are told, in order, however long the name is."""
        for name in (b"d/same", b"", b"\xff" * 255, b"d/\nno:0"):
            coins = [Coin(bytes([it]) * 31 + b"\x01", it, HEIGHT - it, name_script(UPDATE, name, b"v")) for it in (3, 1)]
            coins.insert(1, Coin(b"\x02" * 32, 0, HEIGHT, name_script(UPDATE, b"d/other", b"v")))
            for layout in LAYOUTS:
                both = (f"the outputs 01{'01' * 31}:1 and 01{'03' * 31}:3 have one name", repr(name)[:99])
                self.refused(file_text(layout, coins), Status.SAME_NAME, *both)

    def test_one_name_of_both_operations(self):
        coins = [COIN, COIN._replace(index=1, script=name_script(FIRST, b"d/one", b"salt", b"other"))]
        told = f"the outputs {'01' * 32}:0 and {'01' * 32}:1 have one name, and neither is expired"
        self.refused(file_text(NEWER, coins), Status.SAME_NAME, told)

    def test_a_snapshot_without_end(self):
        """A start reads fewer bytes than 2^32: the output is told with which there would be more."""
        coins = [COIN._replace(index=it, script=name_script(UPDATE, b"d/%d" % it, b"v")) for it in range(3)]
        text = file_text(NEWER, coins)
        length = len(self.made(text))
        with unittest.mock.patch.object(makes, "MOST_BYTES", length):
            self.made(text)
        self.snapshot.unlink()
        with unittest.mock.patch.object(makes, "MOST_BYTES", length - 1):
            self.bad_at(text, len(text) - len(coins[2].script), f"the snapshot would have more than {length - 1} bytes")


if __name__ == "__main__":
    unittest.main()
