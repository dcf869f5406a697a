"""Files with many outputs, and what a run over them takes."""
import random
import sys

from . import SNAPSHOT
from .node_files import NETWORKS, Coin, bodies, head

from blocks import UPDATE, name_script
from uses import use_of

HEIGHT = 500_000
PAYS = b"\x76\xa9\x14" + bytes(range(20)) + b"\x88\xac"
VALUE = b'{"ip":"192.0.2.1","map":{"www":{"alias":""}}}'


def write_many(path, layout, names, others, is_ordered):
    """A file for the profile main, with so many names and so many other outputs, each of a transaction of its own, in a node's order
    or in none."""
    count = names + others
    order = range(count) if is_ordered else random.Random(1).sample(range(count), count)
    with open(path, "wb") as out:
        out.write(head(layout, bytes(range(32)), count, NETWORKS["main"]))
        for number in order:
            is_name = number * names // count != (number + 1) * names // count
            script = name_script(UPDATE, b"d/%07d" % number, VALUE) + PAYS if is_name else PAYS
            coin = Coin(number.to_bytes(4, "big") * 8, 1, HEIGHT, script, 1_000_000 if is_name else 4_998_500_000 + number)
            out.writelines(bodies(layout, [coin]))


def used(path):
    """What a run over such a file takes."""
    words = ["main", path, path.with_suffix(".snapshot"), "--height", HEIGHT, "--host", "ns.example."]
    return use_of([sys.executable, "-m", "namecoin_snapshot", *words], SNAPSHOT)


def memory_of_a_name(room, layout, few, many, is_ordered):
    """The greatest memory of a run over many names less that of one over few, for each name more."""
    path, memory = room / "many", []
    for names in (few, many):
        write_many(path, layout, names, 0, is_ordered)
        memory.append(used(path).memory)
    return (memory[1] - memory[0]) / (many - few)
