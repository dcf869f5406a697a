"""Files of a store whose selected area has a given text as its image, and indexes of generated chains."""
import random

from files_model import CLOSED, Store
from generated_chains import Branch
from images_model import Base, Index, number
from sessions import HOST


def files_with(base, text, selections=1):
    """Files whose selected area has this text, after so many saves."""
    store = Store(base, HOST)
    for _ in range(selections):
        store.saved()
    store.files[store.area] = number(8, len(text)) + text + CLOSED
    return [bytes(it) for it in store.files]


def chain_of(seed, blocks):
    """The index of a generated chain of so many blocks."""
    branch = Branch(random.Random(seed), Index(Base("regtest", 0, bytes(32))))
    while branch.height < blocks:
        branch.grow()
    return branch.model
