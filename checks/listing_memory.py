"""Runs of `list` where memory is wanting: with each call for memory of a run failing in turn, and with less and less of it.

A frame that finds none is answered so and did nothing; a run that finds none for its start ends with status 8. A page, the closing of a
session and a slice want none. Behind a connect or a disconnect that found none for what listings are read from and saves in slices are
begun from, no session is opened any more and no save begun, while sessions that are open and a save that runs go on.
"""
from answer_cases import Frames as Written
from common import Run, pieces, run_in
from failed_calls import NO_MEMORY, OUT_OF_MEMORY, Came, folder_of, swept, without_memory
from failing_heap import failing_heap
from files_model import Store, made
from generated_zones import message
from limits import memory
from listings_model import MOST_SESSIONS, OPEN, Lister, close, page
from sliced_saves_model import BEGIN, MOST_SLICE, sliced

from answers_model import A
from blocks import BEGINNING, CLOSING, CONNECT, DISCONNECT, FIRST, OPENING, PAGE, QUERY, SAVE, SLICE, UPDATE, Chain
from blocks import block_hash, frame, name_script, named, outpoint
from digests import double_sha256
from name_chains import MATURITY, commitment, connect, name_of, opening, salt_of, update
from stores import INIT, files_of

SAVING = frame(SAVE, b"")
# The codes in whose place want of memory may stand, by the kind of a command.
IN_ITS_PLACE = {CONNECT: {0, 3, 5, *range(10, 29)}, DISCONNECT: {0, 5}}
# The address space of a run: found by steps of this size, and less than this.
STEP, MOST_MEMORY = 256 << 10, 1 << 30
STEPS, ROUNDS = 40, 8
NAMES, UPDATED, LONG = 300, 150, 1000
# The length of a slice between the blocks.
PIECE, LAST_NUMBER = 20_000, 0xFFFF_FFFF


def back(item):
    """The frame that disconnects the block of a frame."""
    return frame(DISCONNECT, block_hash(item[5:]))


def texts_of(store):
    return [bytes(text) for text in store.files]


# Each call in turn


def came_of(files, size, frames, wanting=None, without_mirror=None):
    """By the model: what comes of the frames, where memory is wanting for one of them; or behind one for what listings are read from and
    saves in slices are begun from."""
    lister, told = Lister(Store.opened(files), size), []
    for at, item in enumerate(frames):
        told.append(without_memory(item) if at == wanting else lister.answer(item))
        lister.has_mirror = lister.has_mirror and at != without_mirror
    return Came(Run(b"".join(told), 0, ""), texts_of(lister.store))


def may_come(files, size, frames):
    """By name, what may come. A page, the closing of a session and a slice take no memory."""
    found = {"the start": Came(OUT_OF_MEMORY, files), "all of it": came_of(files, size, frames)}
    for at, item in enumerate(frames):
        if item[:1] not in (PAGE, CLOSING, SLICE):
            found[f"frame {at}"] = came_of(files, size, frames, wanting=at)
        if item[:1] in (CONNECT, DISCONNECT):
            found[f"no mirror behind {at}"] = came_of(files, size, frames, without_mirror=at)
    return found


def listed(tally, heap, name, files, size, frames, needed):
    """Each call for memory fails in turn, in runs over the files. What these are where none fails."""
    allowed = may_come(files, size, frames)

    def answer(number):
        with folder_of(files) as folder, heap.call(number) as (how, was_made):
            came = Came(run_in(folder, ["list", str(size)], b"".join(frames), **how), files_of(folder))
            return came if was_made() else None

    with folder_of(files) as folder:
        came = Came(run_in(folder, ["list", str(size)], b"".join(frames)), files_of(folder))
    tally.same(f"{name}: with memory", came, allowed["all of it"])
    swept(tally, name, answer, allowed, needed)
    return came.files


def two_names():
    """Blocks that register two names in the last one; and one above it that updates the first."""
    out = Written()
    chain, commitments = Chain(out), [commitment(number) for number in range(2)]
    openings = [opening(number, item) for number, item in enumerate(commitments)]
    for transactions in [commitments, *[[]] * (MATURITY - 1), openings, [update(0, openings[0])]]:
        connect(chain, transactions)
    *blocks, last = pieces(out.text)
    return blocks, last


def failing_calls(tally):
    """Sessions over new files, and over files that keep names, with a save and without."""
    blocks, last = two_names()
    asked = frame(QUERY, message(0x1234, (name_of(0)[2:], b"bit"), A))
    sessions = [OPEN, page(0), last, OPEN, page(1), page(0), back(last), OPEN, page(2), page(1), page(7)]
    again = [close(0), asked, OPEN, last, page(0), OPEN, page(3), page(3), page(3), SAVING]
    frames, end = [*blocks, *sessions, *again], len(blocks)
    # The block that opens the names, the one that updates the first, its disconnect, and the same block again.
    needed = [f"frame {at}" for at in (0, end - 1, end + 2, end + 6, end + 14)]
    needed += [f"no mirror behind {at}" for at in (end - 1, end + 2, end + 6, end + 14)]
    with failing_heap() as heap:
        files = listed(tally, heap, "sessions over new files", texts_of(made(INIT)), 1, frames, ["the start", *needed])
        above = [OPEN, back(last), page(0), OPEN, *[OPEN] * MOST_SESSIONS, last, page(1), OPEN, close(4), OPEN, page(4)]
        needed = ["the start", *(f"{what} {at}" for what in ("frame", "no mirror behind") for at in (1, 4 + MOST_SESSIONS))]
        listed(tally, heap, "sessions over saved files", files, 2, above, needed)
        store = made(INIT)
        for item in blocks:
            store.answer(item)
        listed(tally, heap, "sessions over blocks", texts_of(store), 50, [OPEN, page(0)], ["the start"])


# Less and less memory


def long_value(number):
    return b"%03d" % (number % 1000) * (LONG // 3)


def opened_long(number, committed):
    return named(outpoint(double_sha256(committed)), name_script(FIRST, name_of(number), salt_of(number), long_value(number)))


def updated_long(number, spent, count):
    return named(outpoint(double_sha256(spent)), name_script(UPDATE, name_of(number), long_value(number + count)))


def many_updates():
    """Names with long values, of which each of some blocks updates the half; sessions between them, and saves in slices; blocks that leave
    and come again."""
    out = Written()
    chain, commitments = Chain(out), [commitment(number) for number in range(NAMES)]
    lasts = {number: opened_long(number, item) for number, item in enumerate(commitments)}
    for transactions in [commitments, *[[]] * (MATURITY - 1), list(lasts.values())]:
        connect(chain, transactions)
    for count in range(1, ROUNDS + 1):
        changed = {number: updated_long(number, lasts[number], count) for number in range(count % 2, NAMES, NAMES // UPDATED)}
        lasts.update(changed)
        connect(chain, list(changed.values()))
    blocks = pieces(out.text)
    frames = blocks[:-ROUNDS]
    for count, item in enumerate(blocks[-ROUNDS:]):
        frames += [OPEN, page(count % 3), item, page(count // 2), OPEN, page(count), *([back(item), OPEN, item] if count % 3 == 0 else [])]
        frames += [BEGIN, sliced(PIECE), *([SAVING] if count % 4 == 0 else [])]
    frames += [sliced(LAST_NUMBER)] * (2 * LONG * (NAMES + UPDATED * ROUNDS) // MOST_SLICE)
    frames += [SAVING, BEGIN, sliced(PIECE), close(1), close(6), OPEN, OPEN]
    return [*frames, *(page(number) for number in range(MOST_SESSIONS) for _ in range(NAMES // 50 + 1))]


def may_want(lister, item):
    """Whether want of memory may be the answer to the frame: it isn't where a refusal comes first that takes none."""
    kind = item[:1]
    if kind == OPENING:
        return len(lister.sessions) < MOST_SESSIONS
    if kind in (BEGINNING, SAVE):
        return lister.save is None
    if kind not in IN_ITS_PLACE:
        return False
    before = lister.store.index.copy()
    told = lister.store.commanded(kind, item[5:])
    lister.store.index = before
    return told[0] in IN_ITS_PLACE[kind]


def followed(tally, what, frames, told):
    """The replies are those of a model that isn't told of the frames for which memory was wanting. Its store, and for how many it was."""
    lister, wanting = Lister(made(INIT), 50), 0
    tally.same(f"{what}: the number of replies", len(told), len(frames))
    for number, (item, one) in enumerate(zip(frames, told)):
        if one == NO_MEMORY and may_want(lister, item):
            wanting += 1
        elif not tally.same(f"{what}: reply {number}, to {item[:9].hex()}", one, lister.answer(item)):
            break
    return lister.store, wanting


def in_memory(size, frames):
    """What comes of a run in an address space of so many bytes, over new files."""
    with folder_of(texts_of(made(INIT))) as folder:
        run = run_in(folder, ["list", "50"], b"".join(frames), preexec_fn=memory(size))
        return Came(run, files_of(folder))


def least_memory(holds, below, above):
    """The least address space in which something holds that doesn't in the one below it and does in the one above it, to a step."""
    while above - below > STEP:
        middle = (below + above) // 2
        below, above = (below, middle) if holds(middle) else (middle, above)
    return above


def little_memory(tally):
    """From an address space in which the program just starts to one in which all goes well."""
    frames, seen = many_updates(), set()
    ample = in_memory(MOST_MEMORY, frames)
    store, wanting = followed(tally, "ample memory", frames, pieces(ample.run.output))
    tally.same("ample memory: the end", (ample.run._replace(output=b""), ample.files, wanting), (Run(b"", 0, ""), texts_of(store), 0))
    least = least_memory(lambda size: in_memory(size, []).run.status in (0, OUT_OF_MEMORY.status), 0, MOST_MEMORY)
    most = least_memory(lambda size: in_memory(size, frames) == ample, least, MOST_MEMORY)
    for step in range(STEPS + 1):
        size = least + (most - least) * step // STEPS
        run, files = in_memory(size, frames)
        what = f"an address space of {size} bytes"
        if run.status == OUT_OF_MEMORY.status:
            tally.same(what, Came(run, files), Came(OUT_OF_MEMORY, texts_of(made(INIT))))
            seen.add("the start")
            continue
        store, wanting = followed(tally, what, frames, pieces(run.output))
        tally.same(f"{what}: the end", (run._replace(output=b""), files), (Run(b"", 0, ""), texts_of(store)))
        seen.add("some frames" if wanting else "none")
    tally.check("little memory", seen >= {"some frames", "none"}, f"only {sorted(seen)} in {STEPS + 1} runs from {least} to {most} bytes")
