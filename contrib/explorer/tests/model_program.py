#!/usr/bin/env python3
"""A program with `list`, by the model of docs/FORMATS.md (checks/listings_model.py): in the built program's place.

usage: model_program.py list ROWS
       model_program.py dump

It has the three files of the folder that it is run in, as the built program would. What is wrong with it is said by the file `fault`
there: each line is the hexadecimal of the first bytes of a frame, with the hexadecimal of what it gets in place of a reply, `disk` for
the last reply of a disk that fails and an end with status 5, `end STATUS TEXT` for another one, or `slow SECONDS`. Lines that begin with
`dump` say so of the report: `dump text HEXADECIMAL` what comes in its place, `dump slow SECONDS`, or `dump end STATUS TEXT`.
"""
import pathlib
import sys
import time

TOP = pathlib.Path(__file__).resolve().parents[3]
for folder in (TOP / "bench", TOP / "checks"):
    sys.path.insert(0, str(folder))

from blocks import BEGINNING, CONNECT, DISCONNECT, SAVE, SLICE
from common import BAD_WORDS, reply
from files_model import Store, Unopened, made
from listings_model import LENGTHS, MOST_ROWS, Lister
from stores import files_of, write_files

BAD_FRAME, NOT_OPENED, DISK_FAULT, DISK_FAILED = 4, 3, 5, 0xFD
FAULT = "fault"
# What may change the files.
CHANGING = (CONNECT, DISCONNECT, SAVE, BEGINNING, SLICE)


def initialised(folder, hash, height=0):
    """Makes the files on a base."""
    write_files(folder, made(["init", "regtest", str(height), hash[::-1].hex(), "ns.example."]).files)


def ends(status, line):
    sys.stderr.write(f"{line}\n")
    sys.exit(status)


def fault_of(frame):
    """What comes in place of a reply, by the file; None where nothing is wrong."""
    path = pathlib.Path(FAULT)
    for line in path.read_text().splitlines() if path.exists() else ():
        begins, _, rest = line.partition(" ")
        if (frame.hex() if begins != "dump" else frame.decode("latin-1")).startswith(begins):
            return rest
    return None


def answered(lister, frame):
    """The reply to a whole frame, where nothing is wrong with it. What it changes is in the files then."""
    fault = fault_of(frame)
    if fault is not None and fault.startswith("slow"):
        time.sleep(float(fault.split()[1]))
    elif fault == "disk":
        sys.stdout.buffer.write(reply(DISK_FAILED))
        sys.stdout.buffer.flush()
        ends(DISK_FAULT, "disk fault")
    elif fault is not None and fault.startswith("end"):
        _, status, line = fault.split(" ", 2)
        ends(int(status), line)
    elif fault is not None:
        return bytes.fromhex(fault)
    told = lister.answer(frame)
    if told[0] == 0 and frame[:1] in CHANGING:
        write_files(pathlib.Path("."), lister.store.files)
    return told


def opened():
    """The store that the files stand for."""
    try:
        return Store.opened([text or b"" for text in files_of(pathlib.Path("."))])
    except Unopened as why:
        ends(NOT_OPENED, why)


def frames(source):
    """The whole frames of a stream, one after the other, each as soon as it has come."""
    at = 0
    while head := source.read(5):
        least, most = LENGTHS.get(head[:1], (1, 0))
        length = int.from_bytes(head[1:], "little")
        if not least <= length <= most:
            ends(BAD_FRAME, f"bad frame at {at}")
        payload = source.read(length)
        if len(head) < 5 or len(payload) < length:
            ends(BAD_FRAME, f"cut frame at {at}")
        yield head + payload
        at += 5 + length


def report():
    """Writes the report of all values, or what comes in its place."""
    told = opened().index.report()
    fault, _, rest = (fault_of(b"dump") or "").partition(" ")
    if fault == "slow":
        time.sleep(float(rest))
    elif fault == "text":
        told = bytes.fromhex(rest)
    elif fault == "end":
        ends(int(rest.split()[0]), rest.split(" ", 1)[1])
    sys.stdout.buffer.write(told)


def main(words):
    if words == ["dump"]:
        return report()
    if len(words) != 2 or words[0] != "list" or words[1] not in map(str, range(1, MOST_ROWS + 1)):
        ends(BAD_WORDS, "bad words")
    lister, out = Lister(opened(), int(words[1])), sys.stdout.buffer
    for frame in frames(sys.stdin.buffer):
        out.write(answered(lister, frame))
        out.flush()


if __name__ == "__main__":
    main(sys.argv[1:])
