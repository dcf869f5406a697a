"""Inputs by chance for the built program, side by side, each with little memory and little time.

A script that looks at such inputs takes as words how many, and `--seed N`. Where no seed is told, half of them are of seed 1 and half
of one that nobody had before; else all are of that seed. The script prints its seeds. Those of a seed come in parts, and a part is
the same however many follow it: so what failed is repeated by the seed that stands before it.
"""
import argparse
import multiprocessing
import os
import random
import sys
import traceback

import limits
from common import Tally, program

AT_ONCE = len(os.sched_getaffinity(0))
MOST_MEMORY = 400 << 20
FIXED = 1


class Part(Tally):
    """The count of a part, which tells its seed and number with what failed."""

    def __init__(self, seed, number):
        super().__init__()
        self.seed, self.number, self.chance = seed, number, random.Random(f"{seed}, {number}")

    def check(self, what, holds, told=""):
        return super().check(f"seed {self.seed}, part {self.number}: {what}", holds, told)


def looked_at(job):
    """How much of a part passed and failed."""
    look, seed, number, count = job
    part = Part(seed, number)
    try:
        look(part, part.chance, count)
    except (Exception, SystemExit):
        # So the others go on, and what they have started is ended by them.
        part.check("a part", False, traceback.format_exc())
    sys.stdout.flush()
    return part.passed, part.failed


def parts_of(look, seed, count, in_a_part):
    for number, first in enumerate(range(0, count, in_a_part)):
        yield look, seed, number, min(in_a_part, count - first)


def side_by_side(tally, look, jobs, begin=None):
    """Calls `look` of each job by processes, each of which begins so, and counts what it says has passed and failed."""
    with multiprocessing.get_context("fork").Pool(AT_ONCE, begin) as pool:
        for passed, failed in pool.imap_unordered(look, jobs, 1):
            tally.passed += passed
            tally.failed += failed


class Inputs:
    """What the script's words tell: the seeds, each with its share of every number of inputs. `share` is what of the usual number
    is looked at."""

    def __init__(self, usual):
        parser = argparse.ArgumentParser(description=sys.modules["__main__"].__doc__.partition("\n")[0])
        parser.add_argument("count", nargs="?", type=int, default=usual, help="how many inputs, %(default)s where nothing is told")
        parser.add_argument("--seed", type=int, help="the seed of all of them")
        told = parser.parse_args()
        self.seeds = [FIXED, random.SystemRandom().randrange(2, 1 << 32)] if told.seed is None else [told.seed]
        self.share = told.count / usual
        program()
        self.tally = Tally()
        print(f"{self.tally.name}: inputs of seed {' and '.join(map(str, self.seeds))}", flush=True)

    def look(self, what, look, count, in_a_part, memory=MOST_MEMORY):
        """Has `look` see so many inputs by calls `look(tally, chance, count)`, each for a part, in processes with so much memory."""
        each = round(count * self.share) // len(self.seeds)
        jobs = [job for seed in self.seeds for job in parts_of(look, seed, each, in_a_part)]
        side_by_side(self.tally, looked_at, jobs, limits.memory(memory))
        print(f"{self.tally.name}: {each * len(self.seeds)} {what}", flush=True)
