"""Runs the tests of a package of contrib/, whose files of tests are run side by side."""
import io
import multiprocessing
import os
import sys
import time
import unittest

from common import Tally


def ran(module):
    """The tests of a file: how many passed, and what is told of the others and of those that were skipped."""
    suite = unittest.defaultTestLoader.loadTestsFromName(f"tests.{module}")
    result = unittest.TextTestRunner(stream=io.StringIO()).run(suite)
    failed = [(str(test), text) for test, text in result.failures + result.errors]
    skipped = [(str(test), why) for test, why in result.skipped]
    return result.testsRun - len({test for test, _ in failed}) - len(skipped), failed, skipped


def run_all(folder):
    """The status of the script: 0 where all passed."""
    tally, begun = Tally(), time.monotonic()
    run_into(tally, folder)
    print(f"{tally.name}: {time.monotonic() - begun:.0f} seconds")
    return tally.end()


def run_into(tally, folder, left_out=(), what=""):
    """Runs the files of tests but these, and counts what passed; what is told of a test begins with `what`."""
    sys.path.insert(0, str(folder))
    modules = sorted({path.stem for path in (folder / "tests").glob("test_*.py")} - set(left_out))
    with multiprocessing.Pool(max(2, len(os.sched_getaffinity(0)))) as pool:
        for passed, failed, skipped in pool.imap(ran, modules, 1):
            tally.passed += passed
            for test, text in failed:
                tally.check(what + test, False, text)
            for test, why in skipped:
                tally.leaves_out(what + test, why)
