"""Runs a built program with one of its calls for memory failing, by a library that is loaded before the C library."""
import contextlib
import itertools
import os
import pathlib
import subprocess
import tempfile
from concurrent.futures import ThreadPoolExecutor

SOURCE = pathlib.Path(__file__).with_name("failing_heap.c")
AT_ONCE = len(os.sched_getaffinity(0))


class FailingHeap:
    def __init__(self, library):
        self.library = library

    @contextlib.contextmanager
    def call(self, number):
        """What `subprocess` starts a program with whose call of this number fails; and whether there was one, once it has ended."""
        seen, mark = os.pipe()
        os.set_blocking(seen, False)
        words = {"LD_PRELOAD": str(self.library), "FAILING_CALL": str(number), "FAILING_MARK": str(mark)}
        try:
            yield {"env": {**os.environ, **words}, "pass_fds": [mark]}, lambda: was_marked(seen)
        finally:
            os.close(seen)
            os.close(mark)


def was_marked(seen):
    try:
        return os.read(seen, 1) != b""
    except BlockingIOError:
        return False


@contextlib.contextmanager
def failing_heap():
    """The library, built for as long as the block lasts."""
    with tempfile.TemporaryDirectory() as folder:
        library = pathlib.Path(folder, "failing_heap.so")
        subprocess.run(["cc", "-O1", "-shared", "-fPIC", "-o", library, SOURCE], check=True)
        yield FailingHeap(library)


def each_call(answer):
    """What `answer` gives for each number from 1 on, up to the first for which it gives None; several are asked at once."""
    with ThreadPoolExecutor(AT_ONCE) as pool:
        for first in itertools.count(1, 4 * AT_ONCE):
            for told in pool.map(answer, range(first, first + 4 * AT_ONCE)):
                if told is None:
                    return
                yield told
