"""The program as a child: what it says and how it ends; asked by frames (`list`), or for its report (`dump`)."""
import collections
import os
import select
import subprocess
import tempfile
import threading

from namecoin_feeder.replies import DISK_FAILED, Reply
from namecoin_feeder.troubles import Stop

from .statuses import Status

# Of what the child says on standard error: the last lines, of each so many bytes.
MOST_LINE, MOST_LINES = 600, 20
MOST_PAYLOAD = 65_535
# Seconds to wait for the child to end by itself once its input has ended; then it is killed.
ENDING = 30.0
# While a child takes its time, something else is done so often; and so many bytes of a report are read at once.
TICK, PIECE = 0.02, 131_072

# What helps, by the child's own status.
HINTS = {
    2: "does this program know `list`?",
    3: "make the files first, in that folder, by `init` or `init-from`; where they are damaged, copy a backup back",
    4: "does this program know saves in slices? `--save-every 0` asks for none",
    5: "has another program the files, or is the disk full? In that folder `dump`, at a terminal, tells the cause",
    8: "it wants more memory for these files",
}


class ProgramEnded(Exception):
    """The child has ended while it was wanted; the text has its status and its line."""


class Child:
    """A run of the program in a folder with its files."""

    def __init__(self, words, folder):
        self.words, self.folder, self.said = words, folder, collections.deque(maxlen=MOST_LINES)
        streams = {"stdin": subprocess.PIPE, "stdout": subprocess.PIPE, "stderr": subprocess.PIPE}
        try:
            # An interrupt from the terminal is for the explorer, which ends the child by the end of its input.
            self.run = subprocess.Popen(self.words, cwd=folder, start_new_session=True, **streams)
        except OSError as fault:
            raise Stop(Status.WORDS, f"{self.words[0]} can't be started in {folder}: {fault.strerror}") from None
        self.listener = threading.Thread(target=self.listen, daemon=True)
        self.listener.start()

    def listen(self):
        with self.run.stderr as stream:
            is_rest = False
            while line := stream.readline(MOST_LINE):
                text = line.decode("ascii", "backslashreplace").strip()
                if text and not is_rest:
                    self.said.append(text)
                is_rest = not line.endswith(b"\n")

    def waits(self, meanwhile):
        """Until the child has written something, or has ended; `meanwhile` is called over and over."""
        while not select.select([self.run.stdout], [], [], TICK)[0]:
            meanwhile()

    def ended(self):
        """Why the child can't be asked any more."""
        status = self.close()
        if status is None:
            return ProgramEnded(f"{self.words[0]} can't be asked any more, and doesn't end: it is killed")
        return self.why(status)

    def why(self, status):
        if status < 0:
            return ProgramEnded(f"{self.words[0]} was ended by the signal {-status}")
        line = f": {self.said[-1]}" if self.said else ""
        hint = f"; {HINTS[status]}" if status in HINTS else ""
        return ProgramEnded(f"{' '.join(self.words)}, in {self.folder}, has ended with status {status}{line}{hint}")

    def close(self):
        """Ends the child by the end of its input. Its status; None where it didn't end by itself, and was killed."""
        try:
            self.run.stdin.close()
        except OSError:
            pass
        try:
            status = self.run.wait(ENDING)
        except subprocess.TimeoutExpired:
            self.run.kill()
            self.run.wait()
            status = None
        self.listener.join(ENDING)
        self.run.stdout.close()
        return status

    def kill(self):
        self.run.kill()
        self.close()


class Program(Child):
    """`words` start the program, and `list` with the number of rows of a page follows. One frame at a time goes to its standard input,
    and the reply to it comes on its standard output."""

    def __init__(self, words, rows, folder):
        super().__init__([*words, "list", str(rows)], folder)
        # What is done while a reply is waited for; None where nothing is.
        self.meanwhile = None

    def ask(self, frame):
        """The reply to a frame."""
        try:
            self.run.stdin.write(frame)
            self.run.stdin.flush()
        except (OSError, ValueError):
            raise self.ended() from None
        if self.meanwhile:
            self.waits(self.meanwhile)
        head = self.take(5)
        length = int.from_bytes(head[1:], "little")
        if length > MOST_PAYLOAD:
            raise unexpected(f"a reply of {length} bytes")
        reply = Reply(head[0], self.take(length))
        if reply.code == DISK_FAILED:
            # It is the last reply of a run.
            raise self.ended()
        return reply

    def take(self, length):
        try:
            text = self.run.stdout.read(length)
        except (OSError, ValueError):
            text = b""
        if len(text) < length:
            raise self.ended()
        return text


class Report(Child):
    """`dump`, whose report is read while it comes. It waits for nobody: what isn't read yet stands in a file without a name, in the room,
    so that the program's files are soon free for another run."""

    def __init__(self, words, folder, room):
        self.spool, self.written, self.fault = tempfile.TemporaryFile(dir=room), 0, None
        super().__init__([*words, "dump"], folder)
        self.run.stdin.close()
        self.copier = threading.Thread(target=self.copy, name="copying", daemon=True)
        self.copier.start()

    def copy(self):
        """Puts all that comes into the spool."""
        try:
            while piece := os.read(self.run.stdout.fileno(), PIECE):
                os.pwrite(self.spool.fileno(), piece, self.written)
                self.written += len(piece)
        except (OSError, ValueError) as fault:
            self.fault = fault

    def parts(self, meanwhile, free):
        """The lines of the report without their ends, some at a time. `meanwhile` is called between them, over and over, and `free` once
        the program has let go of its files."""
        left, at, is_whole = b"", 0, False
        while True:
            meanwhile()
            if not is_whole and not self.copier.is_alive():
                self.check()
                free()
                is_whole = True
            piece = os.pread(self.spool.fileno(), PIECE, at)
            if piece:
                *lines, left = (left + piece).split(b"\n")
                at += len(piece)
                yield lines
            elif is_whole:
                break
            else:
                self.copier.join(TICK)
        yield [left] if left else []

    def check(self):
        """Behind its end: whether it told all."""
        if self.fault is not None:
            raise self.fault
        status = self.close()
        if status != 0:
            raise self.ended() if status is None else self.why(status)

    def kill(self):
        super().kill()
        self.copier.join(ENDING)
        self.spool.close()


def unexpected(what):
    """The stop at a child that isn't a program with `list`."""
    return Stop(Status.SERVER, f"what the program answers isn't what one answers that knows `list`: {what}")
