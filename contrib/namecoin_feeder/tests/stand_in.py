"""A feed on a port of this machine, in the place of `serve`: it hands frames to a replay of the built program, or to a model.

One connection at a time is taken; each frame is answered before the next; a bad frame closes the connection. Which kinds are read
is said by the stand-in, so it may be one that knows no saves.
"""
import contextlib
import socket
import struct
import subprocess
import threading

from . import TOP  # noqa: F401  (puts the model on the path)

from blocks import CONNECT, DISCONNECT, QUERY, SAVE, block_hash
from common import kept_port, reply
from images_model import Reader
from model import Model
from stores import PROGRAM, files_of, gates_of, journals_of

DISK_FAILED, SECONDS = b"\xfd", 30
KINDS = {CONNECT: (0, 8_388_608), DISCONNECT: (32, 32), QUERY: (0, 65_535), SAVE: (0, 0)}


def surviving(folder):
    """The hashes of the blocks that survive by the files: those of the image, and what the commands behind it do to them."""
    files = files_of(folder)
    _, (commands, _), area = journals_of(files)
    image = (files[area] or b"")[8 : gates_of([text or b"" for text in files])[area]]
    chain = [undo.block for undo in Reader(image).index().undos] if image else []
    for command in commands:
        chain = [*chain, block_hash(command[1:])] if command[:1] == CONNECT else chain[:-1]
    return chain


class ModelChain(Model):
    """The model over the base with another hash, and with the makes of a start list. It is never closed, so it outlives each server."""

    def __init__(self, hash, height=0, makes=()):
        super().__init__(height, hash=hash, makes=makes)

    def open(self):
        pass

    def close(self):
        pass

    def chain(self):
        return [hash for hash, _ in self.blocks]


def initialised(folder, base, height=0, snapshot=None):
    """Makes the files on a base; from a snapshot, where there is one."""
    words = ["init" if snapshot is None else "init-from", "regtest", str(height), base[::-1].hex(), "ns.example."]
    subprocess.run([PROGRAM, *words], cwd=folder, check=True, input=snapshot or b"")


class Replay:
    """The program's replay over the files of a folder."""

    def __init__(self, folder, base, height=0, snapshot=None):
        self.folder, self.run = folder, None
        initialised(folder, base, height, snapshot)

    def open(self):
        self.run = subprocess.Popen([PROGRAM, "replay"], cwd=self.folder, stdin=subprocess.PIPE, stdout=subprocess.PIPE)

    def close(self):
        """Ends it as a crash does."""
        if self.run is not None:
            self.run.kill()
            self.run.communicate()
            self.run = None

    def answer(self, frame):
        self.run.stdin.write(frame)
        self.run.stdin.flush()
        head = self.run.stdout.read(5)
        return head + self.run.stdout.read(int.from_bytes(head[1:], "little"))

    def chain(self):
        return surviving(self.folder)


class StandIn:
    """`before` is called with each frame before it is answered; what it gives, where it isn't None, is the answer."""

    def __init__(self, chain):
        self.chain, self.port, self.before = chain, kept_port(), None
        self.frames, self.codes, self.tip, self.connections = 0, [], chain_tip(chain), 0
        # The kinds that are read, and the codes of the replies to saves, which aren't among the others.
        self.kinds, self.saves = dict(KINDS), []
        self.listener = self.line = self.thread = None
        self.start()

    @property
    def address(self):
        return f"127.0.0.1:{self.port}"

    def start(self):
        """Takes connections, once the thread that took them before has ended."""
        if self.thread is not None:
            self.thread.join(SECONDS)
        self.chain.open()
        self.listener = listener = socket.create_server(("127.0.0.1", self.port))
        self.thread = threading.Thread(target=self.serve, args=(listener,), daemon=True)
        self.thread.start()

    def stop(self):
        listener, self.listener = self.listener, None
        if listener is None:
            return
        for item in (listener, self.line):
            try:
                item and item.shutdown(socket.SHUT_RDWR)
            except OSError:
                pass
        listener.close()
        if self.thread is not threading.current_thread():
            self.thread.join(SECONDS)
        self.chain.close()

    def serve(self, listener):
        """`stop` forgets the listener before it ends the line: so a line that is set too late for it isn't attended."""
        while self.listener is listener:
            try:
                self.line, _ = listener.accept()
            except OSError:
                return
            if self.listener is listener:
                self.connections += 1
                self.line.setsockopt(socket.IPPROTO_TCP, socket.TCP_NODELAY, 1)
                with contextlib.suppress(OSError):
                    self.attend(self.line.makefile("rb", 65536))
            self.line.close()

    def attend(self, stream):
        """Answers frames until the connection ends, or a bad one comes."""
        while len(head := stream.read(5)) == 5:
            length = struct.unpack("<I", head[1:])[0]
            least, most = self.kinds.get(head[:1], (1, 0))
            if not least <= length <= most:
                return
            payload = stream.read(length)
            if len(payload) < length or self.listener is None:
                return
            told = self.answer(head + payload)
            if told is None:
                return
            self.line.sendall(told)
            if told[:1] == DISK_FAILED:
                return self.end()

    def end(self):
        """Ends as the program does behind that reply. Who waits for the end sees it by the listener, so that goes last."""
        self.listener.close()
        self.chain.close()
        self.listener = None

    def answer(self, frame):
        self.frames += 1
        told = self.before(frame) if self.before is not None else None
        if told is None and self.listener is not None:
            told = self.chain.answer(frame)
        if told:
            (self.saves if frame[:1] == SAVE else self.codes).append(told[0])
            if told[0] == 0 and frame[:1] in (CONNECT, DISCONNECT):
                self.tip = told[9:41]
        return told or None


def chain_tip(chain):
    blocks = chain.chain()
    return blocks[-1] if blocks else None


def is_built():
    return PROGRAM.exists()


__all__ = ["KINDS", "PROGRAM", "ModelChain", "Replay", "StandIn", "initialised", "is_built", "reply", "surviving"]
