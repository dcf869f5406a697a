#!/usr/bin/env python3
"""A node of generated chains, over HTTP: its tip is what is asked of it, and so are its faults.

usage: python3 -m tests.fake_node --cookie FILE [--port PORT] [--name NAME] [--value TEXT]     (in contrib/namecoin_feeder)

Run so, it writes its cookie, has a chain that registers the name with the value, and makes another block for each line of its
standard input.
"""
import argparse
import base64
import http.server
import json
import pathlib
import socket
import socketserver
import sys
import threading
import time

from .chains import FIRST, MATURITY, NEW, Chains, first_out, hash160, name_script, named, outpoint

from common import kept_port

FIRST_SIGHT = "user:word"


class Fault(Exception):
    """In the place of an answer: nothing, after so many seconds; or a status with a text; or a part of the answer."""

    def __init__(self, seconds=0.0, status=None, text="", part=None):
        self.seconds, self.status, self.text, self.part = seconds, status, text, part


class RpcFault(Exception):
    def __init__(self, code, text):
        self.error = {"code": code, "message": text}


class Handler(http.server.BaseHTTPRequestHandler):
    protocol_version = "HTTP/1.1"
    disable_nagle_algorithm = True

    def do_POST(self):
        node = self.server.node
        body = self.rfile.read(int(self.headers["Content-Length"]))
        if self.headers["Authorization"] != node.authorization:
            return self.tell(401, b"")
        try:
            text = json.dumps(self.answers(json.loads(body))).encode()
        except Fault as fault:
            return self.fail(fault)
        self.tell(200, text)

    def answers(self, asked):
        return [self.server.node.answer(it) for it in asked] if isinstance(asked, list) else self.server.node.answer(asked)

    def fail(self, fault):
        time.sleep(fault.seconds)
        if fault.status is not None:
            return self.tell(fault.status, fault.text.encode())
        if fault.part is not None:
            self.wfile.write(b"HTTP/1.1 200 OK\r\nContent-Length: 100000\r\n\r\n" + fault.part)
        self.close_connection = True

    def tell(self, status, text):
        head = f"HTTP/1.1 {status} it\r\nContent-Type: application/json\r\nContent-Length: {len(text)}\r\n\r\n"
        self.wfile.write(head.encode() + text)

    def log_message(self, *_):
        pass


class Listener(socketserver.ThreadingMixIn, http.server.HTTPServer):
    daemon_threads, allow_reuse_address, block_on_close = True, True, False

    def __init__(self, port, node):
        self.node, self.lines = node, []
        super().__init__(("127.0.0.1", port), Handler)

    def get_request(self):
        line, address = super().get_request()
        self.lines.append(line)
        return line, address

    def handle_error(self, *_):
        """A client that is gone is no error of the node's."""

    def close(self):
        self.shutdown()
        self.server_close()
        for line in self.lines:
            try:
                line.shutdown(socket.SHUT_RDWR)
            except OSError:
                pass


class FakeNode:
    """`before` is called with each request before it is answered, and may move the tip or raise a fault."""

    def __init__(self, chains, tip, port=None, cookie=None):
        self.chains, self.tip, self.cookie = chains, tip, cookie
        self.port, self.listener, self.best = port or kept_port(), None, []
        self.before, self.asked, self.lock = None, [], threading.RLock()
        # What the node doesn't know (any more); what it has rejected; and what a block's work is above that of one block.
        self.forgotten, self.rejected, self.heavy = set(), set(), {}
        self.is_downloading, self.headers = False, None
        self.set_word(FIRST_SIGHT)
        self.start()

    def set_word(self, word):
        self.authorization = "Basic " + base64.b64encode(word.encode()).decode()
        if self.cookie:
            self.cookie.write_text(word)

    @property
    def url(self):
        return f"http://127.0.0.1:{self.port}/"

    def start(self):
        self.listener = Listener(self.port, self)
        threading.Thread(target=self.listener.serve_forever, args=(0.01,), daemon=True).start()

    def stop(self):
        if self.listener is not None:
            self.listener.close()
        self.listener = None

    def restart(self, word=FIRST_SIGHT):
        self.stop()
        self.set_word(word)
        self.start()

    def move(self, tip):
        with self.lock:
            self.tip, self.best = tip, []

    def chain(self):
        """The best chain's hashes by their heights."""
        if not self.best:
            self.best = [self.chains.first, *self.chains.path(self.tip)]
        return self.best

    def answer(self, asked):
        method, words = asked["method"], asked["params"]
        with self.lock:
            self.asked.append((method, *words))
            try:
                if self.before is not None:
                    self.before(method, words)
                return {"result": getattr(self, method)(*words), "error": None, "id": asked["id"]}
            except RpcFault as fault:
                return {"result": None, "error": fault.error, "id": asked["id"]}

    def known(self, text):
        hash = bytes.fromhex(text)[::-1]
        if hash not in self.chains.blocks or hash in self.forgotten:
            raise RpcFault(-5, "Block not found")
        return hash, self.chains.blocks[hash]

    def getbestblockhash(self):
        return self.tip[::-1].hex()

    def getblockhash(self, height):
        if not 0 <= height < len(self.chain()):
            raise RpcFault(-8, "Block height out of range")
        return self.chain()[height][::-1].hex()

    def getblockheader(self, text):
        hash, made = self.known(text)
        chain = self.chain()
        is_best = made.height < len(chain) and chain[made.height] == hash
        header = {"hash": text, "height": made.height, "confirmations": len(chain) - made.height if is_best else -1}
        header["chainwork"] = f"{self.work(hash):064x}"
        return header if hash == self.chains.first else {**header, "previousblockhash": made.previous[::-1].hex()}

    def work(self, hash):
        """That of a chain up to a block."""
        return sum(1 + self.heavy.get(it, 0) for it in [self.chains.first, *self.chains.path(hash)])

    def getblockchaininfo(self):
        height = len(self.chain()) - 1
        headers = height if self.headers is None else self.headers
        return {"chain": "regtest", "blocks": height, "headers": headers, "initialblockdownload": self.is_downloading}

    def getchaintips(self):
        below = {made.previous for made in self.chains.blocks.values()}
        tips = [hash for hash in self.chains.blocks if hash not in below or hash == self.tip or hash in self.rejected]
        return [{"hash": hash[::-1].hex(), "status": self.status(hash)} for hash in tips]

    def status(self, hash):
        return "active" if hash == self.tip else "invalid" if hash in self.rejected else "valid-fork"

    def getblock(self, text, verbosity):
        hash, made = self.known(text)
        if verbosity == 0:
            return made.data.hex()
        from model import transactions_of

        return {"hash": text, "tx": [it.txid[::-1].hex() for it in transactions_of(made.data)]}


def registered(chains, name, value):
    """The tip of a chain that registers a name."""
    salt = b"a salt"
    commits = named(outpoint(b"\xdd" * 32), name_script(NEW, hash160(salt + name)))
    opens = named(first_out(commits), name_script(FIRST, name, salt, value))
    tip = chains.add(chains.grow(chains.first, 20), [commits])
    return chains.add(chains.grow(tip, MATURITY - 1), [opens])


def main():
    parser = argparse.ArgumentParser()
    parser.add_argument("--cookie", type=pathlib.Path, required=True)
    parser.add_argument("--port", type=int, default=18443)
    parser.add_argument("--name", default="d/example")
    parser.add_argument("--value", default='{"ip": "192.0.2.1"}')
    given = parser.parse_args()
    chains = Chains()
    node = FakeNode(chains, registered(chains, given.name.encode(), given.value.encode()), given.port, given.cookie)
    height, first = chains.blocks[node.tip].height, chains.first[::-1].hex()
    print(f"{given.name} is registered at height {height}; the block of height 0 is {first}", flush=True)
    for _ in sys.stdin:
        node.move(chains.add(node.tip))
        print(f"height {chains.blocks[node.tip].height}: {node.tip[::-1].hex()}", flush=True)
    threading.Event().wait()


if __name__ == "__main__":
    main()
