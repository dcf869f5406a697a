"""Numbers of ports that are free on this machine, for servers that are started a moment later."""
import contextlib
import pathlib
import random
import socket
import sys

HERE = "127.0.0.1"
# Below those that the system gives to who asks for any, so that nobody gets one of them in between.
PORTS = range(20_000, 32_768)
# What keeps the numbers of `kept_port`.
KEPT = []


def free_port(*kinds):
    """A number that is free on this machine as a port of each of the kinds, `socket.SOCK_DGRAM` and `socket.SOCK_STREAM`."""
    # Drawn from the system: processes that were forked have one generator's state, and would draw the same numbers at once.
    for number in random.SystemRandom().sample(PORTS, len(PORTS)):
        with contextlib.suppress(OSError), contextlib.ExitStack() as taken:
            for kind in kinds:
                taken.enter_context(socket.socket(socket.AF_INET, kind)).bind((HERE, number))
            return number
    sys.exit(f"{pathlib.Path(sys.argv[0]).name}: no port is free")


def kept_port():
    """A number that is free as a port of TCP, and that no other process gets as long as this one runs: for a server that ends and is
    started again there. It sets SO_REUSEADDR, as Python's servers do."""
    while True:
        number, keeper = free_port(socket.SOCK_STREAM), socket.socket()
        keeper.setsockopt(socket.SOL_SOCKET, socket.SO_REUSEADDR, 1)
        with contextlib.suppress(OSError):
            keeper.bind((HERE, number))
            KEPT.append(keeper)
            return number
        keeper.close()


def server_ports():
    """Two numbers that are free for a server: that of its queries, over UDP and TCP, and that of its feed."""
    queries = feed = free_port(socket.SOCK_DGRAM, socket.SOCK_STREAM)
    while feed == queries:
        feed = free_port(socket.SOCK_STREAM)
    return queries, feed
