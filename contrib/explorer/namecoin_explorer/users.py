"""Whose a connection is: Linux tells the user of each socket of this machine. Where it can't be told, it is nobody's.

The kernel is asked for one socket (sock_diag(7)), which takes the same time however many there are; where it doesn't answer such
questions, as where a service may use no netlink, its table of all sockets is read.
"""
import errno
import pathlib
import socket
import struct

TABLE = pathlib.Path("/proc/self/net/tcp")
# Of linux/sock_diag.h, linux/inet_diag.h and linux/netlink.h.
SOCK_DIAG, BY_FAMILY, REQUEST, ERROR = 4, 20, 1, 2
NO_COOKIE, ANY_STATE, HEAD = b"\xff" * 8, 0xFFFFFFFF, 16
SECONDS = 1.0


class Unanswered(Exception):
    """The kernel doesn't answer questions for one socket."""


def users_of(pairs, table=TABLE):
    """The users of the other ends of connections, each given as its other end's address and ours; None for one that can't be told."""
    if not pairs:
        return []
    try:
        with socket.socket(socket.AF_NETLINK, socket.SOCK_DGRAM, SOCK_DIAG) as kernel:
            kernel.settimeout(SECONDS)
            return [user_of(kernel, *pair) for pair in pairs]
    except (OSError, AttributeError, Unanswered, struct.error):
        return users_in(table, pairs)


def user_of(kernel, theirs, ours):
    """The user of one end of a connection, as the kernel tells it; None where nobody holds that end."""
    ends = struct.pack(">HH", theirs[1], ours[1]) + b"".join(socket.inet_aton(host) + bytes(12) for host, _ in (theirs, ours))
    asked = struct.pack("=BBBBI", socket.AF_INET, socket.IPPROTO_TCP, 0, 0, ANY_STATE) + ends + bytes(4) + NO_COOKIE
    kernel.send(struct.pack("=IHHII", HEAD + len(asked), BY_FAMILY, REQUEST, 0, 0) + asked)
    told = kernel.recv(8192)
    kind = struct.unpack_from("=IH", told)[1]
    if kind == ERROR:
        if -struct.unpack_from("=i", told, HEAD)[0] == errno.ENOENT:
            return None
        raise Unanswered
    if kind != BY_FAMILY or told[HEAD + 4 : HEAD + 4 + len(ends)] != ends:
        raise Unanswered
    user, inode = struct.unpack_from("=II", told, HEAD + 4 + 48 + 12)
    # A socket that nobody holds any more has no inode, and the user 0.
    return user if inode else None


def shown(address):
    host, port = address
    return f"{struct.unpack('=I', socket.inet_aton(host))[0]:08X}:{port:04X}"


def users_in(table, pairs):
    """The same by the table of all sockets."""
    wanted = {(shown(theirs), shown(ours)) for theirs, ours in pairs}
    found = {}
    try:
        with table.open() as lines:
            for line in lines:
                fields = line.split(None, 10)
                if len(fields) > 9 and (fields[1], fields[2]) in wanted and fields[9] != "0":
                    found[fields[1], fields[2]] = int(fields[7])
    except (OSError, ValueError):
        pass
    return [found.get((shown(theirs), shown(ours))) for theirs, ours in pairs]
