"""Whose program holds the other end of a connection of this machine, or listens on a port, as the kernel
tells.

Linux tells it of one of them, by its two addresses, to whoever asks over a netlink socket (`man 7
sock_diag`). Where it doesn't, it lists all of them in /proc/net/tcp; to make that list takes it
milliseconds.
"""

import functools
import os
import socket
import struct
import sys
from pathlib import Path

Address = tuple[str, int]

CONNECTIONS = Path("/proc/net/tcp")
ESTABLISHED, LISTENING = 1, 10
ALL_STATES = 0xFFFF_FFFF
# The other end of a socket that is listened on.
NO_END = ("0.0.0.0", 0)

NETLINK_SOCK_DIAG = 4
SOCK_DIAG_BY_FAMILY = 20
NLM_F_REQUEST = 1
SECONDS = 1
# Of a message: length, kind, flags, sequence, port.
HEAD = struct.Struct("=IHHII")
# Of a question: family, protocol, what more is wanted, padding, the states of interest.
QUESTION = struct.Struct("=BBBxI")
# Of an answer: family and state, and behind the connection two queues, a time, its user, its file.
STATE = struct.Struct("=BBxx")
USER = struct.Struct("=12xI4x")
# Of a connection: its ports, its addresses in 16 bytes each, its interface and its cookie, any of both.
PORTS = struct.Struct("!HH")
ADDRESSES = struct.Struct("=4s12x4s12x")
ANY = struct.pack("=III", 0, 0xFFFF_FFFF, 0xFFFF_FFFF)


def ends(one: Address, other: Address) -> bytes:
    addresses = ADDRESSES.pack(socket.inet_aton(one[0]), socket.inet_aton(other[0]))
    return PORTS.pack(one[1], other[1]) + addresses


def question(connection: bytes, state: int | None) -> bytes:
    states = ALL_STATES if state is None else 1 << state
    body = QUESTION.pack(socket.AF_INET, socket.IPPROTO_TCP, 0, states) + connection + ANY
    return HEAD.pack(HEAD.size + len(body), SOCK_DIAG_BY_FAMILY, NLM_F_REQUEST, 1, 0) + body


def asked_owner(peer: Address, here: Address, state: int | None = ESTABLISHED) -> int | None:
    """The user by the kernel's answer to a question; None where it tells no such connection in this state, or
    in any where none is given."""
    connection = ends(peer, here)
    try:
        with socket.socket(socket.AF_NETLINK, socket.SOCK_RAW, NETLINK_SOCK_DIAG) as kernel:
            kernel.settimeout(SECONDS)
            kernel.send(question(connection, state))
            answer, (sender, _) = kernel.recvfrom(4_096)
    except OSError:
        return None
    told = HEAD.size + STATE.size
    # A program with rights over the network could send one too; the kernel's number is 0.
    if sender != 0 or len(answer) < told + len(connection) + len(ANY) + USER.size:
        return None
    kind = HEAD.unpack_from(answer)[1]
    if kind != SOCK_DIAG_BY_FAMILY or state not in (None, STATE.unpack_from(answer, HEAD.size)[1]):
        return None
    # Who listens may do so for all addresses of the machine, which is told then.
    same = connection[:PORTS.size] if state == LISTENING else connection
    if not answer.startswith(same, told):
        return None
    return USER.unpack_from(answer, told + len(connection) + len(ANY))[0]


def kernel_name(address: Address) -> str:
    """An address as the kernel lists it: `0100007F:1F90` is 127.0.0.1:8080."""
    host = bytes(reversed([int(it) for it in address[0].split(".")]))
    return f"{host.hex().upper()}:{address[1]:04X}"


def listed(wanted: list[str]) -> int | None:
    """The user of the line of the kernel's list that has these addresses, and this state where one is given;
    None where there is none, or no list."""
    try:
        lines = CONNECTIONS.read_text(encoding="ascii").splitlines()[1:]
    except OSError:
        return None
    for line in lines:
        fields = line.split()
        if fields[1:1 + len(wanted)] == wanted:
            return int(fields[7])
    return None


def listed_owner(peer: Address, here: Address, state: int | None = ESTABLISHED) -> int | None:
    """The user of a connection's other end by the kernel's list."""
    return listed([kernel_name(peer), kernel_name(here), *([] if state is None else [f"{state:02X}"])])


def listed_listener(here: Address) -> int | None:
    """The user of who listens here, or at all addresses of the machine, by the kernel's list."""
    for host in (here[0], NO_END[0]):
        owner = listed([kernel_name((host, here[1])), kernel_name(NO_END), f"{LISTENING:02X}"])
        if owner is not None:
            return owner
    return None


@functools.cache
def is_asked() -> bool:
    """Whether the kernel answers questions at all: tried once, on a socket that is there. Where it does, no
    list is made of a connection that isn't there any more, or whoever opens and ends many would keep the
    desk at that."""
    with socket.create_server(("127.0.0.1", 0)) as own:
        return asked_owner(own.getsockname(), NO_END, LISTENING) is not None


def are_told() -> bool:
    """Whether the kernel tells of connections. On other systems than Linux it doesn't, and all users of the
    machine count as this one."""
    return sys.platform == "linux"


def is_own(peer: Address, here: Address) -> bool:
    """Whether this user's program holds the other end."""
    if not are_told():
        return True
    owner = asked_owner(peer, here) if is_asked() else listed_owner(peer, here)
    return owner == os.getuid()


def listener(here: Address) -> int | None:
    """The user whose program takes the connections to this address; None where nobody does."""
    return asked_owner(here, NO_END, LISTENING) if is_asked() else listed_listener(here)


def holder(peer: Address, here: Address) -> int | None:
    """The user who holds the other end of a connection, whatever its state; None where there is no such end.
    As long as nobody has accepted it, the kernel may tell root."""
    return asked_owner(peer, here, None) if is_asked() else listed_owner(peer, here, None)
