"""The kernel's netlink, as far as it is needed: devices and routes, and sock_diag."""

from __future__ import annotations

import errno
import os
import socket
import struct
from typing import Iterator, NamedTuple, Optional

ACKNOWLEDGED, DONE = 2, 3                          # nlmsg types
NEW_LINK, NEW_ROUTE, NEW_RULE = 16, 24, 32
BY_FAMILY, DESTROY = 20, 21                        # of sock_diag
ANY_COOKIE = (0xFFFFFFFF, 0xFFFFFFFF)


class Failed(Exception):
    """What compares has failed; it says nothing about the kernel's rules."""


def attribute(kind: int, data: bytes) -> bytes:
    """An attribute, padded."""
    size = 4 + len(data)
    return struct.pack("HH", size, kind) + data + bytes(-size % 4)


class Routes:
    """rtnetlink: links, routes, and rules by mark."""

    def __init__(self) -> None:
        self.socket = socket.socket(socket.AF_NETLINK, socket.SOCK_RAW, 0)
        self.socket.bind((0, 0))
        self.sequence = 0

    def ask(self, kind: int, body: bytes, flags: int = 0x605) -> None:
        """A request that is acknowledged; what is there already stays."""
        self.sequence += 1
        self.socket.send(struct.pack("IHHII", 16 + len(body), kind, flags, self.sequence, 0) + body)
        answer = self.socket.recv(65536)
        if struct.unpack_from("H", answer, 4)[0] != ACKNOWLEDGED:
            raise Failed("rtnetlink: no acknowledgement")
        error = -struct.unpack_from("i", answer, 16)[0]
        if error not in (0, errno.EEXIST):
            raise Failed(f"rtnetlink {kind}: {os.strerror(error)}")

    def up(self, device: int) -> None:
        """The device is up."""
        self.ask(NEW_LINK, struct.pack("BxHiII", 0, 0, device, 1, 1), 5)

    def default(self, device: int, metric: int, table: int = 254, source: Optional[str] = None) -> None:
        """All that isn't local goes out by the device, from that source where one is preferred."""
        body = struct.pack("BBBBBBBBI", socket.AF_INET, 0, 0, 0, 0, 4, 253, 1, 0)
        body += attribute(4, struct.pack("I", device)) + attribute(15, struct.pack("I", table))
        body += attribute(6, struct.pack("I", metric))
        if source:
            body += attribute(7, socket.inet_aton(source))
        self.ask(NEW_ROUTE, body)

    def local(self, address: str, device: int) -> None:
        """The address is local, at that device."""
        body = struct.pack("BBBBBBBBI", socket.AF_INET, 32, 0, 0, 255, 4, 254, 2, 0)
        body += attribute(1, socket.inet_aton(address))
        body += attribute(4, struct.pack("I", device)) + attribute(15, struct.pack("I", 255))
        self.ask(NEW_ROUTE, body)

    def by_mark(self, mark: int, table: int) -> None:
        """Packets with the mark go by that table."""
        body = struct.pack("BBBBBBBBI", socket.AF_INET, 0, 0, 0, 0, 0, 0, 1, 0)
        body += attribute(6, struct.pack("I", 1000 + mark)) + attribute(10, struct.pack("I", mark))
        self.ask(NEW_RULE, body + attribute(15, struct.pack("I", table)))


class Shown(NamedTuple):
    """A socket as sock_diag shows it; its own end comes first."""

    state: int
    local: str
    lport: int
    remote: str
    rport: int
    device: int
    inode: int
    cookie: tuple[int, int]

    @property
    def tuple(self) -> tuple[str, int, str, int]:
        """Its four-tuple."""
        return self.local, self.lport, self.remote, self.rport


def shown(body: bytes) -> Shown:
    """A struct inet_diag_msg."""
    lport, rport = struct.unpack_from("!2H", body, 4)
    device, = struct.unpack_from("I", body, 40)
    inode, = struct.unpack_from("I", body, 68)
    return Shown(body[1], socket.inet_ntoa(body[8:12]), lport, socket.inet_ntoa(body[24:28]), rport, device,
                 inode, struct.unpack_from("2I", body, 44))


class Diag:
    """sock_diag: `find` makes the kernel look up as for a packet."""

    def __init__(self) -> None:
        self.socket = socket.socket(socket.AF_NETLINK, socket.SOCK_RAW, 4)
        self.socket.bind((0, 0))
        self.sequence = 0

    def ask(self, kind: int, flags: int, ends: tuple[str, int, str, int], device: int,
            cookie: tuple[int, int] = ANY_COOKIE) -> None:
        """Sends a request about a socket with these ends, its own one first."""
        local, lport, remote, rport = ends
        self.sequence += 1
        body = struct.pack("BBBBI", socket.AF_INET, socket.IPPROTO_TCP, 0, 0, 0xFFFFFFFF)
        body += struct.pack("!2H", lport, rport) + socket.inet_aton(local) + bytes(12)
        body += socket.inet_aton(remote) + bytes(12) + struct.pack("III", device, *cookie)
        self.socket.send(struct.pack("IHHII", 16 + len(body), kind, flags, self.sequence, 0) + body)

    def find(self, local: str, lport: int, remote: str, rport: int, device: int) -> Optional[Shown]:
        """The socket that a packet from the remote end finds, which came in by the device."""
        self.ask(BY_FAMILY, 1, (local, lport, remote, rport), device)
        answer = self.socket.recv(65536)
        if struct.unpack_from("H", answer, 4)[0] != ACKNOWLEDGED:
            return shown(answer[16:])
        error = -struct.unpack_from("i", answer, 16)[0]
        if error == errno.ENOENT:
            return None
        raise Failed("sock_diag: " + os.strerror(error))

    def destroy(self, it: Shown) -> int:
        """Ends that socket; the error, or 0."""
        self.ask(DESTROY, 5, it.tuple, it.device, it.cookie)
        return -struct.unpack_from("i", self.socket.recv(65536), 16)[0]

    def all(self) -> list[Shown]:
        """All TCP sockets of the namespace."""
        self.ask(BY_FAMILY, 0x301, ("0.0.0.0", 0, "0.0.0.0", 0), 0)
        return list(self._answers())

    def _answers(self) -> Iterator[Shown]:
        while True:
            data, at = self.socket.recv(1 << 17), 0
            while at < len(data):
                size, kind = struct.unpack_from("IH", data, at)
                if kind == DONE:
                    return
                if kind == ACKNOWLEDGED:
                    raise Failed("sock_diag: no list")
                yield shown(data[at + 16:at + size])
                at += (size + 3) & ~3
