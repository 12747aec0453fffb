"""The commands of a script, done by real sockets in network namespaces of their own.

Each namespace is entered by this process (unshare, setns) and goes away with it. It has no link to any other: its
devices are TUN devices whose other side is this process, which plays all remote ends.

    t0        the device of packets that name none; no socket is bound to it
    t1, t2..  device D of `dev D` (SO_BINDTODEVICE)

Each method gives the reply of docs/inet.1, or `n/a ..` where the kernel can't be asked (then nothing has changed).
What `inet` decides itself (EBADF, and EINVAL of `connect`, `accept`, `syn` and `ack`) isn't asked.
"""

from __future__ import annotations

import ctypes
import errno
import os
import select
import socket
import struct
import subprocess
import time
from dataclasses import dataclass
from typing import Callable, Optional

from .netlink import Diag, Failed, Routes, Shown
from .peer import ACK, FIN, RST, SYN, Segment, Tun

NEW_NET = 0x40000000
LIBC = ctypes.CDLL(None, use_errno=True)
SO_REUSEPORT, SO_BINDTODEVICE, SO_MARK = 15, 25, 36
ATTACH_REUSEPORT, DETACH_REUSEPORT = 51, 68        # a classic BPF program of a group
TCP_INFO, TCP_DEFER_ACCEPT, IP_BIND_ADDRESS_NO_PORT = 11, 9, 24
ESTABLISHED, TIME_WAIT, CLOSED, LISTEN = 1, 6, 7, 10
REQUESTS = (3, 12)                                 # SYN_RECV, and as later kernels call it
STATES = {1: "ESTABLISHED", 2: "SYN_SENT", 3: "SYN_RECV", 4: "FIN_WAIT1", 5: "FIN_WAIT2", 6: "TIME_WAIT",
          7: "CLOSE", 8: "CLOSE_WAIT", 9: "LAST_ACK", 10: "LISTEN", 11: "CLOSING", 12: "NEW_SYN_RECV"}
KINDS = {ESTABLISHED: "full", LISTEN: "listen", TIME_WAIT: "time-wait", 3: "request", 12: "request"}
ANY = "0.0.0.0"
SECOND = 0.060                                     # a script's second; a TIME_WAIT can be replaced after half of it

Tuple = tuple[str, int, str, int]                  # own address and port, remote address and port
Key = tuple[int, str]                              # section and label


@dataclass
class Ways:
    """What the kernel is asked in another way, for a script that is about it."""

    accepted_by: Optional[int] = None              # the user who calls accept(2), if not the listener's
    lowest_port: int = 0                           # ip_unprivileged_port_start; above 0 users bind for themselves
    answers: bool = True                           # the remote end answers a `connect`
    defers: bool = False                           # listeners have TCP_DEFER_ACCEPT
    older: bool = False                            # SYNs of `accept` have numbers and times below those before
    peers: bool = False                            # a `dump` shows the other end that a listener is left with


@dataclass
class Open:
    """A real socket that a label names."""

    label: str
    socket: socket.socket
    user: int
    device: int
    reuseport: bool
    inode: int
    ends: Optional[Tuple] = None                   # of a connection
    sequence: int = 0                              # the remote end's next number
    acknowledged: int = 0                          # and the one that it expects
    time: Optional[int] = None                     # the last timestamp that it got


@dataclass
class Wait:
    """A TIME_WAIT, as a script left it."""

    key: Key
    stamp: int
    shown: Shown
    since: float
    sequence: int


@dataclass
class Request:
    """A handshake that isn't over."""

    listener: Open
    ends: Tuple
    device: int
    sequence: int
    acknowledged: int
    time: Optional[int]
    since: float


def write_setting(name: str, value: object) -> None:
    """A file of /proc/sys."""
    with open(f"/proc/sys/net/{name}", "w", encoding="ascii") as file:
        file.write(f"{value}")


def error_of(call: Callable[[], object]) -> str:
    """The name of the error that a call ends with, or nothing."""
    try:
        call()
    except OSError as error:
        return errno.errorcode[error.errno or 0]
    return ""


class Namespace:
    """One network namespace with its sockets."""

    def __init__(self, number: int, devices: tuple[int, ...]) -> None:
        self.number = number
        # One in between, so that the last gets a small table of connections of its own.
        for _ in range(2):
            if LIBC.unshare(NEW_NET):
                raise Failed("unshare: " + os.strerror(ctypes.get_errno()))
            write_setting("ipv4/tcp_child_ehash_entries", 256)
        for name, value in (("conf/all/rp_filter", 0), ("conf/default/rp_filter", 0), ("ip_nonlocal_bind", 1),
                            ("tcp_syncookies", 0), ("tcp_timestamps", 1), ("ip_autobind_reuse", 0),
                            ("tcp_migrate_req", 0), ("ip_forward", 0), ("tcp_invalid_ratelimit", 0),
                            ("tcp_challenge_ack_limit", 1_000_000)):
            write_setting(f"ipv4/{name}", value)
        self.routes, self.diag = Routes(), Diag()
        self.routes.up(1)
        self.devices = {d: Tun(f"t{d}") for d in (0, *devices)}
        for d, device in self.devices.items():
            self.routes.up(device.index)
            self.routes.default(device.index, 10 + d)
        self.number_of = {device.index: d for d, device in self.devices.items()}
        self.locals: set[str] = set()
        self.marks: dict[str, int] = {}
        self.sequence, self.time = 1 << 20, 1000
        self.open: dict[Key, Open] = {}
        self.requests: dict[Key, Request] = {}
        self.waits: dict[tuple[Tuple, int], Wait] = {}
        self.moments: dict[int, int] = {}          # of the sections; all namespaces share it
        self.section = 1
        self.ways = Ways()
        self.handle = os.open("/proc/self/ns/net", os.O_RDONLY)

    # -- as a whole ------------------------------------------------------------------------------------------------

    def enter(self) -> None:
        """This process works in this namespace from now on."""
        if LIBC.setns(self.handle, NEW_NET):
            raise Failed("setns: " + os.strerror(ctypes.get_errno()))

    def begin(self, ports: tuple[int, int], twreuse: int, reserved: tuple[int, ...], ways: Ways) -> None:
        """A script begins: nothing of an earlier one is left."""
        self.enter()
        self.clear()
        self.ways = ways
        write_setting("ipv4/ip_local_reserved_ports", ",".join(map(str, reserved)) + "\n")
        write_setting("ipv4/ip_local_port_range", "32768 60999")   # the next may not lie within it
        write_setting("ipv4/ip_unprivileged_port_start", ways.lowest_port)
        write_setting("ipv4/ip_local_port_range", f"{ports[0]} {ports[1]}")
        write_setting("ipv4/tcp_tw_reuse", twreuse)
        write_setting("ipv4/tcp_tw_reuse_delay", int(SECOND * 500))
        self.section = 1

    def clear(self) -> None:
        """All sockets go."""
        for it in self.open.values():
            self.reset(it.socket)
        self.open, self.requests, self.waits = {}, {}, {}
        for _ in range(100):
            self.drain()
            left = self.diag.all()
            if not left:
                return
            for it in left:
                self.diag.destroy(it)
        raise Failed(f"sockets are left: {left}")

    @staticmethod
    def reset(it: socket.socket) -> None:
        """Closes a socket without a TIME_WAIT."""
        error_of(lambda: it.setsockopt(socket.SOL_SOCKET, socket.SO_LINGER, struct.pack("ii", 1, 0)))
        it.close()

    def drain(self) -> None:
        """Packets that nobody waits for go."""
        for device in self.devices.values():
            device.read()

    def expect(self, wanted: Callable[[Segment], bool], why: str, by: Optional[int] = None) -> Segment:
        """The packet that the kernel sends now."""
        devices = self.devices if by is None else {by: self.devices[by]}
        last = time.monotonic() + 0.5
        while True:
            for device in devices.values():
                for segment in device.read():
                    if wanted(segment):
                        return segment
            left = last - time.monotonic()
            if left <= 0:
                raise Failed("no packet: " + why)
            select.select([d.descriptor for d in devices.values()], [], [], left)

    def make_local(self, address: str) -> None:
        """Packets to the address are delivered here."""
        if address not in (ANY, *self.locals) and not address.startswith("127."):
            self.routes.local(address, 1)
            self.locals.add(address)

    def mark(self, address: str) -> int:
        """The mark of packets whose source is to be this address."""
        if address not in self.marks:
            self.make_local(address)
            mark = len(self.marks) + 1
            for d, device in self.devices.items():
                self.routes.default(device.index, 10 + d, 1000 + mark, address)
            self.routes.by_mark(mark, 1000 + mark)
            self.marks[address] = mark
        return self.marks[address]

    # -- which sockets there are -----------------------------------------------------------------------------------

    def named(self, label: str) -> Optional[Open]:
        """The real socket of a label of this section."""
        return self.open.get((self.section, label))

    def key_of(self, inode: int) -> Optional[Key]:
        """The label of a real socket."""
        return next((key for key, it in self.open.items() if it.inode == inode), None)

    def keep(self, label: str, it: socket.socket, user: int, device: int, reuseport: bool) -> Open:
        """Gives a real socket a label."""
        kept = Open(label, it, user, device, reuseport, os.fstat(it.fileno()).st_ino)
        self.open[self.section, label] = kept
        return kept

    @staticmethod
    def state(it: Open) -> int:
        """Its state, as the kernel has it."""
        return it.socket.getsockopt(socket.IPPROTO_TCP, TCP_INFO, 8)[0]

    def holders(self, ends: Tuple, device: int) -> int:
        """How many sockets of the four-tuple a packet of the device may meet."""
        return (sum(1 for it in self.open.values() if it.ends == ends and it.device in (0, device))
                + sum(1 for four, d in self.waits if four == ends and d in (0, device))
                + sum(1 for r in self.requests.values() if r.ends == ends and r.device in (0, device)))

    def mates(self, it: Open) -> int:
        """How many listeners its group has."""
        return sum(1 for o in self.open.values() if o.reuseport and self.state(o) == LISTEN and o.device == it.device
                   and o.socket.getsockname() == it.socket.getsockname() and o.user == it.user)

    @staticmethod
    def as_user(user: int, call: Callable[[], object]) -> str:
        """A call by that user; its error, or nothing."""
        os.seteuid(user)
        try:
            return error_of(call)
        finally:
            os.seteuid(0)

    # -- socket, bind, listen --------------------------------------------------------------------------------------

    def socket(self, label: str, uid: int = 0, dev: int = 0, reuseaddr: bool = False, reuseport: bool = False,
               noport: bool = False) -> str:
        """`socket`."""
        os.seteuid(uid)
        try:
            it = socket.socket(socket.AF_INET, socket.SOCK_STREAM)
        finally:
            os.seteuid(0)
        it.setblocking(False)
        if reuseaddr:
            it.setsockopt(socket.SOL_SOCKET, socket.SO_REUSEADDR, 1)
        if reuseport:
            it.setsockopt(socket.SOL_SOCKET, SO_REUSEPORT, 1)
        if dev:
            it.setsockopt(socket.SOL_SOCKET, SO_BINDTODEVICE, b"t%d" % dev)
        if noport:
            it.setsockopt(socket.SOL_IP, IP_BIND_ADDRESS_NO_PORT, 1)
        self.keep(label, it, uid, dev, reuseport)
        return "ok"

    def bind(self, label: str, address: str, port: int) -> str:
        """`bind`."""
        it = self.named(label)
        if not it:
            return "EINVAL" if (self.section, label) in self.requests else "EBADF"
        self.make_local(address)
        who = it.user if self.ways.lowest_port else 0
        return self.as_user(who, lambda: it.socket.bind((address, port))) or f"ok {it.socket.getsockname()[1]}"

    def listen(self, label: str) -> str:
        """`listen`."""
        it = self.named(label)
        if not it:
            return "EINVAL" if (self.section, label) in self.requests else "EBADF"
        if self.ways.defers:
            it.socket.setsockopt(socket.IPPROTO_TCP, TCP_DEFER_ACCEPT, 30)
        return error_of(lambda: it.socket.listen(64)) or f"ok {it.socket.getsockname()[1]}"

    # -- connect ---------------------------------------------------------------------------------------------------

    def connect(self, label: str, to: tuple[str, int], source: Optional[str] = None) -> str:
        """`connect`; the remote end answers at once."""
        it = self.named(label)
        if not it:
            return "EINVAL" if (self.section, label) in self.requests else "EBADF"
        mark = 0
        if self.state(it) == CLOSED:
            address = it.socket.getsockname()[0]
            wrong = source in (None, ANY) if address == ANY else source not in (None, address)
            if to[0] == ANY or to[1] == 0 or wrong:
                return "EINVAL"
            if address == ANY:
                mark = self.mark(str(source))
                it.socket.setsockopt(socket.SOL_SOCKET, SO_MARK, mark)
        self.drain()
        error = error_of(lambda: it.socket.connect(to))
        if mark:
            it.socket.setsockopt(socket.SOL_SOCKET, SO_MARK, 0)
        if error != "EINPROGRESS":
            if not error:
                raise Failed("connect ended at once")
            return error
        own = it.socket.getsockname()
        syn = self.expect(lambda s: s.flags & (SYN | ACK) == SYN and (s.source, s.target) == (own, to),
                          "SYN of connect", it.device)
        it.ends = (*own, *to)
        if self.ways.answers:
            self.answer(it, own, to, syn)
        self.waits.pop((it.ends, it.device), None)
        return f"ok {own[0]}:{own[1]}"

    def answer(self, it: Open, own: tuple[str, int], to: tuple[str, int], syn: Segment) -> None:
        """The remote end takes the connection."""
        self.sequence += 100_000
        self.time += 10
        times = None if syn.time is None else (self.time, syn.time)
        self.devices[it.device].send(to, own, SYN | ACK, self.sequence, syn.sequence + 1, times)
        it.sequence, it.acknowledged, it.time = self.sequence + 1, syn.sequence + 1, syn.time
        self.drain()
        if self.state(it) != ESTABLISHED or it.socket.getsockopt(socket.SOL_SOCKET, socket.SO_ERROR):
            raise Failed("connect: not established")
        it.socket.connect(to)                      # the second call takes note that the first one is done

    # -- accept, syn, ack ------------------------------------------------------------------------------------------

    def listener(self, label: str, remote: tuple[str, int], at: tuple[str, int]) -> Open | str:
        """The listener of `accept` and `syn`, or their reply where `inet` gives it by itself."""
        it = self.named(label)
        if not it:
            return "EINVAL" if (self.section, label) in self.requests else "EBADF"
        own = it.socket.getsockname()
        if (self.state(it) != LISTEN or at[1] != own[1] or at[0] == ANY or own[0] not in (ANY, at[0])
                or remote[0] == ANY or remote[1] == 0):
            return "EINVAL"
        return it

    def taker(self, it: Open, found: Optional[Shown], ends: Tuple) -> str:
        """Nothing where the kernel gives a connection of these ends to the listener or a mate of it; else the reply."""
        if found and found.state == TIME_WAIT:
            found = self.diag.find(ends[0], ends[1], "192.0.2.1", 1, self.devices[it.device].index)
        key = found and self.key_of(found.inode)
        if not found or found.state != LISTEN or not key:
            raise Failed("no listener is found")
        other = self.open[key]
        alike = (it.reuseport and other.reuseport and other.device == it.device and other.user == it.user
                 and other.socket.getsockname() == it.socket.getsockname())
        return "" if other is it or alike else f"n/a the kernel gives it to {key[0]}.{key[1]}"

    def place(self, it: Open, address: str) -> Optional[int]:
        """Its place in its group; None where it is in none, or alone."""
        count = self.mates(it) if it.reuseport else 1
        if count <= 1:
            return None
        for place in range(count):
            self.steer(it, place)
            got = self.look_by_syn(("10.1.0.9", 20000 + place), (address, it.socket.getsockname()[1]), it.device)
            self.unsteer(it)
            if got == f"listen {self.section}.{it.label}":
                return place
        raise Failed("a listener has no place in its group")

    @staticmethod
    def steer(it: Open, place: int) -> None:
        """The group gives each packet to the member of that place (a classic BPF program)."""
        code = ctypes.create_string_buffer(struct.pack("HBBI", 6, 0, 0, place))
        program = struct.pack("HxxxxxxP", 1, ctypes.addressof(code))
        it.socket.setsockopt(socket.SOL_SOCKET, ATTACH_REUSEPORT, program)

    @staticmethod
    def unsteer(it: Open) -> None:
        """The group chooses by its hash again."""
        it.socket.setsockopt(socket.SOL_SOCKET, DETACH_REUSEPORT, 1)

    def say_syn(self, device: int, remote: tuple[str, int], at: tuple[str, int]) -> Optional[Segment]:
        """A SYN comes in; the SYN-ACK, or None where another packet answers it."""
        self.drain()
        if self.ways.older and self.waits:
            self.devices[device].send(remote, at, SYN, self.sequence - 50_000, 0, (self.time - 500, 0))
        else:
            self.sequence += 100_000
            self.time += 10
            self.devices[device].send(remote, at, SYN, self.sequence, 0, (self.time, 0))
        got = self.expect(lambda s: (s.source, s.target) == (at, remote), "answer to a SYN")
        return got if got.flags & (SYN | ACK | RST) == SYN | ACK else None

    def shake_hands(self, device: int, remote: tuple[str, int], at: tuple[str, int]
                    ) -> Optional[tuple[int, int, Optional[int]]]:
        """A connection comes in: the remote end's numbers, or None where it isn't taken."""
        got = self.say_syn(device, remote, at)
        if got is None:
            return None
        times = None if got.time is None else (self.time, got.time)
        self.devices[device].send(remote, at, ACK, self.sequence + 1, got.sequence + 1, times)
        return self.sequence + 1, got.sequence + 1, got.time

    def pop(self, it: Open) -> Optional[socket.socket]:
        """accept(2), by the user who is to call it."""
        who = it.user if self.ways.accepted_by is None else self.ways.accepted_by
        got: list[socket.socket] = []
        error = self.as_user(who, lambda: got.append(it.socket.accept()[0]))
        if error == "EAGAIN":
            return None
        if error:
            raise Failed("accept: " + error)
        got[0].setblocking(False)
        return got[0]

    def accept(self, label: str, child: str, remote: tuple[str, int], at: tuple[str, int]) -> str:
        """`accept`: a handshake with that listener, of whatever place in its group."""
        it = self.listener(label, remote, at)
        if isinstance(it, str):
            return it
        ends = (*at, *remote)
        if self.holders(ends, it.device) > 1:
            return "n/a two sockets have this four-tuple on this device"
        self.make_local(at[0])
        found = self.diag.find(*ends, self.devices[it.device].index)
        if found and found.state in (ESTABLISHED, *REQUESTS):
            if found.state == ESTABLISHED and self.shake_hands(it.device, remote, at):
                raise Failed("a SYN to a connected socket was taken")
            return "EADDRNOTAVAIL"
        other = self.taker(it, found, ends)
        if other:
            return other
        place = self.place(it, at[0])
        if place is not None:
            self.steer(it, place)
        numbers = self.shake_hands(it.device, remote, at)
        if place is not None:
            self.unsteer(it)
        if numbers is None:
            if self.ways.older:
                return "not taken"
            raise Failed("accept: the handshake failed")
        self.taken(it, child, ends, numbers)
        self.waits.pop((ends, it.device), None)
        return "ok"

    def taken(self, it: Open, child: str, ends: Tuple, numbers: tuple[int, int, Optional[int]]) -> None:
        """The listener's next connection, which has these ends, gets the label."""
        got = self.pop(it)
        if got is None:
            raise Failed("nothing is accepted")
        if (*got.getsockname(), *got.getpeername()) != ends:
            raise Failed("a stranger is accepted")
        kept = self.keep(child, got, it.user, it.device, it.reuseport)
        kept.ends = ends
        kept.sequence, kept.acknowledged, kept.time = numbers

    def syn(self, label: str, request: str, remote: tuple[str, int], at: tuple[str, int]) -> str:
        """`syn`: a SYN alone."""
        it = self.listener(label, remote, at)
        if isinstance(it, str):
            return it
        ends = (*at, *remote)
        if self.holders(ends, it.device) > 1:
            return "n/a two sockets have this four-tuple on this device"
        self.make_local(at[0])
        index = self.devices[it.device].index
        found = self.diag.find(*ends, index)
        if found and found.state in (ESTABLISHED, *REQUESTS):
            gone = any(r.ends == ends and r.listener not in self.open.values() for r in self.requests.values())
            if not gone:                           # else the kernel would end the request, as docs/LINUX.md says
                self.say_syn_again(it.device, remote, at)
            return "EADDRNOTAVAIL"
        other = self.taker(it, found, ends)
        if other:
            return other
        place = self.place(it, at[0])
        if place is not None:
            self.steer(it, place)
        got = self.say_syn(it.device, remote, at)
        if place is not None:
            self.unsteer(it)
        if got is None:
            raise Failed("syn: no SYN-ACK")
        self.requests[self.section, request] = Request(it, ends, it.device, self.sequence + 1, got.sequence + 1,
                                                       got.time, time.monotonic())
        self.waits.pop((ends, it.device), None)
        return "ok"

    def say_syn_again(self, device: int, remote: tuple[str, int], at: tuple[str, int]) -> None:
        """A SYN to a connection or a request changes nothing."""
        before = len(self.diag.all())
        self.drain()
        self.devices[device].send(remote, at, SYN, self.sequence + 77_777, 0, (self.time + 1, 0))
        self.drain()
        if len(self.diag.all()) != before:
            raise Failed("a SYN to a connection or a request changed the tables")

    def ack(self, label: str, child: str) -> str:
        """`ack`: the handshake's last packet."""
        request = self.requests.get((self.section, label))
        if not request:
            return "EINVAL" if self.named(label) else "EBADF"
        it = request.listener
        if it not in self.open.values():
            return "EINVAL"
        own, remote = request.ends[:2], request.ends[2:]
        if self.holders(request.ends, request.device) > 1:
            return "n/a two sockets have this four-tuple on this device"
        self.drain()
        self.time += 10
        times = None if request.time is None else (self.time, request.time)
        self.devices[request.device].send(remote, own, ACK, request.sequence, request.acknowledged, times)
        self.drain()
        if self.ways.defers:
            return "not accepted"
        self.taken(it, child, request.ends, (request.sequence, request.acknowledged, request.time))
        del self.requests[self.section, label]
        return "ok"

    # -- close, drop -----------------------------------------------------------------------------------------------

    def end_request(self, label: str) -> str:
        """`close` and `drop` of a request: a RST."""
        request = self.requests[self.section, label]
        if self.holders(request.ends, request.device) > 1:
            return "n/a two sockets have this four-tuple on this device"
        self.drain()
        device = self.devices[request.device]
        device.send(request.ends[2:], request.ends[:2], RST, request.sequence, 0)
        self.drain()
        found = self.diag.find(*request.ends, device.index)
        if found and found.state in REQUESTS:
            raise Failed("a RST didn't end the request")
        del self.requests[self.section, label]
        return "ok"

    def close(self, label: str) -> str:
        """`close`; the remote end closes too, so that a TIME_WAIT is left."""
        if (self.section, label) in self.requests:
            return self.end_request(label)
        it = self.named(label)
        if not it:
            return "EBADF"
        if it.ends and self.holders(it.ends, it.device) > 1:
            return "n/a two sockets have this four-tuple on this device"
        self.drain()
        del self.open[self.section, label]
        it.socket.close()
        if not it.ends:
            return "ok"
        own, remote = it.ends[:2], it.ends[2:]
        fin = self.expect(lambda s: bool(s.flags & FIN) and (s.source, s.target) == (own, remote), "FIN of close",
                          it.device)
        self.time += 10
        times = None if fin.time is None else (self.time, fin.time)
        self.devices[it.device].send(remote, own, FIN | ACK, it.sequence, fin.sequence + 1, times)
        self.drain()
        found = self.diag.find(*it.ends, self.devices[it.device].index)
        if not found or found.state != TIME_WAIT:
            raise Failed(f"close left {STATES[found.state] if found else 'nothing'}")
        self.waits[it.ends, it.device] = Wait((self.section, label), self.moment(), found, time.monotonic(),
                                              it.sequence + 1)
        return "ok time-wait"

    def drop(self, label: str) -> str:
        """`drop`."""
        if (self.section, label) in self.requests:
            return self.end_request(label)
        it = self.open.pop((self.section, label), None)
        if not it:
            return "EBADF"
        self.reset(it.socket)
        self.drain()
        return "ok"

    # -- TIME_WAITs ------------------------------------------------------------------------------------------------

    def moment(self) -> int:
        """The section's moment."""
        return self.moments.get(self.section, 0)

    def over(self) -> list[tuple[tuple[Tuple, int], Wait]]:
        """The section's TIME_WAITs that have lasted."""
        return [(key, w) for key, w in self.waits.items()
                if w.key[0] == self.section and self.moment() >= w.stamp + 60]

    def reap(self) -> int:
        """`reap`: the kernel's own minute is too long, so they are ended one by one."""
        count = 0
        for key, wait in self.over():
            error = self.diag.destroy(wait.shown)
            if error not in (0, errno.ENOENT, errno.ESTALE):
                raise Failed("reap: " + os.strerror(error))
            count += not error
            del self.waits[key]
        return count

    def reset_wait(self, ends: Tuple, device: int = 0) -> None:
        """A RST with the right number comes to a TIME_WAIT."""
        wait = self.waits[ends, device]
        self.drain()
        self.devices[device].send(ends[2:], ends[:2], RST, wait.sequence, 0)
        self.drain()

    # -- lookups and lists -----------------------------------------------------------------------------------------

    def key_of_shown(self, it: Shown) -> Optional[Key]:
        """Whose it is."""
        device = self.number_of.get(it.device, 0)
        if it.state == TIME_WAIT:
            wait = self.waits.get((it.tuple, device))
            return wait and wait.key
        if it.state in REQUESTS:
            return next((key for key, r in self.requests.items() if (r.ends, r.device) == (it.tuple, device)), None)
        return self.key_of(it.inode)

    def look(self, remote: tuple[str, int], at: tuple[str, int], dev: int = 0) -> str:
        """`look`, by the kernel's own lookup."""
        if dev not in self.devices:
            return "n/a no such device"
        found = self.diag.find(*at, *remote, self.devices[dev].index)
        if found is None:
            return "none"
        key = self.key_of_shown(found)
        return f"{KINDS.get(found.state, STATES[found.state])} {f'{key[0]}.{key[1]}' if key else '?'}"

    def look_by_syn(self, remote: tuple[str, int], at: tuple[str, int], dev: int = 0) -> str:
        """The listener that gets a real SYN: whose queue has a connection then, which is reset."""
        self.make_local(at[0])
        if not self.shake_hands(dev, remote, at):
            return "none"
        got = []
        for (section, label), it in list(self.open.items()):
            accepted = self.pop(it) if self.state(it) == LISTEN else None
            if accepted:
                got.append(f"listen {section}.{label}")
                self.reset(accepted)
        self.drain()
        if len(got) != 1:
            raise Failed(f"a SYN got {len(got)} connections")
        return got[0]

    def look_over_loopback(self, port: int, at: tuple[str, int]) -> str:
        """The listener that a process of this machine comes to, whose packets go over lo."""
        client = socket.socket(socket.AF_INET, socket.SOCK_STREAM)
        client.bind((at[0], port))
        client.connect(at)
        try:
            for (section, label), it in list(self.open.items()):
                accepted = self.pop(it) if self.state(it) == LISTEN else None
                if accepted:
                    self.reset(accepted)
                    return f"listen {section}.{label}"
        finally:
            self.reset(client)
        return "none"

    def order(self, label: str, address: str, dev: int) -> str:
        """The members of a listener's group by their places, each asked for by a program and a SYN."""
        it = self.named(label)
        if not it:
            return "EBADF"
        port = it.socket.getsockname()[1]
        members = []
        for place in range(self.mates(it)):
            self.steer(it, place)
            members.append(self.look_by_syn(("10.1.0.9", 20000 + place), (address, port), dev).split(" ")[1])
        self.unsteer(it)
        return " ".join(members)

    def items(self) -> list[tuple[Key, str]]:
        """What a `dump` lists of this namespace: each socket's label and its words."""
        out = []
        for it in self.diag.all():
            if it.state in (CLOSED, 13):
                continue
            kind = KINDS.get(it.state, STATES[it.state])
            far = f"{it.remote}:{it.rport}"
            if kind == "listen" and not self.ways.peers:
                far = f"{ANY}:0"                   # what a refused `connect` left; no lookup reads it
            key = self.key_of_shown(it) or (9, "?")
            net = f" net {self.number}" if self.number else ""
            out.append((key, f"item {kind} {key[0]}.{key[1]} {it.local}:{it.lport} {far} "
                             f"dev {self.number_of.get(it.device, 0)}{net}"))
        return out

    def listed_by_ss(self) -> list[tuple[str, str, str, int, int]]:
        """What ss(8) lists: state, both ends, device and namespace."""
        self.enter()
        lines = subprocess.run(["ss", "-Htan"], capture_output=True, text=True, check=True).stdout.splitlines()
        out = []
        for words in (line.split() for line in lines):
            (local, device), (remote, _) = map(end_of_ss, words[3:5])
            out.append((words[0], local, f"{ANY}:0" if words[0] == "LISTEN" else remote, device, self.number))
        return sorted(out)

    # -- fairness --------------------------------------------------------------------------------------------------

    def too_late(self) -> bool:
        """A request is about to be sent again, so that the kernel's answers aren't those of a script."""
        return any(time.monotonic() - r.since > 0.85 for r in self.requests.values())

    def young(self) -> list[float]:
        """When the TIME_WAITs of the present moment began."""
        return [w.since for w in self.waits.values() if w.stamp == self.moments.get(w.key[0], 0)]


def end_of_ss(text: str) -> tuple[str, int]:
    """An end and its device, as ss writes it."""
    address, port = text.rsplit(":", 1)
    address, _, device = address.partition("%")
    return f"{address}:{0 if port == '*' else port}", int(device[1:] or 0) if device else 0


class Kernel:
    """All namespaces of a script; a label's commands go to that of its socket."""

    def __init__(self, nets: tuple[int, ...] = (0,), devices: tuple[int, ...] = (1, 2, 3)) -> None:
        self.spaces = {net: Namespace(net, devices) for net in nets}
        self.first = self.spaces[min(nets)]
        self.net_of: dict[Key, int] = {}
        self.order_of: dict[Key, int] = {}
        self.section = 1

    def begin(self, ports: tuple[int, int] = (32768, 60999), twreuse: int = 0, reserved: tuple[int, ...] = (),
              ways: Optional[Ways] = None) -> None:
        """A script begins."""
        moments: dict[int, int] = {}
        for space in self.spaces.values():
            space.begin(ports, twreuse, reserved, ways or Ways())
            space.moments = moments
        self.net_of, self.order_of, self.section = {}, {}, 1

    def end(self) -> None:
        """All sockets go."""
        for space in self.spaces.values():
            space.enter()
            space.clear()

    def give(self, label: str, net: int) -> None:
        """The label is given, in a namespace."""
        self.net_of[self.section, label] = net
        self.order_of[self.section, label] = len(self.order_of)

    def of(self, label: str) -> Namespace:
        """The namespace of a label's socket."""
        return self.spaces[self.net_of.get((self.section, label), min(self.spaces))]

    def do(self, words: list[str]) -> str:
        """One command's reply; `dump`'s has several lines."""
        does = {"socket": self._socket, "script": self._script, "connect": self._connect, "at": self._at,
                "reap": self._reap, "look": self._look, "wire": self._wire, "dump": self._dump, "order": self._order,
                "accept": self._pair, "syn": self._pair, "ack": self._ack, "bind": self._bind}
        if words[0] in does:
            return does[words[0]](words)
        return getattr(self.of(words[1]), words[0])(words[1])

    def _script(self, words: list[str]) -> str:
        self.section = int(words[1])
        for space in self.spaces.values():
            space.section = self.section
        return ""

    def _socket(self, words: list[str]) -> str:
        options = options_of(words[2:])
        net = int(options.pop("net", 0))
        self.give(words[1], net)
        self.spaces[net].enter()
        return self.spaces[net].socket(words[1], **options)

    def _bind(self, words: list[str]) -> str:
        return self.of(words[1]).bind(words[1], *end_of(words[2]))

    def _connect(self, words: list[str]) -> str:
        source = words[3] if words[2] == "from" else None
        return self.of(words[1]).connect(words[1], end_of(words[-1]), source)

    def _pair(self, words: list[str]) -> str:
        space = self.of(words[1])
        call = space.accept if words[0] == "accept" else space.syn
        return self._given(words[2], space, call(words[1], words[2], end_of(words[4]), end_of(words[6])))

    def _ack(self, words: list[str]) -> str:
        space = self.of(words[1])
        return self._given(words[2], space, space.ack(words[1], words[2]))

    def _given(self, label: str, space: Namespace, reply: str) -> str:
        if not reply.startswith("n/a"):
            self.give(label, space.number)
        return reply

    def _at(self, words: list[str]) -> str:
        now, then = self.first.moments.get(self.section, 0), int(words[1])
        if then < now:
            return "EINVAL"
        time.sleep(SECOND * min(then - now, 3))
        self.first.moments[self.section] = then
        return "ok"

    def _reap(self, words: list[str]) -> str:
        for space in self.spaces.values():
            if any(space.holders(*key) > 1 for key, _ in space.over()):
                return "n/a two sockets have this four-tuple on this device"
        return f"ok {sum(space.reap() for space in self.spaces.values())}"

    def _look(self, words: list[str]) -> str:
        options = options_of(words[3:])
        return self.spaces[int(options.pop("net", 0))].look(end_of(words[1]), end_of(words[2]), **options)

    def _wire(self, words: list[str]) -> str:
        options = options_of(words[3:])
        return self.spaces[int(options.pop("net", 0))].look_by_syn(end_of(words[1]), end_of(words[2]), **options)

    def _order(self, words: list[str]) -> str:
        return self.of(words[1]).order(words[1], words[2], int(words[3]))

    def _dump(self, words: list[str]) -> str:
        items = [item for space in self.spaces.values() for item in space.items()]
        items.sort(key=lambda item: (item[0][0], self.order_of.get(item[0], 1 << 30), item[1]))
        return "\n".join([str(len(items)), *(text for _, text in items)])

    def too_late(self, young: list[float]) -> bool:
        """Something has lasted too long in real time for a fair comparison."""
        now = time.monotonic()
        return (any(space.too_late() for space in self.spaces.values())
                or any(now - since > SECOND * 0.45 for since in young))

    def young(self) -> list[float]:
        """When the TIME_WAITs of the present moments began."""
        return [since for space in self.spaces.values() for since in space.young()]

    def listed_by_ss(self) -> list[tuple[str, str, str, int, int]]:
        """What ss(8) lists of all namespaces."""
        return sorted(line for space in self.spaces.values() for line in space.listed_by_ss())


def end_of(text: str) -> tuple[str, int]:
    """An end of a script."""
    address, port = text.rsplit(":", 1)
    return address, int(port)


def options_of(words: list[str]) -> dict[str, int]:
    """Options of a line, those without a number as 1."""
    out, at = {}, 0
    while at < len(words):
        numbered = words[at] in ("uid", "dev", "net")
        out[words[at]] = int(words[at + 1]) if numbered else 1
        at += 2 if numbered else 1
    return out
