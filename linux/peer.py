"""The remote ends: this process, at the other side of TUN devices."""

from __future__ import annotations

import fcntl
import os
import socket
import struct
from typing import NamedTuple, Optional

FIN, SYN, RST, ACK = 1, 2, 4, 16
Times = Optional[tuple[int, int]]                  # the option of timestamps


class Segment(NamedTuple):
    """A TCP segment that the kernel sent."""

    source: tuple[str, int]
    target: tuple[str, int]
    sequence: int
    acknowledged: int
    flags: int
    time: Optional[int]                            # its own timestamp


def checksum(data: bytes) -> int:
    """RFC 1071's."""
    data += bytes(len(data) % 2)
    total = sum(struct.unpack(f"!{len(data) // 2}H", data))
    total = (total & 0xFFFF) + (total >> 16)
    return ~(total + (total >> 16)) & 0xFFFF


def time_in(options: bytes) -> Optional[int]:
    """The sender's timestamp among TCP options."""
    at = 0
    while at < len(options) and options[at]:
        if options[at] == 8:
            return struct.unpack_from("!I", options, at + 2)[0]
        at += 1 if options[at] == 1 else max(2, options[at + 1])
    return None


class Tun:
    """One device of the namespace, and its other side."""

    def __init__(self, name: str) -> None:
        self.descriptor = os.open("/dev/net/tun", os.O_RDWR | os.O_NONBLOCK)
        fcntl.ioctl(self.descriptor, 0x400454CA, struct.pack("16sH22x", name.encode(), 0x1001))
        self.index = socket.if_nametoindex(name)

    def read(self) -> list[Segment]:
        """What the kernel sent by it since the last time."""
        out = []
        while True:
            try:
                packet = os.read(self.descriptor, 65536)
            except BlockingIOError:
                return out
            if packet[0] >> 4 != 4 or packet[9] != 6:
                continue
            at = (packet[0] & 15) * 4
            sport, dport, sequence, acknowledged, offset, flags = struct.unpack_from("!HHIIBB", packet, at)
            options = packet[at + 20:at + (offset >> 4) * 4]
            out.append(Segment((socket.inet_ntoa(packet[12:16]), sport), (socket.inet_ntoa(packet[16:20]), dport),
                               sequence, acknowledged, flags & 63, time_in(options)))

    def send(self, source: tuple[str, int], target: tuple[str, int], flags: int, sequence: int,
             acknowledged: int, times: Times = None) -> None:
        """A segment comes in by the device."""
        options = b"\x02\x04\x05\xb4" if flags & SYN else b""
        if times:
            options += b"\x01\x01\x08\x0a" + struct.pack("!II", times[0] & 0xFFFFFFFF, times[1] & 0xFFFFFFFF)
        size = 20 + len(options)
        tcp = struct.pack("!HHIIBBHHH", source[1], target[1], sequence & 0xFFFFFFFF, acknowledged & 0xFFFFFFFF,
                          (size // 4) << 4, flags, 60000, 0, 0) + options
        ends = socket.inet_aton(source[0]) + socket.inet_aton(target[0])
        tcp = tcp[:16] + struct.pack("!H", checksum(ends + struct.pack("!HH", 6, size) + tcp)) + tcp[18:]
        ip = struct.pack("!BBHHHBBH", 0x45, 0, 20 + size, 0, 0x4000, 64, 6, 0) + ends
        os.write(self.descriptor, ip[:10] + struct.pack("!H", checksum(ip)) + ip[12:] + tcp)
