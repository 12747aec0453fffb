"""Captures for the fuzzer: random ones, valid and not (docs/inet.1, CAPTURES)."""

from __future__ import annotations

import random
from typing import Callable, Sequence

Ends = tuple[int, int, int, int]                   # src, sport, dst, dport


def ip_header(ends: Ends, choose: random.Random) -> bytes:
    """An IPv4 header and ports, mostly of a packet that is looked up."""
    src, sport, dst, dport = ends
    words = choose.choice((5, 5, 5, 5, 6, 15))
    head = bytearray(4 * words)
    head[0] = 0x40 | words
    head[9] = 6
    head[12:16] = src.to_bytes(4, "big")
    head[16:20] = dst.to_bytes(4, "big")
    head[6] = choose.choice((0, 0, 0x40, 0x20))    # flags aren't the offset
    if choose.random() < 0.3:
        spoil(head, choose)
    return bytes(head) + sport.to_bytes(2, "big") + dport.to_bytes(2, "big")


def spoil(head: bytearray, choose: random.Random) -> None:
    """One field that makes the packet skip or short."""
    what = choose.randrange(6)
    if what == 0:
        head[0] = (choose.choice((0, 3, 5, 6, 15)) << 4) | (head[0] & 15)
    elif what == 1:
        head[0] = 0x40 | choose.randrange(5)
    elif what == 2:
        head[9] = choose.choice((1, 17, 0, 255))
    elif what == 3:
        head[7] = choose.choice((1, 128))
    elif what == 4:
        head[6] |= choose.choice((1, 0x10))
    else:
        head[0] = 0x4F


def frame(link: int, ends: Ends, choose: random.Random) -> bytes:
    """The stored bytes of a packet of a link type."""
    ip = ip_header(ends, choose)
    if choose.random() < 0.3:
        ip += bytes(choose.randrange(8))
    if link == 1:
        tag = b""
        if choose.random() < 0.3:
            tag = b"\x81\x00" + choose.randbytes(2)
        if choose.random() < 0.05:
            tag = b"\x88\xa8" + choose.randbytes(2)
        kind = b"\x08\x00" if choose.random() < 0.9 else choose.choice(
            (b"\x08\x06", b"\x81\x00", b"\x00\x08", b"\x86\xdd"))
        ip = choose.randbytes(12) + tag + kind + ip
    if choose.random() < 0.15:
        ip = ip[:choose.randrange(len(ip) + 1)]
    return ip


def classic(pick: Callable[[], Ends], choose: random.Random) -> bytes:
    """A pcap file, sometimes cut or with a header that isn't read."""
    order = choose.choice(("big", "little"))

    def number(value: int, size: int) -> bytes:
        """A number in the capture's order."""
        return value.to_bytes(size, "big" if order == "big" else "little")

    link = choose.choice((1, 1, 1, 101, 228))
    magic = choose.choice((0xA1B2C3D4, 0xA1B2C3D4, 0xA1B23C4D))
    version = (2, 4)
    if choose.random() < 0.12:
        what = choose.randrange(3)
        if what == 0:
            magic = choose.choice((0xA1B2CD34, 0xA1B2C3D5, 0x0A0D0D0A, 0))
        elif what == 1:
            link = choose.choice((0, 113, 12, 276, 1 << 16 | 1, 0x01000000))
        else:
            version = choose.choice(((2, 3), (4, 2), (1, 4), (3, 4), (2, 0x0400)))
    out = number(magic, 4) + number(version[0], 2) + number(version[1], 2)
    out += choose.randbytes(8) + number(65535, 4) + number(link, 4)
    for _ in range(choose.randrange(6)):
        data = frame(link, pick(), choose)
        stored = len(data)
        out += choose.randbytes(8) + number(stored, 4) + number(stored + 5, 4) + data
    if choose.random() < 0.1:
        out += choose.randbytes(8) + number(0xFFFFFFFF, 4) + number(0, 4) + b"abc"
    return cut(out, choose)


def plain(pick: Callable[[], Ends], count: int, choose: random.Random) -> bytes:
    """A valid capture of raw IP, of packets that are looked up."""
    out = bytes.fromhex("d4c3b2a1 0200 0400 00000000 00000000 ffff0000 65000000")
    for _ in range(count):
        src, sport, dst, dport = pick()
        ip = bytes.fromhex("45000028 00000000 40060000") + src.to_bytes(4, "big")
        ip += dst.to_bytes(4, "big") + sport.to_bytes(2, "big") + dport.to_bytes(2, "big")
        if choose.random() < 0.05:
            ip = ip[:-1]
        out += bytes(8) + len(ip).to_bytes(4, "little") * 2 + ip
    return out


def cut(out: bytes, choose: random.Random) -> bytes:
    """Sometimes not all of it, or a little more."""
    if choose.random() < 0.3:
        return out[:choose.randrange(len(out) + 1)]
    if choose.random() < 0.1:
        return out + choose.randbytes(choose.randrange(1, 20))
    return out


def block(kind: int, body: bytes, order: str, choose: random.Random) -> bytes:
    """A pcapng block, mostly whole."""
    body += bytes(-len(body) % 4)
    length = 12 + len(body)
    first = last = length
    if choose.random() < 0.03:
        first += choose.choice((1, 4, -4, 8))
    if choose.random() < 0.03:
        last += choose.choice((1, 4, -4))
    side = "big" if order == "big" else "little"
    return (kind.to_bytes(4, side) + (first % 2 ** 32).to_bytes(4, side) + body
            + (last % 2 ** 32).to_bytes(4, side))


def pcapng(pick: Callable[[], Ends], choose: random.Random) -> bytes:
    """A pcapng file."""
    out = b""
    order, links = "little", [1]
    for at in range(choose.randrange(1, 12)):
        if at == 0 or choose.random() < 0.1:
            order = choose.choice(("big", "little"))
            out += ng_section(order, choose)
            links = []
            continue
        kind = choose.choice((1, 1, 6, 6, 6, 6, 3, 2, 5, 0x0BAD))
        if kind == 1:
            links.append(choose.choice((1, 1, 1, 101, 228, 113, 0)))
            out += ng_interface(links[-1], order, choose)
        elif kind == 6:
            out += ng_packet(pick(), links, order, choose)
        else:
            out += block(kind, choose.randbytes(choose.randrange(30)), order, choose)
    return cut(out, choose)


def ng_number(value: int, size: int, order: str) -> bytes:
    """A number in a section's order."""
    return value.to_bytes(size, "big" if order == "big" else "little")


def ng_section(order: str, choose: random.Random) -> bytes:
    """A section block, now and then with another mark or major version."""
    mark = 0x1A2B3C4D if choose.random() < 0.97 else 0x1A2B3C4E
    major = 1 if choose.random() < 0.97 else choose.choice((0, 2, 256))
    body = (ng_number(mark, 4, order) + ng_number(major, 2, order)
            + ng_number(choose.choice((0, 0, 2)), 2, order) + choose.randbytes(8)
            + choose.randbytes(choose.choice((0, 0, 4, 12))))
    if choose.random() < 0.03:
        body = body[:choose.choice((4, 8, 12))]
    return block(0x0A0D0D0A, body, order, choose)


def ng_interface(link: int, order: str, choose: random.Random) -> bytes:
    """An interface block."""
    body = ng_number(link, 2, order) + choose.randbytes(6) + choose.randbytes(
        choose.choice((0, 0, 4)))
    if choose.random() < 0.03:
        body = body[:4]
    return block(1, body, order, choose)


def ng_packet(ends: Ends, links: Sequence[int], order: str, choose: random.Random) -> bytes:
    """An enhanced packet block, now and then of no interface or with too long a packet."""
    interface = choose.randrange(len(links)) if links and choose.random() < 0.97 else len(links)
    link = links[interface] if interface < len(links) else 1
    data = frame(link, ends, choose)
    stored = len(data) if choose.random() < 0.97 else len(data) + choose.choice((1, 4, 5, 100))
    options = choose.randbytes(choose.choice((0, 0, 4, 8)))
    body = (ng_number(interface, 4, order) + choose.randbytes(8) + ng_number(stored, 4, order)
            + ng_number(len(data) + 3, 4, order) + data + bytes(-len(data) % 4) + options)
    return block(6, body, order, choose)
