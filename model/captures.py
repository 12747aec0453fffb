"""Captures, pcap and pcapng (docs/inet.1, CAPTURES)."""

from __future__ import annotations

from dataclasses import dataclass, field
from typing import Optional, Union

from .cards import Packet

SKIP = "skip"
SHORT = "short"

Item = Union[Packet, str]

LINK_TYPES = (1, 101, 228)
ETHERNET = 1
MAGICS = (0xA1B2C3D4, 0xA1B23C4D)
NG_SECTION = 0x0A0D0D0A
NG_MARK = 0x1A2B3C4D


@dataclass
class Capture:
    """The items, and whether the last record was cut."""

    items: list[Item] = field(default_factory=list)
    cut: bool = False


@dataclass(frozen=True)
class Source:
    """Where a capture's packets come from: device and namespace."""

    dev: int
    net: int


def number(data: bytes, at: int, size: int, order: str) -> int:
    """A number of `size` bytes at `at` in a byte order."""
    return int.from_bytes(data[at:at + size], "big" if order == "big" else "little")


def judge(data: bytes, link: int, source: Source) -> Item:
    """A stored packet: the first test that holds decides."""
    ip_at = 0
    if link == ETHERNET:
        if len(data) < 14:
            return SHORT
        kind = number(data, 12, 2, "big")
        ip_at = 14
        if kind == 0x8100:
            if len(data) < 18:
                return SHORT
            kind = number(data, 16, 2, "big")
            ip_at = 18
        if kind != 0x0800:
            return SKIP
    return judge_ip(data[ip_at:], source)


def judge_ip(ip: bytes, source: Source) -> Item:
    """The tests from the IP header on."""
    if len(ip) < 20:
        return SHORT
    version, words = ip[0] >> 4, ip[0] & 15
    if version != 4 or words < 5:
        return SKIP
    if ip[9] != 6:
        return SKIP
    if number(ip, 6, 2, "big") & 0x1FFF:
        return SKIP
    head = 4 * words
    if len(ip) < head + 4:
        return SHORT
    return Packet(src=number(ip, 12, 4, "big"), sport=number(ip, head, 2, "big"),
                  dst=number(ip, 16, 4, "big"), dport=number(ip, head + 2, 2, "big"),
                  dev=source.dev, net=source.net)


def header_order(data: bytes) -> Optional[str]:
    """The byte order of a pcap header; None where it isn't one that is read."""
    if len(data) < 24:
        return None
    for order in ("big", "little"):
        if number(data, 0, 4, order) in MAGICS:
            version = (number(data, 4, 2, order), number(data, 6, 2, order))
            good = version == (2, 4) and number(data, 20, 4, order) in LINK_TYPES
            return order if good else None
    return None


def classic(data: bytes, order: str, source: Source) -> Capture:
    """The records after a pcap header."""
    link = number(data, 20, 4, order)
    out = Capture()
    at = 24
    while at < len(data):
        if len(data) - at < 16:
            return Capture(out.items, True)
        stored = number(data, at + 8, 4, order)
        if len(data) - at - 16 < stored:
            return Capture(out.items, True)
        out.items.append(judge(data[at + 16:at + 16 + stored], link, source))
        at += 16 + stored
    return out


@dataclass
class Section:
    """A pcapng section's byte order and the link types of its interfaces."""

    order: str
    links: list[int] = field(default_factory=list)


def whole(data: bytes, at: int, order: str) -> Optional[bytes]:
    """The block at `at` where it is whole, with its type and lengths."""
    left = len(data) - at
    if left < 12:
        return None
    length = number(data, at + 4, 4, order)
    if length % 4 or length < 12 or length > left:
        return None
    block = data[at:at + length]
    return block if number(block, length - 4, 4, order) == length else None


def section_block(data: bytes, at: int) -> Optional[tuple[Section, int]]:
    """A valid section block at `at`, and its length."""
    if len(data) - at < 12 or number(data, at, 4, "big") != NG_SECTION:
        return None
    for order in ("big", "little"):
        if number(data, at + 8, 4, order) == NG_MARK:
            block = whole(data, at, order)
            if block is None or len(block) < 28 or number(block, 12, 2, order) != 1:
                return None
            return Section(order), len(block)
    return None


def other_block(data: bytes, at: int, section: Section, out: list[Item],
                source: Source) -> Optional[int]:
    """Reads a valid block that is no section block; its length, or None."""
    block = whole(data, at, section.order)
    if block is None:
        return None
    kind = number(block, 0, 4, section.order)
    if kind == 1:
        if len(block) < 20:
            return None
        section.links.append(number(block, 8, 2, section.order))
    elif kind == 6:
        item = enhanced(block, section, source)
        if item is None:
            return None
        out.append(item)
    return len(block)


def enhanced(block: bytes, section: Section, source: Source) -> Optional[Item]:
    """An enhanced packet block; None where it isn't valid."""
    if len(block) < 32:
        return None
    interface = number(block, 8, 4, section.order)
    stored = number(block, 20, 4, section.order)
    padded = stored + (-stored % 4)
    if interface >= len(section.links) or padded + 32 > len(block):
        return None
    link = section.links[interface]
    if link not in LINK_TYPES:
        return SKIP
    return judge(block[28:28 + stored], link, source)


def pcapng(data: bytes, source: Source) -> Optional[Capture]:
    """None (a bad capture) where the first block isn't a valid section block."""
    first = section_block(data, 0)
    if first is None:
        return None
    section, at = first
    out = Capture()
    while at < len(data):
        if number(data, at, 4, "big") == NG_SECTION and len(data) - at >= 4:
            begun = section_block(data, at)
            if begun is None:
                break
            section, length = begun
        else:
            read = other_block(data, at, section, out.items, source)
            if read is None:
                break
            length = read
        at += length
    out.cut = at < len(data)
    return out


def packets(data: bytes, dev: int, net: int) -> Optional[Capture]:
    """What the bytes behind `capture` store; None is a bad capture. No bytes: no items, not cut."""
    if not data:
        return Capture()
    source = Source(dev, net)
    order = header_order(data)
    if order is not None:
        return classic(data, order, source)
    return pcapng(data, source)
