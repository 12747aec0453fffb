"""Sockets as packets find them: ranks, conflicts, chains and the order of ports.

The rules are those of docs/RULES.md.
"""

from __future__ import annotations

from dataclasses import dataclass
from enum import IntEnum
from typing import Iterator, NamedTuple, Optional, Protocol

from . import hashes


class Kind(IntEnum):
    """The kinds of sockets that packets find, in the order of a dump."""

    FULL = 1
    TIME_WAIT = 2
    LISTEN = 3
    REQUEST = 4


KIND_WORDS: dict[Kind, str] = {
    Kind.FULL: "full",
    Kind.TIME_WAIT: "time-wait",
    Kind.LISTEN: "listen",
    Kind.REQUEST: "request",
}


class State(IntEnum):
    """States of a socket; Addressed has an address and no port yet (`noport`)."""

    UNBOUND = 0
    ADDRESSED = 1
    BOUND = 2
    LISTENING = 3
    FULL = 4
    TIME_WAIT = 5
    REQUEST = 6

    @property
    def word(self) -> str:
        """The state in lower case."""
        return self.name.lower()


# These own a port; an Addressed socket and a request own none.
OWNER_STATES = frozenset((State.BOUND, State.LISTENING, State.FULL, State.TIME_WAIT))

KIND_OF_STATE: dict[State, Kind] = {
    State.FULL: Kind.FULL,
    State.TIME_WAIT: Kind.TIME_WAIT,
    State.LISTENING: Kind.LISTEN,
    State.REQUEST: Kind.REQUEST,
}


class Name(NamedTuple):
    """A socket's name: script, number of its label there, and the label.

    Ordered by section, and in a section as the labels were given.
    """

    script: int
    number: int
    label: str

    def __str__(self) -> str:
        return f"{self.script}.{self.label}"

    def word(self) -> int:
        """The name as a number, by which names are ordered."""
        return (self.script << 24) + self.number


class Packet(NamedTuple):
    """A packet's two ends, its device (0: none) and its namespace."""

    src: int
    sport: int
    dst: int
    dport: int
    dev: int = 0
    net: int = 0


class Four(NamedTuple):
    """A namespace's four-tuple."""

    net: int
    local: int
    lport: int
    remote: int
    rport: int


class Card(NamedTuple):
    """A hashed socket as packets see it."""

    local: int
    lport: int
    remote: int
    rport: int
    dev: int
    net: int
    kind: Kind
    name: Name

    @property
    def four(self) -> Four:
        """Its four-tuple."""
        return Four(self.net, self.local, self.lport, self.remote, self.rport)


@dataclass(frozen=True)
class Shape:
    """`table slots N bind B hash E listen L` and its defaults."""

    slots: int = 1024
    bind: int = 16
    hash: int = 256
    listen: int = 32


class OwnerLike(Protocol):
    """What the tests of conflicts read of an owner."""

    addr: int
    port: int
    dev: int
    net: int
    uid: int
    reuseaddr: bool
    reuseport: bool
    state: State


def rank(card: Card, packet: Packet) -> int:
    """How well a packet fits: 5 its four-tuple, 4 to 1 a listener, 0 not at all."""
    if card.net != packet.net:
        return 0
    if card.kind is not Kind.LISTEN:
        same = (card.local, card.lport, card.remote, card.rport) == (
            packet.dst, packet.dport, packet.src, packet.sport)
        return 5 if same and card.dev in (0, packet.dev) else 0
    if card.lport != packet.dport:
        return 0
    on_device = card.dev != 0 and card.dev == packet.dev
    if not on_device and card.dev != 0:
        return 0
    if card.local == packet.dst:
        return 4 if on_device else 3
    if card.local == 0:
        return 2 if on_device else 1
    return 0


def overlap(a: OwnerLike, b: OwnerLike) -> bool:
    """They are in each other's way: docs/RULES.md, "What the rules have in common"."""
    return (a.net == b.net
            and a.port == b.port
            and (a.dev == b.dev or a.dev == 0 or b.dev == 0)
            and (a.addr == b.addr or a.addr == 0 or b.addr == 0))


def bind_conflict(a: OwnerLike, b: OwnerLike) -> bool:
    """b, which is there, refuses a: they overlap, and neither exception holds."""
    both_reuseaddr = a.reuseaddr and b.reuseaddr and b.state is not State.LISTENING
    both_reuseport = (a.reuseport and b.reuseport
                      and (a.uid == b.uid or b.state is State.TIME_WAIT))
    return overlap(a, b) and not both_reuseaddr and not both_reuseport


def strict_conflict(a: OwnerLike, b: OwnerLike) -> bool:
    """What a search for a port asks: overlap alone."""
    return overlap(a, b)


def agree(a: OwnerLike, b: OwnerLike, same_origin: bool, both_by_connect: bool) -> bool:
    """Both may stand bound at once."""
    both_listen = a.state is State.LISTENING and b.state is State.LISTENING
    one_waits = State.TIME_WAIT in (a.state, b.state)
    return (not overlap(a, b)
            or (a.reuseaddr and b.reuseaddr and not both_listen)
            or (a.reuseport and b.reuseport and (a.uid == b.uid or one_waits))
            or same_origin
            or both_by_connect)


def tw_replaceable(stamp: int, moment: int, switch: bool) -> bool:
    """A TIME_WAIT gives way to `connect`: `twreuse 1`, and a later moment."""
    return switch and moment > stamp


def tw_expired(stamp: int, moment: int) -> bool:
    """A TIME_WAIT is over: 60 seconds after its stamp."""
    return moment >= stamp + 60


def bind_bucket(port: int, net: int, shape: Shape) -> int:
    """The bucket of the owners of a port in a namespace."""
    return (port + net) & (shape.bind - 1)


def established_bucket(four: Four, shape: Shape, seed: int) -> int:
    """The chain of a four-tuple."""
    h = hashes.tuple_hash(four.local, four.lport, four.remote, four.rport, seed, four.net)
    return h & (shape.hash - 1)


def listening_bucket(addr: int, port: int, net: int, shape: Shape, seed: int) -> int:
    """The chain of a listener's end; these come behind those of four-tuples."""
    return shape.hash + (hashes.listen_hash(addr, port, seed, net) & (shape.listen - 1))


def home(card: Card, shape: Shape, seed: int) -> int:
    """The chain in which a socket belongs."""
    if card.kind is Kind.LISTEN:
        return listening_bucket(card.local, card.lport, card.net, shape, seed)
    return established_bucket(card.four, shape, seed)


def packet_hash(packet: Packet, seed: int) -> int:
    """The hash of its four-tuple; its destination is the local end."""
    return hashes.tuple_hash(packet.dst, packet.dport, packet.src, packet.sport,
                             seed, packet.net)


def packet_buckets(packet: Packet, shape: Shape, seed: int) -> tuple[int, int, int]:
    """A packet's three chains: its four-tuple's, its address's, 0.0.0.0's."""
    return (packet_hash(packet, seed) & (shape.hash - 1),
            listening_bucket(packet.dst, packet.dport, packet.net, shape, seed),
            listening_bucket(0, packet.dport, packet.net, shape, seed))


def port_order(low: int, high: int, offset: int, even_first: bool,
               reserved: tuple[int, ...] = ()) -> Iterator[int]:
    """The order in which a search tries ports; reserved ones are passed over."""
    n = high - low + 1
    e = offset & ~1 if even_first else offset | 1
    other = e + 1 if even_first else e - 1
    for start in (e, other):
        for k in range(n // 2):
            port = low + (start + 2 * k) % n
            if port not in reserved:
                yield port


def address(value: int) -> str:
    """An address as text."""
    return ".".join(str((value >> shift) & 255) for shift in (24, 16, 8, 0))


def end(addr: int, port: int) -> str:
    """An end as text."""
    return f"{address(addr)}:{port}"


def card_text(card: Card) -> str:
    """`KIND n.S A:P B:Q dev D`, with ` net N` where N isn't 0."""
    tail = f" net {card.net}" if card.net else ""
    return (f"{KIND_WORDS[card.kind]} {card.name} {end(card.local, card.lport)} "
            f"{end(card.remote, card.rport)} dev {card.dev}{tail}")


def kind_of_word(word: str) -> Optional[Kind]:
    """The kind that a KIND word names."""
    return next((k for k, w in KIND_WORDS.items() if w == word), None)
