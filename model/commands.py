"""Commands, headers and scripts (docs/inet.1, SCRIPTS)."""

from __future__ import annotations

from dataclasses import dataclass, field
from typing import Optional, Union

from .cards import Shape


@dataclass(frozen=True)
class MakeSocket:
    """`socket S [net N] [uid U] [dev D] [reuseaddr] [reuseport] [noport]`."""

    label: str
    net: int = 0
    uid: int = 0
    dev: int = 0
    reuseaddr: bool = False
    reuseport: bool = False
    noport: bool = False


@dataclass(frozen=True)
class Bind:
    """`bind S A:P`."""

    label: str
    addr: int
    port: int


@dataclass(frozen=True)
class Listen:
    """`listen S`."""

    label: str


@dataclass(frozen=True)
class Connect:
    """`connect S [from A] to B:Q`."""

    label: str
    source: Optional[int]
    remote: int
    rport: int


@dataclass(frozen=True)
class Accept:
    """`accept L C from B:Q at A:P`."""

    listener: str
    child: str
    remote: int
    rport: int
    local: int
    lport: int


@dataclass(frozen=True)
class Close:
    """`close S`."""

    label: str


@dataclass(frozen=True)
class Drop:
    """`drop S`."""

    label: str


@dataclass(frozen=True)
class At:
    """`at T`."""

    moment: int


@dataclass(frozen=True)
class Reap:
    """`reap`."""


@dataclass(frozen=True)
class Look:
    """`look B:Q A:P [dev D] [net N]` (run only)."""

    src: int
    sport: int
    dst: int
    dport: int
    dev: int = 0
    net: int = 0


@dataclass(frozen=True)
class Packets:
    """`packets N` (run only)."""

    count: int


@dataclass(frozen=True)
class Syn:
    """`syn L R from B:Q at A:P`."""

    listener: str
    request: str
    remote: int
    rport: int
    local: int
    lport: int


@dataclass(frozen=True)
class Ack:
    """`ack R C`."""

    request: str
    child: str


@dataclass(frozen=True)
class Dump:
    """`dump`."""


Command = Union[MakeSocket, Bind, Listen, Connect, Accept, Close, Drop, At, Reap,
                Look, Packets, Syn, Ack, Dump]

VERBS: dict[type, str] = {
    MakeSocket: "socket", Bind: "bind", Listen: "listen", Connect: "connect",
    Accept: "accept", Close: "close", Drop: "drop", At: "at", Reap: "reap",
    Look: "look", Packets: "packets", Syn: "syn", Ack: "ack", Dump: "dump",
}


def given_label(command: Command) -> Optional[str]:
    """The label that a command gives."""
    if isinstance(command, MakeSocket):
        return command.label
    if isinstance(command, (Accept, Ack)):
        return command.child
    if isinstance(command, Syn):
        return command.request
    return None


def line_head(section: int, command: Command) -> str:
    """The words of an output line before the reply (docs/inet.1, OUTPUT)."""
    verb = VERBS[type(command)]
    if isinstance(command, At):
        return f"{section} at {command.moment}"
    if isinstance(command, (Reap, Look, Dump)):
        return f"{section} {verb}"
    if isinstance(command, (MakeSocket, Bind, Listen, Connect, Close, Drop)):
        return f"{section} {verb} {command.label}"
    return f"{section} {verb} {given_label(command)}"


@dataclass(frozen=True)
class Header:
    """Header lines and their defaults."""

    shape: Shape = Shape()
    low: int = 32768
    high: int = 60999
    seed: int = 0
    offset: Optional[int] = None
    twreuse: bool = False
    reserved: tuple[int, ...] = ()


@dataclass(frozen=True)
class CaptureLine:
    """`capture [dev D] [net N]`, and the capture's bytes."""

    dev: int
    net: int
    data: bytes


@dataclass
class Script:
    """A script that is in the grammar."""

    header: Header = Header()
    sections: list[list[Command]] = field(default_factory=list)
    capture: Optional[CaptureLine] = None
