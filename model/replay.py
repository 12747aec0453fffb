"""A section's own state by the replies that a race printed.

A section knows its labels, states, moment and generator; what a reply may be
by these alone is checked here, in the order of the refusals. What other
sections have to do with it is left to judge.py, by the fields of `Step`.
"""

from __future__ import annotations

import re
from dataclasses import dataclass, field, replace
from typing import Callable, Optional

from . import commands as cmd
from .cards import Card, Four, Kind, Name, OWNER_STATES, State, address, port_order
from .flat import KIND_OF_STATE, Sock
from .hashes import Lcg64Xsh32
from .record import Change, ReplyLine

NUMBER = "(0|[1-9][0-9]*)"
ENFILE = re.compile(f"ENFILE {NUMBER} {NUMBER}")
NO_SLOT = re.compile(f"ok no-slot {NUMBER} {NUMBER}")
OK_NUMBER = re.compile(f"ok {NUMBER}")
OK_END = re.compile(rf"ok ([0-9.]+):{NUMBER}")
DUMP = re.compile(f"{NUMBER} t0 {NUMBER} t1 {NUMBER}")


class Wrong(Exception):
    """A line that the section's own state rules out."""

    def __init__(self, line: int, why: str) -> None:
        super().__init__(f"line {line}: {why}")


@dataclass
class Dump:
    """A `dump` of a race: its count, its clock loads and its items' lines."""

    t0: int
    t1: int
    items: list[ReplyLine]


@dataclass
class Presence:
    """An owner in one state, from a step's turn to another's."""

    sock: Sock
    start: "Step"
    end: Optional["Step"] = None

    @property
    def card(self) -> Optional[Card]:
        """The card of a hashed owner."""
        return self.sock.card() if self.sock.state in KIND_OF_STATE else None


@dataclass
class Step:
    """A command, its reply, and what both say of changes and of other sockets."""

    section: int
    index: int
    line: int
    command: cmd.Command
    reply: str
    moment: int
    test: str = ""                                 # which rule of others decides
    asked: Optional[Sock] = None                   # the socket as it asks
    ports: Optional[list[int]] = None              # a search's order
    found: Optional[int] = None                    # the place of the port taken
    four: Optional[Four] = None                    # the four-tuple asked for
    hashed: Optional[Card] = None
    unhashed: list[Card] = field(default_factory=list)
    replaces: bool = False                         # may replace a TIME_WAIT
    reaped: int = 0
    seen: Optional[tuple[int, int]] = None         # O and H of ENFILE
    owner_entry: bool = False                      # one entry at the owner's port
    dump: Optional[Dump] = None
    changes: list[Change] = field(default_factory=list)
    lo: int = 0
    hi: int = 0

    @property
    def ok(self) -> bool:
        """Whether the reply begins with `ok`."""
        return self.reply.split(" ")[0] == "ok"

    @property
    def refusal(self) -> str:
        """The reply's first word."""
        return self.reply.split(" ")[0]

    @property
    def spent(self) -> bool:
        """Whether a beginning was drawn that belongs to no change."""
        return self.seen is not None

    @property
    def tested_until(self) -> int:
        """The clock word before which the step's tests were made."""
        return min([c.begin for c in self.changes], default=self.hi)


class Replay:
    """Steps through one section."""

    def __init__(self, n: int, section: list[cmd.Command], header: cmd.Header) -> None:
        self.n = n
        self.commands = section
        self.header = header
        self.generator = Lcg64Xsh32(header.seed, n)
        self.open: dict[str, Sock] = {}
        self.given = 0
        self.moment = 0
        self.steps: list[Step] = []
        self.presences: list[Presence] = []
        self.current: dict[str, Presence] = {}     # by label, of open sockets
        self.waits: list[Presence] = []            # the TIME_WAITs it made

    def go(self, lines: list[ReplyLine]) -> int:
        """Takes the section's lines from the front of `lines`; how many they are."""
        at = 0
        for command in self.commands:
            if at >= len(lines):
                raise Wrong(lines[-1].line + 1 if lines else 0,
                            f"no line for a command of section {self.n}")
            at += self.step(command, lines[at], lines[at + 1:])
        return at

    def step(self, command: cmd.Command, line: ReplyLine, rest: list[ReplyLine]) -> int:
        """One command; how many lines it has."""
        head = cmd.line_head(self.n, command)
        if not line.text.startswith(head + " "):
            raise Wrong(line.line, f"not the line of `{head}`")
        step = Step(self.n, len(self.steps), line.line, command,
                    line.text[len(head) + 1:], self.moment)
        self.steps.append(step)
        if isinstance(command, cmd.Dump):
            return self._dump(step, rest)
        takes: dict[type, Callable[[Step], None]] = {
            cmd.MakeSocket: self._socket, cmd.Bind: self._bind, cmd.Listen: self._listen,
            cmd.Connect: self._connect, cmd.Accept: self._pair, cmd.Syn: self._pair,
            cmd.Ack: self._ack, cmd.Close: self._close, cmd.Drop: self._drop,
            cmd.At: self._at, cmd.Reap: self._reap,
        }
        takes[type(command)](step)
        return 1

    # -- small functions ---------------------------------------------------

    def must(self, step: Step, *replies: str) -> None:
        """The reply is one of these."""
        if step.reply not in replies:
            raise Wrong(step.line, f"`{step.reply}` where {' or '.join(replies)} is due")

    def wrong(self, step: Step) -> Wrong:
        """No reply of the command has this form here."""
        return Wrong(step.line, f"`{step.reply}` can't be the reply here")

    def no_slot(self, step: Step) -> bool:
        """Reads `ENFILE O H`."""
        got = ENFILE.fullmatch(step.reply)
        if got:
            step.seen = (int(got[1]), int(got[2]))
        return got is not None

    def name(self, label: str) -> Name:
        """The next name."""
        self.given += 1
        return Name(self.n, self.given, label)

    def enter(self, step: Step, s: Sock) -> None:
        """The socket's owner is now in this state; its former presence ends."""
        self.leave(step, s.name.label)
        if s.state in OWNER_STATES:
            presence = Presence(replace(s), step)
            self.presences.append(presence)
            self.current[s.name.label] = presence

    def leave(self, step: Step, label: str) -> None:
        """The presence of the label's socket ends."""
        presence = self.current.pop(label, None)
        if presence is not None:
            presence.end = step

    def search(self, even_first: bool) -> list[int]:
        """The order of a search that begins now."""
        h = self.header
        word = h.offset if h.offset is not None else self.generator.next_u32()
        return list(port_order(h.low, h.high, word % (h.high - h.low + 1), even_first,
                               h.reserved))

    def place(self, step: Step, port: int) -> None:
        """The place of the port that a search took."""
        assert step.ports is not None
        if port not in step.ports:
            raise Wrong(step.line, f"port {port} isn't one of the search")
        step.found = step.ports.index(port)

    # -- commands ----------------------------------------------------------

    def _socket(self, step: Step) -> None:
        c = step.command
        assert isinstance(c, cmd.MakeSocket)
        self.must(step, "ok")
        name = self.name(c.label)
        self.open[c.label] = Sock(name, name, State.UNBOUND, c.net, c.uid, c.dev,
                                  c.reuseaddr, c.reuseport, c.noport)

    def _bind(self, step: Step) -> None:
        c = step.command
        assert isinstance(c, cmd.Bind)
        s = self.open.get(c.label)
        if s is None:
            return self.must(step, "EBADF")
        if s.state not in (State.UNBOUND, State.ADDRESSED):
            return self.must(step, "EINVAL")
        if c.port == 0 and s.noport:
            self.must(step, "ok 0")
            s.state, s.addr = State.ADDRESSED, c.addr
            return None
        step.asked = replace(s, addr=c.addr, port=c.port)
        port = c.port
        if c.port:
            step.test = "bind"
            self.must(step, f"ok {c.port}", "EADDRINUSE")
        else:
            step.test, step.ports = "bind search", self.search(even_first=False)
            port = self.port_of_search(step)
        if step.ok:
            s.state, s.addr, s.port = State.BOUND, c.addr, port
            self.enter(step, s)
        return None

    def port_of_search(self, step: Step, *others: str) -> int:
        """The port of `ok P`; 0 where the reply is EADDRINUSE or one of the others."""
        got = OK_NUMBER.fullmatch(step.reply)
        if got:
            self.place(step, int(got[1]))
            return int(got[1])
        if step.reply != "EADDRINUSE" and step.refusal not in others:
            raise self.wrong(step)
        return 0

    def _listen(self, step: Step) -> None:
        c = step.command
        assert isinstance(c, cmd.Listen)
        s = self.open.get(c.label)
        if s is None:
            return self.must(step, "EBADF")
        if s.state in (State.FULL, State.REQUEST):
            return self.must(step, "EINVAL")
        if s.state is State.LISTENING:
            return self.must(step, f"ok {s.port}")
        step.asked = replace(s)
        refused = self.no_slot(step) or (step.reply == "EMFILE" and s.reuseport)
        if s.state is State.BOUND:
            step.test = "listen"
            if not refused:
                self.must(step, f"ok {s.port}", "EADDRINUSE")
        else:
            step.test, step.ports = "listen search", self.search(even_first=False)
            if not refused:
                port = self.port_of_search(step)
                if step.ok:
                    s.port = port
        if step.ok:
            s.state = State.LISTENING
            step.hashed = s.card()
            self.enter(step, s)
        return None

    def _connect(self, step: Step) -> None:
        c = step.command
        assert isinstance(c, cmd.Connect)
        s = self.open.get(c.label)
        if s is None:
            return self.must(step, "EBADF")
        if s.state in (State.FULL, State.LISTENING):
            return self.must(step, "EISCONN")
        fixed = s.state in (State.BOUND, State.ADDRESSED) and s.addr != 0
        if (s.state is State.REQUEST or c.remote == 0 or c.rport == 0
                or (fixed and c.source is not None and c.source != s.addr)
                or (not fixed and c.source in (None, 0))):
            return self.must(step, "EINVAL")
        local = s.addr if fixed else c.source
        assert local is not None
        step.asked = replace(s, addr=local)
        step.four = Four(s.net, local, s.port, c.remote, c.rport)
        if s.state is State.BOUND:
            step.test = "connect"
        else:
            step.test, step.ports = "connect search", self.search(even_first=True)
        if not self.no_slot(step) and step.reply != "EADDRNOTAVAIL":
            self.connected(step, s, local)
        return None

    def connected(self, step: Step, s: Sock, local: int) -> None:
        """`ok A:P`."""
        c = step.command
        assert isinstance(c, cmd.Connect)
        got = OK_END.fullmatch(step.reply)
        if not got or got[1] != address(local):
            raise self.wrong(step)
        port = int(got[2])
        if step.ports is not None:
            self.place(step, port)
            s.by_connect = True
        elif port != s.port:
            raise self.wrong(step)
        s.state, s.addr, s.port, s.remote, s.rport = State.FULL, local, port, c.remote, c.rport
        step.hashed, step.four, step.replaces = s.card(), s.four, True
        self.enter(step, s)

    def bad_pair(self, s: Sock, c: cmd.Accept | cmd.Syn) -> bool:
        """EINVAL of `accept` and `syn`."""
        return (s.state is not State.LISTENING or c.lport != s.port or c.local == 0
                or (s.addr not in (0, c.local)) or c.remote == 0 or c.rport == 0)

    def _pair(self, step: Step) -> None:
        """`accept` and `syn`."""
        c = step.command
        assert isinstance(c, (cmd.Accept, cmd.Syn))
        label = c.child if isinstance(c, cmd.Accept) else c.request
        name = self.name(label)
        s = self.open.get(c.listener)
        if s is None:
            return self.must(step, "EBADF")
        if self.bad_pair(s, c):
            return self.must(step, "EINVAL")
        step.test = "accept"
        step.four = Four(s.net, c.local, c.lport, c.remote, c.rport)
        if self.no_slot(step) or step.reply == "EADDRNOTAVAIL":
            return None
        self.must(step, "ok")
        state = State.FULL if isinstance(c, cmd.Accept) else State.REQUEST
        child = replace(s, name=name, state=state, addr=c.local, port=c.lport,
                        remote=c.remote, rport=c.rport,
                        listener=s.name if state is State.REQUEST else None)
        self.open[label] = child
        step.hashed, step.replaces = child.card(), True
        step.owner_entry = state is State.FULL
        step.asked = replace(child)
        self.enter(step, child)
        return None

    def _ack(self, step: Step) -> None:
        c = step.command
        assert isinstance(c, cmd.Ack)
        name = self.name(c.child)
        r = self.open.get(c.request)
        if r is None:
            return self.must(step, "EBADF")
        listener = None
        if r.state is State.REQUEST and r.listener is not None:
            listener = self.open.get(r.listener.label)
        if listener is None:
            return self.must(step, "EINVAL")
        if self.no_slot(step):
            return None
        self.must(step, "ok")
        child = replace(listener, name=name, state=State.FULL, addr=r.addr, port=r.port,
                        remote=r.remote, rport=r.rport)
        del self.open[c.request]
        self.open[c.child] = child
        step.hashed, step.unhashed = child.card(), [r.card()]
        step.asked, step.owner_entry = replace(child), True
        self.enter(step, child)
        return None

    def _close(self, step: Step) -> None:
        c = step.command
        assert isinstance(c, cmd.Close)
        s = self.open.get(c.label)
        if s is None:
            return self.must(step, "EBADF")
        if s.state is not State.FULL:
            return self.removed(step, s)
        step.asked, step.owner_entry = replace(s), True
        step.unhashed = [s.card()]
        got = NO_SLOT.fullmatch(step.reply)
        if got:
            step.seen = (int(got[1]), int(got[2]))
        else:
            self.must(step, "ok time-wait")
        del self.open[c.label]
        self.leave(step, c.label)
        if not got:
            waiting = replace(s, state=State.TIME_WAIT, stamp=self.moment)
            step.hashed = waiting.card()
            presence = Presence(waiting, step)
            self.presences.append(presence)
            self.waits.append(presence)
        return None

    def _drop(self, step: Step) -> None:
        c = step.command
        assert isinstance(c, cmd.Drop)
        s = self.open.get(c.label)
        if s is None:
            return self.must(step, "EBADF")
        return self.removed(step, s)

    def removed(self, step: Step, s: Sock) -> None:
        """Removed without TIME_WAIT."""
        self.must(step, "ok")
        step.asked, step.owner_entry = replace(s), s.state in OWNER_STATES
        if s.state in KIND_OF_STATE:
            step.unhashed = [s.card()]
        del self.open[s.name.label]
        self.leave(step, s.name.label)

    def _at(self, step: Step) -> None:
        c = step.command
        assert isinstance(c, cmd.At)
        if c.moment < self.moment:
            return self.must(step, "EINVAL")
        self.must(step, "ok")
        self.moment = c.moment
        return None

    def _reap(self, step: Step) -> None:
        got = OK_NUMBER.fullmatch(step.reply)
        if not got:
            raise self.wrong(step)
        step.reaped = int(got[1])

    def _dump(self, step: Step, rest: list[ReplyLine]) -> int:
        """How many items, with the two loads of the clock, and a line for each item."""
        got = DUMP.fullmatch(step.reply)
        if not got:
            raise self.wrong(step)
        count = int(got[1])
        if count > len(rest):
            raise Wrong(step.line, "fewer items than its count")
        step.dump = Dump(int(got[2]), int(got[3]), rest[:count])
        for item in step.dump.items:
            if item.words[:2] != (str(self.n), "item"):
                raise Wrong(item.line, "an item is due")
        return 1 + count


def kind_named(card: Card) -> tuple[int, str, Kind]:
    """A life's key: script, label, kind."""
    return (card.name.script, card.name.label, card.kind)
