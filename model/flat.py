"""The flat list: what each command does to one plain list of sockets.

The list is searched by filters; nothing here is fast. docs/RULES.md has the
rules, command by command, and the refusals in their order. The methods whose
names begin with `note_` do nothing here; the simulator of races (simulate.py)
overrides them.
"""

from __future__ import annotations

from dataclasses import dataclass, field, replace
from typing import Iterator, Optional

from . import commands as cmd
from .cards import (Card, Four, KIND_OF_STATE, KIND_WORDS, Kind, Name, OWNER_STATES, Packet,
                    State, bind_bucket, bind_conflict, card_text, packet_hash, port_order,
                    rank, strict_conflict, tw_expired, tw_replaceable)
from .hashes import Lcg64Xsh32, scale

PLACES = 8                                         # groups of a bind bucket
MEMBERS = 64                                       # members of a group


@dataclass(frozen=True)
class Reply:
    """The reply's words; `cause` names the rule that gave it, for coverage."""

    words: str
    cause: str = ""

    @property
    def ok(self) -> bool:
        """Whether the reply begins with `ok`."""
        return self.words == "ok" or self.words.startswith("ok ")


EBADF = Reply("EBADF")


def inval(cause: str) -> Reply:
    """EINVAL and why."""
    return Reply("EINVAL", cause)


def in_use(cause: str) -> Reply:
    """EADDRINUSE and why."""
    return Reply("EADDRINUSE", cause)


def not_avail(cause: str) -> Reply:
    """EADDRNOTAVAIL and why."""
    return Reply("EADDRNOTAVAIL", cause)


@dataclass
class Sock:
    """A socket, or what one left in TIME_WAIT."""

    name: Name
    origin: Name
    state: State
    net: int = 0
    uid: int = 0
    dev: int = 0
    reuseaddr: bool = False
    reuseport: bool = False
    noport: bool = False
    addr: int = 0
    port: int = 0
    remote: int = 0
    rport: int = 0
    by_connect: bool = False
    stamp: int = 0
    listener: Optional[Name] = None                # of a request

    @property
    def four(self) -> Four:
        """The four-tuple."""
        return Four(self.net, self.addr, self.port, self.remote, self.rport)

    def card(self) -> Card:
        """The card of a hashed socket; a listener's remote end is 0.0.0.0:0."""
        kind = KIND_OF_STATE[self.state]
        far = (0, 0) if kind is Kind.LISTEN else (self.remote, self.rport)
        return Card(self.addr, self.port, *far, self.dev, self.net, kind, self.name)


@dataclass
class Group:
    """A reuseport group: its bind bucket, key, and members in order."""

    bucket: int
    key: tuple[int, int, int, int, int]            # net, port, dev, uid, addr
    members: list[Sock] = field(default_factory=list)


@dataclass
class Section:
    """A section's labels, moment and generator."""

    generator: Lcg64Xsh32
    given: int = 0
    open: dict[str, Sock] = field(default_factory=dict)
    moment: int = 0


def group_key(s: Sock) -> tuple[int, int, int, int, int]:
    """What the members of a group share."""
    return (s.net, s.port, s.dev, s.uid, s.addr)


class Flat:
    """The flat list of a header."""

    def __init__(self, header: cmd.Header) -> None:
        self.header = header
        self.sockets: list[Sock] = []
        self.groups: list[Group] = []
        self.sections: dict[int, Section] = {}

    # -- what the simulator overrides -------------------------------------

    def note_hash(self, s: Sock) -> None:
        """A socket is hashed, in its present state."""

    def note_unhash(self, s: Sock) -> None:
        """A hashed socket is unhashed, in its present state."""

    def note_no_slot(self) -> None:
        """A beginning was drawn and no slot was free."""

    def note_entry(self, port: int, net: int) -> None:
        """A call on the bind bucket of the port, which a race's journal counts."""

    def note_moment(self, n: int) -> None:
        """A command of section n was done."""

    def slots_seen(self) -> Optional[tuple[int, int]]:
        """None where a slot is free; else O and H of ENFILE."""
        used = sum(1 for s in self.sockets if s.state in KIND_OF_STATE)
        return (self.header.shape.slots, 0) if used >= self.header.shape.slots else None

    # -- the list ----------------------------------------------------------

    def section(self, n: int) -> Section:
        """Section n's own state; its generator is of the seed and n."""
        if n not in self.sections:
            self.sections[n] = Section(Lcg64Xsh32(self.header.seed, n))
        return self.sections[n]

    def named(self, n: int, label: str) -> Optional[Sock]:
        """The open socket that the label names; None is EBADF."""
        return self.section(n).open.get(label)

    def owners(self, port: int) -> list[Sock]:
        """The owners of a port."""
        return [s for s in self.sockets if s.port == port and s.state in OWNER_STATES]

    def hashed(self) -> list[Sock]:
        """The sockets that packets can find."""
        return [s for s in self.sockets if s.state in KIND_OF_STATE]

    def give_name(self, n: int, label: str) -> Name:
        """The next name of the section."""
        section = self.section(n)
        section.given += 1
        return Name(n, section.given, label)

    def put_away(self, s: Sock) -> None:
        """Takes a socket out of the list and, if a label names it, out of that."""
        self.sockets = [t for t in self.sockets if t is not s]
        labels = self.section(s.name.script).open
        if labels.get(s.name.label) is s:
            del labels[s.name.label]

    def ports(self, n: int, even_first: bool) -> Iterator[int]:
        """The order of a search that begins now: it draws its word first."""
        h = self.header
        size = h.high - h.low + 1
        drawn = h.offset if h.offset is not None else self.section(n).generator.next_u32()
        return port_order(h.low, h.high, drawn % size, even_first, h.reserved)

    # -- commands ------------------------------------------------------------

    def apply(self, n: int, command: cmd.Command) -> Reply:
        """The reply; refusals are tested in the order of docs/RULES.md."""
        steps = {
            cmd.MakeSocket: self._socket, cmd.Bind: self._bind, cmd.Listen: self._listen,
            cmd.Connect: self._connect, cmd.Accept: self._accept, cmd.Close: self._close,
            cmd.Drop: self._drop, cmd.At: self._at, cmd.Reap: self._reap,
            cmd.Syn: self._syn, cmd.Ack: self._ack,
        }
        reply = steps[type(command)](n, command)
        self.note_moment(n)
        return reply

    def _socket(self, n: int, c: cmd.MakeSocket) -> Reply:
        name = self.give_name(n, c.label)
        s = Sock(name, name, State.UNBOUND, c.net, c.uid, c.dev,
                 c.reuseaddr, c.reuseport, c.noport)
        self.sockets.append(s)
        self.section(n).open[c.label] = s
        return Reply("ok")

    def _bind(self, n: int, c: cmd.Bind) -> Reply:
        s = self.named(n, c.label)
        if s is None:
            return EBADF
        if s.state not in (State.UNBOUND, State.ADDRESSED):
            return inval(s.state.word)
        if c.port == 0 and s.noport:               # the address alone
            s.state, s.addr = State.ADDRESSED, c.addr
            return Reply("ok 0", "addressed")
        if c.port == 0:
            port = self.search_bind(n, s, c.addr)
            if port is None:
                return in_use("search")
            cause = "search"
        else:
            self.note_entry(c.port, s.net)
            asked = replace(s, addr=c.addr, port=c.port)
            if any(bind_conflict(asked, b) for b in self.owners(c.port)):
                return in_use("port")
            port = c.port
            cause = "shared" if self.owners(c.port) else "alone"
        s.state, s.addr, s.port = State.BOUND, c.addr, port
        return Reply(f"ok {port}", cause)

    def search_bind(self, n: int, s: Sock, addr: int) -> Optional[int]:
        """The first port of the order at which no other socket is in the way."""
        for port in self.ports(n, even_first=False):
            if self.strictly_free(s, addr, port):
                return port
        return None

    def strictly_free(self, s: Sock, addr: int, port: int) -> bool:
        """No owner of the port is in the way, whatever the options."""
        self.note_entry(port, s.net)               # bind_auto
        asked = replace(s, addr=addr, port=port)
        return not any(strict_conflict(asked, b) for b in self.owners(port))

    def _listen(self, n: int, c: cmd.Listen) -> Reply:
        s = self.named(n, c.label)
        if s is None:
            return EBADF
        if s.state in (State.FULL, State.REQUEST):
            return inval(s.state.word)
        if s.state is State.LISTENING:             # nothing changes
            return Reply(f"ok {s.port}", "again")
        before = (s.state, s.addr, s.port)
        if s.state is not State.BOUND:
            port = self.search_bind(n, s, self.listen_address(s))
            if port is None:
                return in_use("search")
            s.state, s.addr, s.port = State.BOUND, self.listen_address(s), port
        return self.listen_bound(s, before)

    def listen_address(self, s: Sock) -> int:
        """0.0.0.0, or the address that it has already."""
        return s.addr if s.state is State.ADDRESSED else 0

    def listen_bound(self, s: Sock, before: tuple[State, int, int]) -> Reply:
        """The tests of a socket that has a port; `before` is how it came."""
        self.note_entry(s.port, s.net)             # may_listen
        refusal = self.listen_refusal(s)
        if refusal is None:
            return self.start_listening(s, before[0].word)
        if before[0] is not State.BOUND:           # it has no port again
            self.note_entry(s.port, s.net)         # remove
            s.state, s.addr, s.port = before
        return refusal

    def listen_refusal(self, s: Sock) -> Optional[Reply]:
        """EADDRINUSE, EMFILE, ENFILE, in this order."""
        if any(bind_conflict(s, b) for b in self.owners(s.port) if b is not s):
            return in_use("listen")
        if s.reuseport:
            bucket = bind_bucket(s.port, s.net, self.header.shape)
            group = self.group_of(s)
            if group is not None and len(group.members) >= MEMBERS:
                return Reply("EMFILE", "group full")
            used = [g for g in self.groups if g.bucket == bucket]
            if group is None and len(used) >= PLACES:
                return Reply("EMFILE", "groups full")
        return self.no_slot()

    def group_of(self, s: Sock) -> Optional[Group]:
        """The group of the listeners that are alike."""
        for group in self.groups:
            if group.key == group_key(s):
                return group
        return None

    def start_listening(self, s: Sock, cause: str) -> Reply:
        """Hashes the listener, which joins its group at the end or begins one."""
        s.state = State.LISTENING
        self.note_entry(s.port, s.net)             # listen
        self.note_hash(s)
        if s.reuseport:
            group = self.group_of(s)
            if group is None:
                group = Group(bind_bucket(s.port, s.net, self.header.shape), group_key(s))
                self.groups.append(group)
            group.members.append(s)
        return Reply(f"ok {s.port}", cause)

    def leave_group(self, s: Sock) -> None:
        """The last member takes the leaver's place; an empty group goes."""
        for group in self.groups:
            if any(m is s for m in group.members):
                at = next(i for i, m in enumerate(group.members) if m is s)
                group.members[at] = group.members[-1]
                group.members.pop()
        self.groups = [g for g in self.groups if g.members]

    def no_slot(self) -> Optional[Reply]:
        """ENFILE O H where no slot is free; None where one is."""
        seen = self.slots_seen()
        if seen is None:
            return None
        self.note_no_slot()
        return Reply(f"ENFILE {seen[0]} {seen[1]}")

    def of_tuple(self, four: Four) -> list[Sock]:
        """The Full, TimeWait and Request sockets of that four-tuple."""
        return [t for t in self.sockets if t.port == four.lport and t.state
                in (State.FULL, State.TIME_WAIT, State.REQUEST) and t.four == four]

    def waiting(self, four: Four) -> list[Sock]:
        """The TIME_WAITs of that four-tuple."""
        return [t for t in self.of_tuple(four) if t.state is State.TIME_WAIT]

    def taken_for_connect(self, four: Four, moment: int) -> Optional[str]:
        """Why `connect` can't have the four-tuple; None where it can."""
        for t in self.of_tuple(four):
            if t.state is not State.TIME_WAIT:
                return t.state.word
            if not tw_replaceable(t.stamp, moment, self.header.twreuse):
                return t.state.word
        return None

    def hash_and_replace(self, s: Sock) -> bool:
        """Adds the socket, then removes a TIME_WAIT of its four-tuple."""
        self.note_hash(s)
        replaced = self.waiting(s.four)
        for t in replaced:
            self.note_unhash(t)
            self.put_away(t)
        return bool(replaced)

    def _connect(self, n: int, c: cmd.Connect) -> Reply:
        s = self.named(n, c.label)
        if s is None:
            return EBADF
        if s.state in (State.FULL, State.LISTENING):
            return Reply("EISCONN", s.state.word)
        if s.state is State.REQUEST:
            return inval("request")
        if c.remote == 0:
            return inval("to 0.0.0.0")
        if c.rport == 0:
            return inval("to port 0")
        fixed = s.state in (State.BOUND, State.ADDRESSED) and s.addr != 0
        if fixed and c.source is not None and c.source != s.addr:
            return inval("from another")
        if not fixed and (c.source is None or c.source == 0):
            return inval("no source")
        local = s.addr if fixed or c.source is None else c.source
        if s.state is State.BOUND:
            return self.connect_bound(n, s, local, c)
        return self.connect_search(n, s, local, c)

    def connect_bound(self, n: int, s: Sock, local: int, c: cmd.Connect) -> Reply:
        """Of a socket that has a port."""
        four = Four(s.net, local, s.port, c.remote, c.rport)
        why = self.taken_for_connect(four, self.section(n).moment)
        if why is not None:
            return not_avail(f"bound, {why}")
        refusal = self.no_slot()
        if refusal is not None:
            return refusal
        self.note_entry(s.port, s.net)             # connect_bound
        return self.make_full(s, local, s.port, c, "bound")

    def connect_search(self, n: int, s: Sock, local: int, c: cmd.Connect) -> Reply:
        """Of a socket without a port: the first port that serves."""
        for port in self.ports(n, even_first=True):
            reply = self.connect_at(n, s, local, port, c)
            if reply is not None:
                return reply
        return not_avail("search")

    def connect_at(self, n: int, s: Sock, local: int, port: int,
                   c: cmd.Connect) -> Optional[Reply]:
        """The search at one port; None where it goes on."""
        self.note_entry(port, s.net)               # free
        others = [b for b in self.owners(port) if b.net == s.net]
        if not all(b.by_connect for b in others):
            return None
        four = Four(s.net, local, port, c.remote, c.rport)
        if self.taken_for_connect(four, self.section(n).moment) is not None:
            return None
        refusal = self.no_slot()
        if refusal is not None:
            return refusal
        s.by_connect = True
        self.note_entry(port, s.net)               # connect_auto
        cause = "search, port shared" if others else "search, port free"
        return self.make_full(s, local, port, c, cause)

    def make_full(self, s: Sock, local: int, port: int, c: cmd.Connect, cause: str) -> Reply:
        """The socket is connected; its address is the source from now on."""
        s.state, s.addr, s.port = State.FULL, local, port
        s.remote, s.rport = c.remote, c.rport
        if self.hash_and_replace(s):
            self.note_entry(port, s.net)           # remove_waiting
            cause += ", replaced"
        text = ".".join(str((local >> k) & 255) for k in (24, 16, 8, 0))
        return Reply(f"ok {text}:{port}", cause)

    def inval_of_pair(self, listener: Sock, local: int, lport: int,
                      remote: int, rport: int) -> Optional[Reply]:
        """EINVAL of `accept` and `syn`."""
        if listener.state is not State.LISTENING:
            return inval("not listening")
        if lport != listener.port:
            return inval("another port")
        if local == 0:
            return inval("at 0.0.0.0")
        if listener.addr != 0 and listener.addr != local:
            return inval("another address")
        if remote == 0:
            return inval("from 0.0.0.0")
        if rport == 0:
            return inval("from port 0")
        return None

    def taken_for_accept(self, four: Four) -> Optional[str]:
        """Whether a connected socket or a request has the four-tuple."""
        for t in self.of_tuple(four):
            if t.state is not State.TIME_WAIT:
                return t.state.word
        return None

    def child(self, listener: Sock, name: Name, state: State, four: Four) -> Sock:
        """A socket that keeps origin, device, user and options of the listener."""
        return replace(listener, name=name, state=state, addr=four.local, port=four.lport,
                       remote=four.remote, rport=four.rport, listener=None)

    def _accept(self, n: int, c: cmd.Accept) -> Reply:
        name = self.give_name(n, c.child)          # given also where it is refused
        listener = self.named(n, c.listener)
        if listener is None:
            return EBADF
        refusal = self.inval_of_pair(listener, c.local, c.lport, c.remote, c.rport)
        if refusal is not None:
            return refusal
        four = Four(listener.net, c.local, c.lport, c.remote, c.rport)
        why = self.taken_for_accept(four)
        if why is not None:
            return not_avail(why)
        refusal = self.no_slot()
        if refusal is not None:
            return refusal
        s = self.child(listener, name, State.FULL, four)
        self.sockets.append(s)
        self.section(n).open[c.child] = s
        self.note_entry(s.port, s.net)             # inherit
        replaced = self.hash_and_replace(s)
        if replaced:
            self.note_entry(s.port, s.net)         # remove_waiting
        return Reply("ok", "replaced" if replaced else "")

    def _close(self, n: int, c: cmd.Close) -> Reply:
        s = self.named(n, c.label)
        if s is None:
            return EBADF
        if s.state is not State.FULL:
            return self.remove_plain(s)
        refusal = self.no_slot()                   # for the TIME_WAIT
        self.note_entry(s.port, s.net)             # to_time_wait or remove
        if refusal is None:
            t = replace(s, state=State.TIME_WAIT, stamp=self.section(n).moment)
            self.sockets.append(t)
            self.note_hash(t)
        self.note_unhash(s)
        self.put_away(s)
        if refusal is None:
            return Reply("ok time-wait")
        return Reply("ok no-slot" + refusal.words.removeprefix("ENFILE"))

    def _drop(self, n: int, c: cmd.Drop) -> Reply:
        s = self.named(n, c.label)
        if s is None:
            return EBADF
        return self.remove_plain(s)

    def remove_plain(self, s: Sock) -> Reply:
        """Removed without a TIME_WAIT."""
        if s.state in OWNER_STATES:
            self.note_entry(s.port, s.net)         # remove
        if s.state in KIND_OF_STATE:
            self.note_unhash(s)
        self.leave_group(s)
        self.put_away(s)
        return Reply("ok", s.state.word)

    def _at(self, n: int, c: cmd.At) -> Reply:
        section = self.section(n)
        if c.moment < section.moment:
            return inval("back")
        section.moment = c.moment
        return Reply("ok")

    def _reap(self, n: int, c: cmd.Reap) -> Reply:
        """The section's own TIME_WAITs that are over."""
        moment = self.section(n).moment
        done = [t for t in self.sockets if t.state is State.TIME_WAIT
                and t.name.script == n and tw_expired(t.stamp, moment)]
        for t in done:
            self.note_unhash(t)
            self.note_entry(t.port, t.net)         # remove_waiting
            self.put_away(t)
        return Reply(f"ok {len(done)}", "some" if done else "none")

    def _syn(self, n: int, c: cmd.Syn) -> Reply:
        """A request; it takes the place of a TIME_WAIT of its four-tuple, always."""
        name = self.give_name(n, c.request)
        listener = self.named(n, c.listener)
        if listener is None:
            return EBADF
        refusal = self.inval_of_pair(listener, c.local, c.lport, c.remote, c.rport)
        if refusal is not None:
            return refusal
        four = Four(listener.net, c.local, c.lport, c.remote, c.rport)
        why = self.taken_for_accept(four)
        if why is not None:
            return not_avail(why)
        refusal = self.no_slot()
        if refusal is not None:
            return refusal
        r = self.child(listener, name, State.REQUEST, four)
        r.listener = listener.name
        self.sockets.append(r)
        self.section(n).open[c.request] = r
        replaced = self.hash_and_replace(r)
        if replaced:
            self.note_entry(r.port, r.net)         # remove_waiting
        return Reply("ok", "replaced" if replaced else "")

    def _ack(self, n: int, c: cmd.Ack) -> Reply:
        """The request's listener takes the connection in its place."""
        name = self.give_name(n, c.child)
        r = self.named(n, c.request)
        if r is None:
            return EBADF
        if r.state is not State.REQUEST:
            return inval("not a request")
        listener = self.listener_of(r)
        if listener is None:
            return inval("listener gone")
        refusal = self.no_slot()
        if refusal is not None:
            return refusal
        s = self.child(listener, name, State.FULL, r.four)
        self.sockets.append(s)
        self.note_entry(s.port, s.net)             # inherit
        self.note_hash(s)
        self.note_unhash(r)
        self.put_away(r)
        self.section(n).open[c.child] = s
        return Reply("ok")

    def listener_of(self, r: Sock) -> Optional[Sock]:
        """The request's listener where it is open still."""
        for s in self.sockets:
            if s.name == r.listener and s.state is State.LISTENING:
                return s
        return None

    # -- lookups and lists ---------------------------------------------------

    def look(self, packet: Packet) -> str:
        """`none` or `KIND n.S`. A rank is 0 where the ports differ."""
        near = [s for s in self.sockets if s.port == packet.dport and s.state in KIND_OF_STATE]
        ranked = [(rank(s.card(), packet), s) for s in near]
        best = max((r for r, _ in ranked), default=0)
        if best == 0:
            return "none"
        found = [s for r, s in ranked if r == best]
        groups = [g for g in self.groups if any(m is found[0] for m in g.members)]
        if groups:
            members = groups[0].members
            assert {id(m) for m in members} == {id(s) for s in found}
            chosen = members[scale(packet_hash(packet, self.header.seed), len(members))]
        else:
            assert len(found) == 1, "without a group just one fits best"
            chosen = found[0]
        return f"{KIND_WORDS[KIND_OF_STATE[chosen.state]]} {chosen.name}"

    def listed(self) -> list[Card]:
        """The hashed sockets by name and then by kind."""
        cards = [s.card() for s in self.hashed()]
        return sorted(cards, key=lambda card: (card.name.word(), card.kind))

    def dump_lines(self, n: int) -> list[str]:
        """The lines of `dump` in `run`."""
        cards = self.listed()
        items = [f"{n} item {card_text(card)}" for card in cards]
        return [f"{n} dump {len(cards)}"] + items
