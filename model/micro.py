"""Races at the grain of atomic steps: chains, slots, turns and lookups.

docs/RACE.md tells of them, and docs/MAP.md of the words. It serves to test
that judge.py takes what a real program may print: each worker is a generator
that stops before each atomic step, and a random scheduler picks who goes on.
A lock or turn that is taken is tried again.
"""

from __future__ import annotations

import random
from dataclasses import dataclass, field, replace
from typing import Generator, Iterator, Optional, Union

from . import commands as cmd
from . import grammar, program
from .cards import (Card, Four, KIND_OF_STATE, Kind, Name, Packet, State, address, bind_bucket,
                    bind_conflict, card_text, end, home, packet_buckets,
                    packet_hash, port_order, rank, strict_conflict, tw_expired, tw_replaceable)
from .flat import MEMBERS, PLACES, Sock, group_key
from .hashes import Lcg64Xsh32, scale

Steps = Generator[None, None, None]


@dataclass
class Slot:
    """A slot's words."""

    own: bool = False
    live: bool = False
    count: int = 0
    link: int = 0
    card: Optional[Card] = None                    # words 0 and 1
    name: Optional[Name] = None                    # word 2
    extra: int = 0                                 # word 3: group + 1

    @property
    def free(self) -> bool:
        """The state word is 0."""
        return not self.own and not self.live and self.count == 0


@dataclass
class Life:
    """A hash and its unhash as they are drawn."""

    bucket: int
    slot: int
    card: Card
    hash: list[int]
    unhash: list[int] = field(default_factory=list)


@dataclass
class Full:
    """No slot was free: O and H of ENFILE."""

    owned: int
    held: int


@dataclass(eq=False)
class Bucket:
    """A bind bucket: owners, groups by place, entries."""

    taken: bool = False
    owners: list[Sock] = field(default_factory=list)
    groups: dict[int, tuple[tuple[int, ...], list[tuple[int, Name]]]] = field(
        default_factory=dict)
    entries: int = 0


class World:
    """The shared tables."""

    def __init__(self, header: cmd.Header) -> None:
        s = header.shape
        self.header = header
        self.clock = 0
        self.heads = [2 * b + 1 for b in range(s.hash + s.listen)]
        self.locks = [False] * (s.hash + s.listen)
        self.slots = [Slot() for _ in range(s.slots)]
        self.binds = [Bucket() for _ in range(s.bind)]
        self.words: dict[int, list[tuple[int, Name]]] = {}   # published lists, by group
        self.lives: list[Life] = []

    def draw(self) -> int:
        """`fetch_add` of the clock."""
        self.clock += 1
        return self.clock - 1

    def chain(self, bucket: int) -> list[int]:
        """The slots of a locked chain."""
        found, link = [], self.heads[bucket]
        while link % 2 == 0:
            found.append(link // 2)
            link = self.slots[link // 2].link
        return found

    def lock(self, bucket: int) -> Steps:
        """Takes a chain bucket's lock."""
        yield
        while self.locks[bucket]:
            yield
        self.locks[bucket] = True

    def turn(self, number: int) -> Generator[None, None, Bucket]:
        """Takes a bind bucket's turn."""
        yield
        while self.binds[number].taken:
            yield
        self.binds[number].taken = True
        return self.binds[number]


class Pass:
    """A section's own view of the chains: its last slot."""

    def __init__(self, world: World) -> None:
        self.w = world
        self.last = -1

    def claim(self) -> Generator[None, None, Union[int, Full]]:
        """Tries each slot once, from the one after the last."""
        slots = len(self.w.slots)
        full = Full(0, 0)
        for k in range(slots):
            at = (self.last + 1 + k) % slots
            yield
            slot = self.w.slots[at]
            if slot.free:
                slot.own = True
                self.last = at
                return at
            full = Full(full.owned + slot.own, full.held + (not slot.own))
        return full

    def hash(self, bucket: int, card: Card, extra: int = 0
             ) -> Generator[None, None, Union[int, Full]]:
        """A hash under the bucket's lock."""
        yield
        begin = self.w.draw()
        at = yield from self.claim()
        if isinstance(at, Full):
            return at
        slot = self.w.slots[at]
        yield
        slot.card = card
        yield
        slot.name = card.name
        yield
        slot.extra = extra
        yield
        slot.link = self.w.heads[bucket]
        yield
        self.w.heads[bucket] = 2 * at
        yield
        slot.live = True
        yield
        self.w.lives.append(Life(bucket, at, card, [begin, self.w.draw()]))
        return at

    def unhash(self, bucket: int, at: int) -> Steps:
        """An unhash under the bucket's lock."""
        yield
        begin = self.w.draw()
        slot = self.w.slots[at]
        life = next(life for life in reversed(self.w.lives)
                    if life.slot == at and not life.unhash)
        yield
        slot.live = False
        yield
        chain = self.w.chain(bucket)
        place = chain.index(at)
        if place:
            self.w.slots[chain[place - 1]].link = slot.link
        else:
            self.w.heads[bucket] = slot.link
        yield
        slot.own = False
        yield
        life.unhash = [begin, self.w.draw()]


@dataclass
class Wait:
    """A TIME_WAIT that a script made."""

    sock: Sock


class Section:
    """A section's worker."""

    def __init__(self, world: World, n: int, commands: list[cmd.Command]) -> None:
        self.w = world
        self.n = n
        self.commands = commands
        self.h = world.header
        self.chain = Pass(world)
        self.generator = Lcg64Xsh32(self.h.seed, n)
        self.open: dict[str, Sock] = {}
        self.slot: dict[Name, int] = {}
        self.waits: list[Wait] = []
        self.given = 0
        self.moment = 0
        self.lines: list[str] = []

    def go(self) -> Steps:
        """All commands."""
        does = {
            cmd.MakeSocket: self._socket, cmd.Bind: self._bind, cmd.Listen: self._listen,
            cmd.Connect: self._connect, cmd.Accept: self._pair, cmd.Syn: self._pair,
            cmd.Ack: self._ack, cmd.Close: self._close, cmd.Drop: self._drop,
            cmd.At: self._at, cmd.Reap: self._reap, cmd.Dump: self._dump,
        }
        for command in self.commands:
            reply = yield from does[type(command)](command)
            head = cmd.line_head(self.n, command)
            self.lines += [f"{head} {line}" if k == 0 else line
                           for k, line in enumerate(reply.split("\n"))]

    def name(self, label: str) -> Name:
        """The next name."""
        self.given += 1
        return Name(self.n, self.given, label)

    def search(self, even_first: bool) -> Iterator[int]:
        """The order of a search."""
        word = self.h.offset if self.h.offset is not None else self.generator.next_u32()
        return port_order(self.h.low, self.h.high, word % (self.h.high - self.h.low + 1),
                          even_first, self.h.reserved)

    def turn_of(self, port: int, net: int) -> Generator[None, None, Bucket]:
        """The turn of a port's bind bucket."""
        return (yield from self.w.turn(bind_bucket(port, net, self.h.shape)))

    def home(self, card: Card) -> int:
        """A card's chain bucket."""
        return home(card, self.h.shape, self.h.seed)

    def _socket(self, c: cmd.MakeSocket) -> Generator[None, None, str]:
        name = self.name(c.label)
        self.open[c.label] = Sock(name, name, State.UNBOUND, c.net, c.uid, c.dev, c.reuseaddr,
                                  c.reuseport, c.noport)
        yield
        return "ok"

    def _bind(self, c: cmd.Bind) -> Generator[None, None, str]:
        s = self.open.get(c.label)
        if s is None:
            return "EBADF"
        if s.state not in (State.UNBOUND, State.ADDRESSED):
            return "EINVAL"
        if c.port == 0 and s.noport:
            s.state, s.addr = State.ADDRESSED, c.addr
            return "ok 0"
        if c.port == 0:
            taken = yield from self.find_bind(s, c.addr)
            return f"ok {s.port}" if taken else "EADDRINUSE"
        b = yield from self.turn_of(c.port, s.net)
        b.entries += 1
        asked = replace(s, addr=c.addr, port=c.port, state=State.BOUND)
        if any(bind_conflict(asked, o) for o in b.owners):
            b.taken = False
            return "EADDRINUSE"
        s.addr, s.port, s.state = c.addr, c.port, State.BOUND
        b.owners.append(asked)
        yield
        b.taken = False
        return f"ok {c.port}"

    def find_bind(self, s: Sock, addr: int) -> Generator[None, None, bool]:
        """A search of `bind`, each port at its own turn."""
        for port in self.search(False):
            b = yield from self.turn_of(port, s.net)
            b.entries += 1
            asked = replace(s, addr=addr, port=port, state=State.BOUND)
            free = not any(strict_conflict(asked, o) for o in b.owners)
            if free:
                b.owners.append(asked)
                s.addr, s.port, s.state = addr, port, State.BOUND
            yield
            b.taken = False
            if free:
                return True
        return False

    def owner(self, b: Bucket, name: Name, waiting: bool = False) -> Optional[Sock]:
        """The first owner of that name (in TIME_WAIT, for `remove_waiting`)."""
        for o in b.owners:
            if o.name == name and (o.state is State.TIME_WAIT) == waiting:
                return o
        return None

    def remove_owner(self, b: Bucket, name: Name, waiting: bool = False) -> None:
        """Takes an owner out."""
        o = self.owner(b, name, waiting)
        b.owners = [x for x in b.owners if x is not o]

    def _listen(self, c: cmd.Listen) -> Generator[None, None, str]:
        s = self.open.get(c.label)
        if s is None:
            return "EBADF"
        if s.state in (State.FULL, State.REQUEST):
            return "EINVAL"
        if s.state is State.LISTENING:
            return f"ok {s.port}"
        before = (s.state, s.addr, s.port)
        if s.state is not State.BOUND:
            addr = s.addr if s.state is State.ADDRESSED else 0
            if not (yield from self.find_bind(s, addr)):
                return "EADDRINUSE"
        b = yield from self.turn_of(s.port, s.net)
        reply = yield from self.listen_in_turn(b, s)
        if not reply.startswith("ok") and before[0] is not State.BOUND:
            b.entries += 1
            self.remove_owner(b, s.name)
            s.state, s.addr, s.port = before
        yield
        b.taken = False
        return reply

    def listen_in_turn(self, b: Bucket, s: Sock) -> Generator[None, None, str]:
        """`may_listen`, the hash, `listen`, publish."""
        b.entries += 1
        mine = self.owner(b, s.name)
        assert mine is not None
        if any(bind_conflict(mine, o) for o in b.owners if o is not mine):
            return "EADDRINUSE"
        place = None
        if s.reuseport:
            same = [p for p, (key, _) in b.groups.items() if key == group_key(s)]
            place = same[0] if same else next(
                (p for p in range(PLACES) if p not in b.groups), None)
            if place is None or (same and len(b.groups[place][1]) >= MEMBERS):
                return "EMFILE"
        group = None if place is None else self.w.binds.index(b) * PLACES + place
        s.state = State.LISTENING
        card = s.card()
        bucket = self.home(card)
        yield from self.w.lock(bucket)
        at = yield from self.chain.hash(bucket, card, 0 if group is None else group + 1)
        yield
        self.w.locks[bucket] = False
        if isinstance(at, Full):
            s.state = State.BOUND
            return f"ENFILE {at.owned} {at.held}"
        b.entries += 1
        mine.state = State.LISTENING
        self.slot[s.name] = at
        if place is not None and group is not None:
            b.groups.setdefault(place, (group_key(s), []))[1].append((at, s.name))
            yield from self.publish(group, b.groups[place][1])
        return f"ok {s.port}"

    def publish(self, group: int, members: list[tuple[int, Name]]) -> Steps:
        """Stores a list; here in one step."""
        yield
        self.w.words[group] = list(members)

    def insert(self, card: Card, always: bool, connects: bool
               ) -> Generator[None, None, Union[str, Full, tuple[int, Optional[Name]]]]:
        """Hashes a connection: `Taken`, Full, or its slot and the name that it replaced."""
        bucket = self.home(card)
        yield from self.w.lock(bucket)
        waiting = None
        for at in self.w.chain(bucket):
            yield
            other = self.w.slots[at]
            if not other.live or other.card is None or other.card.four != card.four:
                continue
            stamp = other.extra
            if other.card.kind is Kind.TIME_WAIT and (always or (
                    connects and tw_replaceable(stamp, self.moment, self.h.twreuse))):
                waiting = at
            else:
                yield
                self.w.locks[bucket] = False
                return "Taken"
        made = yield from self.chain.hash(bucket, card)
        result: Union[str, Full, tuple[int, Optional[Name]]]
        if isinstance(made, Full):
            result = made
        elif waiting is not None:
            name = self.w.slots[waiting].name
            yield from self.chain.unhash(bucket, waiting)
            result = (made, name)
        else:
            result = (made, None)
        yield
        self.w.locks[bucket] = False
        return result

    def _connect(self, c: cmd.Connect) -> Generator[None, None, str]:
        s = self.open.get(c.label)
        if s is None:
            return "EBADF"
        if s.state in (State.FULL, State.LISTENING):
            return "EISCONN"
        fixed = s.state in (State.BOUND, State.ADDRESSED) and s.addr != 0
        if (s.state is State.REQUEST or c.remote == 0 or c.rport == 0
                or (fixed and c.source not in (None, s.addr))
                or (not fixed and c.source in (None, 0))):
            return "EINVAL"
        local = s.addr if fixed or c.source is None else c.source
        if s.state is State.BOUND:
            b = yield from self.turn_of(s.port, s.net)
            reply = yield from self.connect_in_turn(b, s, local, s.port, c, False)
            yield
            b.taken = False
            return reply or "EADDRNOTAVAIL"
        for port in self.search(True):
            b = yield from self.turn_of(port, s.net)
            b.entries += 1
            reply = None
            if all(o.by_connect for o in b.owners if (o.port, o.net) == (port, s.net)):
                reply = yield from self.connect_in_turn(b, s, local, port, c, True)
            yield
            b.taken = False
            if reply is not None:
                return reply
        return "EADDRNOTAVAIL"

    def connect_in_turn(self, b: Bucket, s: Sock, local: int, port: int, c: cmd.Connect,
                        auto: bool) -> Generator[None, None, Optional[str]]:
        """One port's `insert` and entries; None where the four-tuple is taken."""
        four = Four(s.net, local, port, c.remote, c.rport)
        card = Card(local, port, c.remote, c.rport, s.dev, s.net, Kind.FULL, s.name)
        assert card.four == four
        made = yield from self.insert(card, False, True)
        if made == "Taken":
            return None
        if isinstance(made, Full):
            return f"ENFILE {made.owned} {made.held}"
        assert isinstance(made, tuple)
        if not auto:
            self.remove_owner(b, s.name)
        s.state, s.addr, s.port, s.remote, s.rport = State.FULL, local, port, c.remote, c.rport
        s.by_connect = auto
        self.slot[s.name] = made[0]
        b.entries += 1
        b.owners.append(replace(s))
        self.replaced(b, made[1])
        return f"ok {address(local)}:{port}"

    def replaced(self, b: Bucket, name: Optional[Name]) -> None:
        """`remove_waiting` of a replaced TIME_WAIT."""
        if name is not None:
            b.entries += 1
            self.remove_owner(b, name, True)

    def _pair(self, c: Union[cmd.Accept, cmd.Syn]) -> Generator[None, None, str]:
        label = c.child if isinstance(c, cmd.Accept) else c.request
        name = self.name(label)
        s = self.open.get(c.listener)
        if s is None:
            return "EBADF"
        if (s.state is not State.LISTENING or c.lport != s.port or c.local == 0
                or s.addr not in (0, c.local) or c.remote == 0 or c.rport == 0):
            return "EINVAL"
        state = State.FULL if isinstance(c, cmd.Accept) else State.REQUEST
        child = replace(s, name=name, state=state, addr=c.local, remote=c.remote, rport=c.rport,
                        listener=s.name)
        b = yield from self.turn_of(s.port, s.net)
        made = yield from self.insert(child.card(), True, False)
        reply = "ok"
        if made == "Taken":
            reply = "EADDRNOTAVAIL"
        elif isinstance(made, Full):
            reply = f"ENFILE {made.owned} {made.held}"
        else:
            assert isinstance(made, tuple)
            self.slot[name] = made[0]
            self.open[label] = child
            if state is State.FULL:
                b.entries += 1
                b.owners.append(replace(child))
            self.replaced(b, made[1])
        yield
        b.taken = False
        return reply

    def _ack(self, c: cmd.Ack) -> Generator[None, None, str]:
        name = self.name(c.child)
        r = self.open.get(c.request)
        if r is None:
            return "EBADF"
        listener = self.open.get(r.listener.label) if r.state is State.REQUEST and r.listener else None
        if listener is None:
            return "EINVAL"
        child = replace(listener, name=name, state=State.FULL, addr=r.addr, remote=r.remote,
                        rport=r.rport)
        b = yield from self.turn_of(r.port, r.net)
        bucket = self.home(child.card())
        yield from self.w.lock(bucket)
        made = yield from self.chain.hash(bucket, child.card())
        if not isinstance(made, Full):
            yield from self.chain.unhash(bucket, self.slot[r.name])
        yield
        self.w.locks[bucket] = False
        reply = "ok"
        if isinstance(made, Full):
            reply = f"ENFILE {made.owned} {made.held}"
        else:
            self.slot[name] = made
            del self.open[c.request]
            self.open[c.child] = child
            b.entries += 1
            b.owners.append(replace(child))
        yield
        b.taken = False
        return reply

    def _close(self, c: cmd.Close) -> Generator[None, None, str]:
        s = self.open.get(c.label)
        if s is None:
            return "EBADF"
        if s.state is not State.FULL:
            return (yield from self.removed(s))
        b = yield from self.turn_of(s.port, s.net)
        waiting = replace(s, state=State.TIME_WAIT, stamp=self.moment)
        bucket = self.home(s.card())
        yield from self.w.lock(bucket)
        made = yield from self.chain.hash(bucket, waiting.card(), self.moment)
        yield from self.chain.unhash(bucket, self.slot[s.name])
        yield
        self.w.locks[bucket] = False
        b.entries += 1
        self.remove_owner(b, s.name)
        reply = "ok time-wait"
        if isinstance(made, Full):
            reply = f"ok no-slot {made.owned} {made.held}"
        else:
            b.owners.append(waiting)
            self.waits.append(Wait(waiting))
        del self.open[c.label]
        yield
        b.taken = False
        return reply

    def _drop(self, c: cmd.Drop) -> Generator[None, None, str]:
        s = self.open.get(c.label)
        if s is None:
            return "EBADF"
        return (yield from self.removed(s))

    def removed(self, s: Sock) -> Generator[None, None, str]:
        """Removed without TIME_WAIT."""
        del self.open[s.name.label]
        if s.state in (State.UNBOUND, State.ADDRESSED):
            return "ok"
        b = yield from self.turn_of(s.port, s.net)
        yield from self.leave_group(b, s)
        if s.state in KIND_OF_STATE:
            bucket = self.home(s.card())
            yield from self.w.lock(bucket)
            yield from self.chain.unhash(bucket, self.slot[s.name])
            yield
            self.w.locks[bucket] = False
        if s.state is not State.REQUEST:
            b.entries += 1
            self.remove_owner(b, s.name)
        yield
        b.taken = False
        return "ok"

    def leave_group(self, b: Bucket, s: Sock) -> Steps:
        """The list without the leaver is published before it is unhashed."""
        for place, (_, members) in list(b.groups.items()):
            names = [name for _, name in members]
            if s.state is State.LISTENING and s.name in names:
                at = names.index(s.name)
                members[at] = members[-1]
                members.pop()
                yield from self.publish(self.w.binds.index(b) * PLACES + place, members)
                if not members:
                    del b.groups[place]

    def _at(self, c: cmd.At) -> Generator[None, None, str]:
        yield
        if c.moment < self.moment:
            return "EINVAL"
        self.moment = c.moment
        return "ok"

    def _reap(self, c: cmd.Reap) -> Generator[None, None, str]:
        done, kept = 0, []
        for wait in self.waits:
            s = wait.sock
            if not tw_expired(s.stamp, self.moment):
                kept.append(wait)
                continue
            b = yield from self.turn_of(s.port, s.net)
            bucket = self.home(s.card())
            yield from self.w.lock(bucket)
            here = [at for at in self.w.chain(bucket) if self.w.slots[at].name == s.name
                    and self.w.slots[at].card == s.card()]
            for at in here:
                yield from self.chain.unhash(bucket, at)
                b.entries += 1
                self.remove_owner(b, s.name, True)
                done += 1
            yield
            self.w.locks[bucket] = False
            yield
            b.taken = False
        self.waits = kept
        return f"ok {done}"

    def _dump(self, c: cmd.Dump) -> Generator[None, None, str]:
        yield
        t0 = self.w.clock
        cards: list[Card] = []
        for bucket in range(len(self.w.heads)):
            yield from self.w.lock(bucket)
            for at in self.w.chain(bucket):
                card = self.w.slots[at].card
                assert card is not None
                cards.append(card)
            yield
            self.w.locks[bucket] = False
        yield
        t1 = self.w.clock
        cards.sort(key=lambda card: (card.name.word(), card.kind))
        items = [f"{self.n} item {card_text(card)}" for card in cards]
        return "\n".join([f"{len(cards)} t0 {t0} t1 {t1}"] + items)


@dataclass
class Answer:
    """A look's end: a slot held, none, or again with its words."""

    slot: Optional[int] = None
    again: str = ""
    walked: int = 0


class Looker:
    """A looker's worker."""

    def __init__(self, world: World, race: "MicroRace") -> None:
        self.w = world
        self.race = race

    def go(self) -> Steps:
        """Its packets: the next one that none has taken yet."""
        while True:
            yield
            at = self.race.ticket
            self.race.ticket += 1
            if at >= len(self.race.given.capture.items):
                return
            item = self.race.given.capture.items[at]
            line = item if isinstance(item, str) else (yield from self.packet(item))
            self.race.packets[at] = line

    def rank(self, at: int, packet: Packet) -> int:
        """The rank by the slot's first two words."""
        card = self.w.slots[at].card
        return 0 if card is None else rank(card, packet)

    def put(self, at: int) -> Steps:
        """Gives a count back."""
        yield
        self.w.slots[at].count -= 1

    def one_pass(self, bucket: int, packet: Packet, least: int
                 ) -> Generator[None, None, Optional[Answer]]:
        """A pass of `look`; None where the bucket has no match."""
        best, best_rank, followed = None, 0, 0
        yield
        link = self.w.heads[bucket]
        while True:
            if link % 2:
                if link // 2 == bucket:
                    return Answer(best) if best is not None else None
                again = f"foreign {link // 2}"
                break
            if followed == len(self.w.slots) + 1:
                again = f"long {followed}"
                break
            at = link // 2
            yield
            mine = self.rank(at, packet)
            if mine >= least and mine > best_rank:
                yield
                self.w.slots[at].count += 1
                live = self.w.slots[at].live
                yield
                if not live or self.rank(at, packet) != mine:
                    yield from self.put(at)
                    again = f"{'changed' if live else 'dead'} {at}"
                    break
                if best is not None:
                    yield from self.put(best)
                best, best_rank = at, mine
                if mine == 5:
                    return Answer(best)
            yield
            link = self.w.slots[at].link
            followed += 1
        if best is not None:
            yield from self.put(best)
        return Answer(None, again, bucket)

    def look(self, bucket: int, packet: Packet, least: int
             ) -> Generator[None, None, Optional[Answer]]:
        """`look`: at most so many passes."""
        answer: Optional[Answer] = None
        for _ in range(self.race.passes):
            answer = yield from self.one_pass(bucket, packet, least)
            if answer is None or answer.slot is not None:
                break
        return answer

    def packet(self, packet: Packet) -> Generator[None, None, str]:
        """A packet's lookup, as its line without the number."""
        h = self.w.header
        yield
        t0 = self.w.clock
        answer: Optional[Answer] = None
        for bucket, least in zip(packet_buckets(packet, h.shape, h.seed), (5, 3, 1)):
            answer = yield from self.look(bucket, packet, least)
            if answer is not None:
                break
        text = "none"
        if answer is not None and answer.slot is None:
            text = f"again {answer.again} in {answer.walked}"
        elif answer is not None:
            assert answer.slot is not None
            text = yield from self.chosen(answer.slot, packet)
        yield
        t1 = self.w.clock
        net = f" net {packet.net}" if packet.net else ""
        return (f"{text} t0 {t0} t1 {t1} from {end(packet.src, packet.sport)} "
                f"to {end(packet.dst, packet.dport)} dev {packet.dev}{net}")

    def chosen(self, best: int, packet: Packet) -> Generator[None, None, str]:
        """The group's choice, or the chain's best; lets both go."""
        slot = self.w.slots[best]
        card = slot.card
        assert card is not None
        found = card
        if card.kind is Kind.LISTEN and slot.extra:
            yield
            members = self.w.words.get(slot.extra - 1, [])
            if members:
                at, name = members[scale(packet_hash(packet, self.w.header.seed), len(members))]
                yield
                member = self.w.slots[at]
                member.count += 1
                live = member.live
                yield
                if live and member.name == name and self.rank(at, packet) == rank(card, packet):
                    assert member.card is not None
                    found = member.card
                yield from self.put(at)
        yield from self.put(best)
        return card_text(found).split()[0] + f" {found.name}"


class MicroRace:
    """One race at the grain of steps."""

    def __init__(self, given: program.Input, lookers: int, passes: int,
                 choose: random.Random) -> None:
        self.given = given
        self.lookers = lookers
        self.passes = passes
        self.choose = choose
        self.world = World(given.script.header)
        self.sections = [Section(self.world, n, commands)
                         for n, commands in enumerate(given.script.sections, 1)]
        self.packets: dict[int, str] = {}
        self.ticket = 0

    def go(self) -> None:
        """Random steps, in some races mostly many of one worker in a row."""
        grain = self.choose.choice(((1,), (1, 1, 2, 3, 5, 10, 40), (1, 2, 40, 200)))
        workers: list[Steps] = [section.go() for section in self.sections]
        workers += [Looker(self.world, self).go() for _ in range(self.lookers)]
        while workers:
            worker = self.choose.choice(workers)
            for _ in range(self.choose.choice(grain)):
                if next(worker, self) is self:
                    workers.remove(worker)
                    break

    def lines(self) -> Iterator[str]:
        """The text's lines."""
        h = self.given.script.header
        s = h.shape
        yield f"race lookers {self.lookers} passes {self.passes}"
        yield f"shape {s.slots} {s.bind} {s.hash} {s.listen} seed {h.seed}"
        for section in self.sections:
            yield from section.lines
        for number, bucket in enumerate(self.world.binds):
            if bucket.entries:
                yield f"journal {number} {bucket.entries}"
        for life in sorted(self.world.lives, key=lambda life: life.hash[0]):
            tail = f"{life.unhash[0]} {life.unhash[1]}" if life.unhash else "-"
            yield (f"life {life.bucket} {life.slot} {card_text(life.card)} "
                   f"hash {life.hash[0]} {life.hash[1]} unhash {tail}")
        for at in range(len(self.given.capture.items)):
            yield f"packet {at + 1} {self.packets[at]}"
        if self.given.capture.cut:
            yield "cut"
        yield f"clock {self.world.clock}"


def race(data: bytes, lookers: int, passes: int, seed: int) -> program.Outcome:
    """`inet race` at the grain of steps."""
    given = program.read_input(data, grammar.RACE)
    if isinstance(given, program.Outcome):
        return given
    made = MicroRace(given, lookers, passes, random.Random(seed))
    made.go()
    return program.Outcome(program.text_of(made.lines()), program.DONE)
