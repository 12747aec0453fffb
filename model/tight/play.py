"""All texts that runs of a small script can give: every order of the atomic steps.

A worker is a generator of steps. A step is a function of the tables, done at one
moment; what it answers goes back into the worker, so a worker's state is the list of
the answers that it got. Two orders of steps that come to the same tables and the same
answers are one state, and each state is gone on from once.

The grain, and why no text is lost. The steps are those of the shared tables, in the order of
crates/{sock_ops,established,listeners,nulls_chain,null_reader,demux,race_run}.
Steps are put together only where one moves past every step of others: taking a turn or
a lock moves to the right (nobody else can touch what it guards), giving it moves to the
left, and reads and writes of what a held turn or lock guards move both ways (Lipton). So
a block of `take turn, ask, take lock, walk, draw` is one step, and so is
`draw, unlock, enter, give turn`. Each draw and load of the clock, each claim of a slot,
each release of one (OWN), and where the capture has packets each store of a card word,
link, head and flag, and each load of a looker, is a step of its own; without packets
nobody reads a chain without its lock, so stores move too. Card words 2 and 3 are read
under a count taken with LIVE alone, when nobody stores them: they go with word 1, and
a looker's four check loads go with its take.
"""

from __future__ import annotations

import sys
from typing import Any, Callable, Generator, NamedTuple, Optional

from .. import commands as cmd
from .. import program
from ..cards import (Card, Kind, Name, Packet, State, address, bind_bucket, bind_conflict,
                     card_text, end, home, overlap, packet_buckets, packet_hash, port_order,
                     rank, tw_expired, tw_replaceable)
from ..hashes import Lcg64Xsh32, scale

BLOCK = object()
PLACES, ROOM = 8, 64

Step = Callable[["Tables"], Any]
Work = Generator[Step, Any, Any]


class Owner(NamedTuple):
    """An owner of a bind bucket, with the fields that cards.py reads."""

    name: int
    origin: int
    addr: int
    port: int
    dev: int
    net: int
    uid: int
    reuseaddr: bool
    reuseport: bool
    state: State
    by_connect: bool = False
    remote: int = 0
    rport: int = 0
    stamp: int = 0


class Tables:
    """The shared tables, unpacked from a state."""

    __slots__ = ("clock", "binds", "heads", "locks", "slots", "words", "ticket")

    def __init__(self, packed: tuple) -> None:
        (self.clock, binds, heads, locks, slots, words, self.ticket) = packed
        self.binds, self.heads, self.locks = list(binds), list(heads), list(locks)
        self.slots, self.words = list(slots), list(words)

    def pack(self) -> tuple:
        return (self.clock, tuple(self.binds), tuple(self.heads), tuple(self.locks),
                tuple(self.slots), tuple(self.words), self.ticket)

    def draw(self) -> int:
        self.clock += 1
        return self.clock - 1


# a slot: own, live, count, link, w0, w1, w23   (w0, w1: parts of a card; w23: name, extra)
OWN, LIVE, COUNT, LINK, ENDS, PORTS, REST = range(7)
EMPTY_SLOT = (False, False, 0, 0, None, None, None)
# a bind bucket: taken, owners, groups, entries


def setf(t: Tables, at: int, field: int, value: Any) -> None:
    """Changes a field of a slot."""
    s = t.slots[at]
    t.slots[at] = s[:field] + (value,) + s[field + 1:]


def chain(t: Tables, bucket: int) -> list[int]:
    """The slots of a locked chain."""
    out, link = [], t.heads[bucket]
    while link % 2 == 0:
        out.append(link // 2)
        link = t.slots[link // 2][LINK]
    return out


def card_at(t: Tables, at: int) -> Card:
    """A linked slot's card, as its words say."""
    s = t.slots[at]
    return card_of_words(s[ENDS], s[PORTS], s[REST])


def card_of_words(w0: tuple, w1: tuple, w23: tuple) -> Card:
    local, remote = w0
    lport, rport, dev, net, kind = w1
    return Card(local, lport, remote, rport, dev, net, kind, w23[0])


def rank_of_words(w0: Optional[tuple], w1: Optional[tuple], packet: Packet) -> int:
    """The rank that two loaded words give; words that were never stored are zero."""
    if w1 is None:
        return 0
    local, remote = w0 if w0 is not None else (0, 0)
    lport, rport, dev, net, kind = w1
    return rank(Card(local, lport, remote, rport, dev, net, kind, Name(0, 0, "")), packet)


class Out:
    """What a finished worker wrote: lines, hashes, unhashes, answers."""

    def __init__(self) -> None:
        self.lines: list[str] = []
        self.hashes: list[tuple[int, int, Card, int, int]] = []
        self.unhashes: dict[tuple[Name, Kind], tuple[int, int]] = {}
        self.packets: dict[int, str] = {}


class Section:
    """A section's worker, in the product's order of steps."""

    def __init__(self, play: "Play", n: int) -> None:
        self.p, self.n, self.h = play, n, play.header
        self.fine = play.fine
        self.out = Out()
        self.generator = Lcg64Xsh32(self.h.seed, n)
        self.open: dict[str, Owner] = {}
        self.names: dict[int, Name] = {}
        self.at: dict[tuple[int, Kind], int] = {}  # slots of own cards
        self.lname: dict[int, str] = {}
        self.parent: dict[str, str] = {}
        self.given, self.moment, self.last = 0, 0, -1
        self.waits: list[Owner] = []

    def go(self) -> Work:
        does = {cmd.MakeSocket: self._socket, cmd.Bind: self._bind, cmd.Listen: self._listen,
                cmd.Connect: self._connect, cmd.Accept: self._pair, cmd.Syn: self._pair,
                cmd.Ack: self._ack, cmd.Close: self._close, cmd.Drop: self._drop,
                cmd.At: self._at, cmd.Reap: self._reap, cmd.Dump: self._dump}
        for c in self.p.given.script.sections[self.n - 1]:
            reply = yield from does[type(c)](c)
            head = cmd.line_head(self.n, c)
            self.out.lines += [f"{head} {x}" if k == 0 else x
                               for k, x in enumerate(reply.split("\n"))]
        return self.out

    # -- small things ---------------------------------------------------------

    def name(self, label: str) -> Name:
        self.given += 1
        name = Name(self.n, self.given, label)
        self.names[name.word()] = name
        return name

    def card(self, o: Owner, kind: Kind) -> Card:
        """The card of an owner in this state."""
        local = o.addr
        remote, rport = (0, 0) if kind is Kind.LISTEN else (o.remote, o.rport)
        return Card(local, o.port, remote, rport, o.dev, o.net, kind, self.names[o.name])

    def search(self, even_first: bool) -> list[int]:
        word = self.h.offset if self.h.offset is not None else self.generator.next_u32()
        return list(port_order(self.h.low, self.h.high, word % (self.h.high - self.h.low + 1),
                               even_first, self.h.reserved))

    def bb(self, port: int, net: int) -> int:
        return bind_bucket(port, net, self.h.shape)

    # -- turns ------------------------------------------------------------------

    @staticmethod
    def take(t: Tables, b: int) -> bool:
        """Takes a turn; False: it is taken."""
        if t.binds[b][0]:
            return False
        t.binds[b] = (True,) + t.binds[b][1:]
        return True

    @staticmethod
    def give(t: Tables, b: int) -> None:
        t.binds[b] = (False,) + t.binds[b][1:]

    @staticmethod
    def enter(t: Tables, b: int, owners: Optional[tuple] = None, n: int = 1) -> None:
        """Entries of the bucket whose turn is held."""
        taken, old, groups, entries = t.binds[b]
        t.binds[b] = (taken, old if owners is None else owners, groups, entries + n)

    @staticmethod
    def lock(t: Tables, bucket: int) -> bool:
        if t.locks[bucket]:
            return False
        t.locks[bucket] = True
        return True

    # -- chains -----------------------------------------------------------------

    def claim(self, fail: Callable[[Tables], None]) -> Work:
        """Each slot once, from the one after the last; where none is free `fail` goes with the last try."""
        n = self.h.shape.slots
        owned = held = 0
        for k in range(n):
            at = (self.last + 1 + k) % n

            def one(t: Tables, at: int = at, k: int = k) -> str:
                s = t.slots[at]
                if not s[OWN] and not s[LIVE] and s[COUNT] == 0:
                    setf(t, at, OWN, True)
                    return "ok"
                if k == n - 1:
                    fail(t)
                return "owned" if s[OWN] else "held"

            got = yield one
            if got == "ok":
                self.last = at
                return at
            owned += got == "owned"
            held += got == "held"
        return (owned, held)

    def finish_hash(self, bucket: int, at: int, card: Card, extra: int, begin: int,
                    post: Callable[[Tables], Any]) -> Work:
        """The stores after the claim and the end; `post` goes with the end."""
        w0 = (card.local, card.remote)
        w1 = (card.lport, card.rport, card.dev, card.net, card.kind)

        def st0(t: Tables) -> None:
            setf(t, at, ENDS, w0)

        def st1(t: Tables) -> None:
            setf(t, at, PORTS, w1)
            setf(t, at, REST, (card.name, extra))

        def link(t: Tables) -> None:
            setf(t, at, LINK, t.heads[bucket])

        def head(t: Tables) -> None:
            t.heads[bucket] = 2 * at

        def live(t: Tables) -> None:
            setf(t, at, LIVE, True)

        stores = [st0, st1, link, head, live]
        if self.fine:
            for s in stores:
                yield s

        def last(t: Tables) -> int:
            if not self.fine:
                for s in stores:
                    s(t)
            e = t.draw()
            post(t)
            return e

        e = yield last
        self.out.hashes.append((bucket, at, card, begin, e))
        self.at[(card.name.word(), card.kind)] = at

    def unhash(self, bucket: int, at: int, card: Card, first: Optional[Step],
               post: Callable[[Tables], Any]) -> Work:
        """An unhash under a lock; `first` draws the beginning (and takes what is needed)."""
        if first is None:
            def first(t: Tables) -> int:
                return t.draw()
        begin = yield first

        def clear(t: Tables) -> None:
            setf(t, at, LIVE, False)

        def past(t: Tables) -> None:
            slots = chain(t, bucket)
            k = slots.index(at)
            link = t.slots[at][LINK]
            if k:
                setf(t, slots[k - 1], LINK, link)
            else:
                t.heads[bucket] = link

        def release(t: Tables) -> None:
            setf(t, at, OWN, False)

        if self.fine:
            yield clear
            yield past
            yield release
        else:
            def all3(t: Tables) -> None:
                clear(t)
                past(t)
                release(t)
            yield all3

        def last(t: Tables) -> int:
            e = t.draw()
            post(t)
            return e

        e = yield last
        self.out.unhashes[(card.name, card.kind)] = (begin, e)

    # -- commands -----------------------------------------------------------------

    def _socket(self, c: cmd.MakeSocket) -> Work:
        name = self.name(c.label)
        self.open[c.label] = Owner(name.word(), name.word(), 0, 0, c.dev, c.net, c.uid, c.reuseaddr,
                                   c.reuseport, State.UNBOUND)
        return "ok"
        yield

    def _bind(self, c: cmd.Bind) -> Work:
        s = self.open.get(c.label)
        if s is None:
            return "EBADF"
        if s.state not in (State.UNBOUND, State.ADDRESSED):
            return "EINVAL"
        ports = [c.port] if c.port else self.search(False)
        rule = bind_conflict if c.port else overlap
        for port in ports:
            b = self.bb(port, s.net)
            asked = s._replace(addr=c.addr, port=port, state=State.BOUND)

            def one(t: Tables, b: int = b, asked: Owner = asked) -> Any:
                if not self.take(t, b):
                    return BLOCK
                owners = t.binds[b][1]
                refused = any(rule(asked, o) for o in owners)
                self.enter(t, b, None if refused else owners + (asked,))
                self.give(t, b)
                return not refused

            if (yield one):
                self.open[c.label] = asked
                return f"ok {port}"
        return "EADDRINUSE"

    def groups_add(self, t: Tables, b: int, o: Owner, at: int) -> list[int]:
        """`listen` of a reuseport owner: its place, with it as the last member."""
        taken, owners, groups, entries = t.binds[b]
        place = self.place_for(t, b, o)
        groups = groups[:place] + (groups[place] + ((at, o.name),),) + groups[place + 1:]
        t.binds[b] = (taken, owners, groups, entries)
        return place

    def place_for(self, t: Tables, b: int, o: Owner) -> Optional[int]:
        _, owners, groups, _ = t.binds[b]
        for k, members in enumerate(groups):
            for _, name in members:
                x = next((y for y in owners if y.name == name), None)
                if x is not None and (x.addr, x.port, x.dev, x.net, x.uid) == (
                        o.addr, o.port, o.dev, o.net, o.uid):
                    return k
        return next((k for k, m in enumerate(groups) if not m), None)

    def _listen(self, c: cmd.Listen) -> Work:
        s = self.open.get(c.label)
        if s is None:
            return "EBADF"
        if s.state in (State.FULL, State.REQUEST):
            return "EINVAL"
        if s.state is State.LISTENING:
            return f"ok {s.port}"
        took = s.state is not State.BOUND
        ports = self.search(False) if took else [s.port]
        for port in ports:
            b = self.bb(port, s.net)
            o = s._replace(port=port, state=State.BOUND)
            card = self.card(o, Kind.LISTEN)
            bucket = home(card, self.h.shape, self.h.seed)

            def one(t: Tables, b: int = b, o: Owner = o, bucket: int = bucket) -> Any:
                if not self.take(t, b):
                    return BLOCK
                if took:
                    refused = any(overlap(o, x) for x in t.binds[b][1])
                    self.enter(t, b, None if refused else t.binds[b][1] + (o,))
                    if refused:
                        self.give(t, b)
                        return "next"
                owners = t.binds[b][1]
                self.enter(t, b)                   # may_listen
                reply, group = "", None
                if any(bind_conflict(o, x) for x in owners if x.name != o.name):
                    reply = "EADDRINUSE"
                elif o.reuseport:
                    place = self.place_for(t, b, o)
                    if place is None or len(t.binds[b][2][place]) >= ROOM:
                        reply = "EMFILE"
                    else:
                        group = b * PLACES + place
                if reply:
                    self.refuse_listen(t, b, o, took)
                    return reply
                if not self.lock(t, bucket):
                    return BLOCK
                return (t.draw(), group)

            got = yield one
            if got == "next":
                continue
            if isinstance(got, str):
                return got
            begin, group = got

            def fail(t: Tables, b: int = b, o: Owner = o, bucket: int = bucket) -> None:
                t.locks[bucket] = False
                self.refuse_listen(t, b, o, took)

            at = yield from self.claim(fail)
            if isinstance(at, tuple):
                return f"ENFILE {at[0]} {at[1]}"

            def post(t: Tables, b: int = b, o: Owner = o, bucket: int = bucket, at: int = at,
                     group: Optional[int] = group) -> None:
                t.locks[bucket] = False
                owners = tuple(x._replace(state=State.LISTENING) if x.name == o.name else x
                               for x in t.binds[b][1])
                self.enter(t, b, owners)
                if o.reuseport:
                    self.groups_add(t, b, o, at)
                if group is None or not self.fine:
                    if group is not None:
                        t.words[group] = t.binds[b][2][group % PLACES]
                    self.give(t, b)

            yield from self.finish_hash(bucket, at, card, 0 if group is None else group + 1, begin,
                                        post)
            if group is not None and self.fine:
                yield from self.publish(b, group, give=b)
            self.open[c.label] = o._replace(state=State.LISTENING)
            self.lname[o.name] = c.label
            return f"ok {port}"
        return "EADDRINUSE"

    def publish(self, b: int, group: int, give: Optional[int]) -> Work:
        """The bucket's list is stored member by member, and then its count.

        Words: a list of MOST words of which those past the list are zero; the count is
        kept apart. Here the pair (count, members): the stores of members that don't
        change are left out, since they change nothing."""
        def members(t: Tables) -> tuple:
            return t.binds[b][2][group % PLACES]

        # one step for each place that may change, at most as many as either list has
        k = 0
        while True:
            def one(t: Tables, k: int = k) -> Any:
                count, words = t.words[group] if t.words[group] else (0, ())
                new = members(t)
                width = max(len(words), len(new))
                words = words + (0,) * (width - len(words))
                if k < width:
                    words = words[:k] + ((new[k] if k < len(new) else 0),) + words[k + 1:]
                    t.words[group] = (count, words)
                    return "more"
                t.words[group] = (len(new), words)
                if give is not None:
                    self.give(t, give)
                return "done"
            if (yield one) == "done":
                return
            k += 1

    def refuse_listen(self, t: Tables, b: int, o: Owner, took: bool) -> None:
        """A refused `listen` gives up the port that it took, and the turn."""
        if took:
            self.enter(t, b, tuple(x for x in t.binds[b][1] if x.name != o.name))
        self.give(t, b)

    def survey(self, t: Tables, bucket: int, card: Card, always: bool, connects: bool
               ) -> tuple[Optional[str], Optional[tuple[int, Card]]]:
        """What the locked chain says of a newcomer: a keeper, or a TIME_WAIT to be replaced."""
        keeper, waiting = None, None
        for at in chain(t, bucket):
            other = card_at(t, at)
            if other.four != card.four:
                continue
            stamp = t.slots[at][REST][1]
            if other.kind is Kind.TIME_WAIT and (always or (connects and tw_replaceable(
                    stamp, self.moment, self.h.twreuse))):
                waiting = waiting or (at, other)
            else:
                keeper = str(other.name)
        return keeper, waiting

    def insert(self, b: int, before: Callable[[Tables], Any], card: Card, always: bool,
               taken: Callable[[Tables], None], done: Callable[[Tables], None]) -> Work:
        """Turn of b, `before` (an answer other than None ends it), lock, survey, hash, replace.

        `taken` goes with a refusal, `done` with the last end; both enter, and the turn is
        given behind them. Answers what `before` said, "taken", (O, H) or "ok"."""
        bucket = home(card, self.h.shape, self.h.seed)

        def one(t: Tables) -> Any:
            if not self.take(t, b):
                return BLOCK
            said = before(t)
            if said is not None:
                self.give(t, b)
                return said
            if not self.lock(t, bucket):
                return BLOCK
            keeper, waiting = self.survey(t, bucket, card, always, not always)
            if keeper is not None:
                t.locks[bucket] = False
                taken(t)
                self.give(t, b)
                return "taken"
            return (t.draw(), waiting)

        got = yield one
        if isinstance(got, str):
            return got
        begin, waiting = got

        def fail(t: Tables) -> None:
            t.locks[bucket] = False
            self.give(t, b)

        at = yield from self.claim(fail)
        if isinstance(at, tuple):
            return at

        def end_all(t: Tables) -> None:
            t.locks[bucket] = False
            done(t)
            if waiting is not None:
                owners = t.binds[b][1]
                gone = next((x for x in owners if x.name == waiting[1].name.word()
                             and x.state is State.TIME_WAIT), None)
                self.enter(t, b, tuple(x for x in owners if x is not gone))
            self.give(t, b)

        yield from self.finish_hash(bucket, at, card, 0, begin,
                                    end_all if waiting is None else (lambda t: None))
        if waiting is not None:
            yield from self.unhash(bucket, waiting[0], waiting[1], None, end_all)
        return "ok"

    def _connect(self, c: cmd.Connect) -> Work:
        s = self.open.get(c.label)
        if s is None:
            return "EBADF"
        if s.state in (State.FULL, State.LISTENING):
            return "EISCONN"
        fixed = s.state in (State.BOUND, State.ADDRESSED) and s.addr != 0
        if (s.state is State.REQUEST or c.remote == 0 or c.rport == 0
                or (fixed and c.source not in (None, s.addr))
                or (not fixed and c.source in (None, 0))):
            return "EINVAL"
        local = s.addr if fixed or c.source is None else c.source
        auto = s.state is not State.BOUND
        for port in (self.search(True) if auto else [s.port]):
            b = self.bb(port, s.net)
            full = s._replace(addr=local, port=port, remote=c.remote, rport=c.rport,
                              state=State.FULL, by_connect=auto)
            card = self.card(full, Kind.FULL)

            def before(t: Tables, b: int = b, port: int = port) -> Optional[str]:
                if not auto:
                    return None
                self.enter(t, b)                   # free
                free = all(o.by_connect for o in t.binds[b][1] if (o.port, o.net) == (port, s.net))
                return None if free else "notfree"

            def done(t: Tables, b: int = b, full: Owner = full) -> None:
                owners = t.binds[b][1]
                if not auto:
                    self.enter(t, b, tuple(full if o.name == full.name else o for o in owners))
                else:
                    self.enter(t, b, owners + (full,))

            got = yield from self.insert(b, before, card, False, lambda t: None, done)
            if isinstance(got, tuple):
                return f"ENFILE {got[0]} {got[1]}"
            if got == "ok":
                self.open[c.label] = full
                return f"ok {address(local)}:{port}"
            if not auto:
                return "EADDRNOTAVAIL"
        return "EADDRNOTAVAIL"

    def _pair(self, c: Any) -> Work:
        accepts = isinstance(c, cmd.Accept)
        label = c.child if accepts else c.request
        name = self.name(label)
        s = self.open.get(c.listener)
        if s is None:
            return "EBADF"
        if (s.state is not State.LISTENING or c.lport != s.port or c.local == 0
                or s.addr not in (0, c.local) or c.remote == 0 or c.rport == 0):
            return "EINVAL"
        child = s._replace(name=name.word(), state=State.FULL if accepts else State.REQUEST,
                           addr=c.local, remote=c.remote, rport=c.rport)
        b = self.bb(s.port, s.net)

        def done(t: Tables) -> None:
            if accepts:
                self.enter(t, b, t.binds[b][1] + (child,))

        card = self.card(child, Kind.FULL if accepts else Kind.REQUEST)
        got = yield from self.insert(b, lambda t: None, card, True, lambda t: None, done)
        if isinstance(got, tuple):
            return f"ENFILE {got[0]} {got[1]}"
        if got == "taken":
            return "EADDRNOTAVAIL"
        self.open[label] = child
        if not accepts:
            self.parent[label] = c.listener
        return "ok"

    def _ack(self, c: cmd.Ack) -> Work:
        name = self.name(c.child)
        r = self.open.get(c.request)
        if r is None:
            return "EBADF"
        l = self.open.get(self.parent.get(c.request, "")) if r.state is State.REQUEST else None
        if l is None:
            return "EINVAL"
        child = l._replace(name=name.word(), state=State.FULL, addr=r.addr, remote=r.remote,
                           rport=r.rport)
        b = self.bb(r.port, r.net)
        card, old = self.card(child, Kind.FULL), self.card(r, Kind.REQUEST)
        bucket = home(card, self.h.shape, self.h.seed)

        def one(t: Tables) -> Any:
            if not self.take(t, b) or not self.lock(t, bucket):
                return BLOCK
            return t.draw()

        begin = yield one

        def fail(t: Tables) -> None:
            t.locks[bucket] = False
            self.give(t, b)

        at = yield from self.claim(fail)
        if isinstance(at, tuple):
            return f"ENFILE {at[0]} {at[1]}"

        def post(t: Tables) -> None:
            t.locks[bucket] = False
            self.enter(t, b, t.binds[b][1] + (child,))
            self.give(t, b)

        yield from self.finish_hash(bucket, at, card, 0, begin, lambda t: None)
        yield from self.unhash(bucket, self.at[(r.name, Kind.REQUEST)], old, None, post)
        del self.open[c.request]
        self.open[c.child] = child
        return "ok"

    def _close(self, c: cmd.Close) -> Work:
        s = self.open.get(c.label)
        if s is None:
            return "EBADF"
        if s.state is not State.FULL:
            return (yield from self.removed(c.label, s))
        b = self.bb(s.port, s.net)
        card, wcard = self.card(s, Kind.FULL), self.card(s, Kind.TIME_WAIT)
        bucket = home(card, self.h.shape, self.h.seed)

        def one(t: Tables) -> Any:
            if not self.take(t, b) or not self.lock(t, bucket):
                return BLOCK
            return t.draw()

        begin = yield one
        at = yield from self.claim(lambda t: None)
        slot = self.at[(s.name, Kind.FULL)]
        del self.open[c.label]
        waiting = s._replace(state=State.TIME_WAIT, stamp=self.moment)

        def post(t: Tables) -> None:
            t.locks[bucket] = False
            owners = t.binds[b][1]
            if isinstance(at, tuple):
                owners = tuple(o for o in owners if o.name != s.name)
            else:
                owners = tuple(waiting if o.name == s.name else o for o in owners)
            self.enter(t, b, owners)
            self.give(t, b)

        if not isinstance(at, tuple):
            yield from self.finish_hash(bucket, at, wcard, self.moment, begin, lambda t: None)
        yield from self.unhash(bucket, slot, card, None, post)
        if isinstance(at, tuple):
            return f"ok no-slot {at[0]} {at[1]}"
        self.waits.append(waiting)
        return "ok time-wait"

    def _drop(self, c: cmd.Drop) -> Work:
        s = self.open.get(c.label)
        if s is None:
            return "EBADF"
        return (yield from self.removed(c.label, s))

    def removed(self, label: str, s: Owner) -> Work:
        del self.open[label]
        kinds = {State.LISTENING: Kind.LISTEN, State.FULL: Kind.FULL, State.REQUEST: Kind.REQUEST}
        if s.state in (State.UNBOUND, State.ADDRESSED):
            return "ok"
        b = self.bb(s.port, s.net)

        def leave(t: Tables) -> None:
            self.enter(t, b, tuple(o for o in t.binds[b][1] if o.name != s.name))
            self.give(t, b)

        if s.state not in kinds:
            def one(t: Tables) -> Any:
                if not self.take(t, b):
                    return BLOCK
                leave(t)
                return None
            yield one
            return "ok"
        kind = kinds[s.state]
        card = self.card(s, kind)
        bucket = home(card, self.h.shape, self.h.seed)
        slot = self.at[(s.name, kind)]
        if kind is Kind.REQUEST:
            def first(t: Tables) -> Any:
                return t.draw() if self.lock(t, bucket) else BLOCK

            def unlock(t: Tables) -> None:
                t.locks[bucket] = False
            yield from self.unhash(bucket, slot, card, first, unlock)
            return "ok"

        def out_of_group(t: Tables) -> Optional[int]:
            taken, owners, groups, entries = t.binds[b]
            for k, members in enumerate(groups):
                ms = [name for _, name in members]
                if s.name in ms:
                    at = ms.index(s.name)
                    new = list(members)
                    new[at] = new[-1]
                    new.pop()
                    groups = groups[:k] + (tuple(new),) + groups[k + 1:]
                    t.binds[b] = (taken, owners, groups, entries)
                    return b * PLACES + k
            return None

        def first(t: Tables) -> Any:
            if not self.take(t, b) or not self.lock(t, bucket):
                return BLOCK
            group = out_of_group(t)
            if group is not None and self.fine:
                return ("group", group)
            return t.draw()

        def post(t: Tables) -> None:
            t.locks[bucket] = False
            leave(t)

        if self.fine and s.reuseport and kind is Kind.LISTEN:
            got = yield first
            yield from self.publish(b, got[1], give=None)
            yield from self.unhash(bucket, slot, card, None, post)
        else:
            yield from self.unhash(bucket, slot, card, first, post)
        return "ok"

    def _at(self, c: cmd.At) -> Work:
        if c.moment < self.moment:
            return "EINVAL"
        self.moment = c.moment
        return "ok"
        yield

    def _reap(self, c: cmd.Reap) -> Work:
        done, kept = 0, []
        for w in self.waits:
            if not tw_expired(w.stamp, self.moment):
                kept.append(w)
                continue
            b = self.bb(w.port, w.net)
            card = self.card(w, Kind.TIME_WAIT)
            bucket = home(card, self.h.shape, self.h.seed)
            found: list[int] = []

            def first(t: Tables) -> Any:
                if not self.take(t, b) or not self.lock(t, bucket):
                    return BLOCK
                at = next((x for x in chain(t, bucket) if card_at(t, x).name == card.name
                           and card_at(t, x).kind is Kind.TIME_WAIT), None)
                if at is None:
                    t.locks[bucket] = False
                    self.give(t, b)
                    return None
                return (at, t.draw())

            got = yield first
            if got is None:
                continue
            at, begin = got

            def post(t: Tables, b: int = b, bucket: int = bucket, w: Owner = w) -> None:
                t.locks[bucket] = False
                owners = t.binds[b][1]
                gone = next((x for x in owners if x.name == w.name
                             and x.state is State.TIME_WAIT), None)
                self.enter(t, b, tuple(x for x in owners if x is not gone))
                self.give(t, b)

            yield from self.unhash_begun(bucket, at, card, begin, post)
            done += 1
        self.waits = kept
        return f"ok {done}"

    def unhash_begun(self, bucket: int, at: int, card: Card, begin: int,
                     post: Callable[[Tables], Any]) -> Work:
        """`unhash` whose beginning is drawn already."""
        inner = self.unhash(bucket, at, card, None, post)
        next(inner)
        step = inner.send(begin)
        while True:
            got = yield step
            try:
                step = inner.send(got)
            except StopIteration:
                return

    def _dump(self, c: cmd.Dump) -> Work:
        t0 = yield (lambda t: t.clock)
        cards: list[Card] = []
        for bucket in range(self.h.shape.hash + self.h.shape.listen):
            def one(t: Tables, bucket: int = bucket) -> Any:
                if t.locks[bucket]:
                    return BLOCK
                return tuple(card_at(t, x) for x in chain(t, bucket))
            cards += yield one
        t1 = yield (lambda t: t.clock)
        cards.sort(key=lambda card: (card.name.word(), card.kind))
        items = [f"{self.n} item {card_text(card)}" for card in cards]
        return "\n".join([f"{len(cards)} t0 {t0} t1 {t1}"] + items)


class Looker:
    """A looker, in demux's order."""

    def __init__(self, play: "Play") -> None:
        self.p, self.h = play, play.header
        self.out = Out()

    def go(self) -> Work:
        items = self.p.given.capture.items
        while True:
            def ticket(t: Tables) -> int:
                t.ticket += 1
                return t.ticket - 1
            at = yield ticket
            if at >= len(items):
                return self.out
            item = items[at]
            self.out.packets[at] = (item if isinstance(item, str)
                                    else (yield from self.packet(item)))

    @staticmethod
    def put(at: int) -> Step:
        def one(t: Tables) -> None:
            setf(t, at, COUNT, t.slots[at][COUNT] - 1)
        return one

    def one_pass(self, bucket: int, packet: Packet, least: int) -> Work:
        best, best_rank, followed = None, 0, 0
        link = yield (lambda t: t.heads[bucket])
        slots = self.h.shape.slots
        while True:
            if link % 2:
                if link // 2 == bucket:
                    return ("found", best) if best is not None else ("none",)
                again = f"foreign {link // 2}"
                break
            if followed > slots:
                again = f"long {followed}"
                break
            at = link // 2
            w0 = yield (lambda t, at=at: t.slots[at][ENDS])
            w1 = yield (lambda t, at=at: t.slots[at][PORTS])
            mine = rank_of_words(w0, w1, packet)
            if mine >= least and mine > best_rank:
                def take(t: Tables, at: int = at) -> Any:
                    s = t.slots[at]
                    setf(t, at, COUNT, s[COUNT] + 1)
                    return (s[ENDS], s[PORTS], s[REST]) if s[LIVE] else None
                words = yield take
                if words is None or rank_of_words(words[0], words[1], packet) != mine:
                    yield self.put(at)
                    again = f"{'dead' if words is None else 'changed'} {at}"
                    break
                if best is not None:
                    yield self.put(best[0])
                best, best_rank = (at, words), mine
                if mine == 5:
                    return ("found", best)
            link = yield (lambda t, at=at: t.slots[at][LINK])
            followed += 1
        if best is not None:
            yield self.put(best[0])
        return ("again", again, bucket)

    def packet(self, packet: Packet) -> Work:
        t0 = yield (lambda t: t.clock)
        got: tuple = ("none",)
        for bucket, least in zip(packet_buckets(packet, self.h.shape, self.h.seed), (5, 3, 1)):
            for _ in range(self.p.passes):
                got = yield from self.one_pass(bucket, packet, least)
                if got[0] != "again":
                    break
            if got[0] != "none":
                break
        text = "none"
        if got[0] == "again":
            text = f"again {got[1]} in {got[2]}"
        elif got[0] == "found":
            at, words = got[1]
            card = card_of_words(*words)
            group = words[2][1]
            if card.kind is Kind.LISTEN and group:
                card = yield from self.member(group - 1, card, packet)
            yield self.put(at)
            text = card_text(card).split()[0] + f" {card.name}"
        t1 = yield (lambda t: t.clock)
        net = f" net {packet.net}" if packet.net else ""
        return (f"{text} t0 {t0} t1 {t1} from {end(packet.src, packet.sport)} "
                f"to {end(packet.dst, packet.dport)} dev {packet.dev}{net}")

    def member(self, group: int, best: Card, packet: Packet) -> Work:
        count = yield (lambda t: t.words[group][0] if t.words[group] else 0)
        if not count:
            return best
        k = scale(packet_hash(packet, self.h.seed), count)
        m = yield (lambda t: t.words[group][1][k] if k < len(t.words[group][1]) else 0)
        at, name = m if m else (0, 0)

        def take(t: Tables) -> Any:
            s = t.slots[at]
            setf(t, at, COUNT, s[COUNT] + 1)
            return (s[ENDS], s[PORTS], s[REST]) if s[LIVE] else None
        words = yield take
        found = best
        if words is not None:
            card = card_of_words(*words)
            if card.name.word() == name and rank(card, packet) == rank(best, packet):
                found = card
        yield self.put(at)
        return found


class Node:
    """A worker's state: the answers that it got so far."""

    __slots__ = ("worker", "path", "step", "out", "next")

    def __init__(self, worker: int, path: tuple, make: Callable[[], Work]) -> None:
        self.worker, self.path = worker, path
        self.next: dict[Any, Node] = {}
        self.out: Optional[Out] = None
        self.step: Optional[Step] = None
        work = make()
        try:
            step = next(work)
            for answer in path:
                step = work.send(answer)
            self.step = step
        except StopIteration as stop:
            self.out = stop.value


class TooMany(Exception):
    """More states than allowed."""


class Play:
    """One script with its capture: all texts that runs of it give."""

    def __init__(self, given: program.Input, lookers: int, passes: int) -> None:
        self.given, self.lookers, self.passes = given, lookers, passes
        self.header = given.script.header
        self.fine = any(not isinstance(i, str) for i in given.capture.items)
        self.makers: list[Callable[[], Work]] = [
            (lambda n=n: Section(self, n).go())
            for n in range(1, len(given.script.sections) + 1)]
        # a looker without items draws a ticket and ends; none is needed then
        if given.capture.items:
            self.makers += [(lambda: Looker(self).go()) for _ in range(lookers)]
        s = self.header.shape
        self.start = (0, ((False, (), ((),) * PLACES, 0),) * s.bind,
                      tuple(2 * b + 1 for b in range(s.hash + s.listen)),
                      (False,) * (s.hash + s.listen), (EMPTY_SLOT,) * s.slots,
                      ((),) * (s.bind * PLACES), 0)
        self.states = 0
        self.stuck = 0
        self.roots = tuple(Node(k, (), m) for k, m in enumerate(self.makers))

    def child(self, node: Node, answer: Any) -> Node:
        got = node.next.get(answer)
        if got is None:
            got = Node(node.worker, node.path + (answer,), self.makers[node.worker])
            node.next[answer] = got
        return got

    def texts(self, most: int = 10 ** 9) -> set[str]:
        """Every order of the steps."""
        nodes = self.roots
        seen = {(self.start, tuple(map(id, nodes)))}
        stack = [(self.start, nodes)]
        found: set[str] = set()
        while stack:
            world, nodes = stack.pop()
            moved = ended = False
            for k, node in enumerate(nodes):
                if node.step is None:
                    continue
                ended = True
                t = Tables(world)
                answer = node.step(t)
                if answer is BLOCK:
                    continue
                moved = True
                after = nodes[:k] + (self.child(node, answer),) + nodes[k + 1:]
                packed = t.pack()
                key = (packed, tuple(map(id, after)))
                if key not in seen:
                    seen.add(key)
                    stack.append((packed, after))
            if not ended:
                found.add(self.text(world, [n.out for n in nodes]))
            elif not moved:
                self.stuck += 1
            if len(seen) > most:
                self.states = len(seen)
                raise TooMany
        self.states = len(seen)
        return found

    def random_texts(self, choose: Any, runs: int) -> set[str]:
        """Random orders: mostly runs of one worker, so that calls lie beside each other."""
        first = self.roots
        found: set[str] = set()
        for _ in range(runs):
            world, nodes = self.start, first
            keep = choose.choice((0.0, 0.5, 0.8, 0.95))
            k = -1
            while True:
                free = [i for i, n in enumerate(nodes) if n.step is not None]
                if not free:
                    break
                if k not in free or choose.random() > keep:
                    k = choose.choice(free)
                t = Tables(world)
                answer = nodes[k].step(t)
                if answer is BLOCK:
                    k = -1
                    continue
                world = t.pack()
                nodes = nodes[:k] + (self.child(nodes[k], answer),) + nodes[k + 1:]
            found.add(self.text(world, [n.out for n in nodes]))
        return found

    def text(self, world: tuple, outs: list[Out]) -> str:
        """The text."""
        s = self.header.shape
        lines = [f"race lookers {self.lookers} passes {self.passes}",
                 f"shape {s.slots} {s.bind} {s.hash} {s.listen} seed {self.header.seed}"]
        unhashes: dict = {}
        hashes: list = []
        packets: dict[int, str] = {}
        for out in outs:
            lines += out.lines
            hashes += out.hashes
            unhashes.update(out.unhashes)
            packets.update(out.packets)
        for b, bucket in enumerate(world[1]):
            if bucket[3]:
                lines.append(f"journal {b} {bucket[3]}")
        for bucket, at, card, b0, e0 in sorted(hashes, key=lambda x: x[3]):
            u = unhashes.get((card.name, card.kind))
            tail = f"{u[0]} {u[1]}" if u else "-"
            lines.append(f"life {bucket} {at} {card_text(card)} hash {b0} {e0} unhash {tail}")
        for k in range(len(self.given.capture.items)):
            lines.append(f"packet {k + 1} {packets[k]}")
        if self.given.capture.cut:
            lines.append("cut")
        lines.append(f"clock {world[0]}")
        return "\n".join(lines) + "\n"
