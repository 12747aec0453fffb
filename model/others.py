"""What other sections may have to do with a step's reply, by stamps.

A step runs while the clock stands between the section's last stamp before it
and its next stamp after it. An owner that is hashed is seen by others after
its hash's end and before its unhash's beginning, since its bind bucket's turn
is held round these. So some owners were surely there as a step
ran, and some may have been; where no other section has a hand in it the two
are the same.
"""

from __future__ import annotations

from dataclasses import dataclass, replace
from typing import Callable, Iterator, Optional

from . import book
from . import commands as cmd
from .cards import (Four, Kind, State, agree, bind_bucket, bind_conflict, strict_conflict,
                    tw_replaceable)
from .flat import MEMBERS, PLACES, Sock, group_key
from .record import Life
from .replay import Presence, Step, kind_named

NEVER = 2 ** 70


@dataclass
class Owner:
    """A presence, with the stamps between which it may be and surely is there."""

    presence: Presence
    may_from: int
    may_to: int
    sure_from: int
    sure_to: int

    @property
    def sock(self) -> Sock:
        """The owner."""
        return self.presence.sock


def owner_of(presence: Presence, lives: dict[tuple[int, str, Kind], Life], clock: int) -> Owner:
    """The stamps of a presence."""
    card = presence.card
    if card is not None:
        life = lives[kind_named(card)]
        gone = life.unhash.begin if life.unhash else NEVER
        return Owner(presence, life.hash.end, gone, life.hash.end, gone)
    start, stop = presence.start, presence.end
    last = stop.tested_until if stop else NEVER
    if stop is None:
        sure_from = min(start.hi, clock)           # it stands at the race's end
    else:
        sure_from = start.hi if start.hi < clock else NEVER
    return Owner(presence, start.lo, last, sure_from, stop.lo - 1 if stop else NEVER)


@dataclass
class Passing:
    """A `listen` that took a port first: for a while its socket is Bound there.

    Where it was refused the port isn't printed; then it is one of those at
    which its search may have stopped.
    """

    step: Step
    ports: frozenset[int]
    until: int

    def owner(self, port: int) -> Owner:
        """The owner that it may have been at the port."""
        assert self.step.asked is not None
        s = self.step.asked
        addr = s.addr if s.state is State.ADDRESSED else 0
        bound = replace(s, state=State.BOUND, addr=addr, port=port)
        return Owner(Presence(bound, self.step, self.step), self.step.lo, self.until, NEVER, -1)


def passing(step: Step) -> Optional[Passing]:
    """The passing owner of a step, if it may have one."""
    if step.test != "listen search" or step.ports is None:
        return None
    ports = [] if step.found is None else [step.ports[step.found]]
    return Passing(step, frozenset(ports), step.tested_until)


class Others:
    """All owners and lives, asked about one step at a time."""

    def __init__(self, presences: list[Presence], lives: dict[tuple[int, str, Kind], Life],
                 stamps: dict[tuple[int, str, Kind], int], steps: list[Step],
                 header: cmd.Header, clock: int) -> None:
        self.header = header
        self.lives = lives
        self.stamps = stamps                       # of the TIME_WAITs, by life
        self.owners = [owner_of(p, lives, clock) for p in presences]
        self.passing = [p for p in map(passing, steps) if p is not None]
        self.by_port: dict[int, list[Owner]] = {}
        for owner in self.owners:
            self.by_port.setdefault(owner.sock.port, []).append(owner)
        self.by_four: dict[Four, list[Life]] = {}
        for life in lives.values():
            self.by_four.setdefault(life.card.four, []).append(life)

        self.find_passing()

    def find_passing(self) -> None:
        """The ports of refused ones: each by those that came before it, so the least."""
        grew = True
        while grew:
            grew = False
            for p in self.passing:
                assert p.step.ports is not None
                if p.step.found is None:
                    places, _ = self.places(p.step, self.strict_may, self.strict_must)
                    ports = frozenset(p.step.ports[k] for k in places)
                    grew = grew or ports != p.ports
                    p.ports = ports

    def places(self, step: Step, may: Callable[[Step, int, bool], bool],
               must: Callable[[Step, int], bool]) -> tuple[list[int], bool]:
        """Where a search may have stopped, and whether it may have ended."""
        others = sum(1 for p in self.passing if p.step.section != step.section)
        return tried(step, others, may, must)

    # -- who is there --------------------------------------------------------

    def own_there(self, owner: Owner, step: Step) -> bool:
        """Whether an owner of the step's own section is there in program order."""
        p = owner.presence
        return p.start.index < step.index and (p.end is None or p.end.index >= step.index)

    def may_be(self, owner: Owner, step: Step) -> bool:
        """Whether the owner may be there as the step runs."""
        if owner.presence.start.section == step.section:
            if not self.own_there(owner, step):
                return False
            return owner.sock.state is not State.TIME_WAIT or step.lo <= owner.may_to
        return owner.may_from <= step.tested_until and step.lo <= owner.may_to

    def surely(self, owner: Owner, step: Step) -> bool:
        """Whether the owner is there all the time as the step runs."""
        if owner.presence.start.section == step.section:
            if not self.own_there(owner, step):
                return False
            return owner.sock.state is not State.TIME_WAIT or step.tested_until <= owner.sure_to
        return step.lo > owner.sure_from and step.tested_until <= owner.sure_to

    def of_port(self, port: int, step: Step, passing_too: bool) -> Iterator[Owner]:
        """The other owners of a port, and those that may have been passing there."""
        assert step.asked is not None
        for owner in self.by_port.get(port, ()):
            if owner.sock.name != step.asked.name:
                yield owner
        for p in self.passing if passing_too else ():
            if port in p.ports and p.step.section != step.section:
                yield p.owner(port)

    # -- ports ---------------------------------------------------------------

    def conflict(self, step: Step, port: int, rule: Callable[[Sock, Sock], bool],
                 there: Callable[[Owner, Step], bool], passing_too: bool = True) -> bool:
        """Whether an owner that is there by `there` conflicts at the port."""
        assert step.asked is not None
        asked = replace(step.asked, port=port)
        return any(rule(asked, o.sock) and there(o, step)
                   for o in self.of_port(port, step, passing_too))

    def bind_may(self, step: Step, port: int) -> bool:
        """`bind` to the port may be refused."""
        return self.conflict(step, port, bind_conflict, self.may_be)

    def bind_must(self, step: Step, port: int) -> bool:
        """`bind` to the port must be refused."""
        return self.conflict(step, port, bind_conflict, self.surely)

    def strict_may(self, step: Step, port: int, passing_too: bool) -> bool:
        """A search may pass over the port."""
        return self.conflict(step, port, strict_conflict, self.may_be, passing_too)

    def strict_must(self, step: Step, port: int) -> bool:
        """A search must pass over the port."""
        return self.conflict(step, port, strict_conflict, self.surely)

    # -- groups ----------------------------------------------------------------

    def alike(self, step: Step, port: int,
              there: Callable[[Owner, Step], bool]) -> tuple[int, set[tuple[int, ...]]]:
        """Members of the socket's group, and the other groups of its bind bucket."""
        assert step.asked is not None
        asked = replace(step.asked, port=port)
        bucket = bind_bucket(port, asked.net, self.header.shape)
        members, keys = 0, set()
        for o in self.owners:
            s = o.sock
            if s.state is not State.LISTENING or not s.reuseport or not there(o, step):
                continue
            if group_key(s) == group_key(asked):
                members += 1
            elif bind_bucket(s.port, s.net, self.header.shape) == bucket:
                keys.add(group_key(s))
        return members, keys

    def full_may(self, step: Step, port: int) -> bool:
        """EMFILE may come."""
        members, keys = self.alike(step, port, self.may_be)
        sure_members, _ = self.alike(step, port, self.surely)
        return members >= MEMBERS or (sure_members == 0 and len(keys) >= PLACES)

    def full_must(self, step: Step, port: int) -> bool:
        """EMFILE must come."""
        members, keys = self.alike(step, port, self.surely)
        may_members, _ = self.alike(step, port, self.may_be)
        return members >= MEMBERS or (may_members == 0 and len(keys) >= PLACES)

    # -- four-tuples -----------------------------------------------------------

    def takers(self, step: Step, four: Four) -> Iterator[Life]:
        """Lives by which the four-tuple is taken for the step's command."""
        connects = isinstance(step.command, cmd.Connect)
        for life in self.by_four.get(four, ()):
            kind = life.card.kind
            if kind in (Kind.FULL, Kind.REQUEST):
                yield life
            elif kind is Kind.TIME_WAIT and connects and not tw_replaceable(
                    self.stamps[life.key], step.moment, self.header.twreuse):
                yield life

    def taken_may(self, step: Step, four: Four) -> bool:
        """Such a life stood at some time of the step."""
        return any(book.stood(life, step.lo, step.tested_until)
                   for life in self.takers(step, four))

    def taken_must(self, step: Step, four: Four) -> bool:
        """Such a life was there all the time."""
        return any(book.throughout(life, step.lo, step.tested_until)
                   for life in self.takers(step, four))

    def not_free(self, step: Step, port: int, there: Callable[[Owner, Step], bool],
                 passing_too: bool = True) -> bool:
        """An owner of the port in that namespace didn't get it by `connect`."""
        assert step.asked is not None
        net = step.asked.net
        return any(o.sock.net == net and not o.sock.by_connect and there(o, step)
                   for o in self.of_port(port, step, passing_too))

    def connect_may(self, step: Step, port: int, passing_too: bool) -> bool:
        """A search of `connect` may pass over the port."""
        assert step.four is not None
        return (self.not_free(step, port, self.may_be, passing_too)
                or self.taken_may(step, step.four._replace(lport=port)))

    def connect_must(self, step: Step, port: int) -> bool:
        """A search of `connect` must pass over the port."""
        assert step.four is not None
        return (self.not_free(step, port, self.surely)
                or self.taken_must(step, step.four._replace(lport=port)))

    # -- owners of two sections ------------------------------------------------

    def disagreements(self) -> Iterator[tuple[Owner, Owner]]:
        """Owners of different sections that were surely there together and don't agree."""
        for group in self.by_port.values():
            for at, a in enumerate(group):
                for b in group[:at]:
                    if self.together(a, b) and not self.agree(a.sock, b.sock):
                        yield b, a

    def together(self, a: Owner, b: Owner) -> bool:
        """Whether both surely stood at one moment."""
        if a.presence.start.section == b.presence.start.section:
            return False
        return max(a.sure_from, b.sure_from) < min(a.sure_to, b.sure_to)

    def agree(self, a: Sock, b: Sock) -> bool:
        """Both may stand bound at once."""
        return agree(a, b, a.origin == b.origin, a.by_connect and b.by_connect)


def tried(step: Step, passing: int, may: Callable[[Step, int, bool], bool],
          must: Callable[[Step, int], bool]) -> tuple[list[int], bool]:
    """The places at which a search may have stopped, and whether it may have ended.

    Each of the `passing` sockets was at one port alone, so it explains one port.
    """
    assert step.ports is not None
    places: list[int] = []
    for place, port in enumerate(step.ports):
        if not must(step, port):
            places.append(place)
        if not may(step, port, False):
            passing -= 1
            if passing < 0 or not may(step, port, True):
                return places, False
    return places, True
