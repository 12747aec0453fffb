"""Judges the text of `inet race`: all that it and the input determine.

`judge` gives the violations, the first first; none means that the text is
lawful as far as it shows. What a record must satisfy is in docs/RACE.md; since
the judge is for texts of the program, and not for forged ones, it also asks
what the tables' own order of steps brings with it (model/README.md lists that).
"""

from __future__ import annotations

import argparse
import sys
from dataclasses import dataclass
from pathlib import Path
from typing import Callable, Iterator, Optional, Sequence

from . import audit, book, grammar, program, record
from . import commands as cmd
from .cards import (Card, Four, Kind, Packet, bind_bucket, card_text, home, packet_buckets,
                    tw_expired, tw_replaceable)
from .others import Others
from .record import Again, Change, Life, Receipt, Record
from .replay import Dump, Presence, Replay, Step, Wrong, kind_named

Key = tuple[int, str, Kind]
Vector = tuple[int, ...]

MOST_SUMS = 20000                                  # of the journals' possible counts


@dataclass
class Bucket:
    """A chain bucket's changes in the order of their beginnings."""

    order: list[tuple[Change, Life]]

    def next_of(self, change: Change) -> Optional[tuple[Change, Life]]:
        """The change after this one."""
        at = next(i for i, (c, _) in enumerate(self.order) if c is change)
        return self.order[at + 1] if at + 1 < len(self.order) else None


class Judge:
    """One text against one input."""

    def __init__(self, given: program.Input, lookers: int, passes: int,
                 text: Record) -> None:
        self.given = given
        self.header = given.script.header
        self.lookers = lookers
        self.passes = passes
        self.r = text
        self.faults: list[str] = []
        self.lives: dict[Key, Life] = {}
        self.replays: list[Replay] = []
        self.stamps: dict[Key, int] = {}
        self.buckets: dict[int, Bucket] = {}
        self.used: set[tuple[Key, bool]] = set()   # hashes (True) and unhashes given to steps

    def fault(self, line: int, why: str) -> None:
        """Keeps a violation."""
        self.faults.append(f"line {line}: {why}")

    def go(self) -> list[str]:
        """All checks, those of the text alone first."""
        self.head()
        self.stamps_distinct()
        self.serial()
        self.packets()
        self.freshness()
        self.index_lives()
        if self.replay_sections() and not self.faults:
            self.steps()
        return self.faults

    def steps(self) -> None:
        """The checks that need each step's own changes."""
        self.give_changes()
        self.give_replacements()
        self.give_reaps()
        self.nothing_left()
        self.count()
        if self.faults:
            return
        self.windows()
        self.reaped_all()
        self.requests()
        self.spent_stamps()
        self.no_slots()
        self.claim_order()
        self.dumps()
        if self.faults:
            return
        self.with_others()
        if not self.faults and len(self.replays) == 1:
            self.like_flat()

    def all_steps(self) -> Iterator[Step]:
        """Every section's steps."""
        for replay in self.replays:
            yield from replay.steps

    # -- the text alone ------------------------------------------------------

    def head(self) -> None:
        """Lookers, passes, shape, seed; journals by bucket; cut."""
        r = self.r
        if (r.lookers, r.passes) != (self.lookers, self.passes):
            self.fault(1, "lookers or passes aren't the words'")
        if r.shape != self.header.shape:
            self.fault(2, "the shape isn't the input's")
        if r.seed != self.header.seed:
            self.fault(2, "the seed isn't the input's")
        before = -1
        for line, bucket, count in r.journals:
            if bucket <= before or bucket >= r.shape.bind or count == 0:
                self.fault(line, "journals come by bucket, each once, none empty")
            before = bucket
        if r.cut != self.given.capture.cut:
            self.fault(r.clock_line, "`cut` isn't the capture's")

    def stamps_distinct(self) -> None:
        """Each number stands once, below the clock; a change begins before it ends."""
        used: set[int] = set()
        for life in self.r.lives:
            numbers = life.numbers
            if any(a >= b for a, b in zip(numbers, numbers[1:])):
                self.fault(life.line, "stamps don't ascend")
            if max(numbers) >= self.r.clock:
                self.fault(life.line, "a stamp isn't below the clock")
            if used & set(numbers):
                self.fault(life.line, "a stamp stands twice")
            used |= set(numbers)
            if life.slot >= self.r.shape.slots:
                self.fault(life.line, "no such slot")

    def serial(self) -> None:
        """Lives stand in their chains, and changes don't overlap."""
        for at, life in enumerate(self.r.lives):
            if life.bucket != home(life.card, self.header.shape, self.header.seed):
                self.fault(life.line, "the bucket isn't the card's Home")
            for other in self.r.lives[:at]:
                self.serial_pair(life, other)

    def serial_pair(self, life: Life, other: Life) -> None:
        """Two lives: chain, slot and four-tuple."""
        if life.bucket == other.bucket and any(
                not book.apart(c, d) for c in life.changes for d in other.changes):
            self.fault(life.line, f"a change overlaps one of line {other.line}")
        if life.slot == other.slot and not book.slots_apart(life, other):
            self.fault(life.line, f"the slot is that of line {other.line}")
        both = (life.card.kind, other.card.kind)
        if (both == (Kind.FULL, Kind.FULL) and life.card.four == other.card.four
                and book.together(life, other)):
            self.fault(life.line, f"full with line {other.line}'s four-tuple")

    def packets(self) -> None:
        """One line for each packet, by number, and each answer is explained."""
        items = self.given.capture.items
        if len(items) != len(self.r.packets):
            self.fault(self.r.clock_line, f"{len(self.r.packets)} packets of {len(items)}")
        for item, line in zip(items, self.r.packets):
            if isinstance(item, str) or isinstance(line.what, str):
                if item != line.what:
                    self.fault(line.line, "skip, short and packets are the capture's")
                continue
            self.packet(item, line.line, line.what)

    def packet(self, item: Packet, line: int, what: Receipt) -> None:
        """A receipt."""
        if what.packet != item:
            self.fault(line, "the packet isn't the capture's")
        if not what.t0 <= what.t1 <= self.r.clock:
            self.fault(line, "t0, t1 and the clock don't ascend")
        shape, seed = self.header.shape, self.header.seed
        if isinstance(what.answer, Again):
            if what.answer.walked not in packet_buckets(item, shape, seed):
                self.fault(line, "the bucket walked is none of the packet's three")
        if not book.explained(self.r.lives, what, shape):
            self.fault(line, "the lives don't explain the answer")

    def freshness(self) -> None:
        """Some way to share the packets out: a looker's t0 isn't below its earlier t1."""
        last = [0] * self.lookers
        for line in self.r.packets:
            if isinstance(line.what, str):
                continue
            t0, t1 = line.what.t0, line.what.t1
            fits = [k for k, t in enumerate(last) if t <= t0]
            k = max(fits, key=lambda k: last[k], default=-1)
            if k < 0:
                self.fault(line.line, "t0 is below what its looker had seen")
            else:
                last[k] = max(last[k], t1)

    def index_lives(self) -> None:
        """Each name has at most one life of a kind."""
        for life in self.r.lives:
            if life.key in self.lives:
                self.fault(life.line, "a second life of that name and kind")
            self.lives[life.key] = life
            in_bucket = self.buckets.setdefault(life.bucket, Bucket([]))
            in_bucket.order += [(c, life) for c in life.changes]
        for bucket in self.buckets.values():
            bucket.order.sort(key=lambda pair: pair[0].begin)

    # -- replies ---------------------------------------------------------------

    def replay_sections(self) -> bool:
        """The commands' lines, section after section."""
        lines = self.r.replies
        for n, section in enumerate(self.given.script.sections, 1):
            replay = Replay(n, section, self.header)
            self.replays.append(replay)
            try:
                lines = lines[replay.go(lines):]
            except Wrong as wrong:
                self.faults.append(str(wrong))
                return False
        if lines:
            self.fault(lines[0].line, "a line of no command")
        return not lines

    # -- changes ---------------------------------------------------------------

    def life_of(self, card: Card, line: int) -> Optional[Life]:
        """The life of a card, which shows what the card says."""
        life = self.lives.get(kind_named(card))
        if life is None:
            self.fault(line, f"no life of {card.name}, {card.kind.name}")
            return None
        shown = life.card._replace(name=card.name)
        if shown != card:
            self.fault(life.line, f"the card is `{card_text(shown)}`, not `{card_text(card)}`")
        return life

    def give_hash(self, step: Step, card: Card) -> Optional[Life]:
        """The step hashed this card."""
        life = self.life_of(card, step.line)
        if life is not None:
            self.used.add((life.key, True))
            step.changes.append(life.hash)
        return life

    def give_unhash(self, step: Step, life: Life) -> None:
        """The step unhashed this life."""
        if life.unhash is None:
            self.fault(life.line, f"line {step.line} unhashed it")
            return
        if (life.key, False) in self.used:
            self.fault(life.line, "two commands unhashed it")
        self.used.add((life.key, False))
        step.changes.append(life.unhash)

    def give_changes(self) -> None:
        """What each command hashed and unhashed."""
        for step in self.all_steps():
            if step.hashed is not None:
                self.give_hash(step, step.hashed)
                if step.hashed.kind is Kind.TIME_WAIT:
                    self.stamps[kind_named(step.hashed)] = step.moment
            for card in step.unhashed:
                life = self.life_of(card, step.line)
                if life is not None:
                    self.give_unhash(step, life)

    def give_replacements(self) -> None:
        """A TIME_WAIT of the four-tuple that stood at the hash is unhashed next."""
        for step in self.all_steps():
            if step.replaces and step.hashed is not None and step.ok and step.changes:
                life = self.lives[kind_named(step.hashed)]
                for other in self.r.lives:
                    if (other.card.kind is Kind.TIME_WAIT and other.card.four == life.card.four
                            and other.hash.end < life.hash.begin
                            and not (other.unhash and other.unhash.begin < life.hash.begin)):
                        self.give_replacement(step, life, other)

    def give_replacement(self, step: Step, life: Life, other: Life) -> None:
        """The step replaced the TIME_WAIT `other`."""
        after = self.buckets[life.bucket].next_of(life.hash)
        if other.unhash is None or after is None or after[0] is not other.unhash:
            self.fault(life.line, f"it doesn't replace the TIME_WAIT of line {other.line}")
            return
        stamp = self.stamps.get(other.key)
        if isinstance(step.command, cmd.Connect) and (stamp is None or not tw_replaceable(
                stamp, step.moment, self.header.twreuse)):
            self.fault(life.line, f"the TIME_WAIT of line {other.line} isn't replaceable")
        self.give_unhash(step, other)

    def give_reaps(self) -> None:
        """The other unhashes of a section's TIME_WAITs, in the order of its reaps."""
        for replay in self.replays:
            waits = [(self.lives[kind_named(card)], p) for p in replay.waits
                     for card in [p.card] if card and kind_named(card) in self.lives]
            left = sorted(((life, p) for life, p in waits
                           if life.unhash and (life.key, False) not in self.used),
                          key=lambda pair: pair[0].unhash.begin if pair[0].unhash else 0)
            for step in replay.steps:
                taken, left = left[:step.reaped], left[step.reaped:]
                if len(taken) < step.reaped:
                    self.fault(step.line, "it reaped more TIME_WAITs than were unhashed")
                for life, presence in taken:
                    self.give_reap(step, life, presence)

    def give_reap(self, step: Step, life: Life, presence: Presence) -> None:
        """The step reaped this TIME_WAIT."""
        if presence.start.index > step.index or not tw_expired(presence.sock.stamp, step.moment):
            self.fault(life.line, f"it wasn't there, or wasn't expired, at line {step.line}")
        presence.end = step
        self.give_unhash(step, life)

    def nothing_left(self) -> None:
        """The lives are what the steps changed, each change once."""
        for life in self.r.lives:
            if (life.key, True) not in self.used:
                self.fault(life.line, "no command hashed it")
            if life.unhash and (life.key, False) not in self.used:
                self.fault(life.line, "no command unhashed it")

    def count(self) -> None:
        """The clock is twice the changes, and one more for each slot sought in vain."""
        changes = sum(len(life.changes) for life in self.r.lives)
        spent = sum(1 for step in self.all_steps() if step.spent)
        if self.r.clock != 2 * changes + spent:
            self.fault(self.r.clock_line, f"the clock isn't {2 * changes + spent}")

    # -- stamps ----------------------------------------------------------------

    def windows(self) -> None:
        """A section's numbers ascend over its steps; between which two each step ran."""
        for replay in self.replays:
            last = -1
            for step in replay.steps:
                step.lo = last + 1
                if any(c.begin <= last for c in step.changes):
                    self.fault(step.line, "its stamps aren't above those of earlier steps")
                if not isinstance(step.command, cmd.Reap) and any(
                        a.end >= b.begin for a, b in zip(step.changes, step.changes[1:])):
                    self.fault(step.line, "it adds first and then removes")
                last = max([last] + [c.end for c in step.changes])
            following = self.r.clock
            for step in reversed(replay.steps):
                step.hi = following
                following = min([following] + [c.begin for c in step.changes])

    def reaped_all(self) -> None:
        """After a reap each TIME_WAIT of the section that was over has been unhashed."""
        for replay in self.replays:
            for step in replay.steps:
                if not isinstance(step.command, cmd.Reap):
                    continue
                for presence in replay.waits:
                    assert presence.card is not None
                    life = self.lives[kind_named(presence.card)]
                    if (presence.start.index < step.index
                            and tw_expired(presence.sock.stamp, step.moment)
                            and not (life.unhash and life.unhash.begin < step.hi)):
                        self.fault(step.line, f"it left the TIME_WAIT of line {life.line}")

    def requests(self) -> None:
        """Connections and requests share no four-tuple, but as `ack` hands over."""
        handed = {(kind_named(step.hashed), kind_named(step.unhashed[0]))
                  for step in self.all_steps()
                  if isinstance(step.command, cmd.Ack) and step.hashed and step.unhashed}
        for child, request in handed:
            c, q = self.lives[child], self.lives[request]
            after = self.buckets[c.bucket].next_of(c.hash)
            if after is None or after[0] is not q.unhash:
                self.fault(c.line, "its request isn't unhashed next")
        for at, life in enumerate(self.r.lives):
            for other in self.r.lives[:at]:
                kinds = {life.card.kind, other.card.kind}
                if (Kind.REQUEST in kinds and kinds <= {Kind.REQUEST, Kind.FULL}
                        and life.card.four == other.card.four and book.together(life, other)
                        and (life.key, other.key) not in handed
                        and (other.key, life.key) not in handed):
                    self.fault(life.line, f"it stands beside line {other.line}")

    def spent_stamps(self) -> None:
        """The stamps of no life: each was drawn by one refused step, in its span."""
        used = {n for life in self.r.lives for n in life.numbers}
        free = [n for n in range(self.r.clock) if n not in used]
        waiting = sorted(((step.lo, step.tested_until, step.line)
                          for step in self.all_steps() if step.spent))
        for stamp in free:
            fits = [w for w in waiting if w[0] <= stamp < w[1]]
            if not fits:
                self.fault(self.r.clock_line, f"no refused command drew the stamp {stamp}")
                return
            waiting.remove(min(fits, key=lambda w: w[1]))

    def no_slots(self) -> None:
        """O + H are the slots; O of these had lives that stood meanwhile."""
        looked = any(not isinstance(line.what, str) for line in self.r.packets)
        for step in self.all_steps():
            if step.seen is None:
                continue
            owned, held = step.seen
            stood = {life.slot for life in self.r.lives
                     if book.stood(life, step.lo, step.tested_until)}
            begun = {life.slot for life in self.r.lives
                     if life.hash.begin < step.tested_until}
            if owned + held != self.header.shape.slots:
                self.fault(step.line, "its two numbers aren't the slots")
            if owned > len(stood):
                self.fault(step.line, f"only {len(stood)} slots may have been owned")
            if held and not looked:
                self.fault(step.line, "no lookup held a slot")
            if len(begun) < self.header.shape.slots:
                self.fault(step.line, "a slot was never used before")

    def claim_order(self) -> None:
        """A section tries the slots in turn, from the one after its last claim on."""
        holds = any(not isinstance(line.what, str) for line in self.r.packets)
        for replay in self.replays:
            last = -1
            for step in replay.steps:
                if step.hashed is not None:
                    life = self.lives[kind_named(step.hashed)]
                    self.passed_over(life, last, holds)
                    last = life.slot

    def passed_over(self, life: Life, last: int, holds: bool) -> None:
        """The slots from the one after `last` up to the claimed one weren't free."""
        slots = self.header.shape.slots
        slot = (last + 1) % slots
        while slot != life.slot:
            stood = any(o.slot == slot and book.stood(o, life.hash.begin, life.hash.end)
                        for o in self.r.lives)
            once = any(o.slot == slot and o.hash.begin < life.hash.end for o in self.r.lives)
            if not stood and not (holds and once):
                self.fault(life.line, f"slot {slot} was free and comes before")
                return
            slot = (slot + 1) % slots

    # -- dumps -----------------------------------------------------------------

    def dumps(self) -> None:
        """The lists of all sockets."""
        for step in self.all_steps():
            if step.dump is not None:
                self.one_dump(step, step.dump)

    def one_dump(self, step: Step, dump: Dump) -> None:
        """One dump's clock loads, order and items."""
        if not step.lo <= dump.t0 <= dump.t1 <= step.hi:
            self.fault(step.line, "from, t0, t1 and to don't ascend")
        shown = {f"{step.section} item {card_text(life.card)}": life for life in self.r.lives}
        listed: list[Life] = []
        for item in dump.items:
            life = shown.get(item.text)
            if life is None or not book.stood(life, dump.t0, dump.t1):
                self.fault(item.line, "no life with that card stood")
                return
            listed.append(life)
        order = [(life.key[0], self.number_of(life), life.card.kind) for life in listed]
        if any(a >= b for a, b in zip(order, order[1:])):
            self.fault(step.line, "the items aren't by name and kind, each once")
        keys = {life.key for life in listed}
        for life in self.r.lives:
            if book.throughout(life, dump.t0, dump.t1) and life.key not in keys:
                self.fault(step.line, f"it leaves out the life of line {life.line}")
        at: Optional[int] = dump.t0                # a later chain isn't listed at an earlier number
        for bucket in range(self.r.shape.hash + self.r.shape.listen):
            mine = {life.key for life in listed if life.bucket == bucket}
            at = book.picture([life for life in self.r.lives if life.bucket == bucket], mine, at, dump.t1)
            if at is None:
                self.fault(step.line, f"chain {bucket} never was so")
                return

    def number_of(self, life: Life) -> int:
        """The number of a life's label in its script."""
        given = [cmd.given_label(c) for c in self.given.script.sections[life.key[0] - 1]]
        return [label for label in given if label is not None].index(life.key[1]) + 1

    # -- other sections --------------------------------------------------------

    def with_others(self) -> None:
        """Refusals and searches that depend on owners and four-tuples of all sections."""
        presences = [p for replay in self.replays for p in replay.presences]
        self.others = Others(presences, self.lives, self.stamps, list(self.all_steps()),
                             self.header, self.r.clock)
        tests: dict[str, Callable[[Step], list[dict[int, int]]]] = {
            "bind": self.test_bind, "bind search": self.test_bind_search,
            "listen": self.test_listen, "listen search": self.test_listen_search,
            "connect": self.test_connect, "connect search": self.test_connect_search,
            "accept": self.test_accept,
        }
        options = [tests[step.test](step) if step.test else [self.plain_entries(step)]
                   for step in self.all_steps()]
        for a, b in self.others.disagreements():
            self.fault(self.r.clock_line, f"{a.sock.name} and {b.sock.name} don't agree")
        if not self.faults:
            self.journals(options)

    def entries(self, step: Step, *ports: int) -> dict[int, int]:
        """One entry at each of these ports, by bind bucket."""
        assert step.asked is not None
        made: dict[int, int] = {}
        for port in ports:
            bucket = bind_bucket(port, step.asked.net, self.header.shape)
            made[bucket] = made.get(bucket, 0) + 1
        return made

    def plain_entries(self, step: Step) -> dict[int, int]:
        """The entries of commands that no test of others decides."""
        if isinstance(step.command, cmd.Reap):
            made: dict[int, int] = {}
            for replay in self.replays:
                for p in replay.waits:
                    if p.end is step:
                        bucket = bind_bucket(p.sock.port, p.sock.net, self.header.shape)
                        made[bucket] = made.get(bucket, 0) + 1
            return made
        if step.owner_entry and step.asked is not None:
            return self.entries(step, step.asked.port)
        return {}

    def replaced_entry(self, step: Step) -> list[int]:
        """The port of a `remove_waiting`, where a TIME_WAIT was replaced."""
        assert step.four is not None
        return [step.four.lport] if step.replaces and len(step.changes) == 2 else []

    def test_bind(self, step: Step) -> list[dict[int, int]]:
        """`bind` to a port."""
        assert step.asked is not None
        port = step.asked.port
        if step.ok and self.others.bind_must(step, port):
            self.fault(step.line, "an owner of the port conflicts")
        if not step.ok and not self.others.bind_may(step, port):
            self.fault(step.line, "no owner of the port conflicts")
        return [self.entries(step, port)]

    def searched(self, step: Step, may: Callable[[Step, int, bool], bool],
                 must: Callable[[Step, int], bool]) -> tuple[list[int], bool]:
        """Where the search may have stopped; a port that it took is one of these."""
        places, ends = self.others.places(step, may, must)
        if step.found is not None and step.found not in places:
            self.fault(step.line, "an earlier port was free, or this one wasn't")
        return places, ends

    def test_bind_search(self, step: Step) -> list[dict[int, int]]:
        """`bind` to port 0."""
        assert step.ports is not None
        _, ends = self.searched(step, self.others.strict_may, self.others.strict_must)
        if step.found is not None:
            return [self.entries(step, *step.ports[:step.found + 1])]
        if not ends:
            self.fault(step.line, "a port was free")
        return [self.entries(step, *step.ports)]

    def listen_tests(self, step: Step, port: int, refusal: str) -> bool:
        """Whether `listen` of a socket that has this port may end so."""
        assert step.asked is not None
        if refusal == "EADDRINUSE":
            return self.others.bind_may(step, port)
        if self.others.bind_must(step, port):
            return False
        if refusal == "EMFILE":
            return self.others.full_may(step, port)
        return not (step.asked.reuseport and self.others.full_must(step, port))

    def test_listen(self, step: Step) -> list[dict[int, int]]:
        """`listen` of a socket that has a port."""
        assert step.asked is not None
        port = step.asked.port
        if not self.listen_tests(step, port, step.refusal):
            self.fault(step.line, f"{step.refusal} doesn't come here")
        return [self.entries(step, port, *([port] if step.ok else []))]

    def test_listen_search(self, step: Step) -> list[dict[int, int]]:
        """`listen` of a socket without a port."""
        assert step.ports is not None
        places, ends = self.searched(step, self.others.strict_may, self.others.strict_must)
        if step.found is not None:
            port = step.ports[step.found]
            if not self.listen_tests(step, port, "ok"):
                self.fault(step.line, "ok doesn't come here")
            return [self.entries(step, *step.ports[:step.found + 1], port, port)]
        made = [self.entries(step, *step.ports[:k + 1], step.ports[k], step.ports[k])
                for k in places if self.listen_tests(step, step.ports[k], step.refusal)]
        if step.refusal == "EADDRINUSE" and ends:
            made.append(self.entries(step, *step.ports))
        if not made:
            self.fault(step.line, f"{step.refusal} doesn't come here")
        return made

    def test_connect(self, step: Step) -> list[dict[int, int]]:
        """`connect` of a socket that has a port."""
        assert step.four is not None and step.asked is not None
        self.test_taken(step, step.four)
        if not step.ok:
            return [{}]
        return [self.entries(step, step.asked.port, *self.replaced_entry(step))]

    def test_taken(self, step: Step, four: Four) -> None:
        """Refused only by a life that stood, given only where none stood throughout."""
        refused = step.refusal == "EADDRNOTAVAIL"
        if refused and not self.others.taken_may(step, four):
            self.fault(step.line, "no life by which the four-tuple is taken stood")
        if not refused and self.others.taken_must(step, four):
            self.fault(step.line, "the four-tuple was taken throughout")

    def test_connect_search(self, step: Step) -> list[dict[int, int]]:
        """`connect` of a socket without a port."""
        assert step.ports is not None
        places, ends = self.searched(step, self.others.connect_may, self.others.connect_must)
        if step.found is not None:
            port = step.ports[step.found]
            return [self.entries(step, *step.ports[:step.found + 1], port,
                                 *self.replaced_entry(step))]
        if step.refusal == "EADDRNOTAVAIL":
            if not ends:
                self.fault(step.line, "a port was free")
            return [self.entries(step, *step.ports)]
        made = [self.entries(step, *step.ports[:k + 1]) for k in places]
        if not made:
            self.fault(step.line, "no port was free")
        return made

    def test_accept(self, step: Step) -> list[dict[int, int]]:
        """`accept` and `syn`."""
        assert step.four is not None
        self.test_taken(step, step.four)
        if not step.ok:
            return [{}]
        own = [step.four.lport] if step.owner_entry else []
        return [self.entries(step, *own, *self.replaced_entry(step))]

    def journals(self, options: list[list[dict[int, int]]]) -> None:
        """The journals' counts are the steps' calls on bind buckets."""
        size = self.header.shape.bind
        wanted = [0] * size
        for _, bucket, count in self.r.journals:
            wanted[bucket] = count
        sums: set[Vector] = {tuple([0] * size)}
        for choice in sorted(options, key=len):
            grown: set[Vector] = set()
            for made in {tuple(sorted(m.items())) for m in choice}:
                for vector in sums:
                    more = list(vector)
                    for bucket, count in made:
                        more[bucket] += count
                    if all(have <= want for have, want in zip(more, wanted)):
                        grown.add(tuple(more))
            sums = grown
            if len(sums) > MOST_SUMS:
                return                             # more than the text determines
        if tuple(wanted) not in sums:
            self.fault(self.r.journals[0][0] if self.r.journals else self.r.clock_line,
                       "the journals' counts aren't the entries that the replies imply")

    def like_flat(self) -> None:
        """One section alone: its replies are the flat list's, until a slot was held."""
        trace = program.Run(self.given.script, self.given.capture)
        for step in self.replays[0].steps:
            if step.seen is not None and step.seen[1] > 0:
                return
            if step.dump is not None:
                continue
            reply = trace.flat.apply(1, step.command).words
            if reply != step.reply:
                self.fault(step.line, f"the flat list answers `{reply}`")
                return


def judge(data: bytes, lookers: int, passes: int, text: bytes,
          status: int = 0) -> list[str]:
    """The violations of a text; none where it is lawful as far as it shows."""
    given = program.read_input(data, grammar.RACE)
    if isinstance(given, program.Outcome):
        same = (text, status) == (given.out, given.status)
        return [] if same else [f"{given.out!r} and status {given.status} are due"]
    if status != program.DONE:
        return [f"status {status}"]
    read = record.read(text)
    if isinstance(read, record.BadRecord):
        return [f"line {read.line}: outside the grammar of a race's text"]
    faults = Judge(given, lookers, passes, read).go()
    if not faults:
        verdict = audit.audit(text)
        if not isinstance(verdict, audit.Yes):
            faults.append(f"audit: {verdict.text()}")
    return faults


def main(arguments: Optional[Sequence[str]] = None) -> int:
    """The command line of this file."""
    parser = argparse.ArgumentParser(prog="python3 -m model.judge",
                                     description="judges the text of one race")
    parser.add_argument("--lookers", type=int, default=1)
    parser.add_argument("--passes", type=int, default=1)
    parser.add_argument("--input", type=Path, required=True, help="what the race was given")
    parser.add_argument("--text", type=Path, required=True, help="what it wrote")
    parser.add_argument("--status", type=int, default=0, help="with which status it ended")
    asked = parser.parse_args(arguments)
    faults = judge(asked.input.read_bytes(), asked.lookers, asked.passes,
                   asked.text.read_bytes(), asked.status)
    print("\n".join(faults[:20]) if faults else "lawful")
    return 1 if faults else 0


if __name__ == "__main__":
    sys.exit(main())
