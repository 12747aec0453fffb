"""Lawful texts of `inet race`: one thread that steps workers in a random order.

Commands are done over the flat list, which keeps a clock, slots and a book
beside it, in as many turns as they take turns of bind buckets. A looker loads
t0, looks, and loads t1 at three turns, so that commands come between;
meanwhile it may hold a slot, which then can't be claimed. What `race` prints
is in docs/inet.1, RACES.
"""

from __future__ import annotations

import random
from dataclasses import dataclass, field
from typing import Generator, Iterator, Optional, Union

from . import commands as cmd
from . import grammar, program
from .cards import (Card, Kind, Packet, State, bind_bucket, card_text, end, home,
                    packet_buckets, tw_expired)
from .flat import Flat, Reply, Sock, in_use, not_avail


@dataclass
class Span:
    """A life as the simulator makes it."""

    section: int
    bucket: int
    slot: int
    card: Card
    hash: list[int]
    unhash: Optional[list[int]] = None
    unhash_section: int = 0

    def line(self) -> str:
        """The `life` line."""
        tail = f"{self.unhash[0]} {self.unhash[1]}" if self.unhash else "-"
        return (f"life {self.bucket} {self.slot} {card_text(self.card)} "
                f"hash {self.hash[0]} {self.hash[1]} unhash {tail}")


class Recorder(Flat):
    """The flat list with a clock, slots, a book and the journals' lengths."""

    def __init__(self, header: cmd.Header) -> None:
        super().__init__(header)
        self.clock = 0
        self.current = 0
        self.spans: list[Span] = []
        self.live: dict[tuple[object, Kind], Span] = {}
        self.journal: dict[int, int] = {}
        self.last_slot: dict[int, int] = {}
        self.held: list[int] = []
        self.search_in_turns = False
        self.asked: Optional[tuple[Sock, int, cmd.Connect]] = None

    def draw(self) -> int:
        """The next stamp."""
        self.clock += 1
        return self.clock - 1

    def apply(self, n: int, command: cmd.Command) -> Reply:
        """A command of section n."""
        self.current = n
        return super().apply(n, command)

    def connect_search(self, n: int, s: Sock, local: int, c: cmd.Connect) -> Reply:
        """Left to the race where it searches in turns."""
        if not self.search_in_turns:
            return super().connect_search(n, s, local, c)
        self.asked = (s, local, c)
        return Reply("")

    def owned(self) -> set[int]:
        """The slots of linked sockets."""
        return {span.slot for span in self.live.values()}

    def slots_seen(self) -> Optional[tuple[int, int]]:
        """O and H where no slot is free; a held slot isn't."""
        owned, slots = self.owned(), self.header.shape.slots
        if len(owned | set(self.held)) < slots:
            return None
        return len(owned), slots - len(owned)

    def claim(self) -> int:
        """A free slot: from the one after this section's last, round to it."""
        slots = self.header.shape.slots
        start = self.last_slot.get(self.current, -1) + 1
        closed = self.owned() | set(self.held)
        slot = next(s % slots for s in range(start, start + slots) if s % slots not in closed)
        self.last_slot[self.current] = slot
        return slot

    def note_hash(self, s: Sock) -> None:
        card = s.card()
        begin = self.draw()
        slot = self.claim()
        bucket = home(card, self.header.shape, self.header.seed)
        span = Span(self.current, bucket, slot, card, [begin, self.draw()])
        self.spans.append(span)
        self.live[(card.name, card.kind)] = span

    def note_unhash(self, s: Sock) -> None:
        card = s.card()
        span = self.live.pop((card.name, card.kind))
        span.unhash = [self.draw(), self.draw()]
        span.unhash_section = self.current

    def note_no_slot(self) -> None:
        self.draw()

    def note_entry(self, port: int, net: int) -> None:
        bucket = bind_bucket(port, net, self.header.shape)
        self.journal[bucket] = self.journal.get(bucket, 0) + 1


@dataclass
class Slip:
    """A packet's line as it is being made."""

    item: Union[Packet, str]
    answer: str = ""
    t0: int = 0
    t1: int = 0

    def line(self, number: int) -> str:
        """The `packet` line."""
        if isinstance(self.item, str):
            return f"packet {number} {self.item}"
        p = self.item
        net = f" net {p.net}" if p.net else ""
        return (f"packet {number} {self.answer} t0 {self.t0} t1 {self.t1} "
                f"from {end(p.src, p.sport)} to {end(p.dst, p.dport)} dev {p.dev}{net}")


@dataclass
class Race:
    """One simulated race."""

    given: program.Input
    lookers: int
    passes: int
    choose: random.Random
    replies: list[list[str]] = field(default_factory=list)
    slips: list[Slip] = field(default_factory=list)
    next_ticket: int = 0

    def __post_init__(self) -> None:
        self.flat = Recorder(self.given.script.header)
        self.replies = [[] for _ in self.given.script.sections]
        self.slips = [Slip(item) for item in self.given.capture.items]
        self.times: list[int] = []
        self.final: dict[int, int] = {}            # the last stamp, if the last command drew it

    def section(self, n: int) -> Iterator[None]:
        """A section's worker, which stops between commands."""
        lines = self.replies[n - 1]
        for command in self.given.script.sections[n - 1]:
            if isinstance(command, cmd.Dump):
                t0 = self.time()
                yield
                items = self.flat.dump_lines(n)
                yield
                items[0] += f" t0 {t0} t1 {self.time()}"
                lines.extend(items)
            else:
                before = self.flat.clock
                reply = yield from self.command(n, command)
                lines.append(f"{cmd.line_head(n, command)} {reply.words}")
                self.final[n] = self.flat.clock - 1 if self.flat.clock > before else -1
            yield

    def command(self, n: int, command: cmd.Command) -> Generator[None, None, Reply]:
        """A command in as many turns as it takes bind buckets' turns."""
        flat = self.flat
        label = getattr(command, "label", "")
        s = flat.named(n, label) if label else None
        portless = s is not None and s.state in (State.UNBOUND, State.ADDRESSED)
        if portless and isinstance(command, cmd.Listen):
            return (yield from self.listen(n, s))
        if portless and isinstance(command, cmd.Connect):
            flat.search_in_turns = True
            reply = flat.apply(n, command)
            if flat.asked is not None:
                reply = yield from self.connect(n)
            flat.search_in_turns = False
            return reply
        if isinstance(command, cmd.Reap):
            return (yield from self.reap(n))
        return flat.apply(n, command)

    def listen(self, n: int, s: Sock) -> Generator[None, None, Reply]:
        """`listen` that takes a port first, each port at its own turn."""
        flat = self.flat
        before, addr = (s.state, s.addr, s.port), flat.listen_address(s)
        for port in flat.ports(n, even_first=False):
            flat.current = n
            if flat.strictly_free(s, addr, port):
                s.state, s.addr, s.port = State.BOUND, addr, port
                yield
                flat.current = n
                return flat.listen_bound(s, before)
            yield
        return in_use("search")

    def connect(self, n: int) -> Generator[None, None, Reply]:
        """`connect` that searches, each port at its own turn."""
        assert self.flat.asked is not None
        s, local, c = self.flat.asked
        self.flat.asked = None
        for port in self.flat.ports(n, even_first=True):
            self.flat.current = n
            reply = self.flat.connect_at(n, s, local, port, c)
            if reply is not None:
                return reply
            yield
        return not_avail("search")

    def reap(self, n: int) -> Generator[None, None, Reply]:
        """`reap`, each TIME_WAIT at a turn of its own."""
        flat, done = self.flat, 0
        moment = flat.section(n).moment
        mine = [t for t in flat.sockets if t.state is State.TIME_WAIT and t.name.script == n
                and tw_expired(t.stamp, moment)]
        for t in mine:
            if any(o is t for o in flat.sockets):
                flat.current = n
                flat.note_unhash(t)
                flat.note_entry(t.port, t.net)
                flat.put_away(t)
                done += 1
                yield
        return Reply(f"ok {done}")

    def time(self) -> int:
        """Loads the clock."""
        self.times.append(self.flat.clock)
        return self.flat.clock

    def looker(self) -> Iterator[None]:
        """A looker, which takes the next packet that none has taken yet."""
        while True:
            at = self.next_ticket
            self.next_ticket += 1
            if at >= len(self.slips):
                return
            yield
            yield from self.look(self.slips[at])

    def look(self, slip: Slip) -> Iterator[None]:
        """One lookup, with commands of others in between."""
        if isinstance(slip.item, str):
            return
        slip.t0 = self.time()
        if self.choose.random() < 0.7:
            yield
        slip.answer = self.flat.look(slip.item)
        slot = self.slot_of(slip.answer)
        if slot is not None:
            self.flat.held.append(slot)
            yield
            self.flat.held.remove(slot)
        elif self.choose.random() < 0.7:
            yield
        slip.t1 = self.time()
        if self.choose.random() < 0.5:
            self.maybe_again(slip)

    def slot_of(self, answer: str) -> Optional[int]:
        """The slot of the found socket."""
        if answer == "none":
            return None
        for (name, kind), span in self.flat.live.items():
            if f"{card_text(span.card).split()[0]} {name}" == answer:
                return span.slot
        return None

    def maybe_again(self, slip: Slip) -> None:
        """Some `again` that the lives explain, where there is one."""
        assert isinstance(slip.item, Packet)
        h = self.given.script.header
        walked = self.choose.choice(packet_buckets(slip.item, h.shape, h.seed))
        forms: list[str] = []
        for span in self.flat.spans:
            hash_meets = span.hash[0] < slip.t1 and span.hash[1] >= slip.t0
            unhash_meets = (span.unhash is not None and span.unhash[0] < slip.t1
                            and span.unhash[1] >= slip.t0)
            if hash_meets and span.bucket != walked:
                forms.append(f"foreign {span.bucket}")
            if hash_meets:
                forms.append(f"long {h.shape.slots + 1}")
            if hash_meets or unhash_meets:
                forms += [f"dead {span.slot}", f"changed {span.slot}"]
        if forms:
            slip.answer = f"again {self.choose.choice(forms)} in {walked}"

    def go(self) -> None:
        """Steps all workers in a random order until each is done."""
        workers = [self.section(n) for n in range(1, len(self.replies) + 1)]
        workers += [self.looker() for _ in range(self.lookers)]
        while workers:
            worker = self.choose.choice(workers)
            for _ in range(self.choose.choice((1, 1, 2, 4))):
                if next(worker, self) is self:
                    workers.remove(worker)
                    break
        self.cross_stamps()

    def cross_stamps(self) -> None:
        """Lets a change end after another section's next one, elsewhere, began.

        The first is the last of its section, and the next one is an unhash,
        so that no test of either section depends on which comes first.
        """
        ends: dict[int, tuple[Span, list[int], int]] = {}
        begins: dict[int, tuple[Span, list[int], int]] = {}
        for span in self.flat.spans:
            for pair, who in ((span.hash, span.section), (span.unhash, span.unhash_section)):
                if pair is not None:
                    begins[pair[0]] = (span, pair, who)
                    ends[pair[1]] = (span, pair, who)
        for k in sorted(ends):
            if k + 1 not in begins or k + 1 in self.times or self.choose.random() < 0.5:
                continue
            (a, first, who), (b, second, other) = ends[k], begins[k + 1]
            if (who != other and second is b.unhash and self.final.get(who) == k
                    and a.bucket != b.bucket and a.slot != b.slot):
                first[1], second[0] = k + 1, k

    def lines(self) -> Iterator[str]:
        """The text's lines."""
        h = self.given.script.header
        s = h.shape
        yield f"race lookers {self.lookers} passes {self.passes}"
        yield f"shape {s.slots} {s.bind} {s.hash} {s.listen} seed {h.seed}"
        for lines in self.replies:
            yield from lines
        for bucket in sorted(self.flat.journal):
            yield f"journal {bucket} {self.flat.journal[bucket]}"
        for span in sorted(self.flat.spans, key=lambda span: span.hash[0]):
            yield span.line()
        for number, slip in enumerate(self.slips, 1):
            yield slip.line(number)
        if self.given.capture.cut:
            yield "cut"
        yield f"clock {self.flat.clock}"


def race(data: bytes, lookers: int, passes: int, seed: int) -> program.Outcome:
    """`inet race` as the simulator does it."""
    given = program.read_input(data, grammar.RACE)
    if isinstance(given, program.Outcome):
        return given
    made = Race(given, lookers, passes, random.Random(seed))
    made.go()
    return program.Outcome(program.text_of(made.lines()), program.DONE)
