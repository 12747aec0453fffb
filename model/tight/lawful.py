"""`Lawful`, as crates/race_record/specs/Lawful.antt has it, decided of a text.

A text is lawful where there is a lawful record whose Render it is. What a text doesn't
show is sought: which command unhashed a TIME_WAIT, which of them drew a number in vain,
where a search was refused by an owner and where by a four-tuple, the journals' order.
Each step's `from` and `to` are the widest that the order of its section lets them be:
`from` is the `to` of the step before, and `to` the least with which its evidence holds.
`counts` are tied only where the capture has no packet, where they are 0, and `sightings`
to the number that was drawn in vain. judge.py is no such decision: it asks more
(model/README.md).
"""

from __future__ import annotations

from dataclasses import dataclass, field, replace
from itertools import permutations, product
from typing import Any, Iterator, Optional

from .. import book, program, record
from .. import commands as cmd
from ..cards import (Kind, State, agree, bind_bucket, bind_conflict, card_text, home, overlap,
                     packet_buckets, rank, tw_expired, tw_replaceable)
from ..record import Again, Found, Life, Receipt, Record
from ..replay import Replay, Step, Wrong, kind_named

PLACES, ROOM = 8, 64


@dataclass
class Deed:
    """A step with what it did."""

    step: Step
    hashed: Optional[Life] = None
    left: list[Life] = field(default_factory=list)          # unhashes, in the order of the deeds
    replaced: Optional[Life] = None
    vain: Optional[int] = None
    draws: list[int] = field(default_factory=list)
    lo: int = 0
    hi: int = 0

    def numbers(self) -> list[int]:
        """The numbers that it drew, in the order of its deeds."""
        out: list[int] = []
        if self.vain is not None:
            out.append(self.vain)
        if self.hashed is not None:
            out += [self.hashed.hash.begin, self.hashed.hash.end]
        for life in self.left:
            assert life.unhash is not None
            out += [life.unhash.begin, life.unhash.end]
        return out


# an entry: (kind, name, Sock or None, answer): answer True or False, or None where it is passed over
Entry = tuple


@dataclass
class Witness:
    """A lawful record's hidden part."""

    sections: list[list[Deed]]
    entries: list[list[list[Entry]]]               # by section, by step

    def steps(self) -> Iterator[Deed]:
        for s in self.sections:
            yield from s


class Lawful:
    """One text against one input."""

    def __init__(self, given: program.Input, lookers: int, passes: int, r: Record) -> None:
        self.given, self.lookers, self.passes, self.r = given, lookers, passes, r
        self.header = given.script.header
        self.shape, self.seed = self.header.shape, self.header.seed
        self.lives = {life.key: life for life in r.lives}
        self.why = ""

    # -- what the text alone says --------------------------------------------------

    def head(self) -> bool:
        r = self.r
        journals = [b for _, b, _ in r.journals]
        return ((r.lookers, r.passes) == (self.lookers, self.passes) and r.shape == self.shape
                and r.seed == self.seed and r.cut == self.given.capture.cut
                and journals == sorted(set(journals))
                and all(b < self.shape.bind and n for _, b, n in r.journals))

    def book(self) -> bool:
        """IsBookOf, IsSerial: all of it that the life lines show."""
        r = self.r
        if len(self.lives) != len(r.lives):
            return False
        seen: set[int] = set()
        for h in r.lives:
            ns = h.numbers
            if (any(a >= b for a, b in zip(ns, ns[1:])) or max(ns) >= r.clock or seen & set(ns)
                    or h.slot >= self.shape.slots
                    or h.bucket != home(h.card, self.shape, self.seed)):
                return False
            seen |= set(ns)
        for k, h in enumerate(r.lives):
            for g in r.lives:                      # `unhash` is the first of the slot behind the hash
                if (g is not h and g.slot == h.slot and g.unhash and g.unhash.begin > h.hash.end
                        and (h.unhash is None or g.unhash.begin < h.unhash.begin)):
                    return False
            for g in r.lives[:k]:
                if h.bucket == g.bucket and any(not book.apart(c, d) for c in h.changes
                                                for d in g.changes):
                    return False
                if h.slot == g.slot and not book.slots_apart(h, g):
                    return False
                if (h.card.kind is g.card.kind is Kind.FULL and h.card.four == g.card.four):
                    a, b = (h, g) if h.hash.begin < g.hash.begin else (g, h)
                    if not (a.unhash and a.unhash.begin < b.hash.begin):
                        return False
        return True

    def receipt(self, item: Any, what: Any) -> bool:
        """IsReceiptOf."""
        if isinstance(item, str) or isinstance(what, str):
            return item == what
        if what.packet != item or not what.t0 <= what.t1 <= self.r.clock:
            return False
        if (isinstance(what.answer, Again)
                and what.answer.walked not in packet_buckets(item, self.shape, self.seed)):
            return False
        return book.explained(self.r.lives, what, self.shape) and self.staged(what) and self.of_its_time(what)

    def of_its_time(self, r: Any) -> bool:
        """IsOfItsTime: no later life of its slot had been hashed before the lookup."""
        if not isinstance(r.answer, Found):
            return True
        h = self.lives[(r.answer.script, r.answer.label, r.answer.kind)]
        return book.stood(h, r.t0, r.t1) and not any(
            g.slot == h.slot and h.hash.end < g.hash.end < r.t0 for g in self.r.lives)

    def caused(self, answer: Any, bucket: int, a: int, b: int) -> bool:
        """CanStop: what can stop a pass through the chain."""
        lives = self.r.lives
        astray = any(h.bucket == bucket and h.unhash and book.meets(h.unhash, a, b) and g.slot == h.slot
                     and h.unhash.begin < g.hash.end and book.meets(g.hash, a, b)
                     for h in lives for g in lives)
        if answer.why != "dead":
            return astray
        here = [h for h in lives if h.slot == answer.number]
        return ((astray or any(h.bucket == bucket and book.stood(h, a, b) for h in here))
                and not any(book.throughout(h, a, b) for h in here))

    def staged(self, r: Any) -> bool:
        """IsInStages: the three lookups one after the other, each in its own chain and part of the span."""
        three = list(zip(packet_buckets(r.packet, self.shape, self.seed), (5, 3, 1)))

        def none(bucket: int, least: int, a: int, b: int) -> bool:
            return not any(h.bucket == bucket and rank(h.card, r.packet) >= least and book.throughout(h, a, b)
                           for h in self.r.lives)

        def gave(k: int, a: int) -> bool:
            bucket, least = three[k]
            if isinstance(r.answer, Found):
                found = self.lives[(r.answer.script, r.answer.label, r.answer.kind)]
                n = rank(found.card, r.packet)
                return n >= least and none(bucket, n + 1, a, r.t1)
            if isinstance(r.answer, Again):
                return (r.answer.walked == bucket and self.caused(r.answer, bucket, a, r.t1)
                        and book.explained_again(
                            self.r.lives, Receipt(r.answer, a, r.t1, r.packet), r.answer, self.shape))
            return k == 2 and none(bucket, least, a, r.t1)

        def reached(k: int, a: int) -> bool:
            return gave(k, a) or k < 2 and any(none(*three[k], a, b) and reached(k + 1, b)
                                               for b in range(a, r.t1 + 1))
        return reached(0, r.t0)

    def items(self) -> bool:
        """AreAnswered and AreSharesOf."""
        items = self.given.capture.items
        if len(items) != len(self.r.packets):
            return False
        if not all(self.receipt(i, p.what) for i, p in zip(items, self.r.packets)):
            return False
        return self.shares()

    def shares(self) -> bool:
        last = [0] * self.lookers
        for p in self.r.packets:
            if isinstance(p.what, str):
                continue
            fits = [k for k, t in enumerate(last) if t <= p.what.t0]
            if not fits:
                return False
            k = max(fits, key=lambda k: last[k])
            last[k] = max(last[k], p.what.t1)
        return True

    # -- steps ---------------------------------------------------------------------

    def replays(self) -> Optional[list[Replay]]:
        """The replies, as far as a section's own state says them."""
        lines, out = self.r.replies, []
        for n, section in enumerate(self.given.script.sections, 1):
            replay = Replay(n, section, self.header)
            try:
                lines = lines[replay.go(lines):]
            except Wrong as wrong:
                self.why = str(wrong)
                return None
            out.append(replay)
        return None if lines else out

    def find(self, card: Any) -> Optional[Life]:
        """The life of a card, which shows what it says."""
        life = self.lives.get(kind_named(card))
        if life is None or life.card._replace(name=card.name) != card:
            return None
        return life

    def witnesses(self, packets: bool = True) -> Iterator[Witness]:
        """The hidden parts with which the text is lawful."""
        if not (self.head() and self.book() and (not packets or self.items())):
            self.why = self.why or "head, book or items"
            return
        replays = self.replays()
        if replays is None:
            return
        self.replayed = replays
        sections: list[list[Deed]] = []
        used_h: set = set()
        used_u: set = set()
        self.stamps = {}
        for replay in replays:
            deeds = []
            for step in replay.steps:
                d = Deed(step)
                if step.hashed is not None:
                    life = self.find(step.hashed)
                    if life is None or life.key in used_h:
                        self.why = f"line {step.line}: no life"
                        return
                    used_h.add(life.key)
                    d.hashed = life
                    if step.hashed.kind is Kind.TIME_WAIT:
                        self.stamps[life.key] = step.moment
                for card in step.unhashed:
                    life = self.find(card)
                    if life is None or life.unhash is None or life.key in used_u:
                        self.why = f"line {step.line}: no unhash"
                        return
                    used_u.add(life.key)
                    d.left.append(life)
                deeds.append(d)
            sections.append(deeds)
        if used_h != set(self.lives):
            self.why = "a life of nobody"
            return
        waits = [h for h in self.r.lives if h.unhash and h.key not in used_u]
        if any(h.card.kind is not Kind.TIME_WAIT for h in waits):
            self.why = "an unhash of nobody"
            return
        self.order = {kind_named(p.card): k for replay in replays
                      for k, p in enumerate(replay.waits) if p.card is not None}
        yield from self.assign(sections, waits)

    def takers(self, sections: list[list[Deed]], h: Life) -> Iterator[tuple[Deed, str]]:
        """The steps that may have unhashed a TIME_WAIT."""
        stamp = self.stamps[h.key]
        for deeds in sections:
            for d in deeds:
                s = d.step
                if isinstance(s.command, cmd.Reap):
                    if s.section == h.card.name.script and tw_expired(stamp, s.moment):
                        yield d, "reap"
                elif (s.replaces and s.ok and d.hashed is not None
                      and d.hashed.card.four == h.card.four
                      and (not isinstance(s.command, cmd.Connect)
                           or tw_replaceable(stamp, s.moment, self.header.twreuse))):
                    yield d, "replace"

    def assign(self, sections: list[list[Deed]], waits: list[Life]) -> Iterator[Witness]:
        """Each unhash of a TIME_WAIT and each number drawn in vain to a step."""
        free = sorted(set(range(self.r.clock)) - {n for h in self.r.lives for n in h.numbers})
        if len(free) > 64:
            self.why = "the clock"
            return
        vain = [(i, j) for i, deeds in enumerate(sections) for j, d in enumerate(deeds)
                if d.step.seen is not None]
        if len(vain) != len(free):
            self.why = "numbers of nobody"
            return
        choices = [list(self.takers(sections, h)) for h in waits]
        for choice in product(*choices):
            made = [[replace(d, left=list(d.left)) for d in deeds] for deeds in sections]
            index = {id(d): (i, j) for i, deeds in enumerate(sections) for j, d in enumerate(deeds)}
            ok = True
            for h, (d, how) in zip(waits, choice):
                i, j = index[id(d)]
                mine = made[i][j]
                if how == "replace":
                    if mine.replaced is not None:
                        ok = False
                        break
                    mine.replaced = h
                mine.left.append(h)
            if not ok:
                continue
            for deeds in made:
                for d in deeds:
                    if isinstance(d.step.command, cmd.Reap):
                        if len(d.left) != d.step.reaped:
                            ok = False
                        d.left.sort(key=lambda h: self.order[h.key])
            if not ok:
                continue
            for order in permutations(free):
                w = [[replace(d) for d in deeds] for deeds in made]
                for (i, j), n in zip(vain, order):
                    w[i][j].vain = n
                if self.spans(w) and self.evidence(w):
                    yield from self.with_entries(w)

    def spans(self, sections: list[list[Deed]]) -> bool:
        """Each section's numbers ascend; `from` and `to` as wide as they may be."""
        for deeds in sections:
            last = -1
            for d in deeds:
                d.draws = d.numbers()
                d.lo = last + 1
                for n in d.draws:
                    if n <= last:
                        self.why = f"line {d.step.line}: numbers"
                        return False
                    last = n
            after = self.r.clock
            for d in reversed(deeds):
                d.hi = after
                after = min([after] + d.draws)
        return True

    def keeps(self, d: Deed, four: Any) -> Iterator[Life]:
        """The lives that keep a four-tuple from the step."""
        for h in self.r.lives:
            if h.card.four != four:
                continue
            k = h.card.kind
            if k in (Kind.FULL, Kind.REQUEST) or (
                    k is Kind.TIME_WAIT and isinstance(d.step.command, cmd.Connect)
                    and not tw_replaceable(self.stamps[h.key], d.step.moment, self.header.twreuse)):
                yield h

    def kept(self, d: Deed, four: Any, lo: Optional[int] = None, hi: Optional[int] = None) -> bool:
        """WasKept."""
        lo, hi = d.lo if lo is None else lo, d.hi if hi is None else hi
        return any(book.stands(h, max(h.hash.end + 1, lo)) and max(h.hash.end + 1, lo) <= hi for h in self.keeps(d, four))

    def evidence(self, sections: list[list[Deed]]) -> bool:
        """What can be said of each step by itself, between the widest numbers that it may have."""
        for deeds in sections:
            for d in deeds:
                if not self.holds(d, [], d.lo, d.hi):
                    self.why = f"line {d.step.line}: no evidence"
                    return False
        return True

    def holds(self, d: Deed, entries: list[Entry], lo: int, hi: int) -> bool:
        """TakenWereKept, GivenWereFree, SlotsWereUsed, Lists and ReapsAll of a step between two numbers."""
        s = d.step
        if s.refusal == "EADDRNOTAVAIL" and s.ports is None and not self.kept(d, s.four, lo, hi):
            return False
        frees = [e for e in entries if e[1] == "free"] if s.test == "connect search" else []
        for k, e in enumerate(frees):              # a port passed over though its owners let it be shared
            last = k == len(frees) - 1 and s.refusal != "EADDRNOTAVAIL"
            if e[4] and not last and not self.kept(d, s.four._replace(lport=e[2][0]), lo, hi):
                return False
        if s.replaces and s.ok and d.hashed is not None and not self.was_free(d):
            return False
        if s.seen is not None and not self.used(d, max(lo, d.vain or 0), hi):
            return False
        if s.dump is not None and not self.listed(d, lo, hi):
            return False
        return not isinstance(s.command, cmd.Reap) or self.reaped(d, hi)

    def was_free(self, d: Deed) -> bool:
        """WasFree: as the hash begins nobody stands who keeps the four-tuple, nor a TIME_WAIT if none gives way."""
        assert d.hashed is not None
        four, begin = d.hashed.card.four, d.hashed.hash.begin
        there = [h for h in self.r.lives if h is not d.hashed and h.card.four == four
                 and h.bucket == d.hashed.bucket and book.stands(h, begin)]
        keeps = list(self.keeps(d, four))
        if d.replaced is not None and d.replaced not in there:
            return False
        return not any(h in keeps or (d.replaced is None and h.card.kind is Kind.TIME_WAIT) for h in there)

    def reaped(self, d: Deed, hi: int) -> bool:
        """ExpiredLeave: Lawful says so of each life of the book, a later one too."""
        return all(h.unhash is not None and h.unhash.begin < hi for h in self.r.lives
                   if h.card.kind is Kind.TIME_WAIT and h.card.name.script == d.step.section
                   and tw_expired(self.stamps[h.key], d.step.moment))

    def in_order(self, sections: list[list[Deed]], entries: list[list[list[Entry]]]) -> bool:
        """AreInOrder, with the evidence of each step between its two numbers."""
        for deeds, mine in zip(sections, entries):
            lo = 0
            for d, es in zip(deeds, mine):
                least = max([lo] + [n + 1 for n in d.draws])
                found = next((hi for hi in range(least, d.hi + 1) if self.holds(d, es, lo, hi)), None)
                if found is None:
                    return False
                lo = found
        return True

    def used(self, d: Deed, lo: int, hi: int) -> bool:
        """NoneWasFree; none is held where nothing is looked up, and sightings are whatever they need to be."""
        assert d.step.seen is not None
        owned, held = d.step.seen
        if held and all(isinstance(item, str) for item in self.given.capture.items):
            return False
        stood = {h.slot for h in self.r.lives if book.stood(h, lo, hi)}
        return owned + held == self.shape.slots and owned <= len(stood)

    def items_of(self, d: Deed) -> Optional[list[Life]]:
        """The lives of a dump's items, in their order."""
        assert d.step.dump is not None
        shown = {f"{d.step.section} item {card_text(h.card)}": h for h in self.r.lives}
        out = [shown.get(i.text) for i in d.step.dump.items]
        return None if None in out else out        # type: ignore[return-value]

    def listed(self, d: Deed, lo: int, hi: int) -> bool:
        """IsListed."""
        dump = d.step.dump
        assert dump is not None
        if not lo <= dump.t0 <= dump.t1 <= hi:
            return False
        items = self.items_of(d)
        if items is None:
            return False
        order = [(h.key[0], self.number(h), h.card.kind) for h in items]
        if any(a >= b for a, b in zip(order, order[1:])):
            return False
        if any((h.bucket, h.slot) == (g.bucket, g.slot) for k, h in enumerate(items)
               for g in items[:k]):
            return False
        at: Optional[int] = dump.t0                # each chain at the first number that will do
        for b in range(self.shape.hash + self.shape.listen):
            mine = {h.key for h in items if h.bucket == b}
            at = book.picture([h for h in self.r.lives if h.bucket == b], mine, at, dump.t1)
            if at is None:
                return False
        return True

    def number(self, h: Life) -> int:
        given = [cmd.given_label(c) for c in self.given.script.sections[h.key[0] - 1]]
        return [x for x in given if x is not None].index(h.key[1]) + 1

    # -- journals --------------------------------------------------------------------

    def options(self, d: Deed) -> list[list[Entry]]:
        """The entries that the step may have made: (bucket, kind, name, socket, answer)."""
        s, c = d.step, d.step.command
        a = s.asked

        def at(port: int, net: int = 0) -> int:
            return bind_bucket(port, a.net if a else net, self.shape)

        gone = ([] if d.replaced is None else
                [(bind_bucket(d.replaced.card.lport, d.replaced.card.net, self.shape),
                  "remove-waiting", d.replaced.key[:2], None, None)])
        name = a.name[::2] if a else None          # (script, label)
        if s.test == "bind":
            o = replace(a, port=a.port, state=State.BOUND)
            return [[(at(a.port), "bind", name, o, s.ok)]]
        if s.test in ("bind search", "listen search"):
            ports = s.ports
            addr = a.addr if (s.test == "bind search" or a.state is State.ADDRESSED) else 0

            def tries(k: int, last: bool) -> list[Entry]:
                out = [(at(p), "bind-auto", name, replace(a, addr=addr, port=p, state=State.BOUND), False)
                       for p in ports[:k]]
                if last:
                    p = ports[k]
                    out.append((at(p), "bind-auto", name,
                                replace(a, addr=addr, port=p, state=State.BOUND), True))
                return out
            if s.test == "bind search":
                return [tries(s.found, True)] if s.found is not None else [tries(len(ports), False)]
            if s.found is not None:
                b = at(ports[s.found])
                return [tries(s.found, True) + [(b, "may-listen", name, None, "ok"),
                                                (b, "listen", name, None, True)]]
            out = []
            for k, p in enumerate(ports):
                answer = {"EADDRINUSE": "in-use", "EMFILE": "full"}.get(s.refusal, "ok")
                out.append(tries(k, True) + [(at(p), "may-listen", name, None, answer),
                                             (at(p), "remove", name, None, True)])
            if s.refusal == "EADDRINUSE":
                out.append(tries(len(ports), False))
            return out
        if s.test == "listen":
            answer = {"EADDRINUSE": "in-use", "EMFILE": "full"}.get(s.refusal, "ok")
            out = [(at(a.port), "may-listen", name, None, answer)]
            if s.ok:
                out.append((at(a.port), "listen", name, None, True))
            return [out]
        if s.test == "connect":
            if not s.ok:
                return [[]]
            full = replace(a, addr=s.four.local, remote=s.four.remote, rport=s.four.rport,
                           state=State.FULL)
            return [[(at(a.port), "connect-bound", name, full, True)] + gone]
        if s.test == "connect search":
            return self.connect_options(d, at, name, gone)
        if isinstance(c, (cmd.Accept, cmd.Syn)) and s.test:
            if not s.ok:
                return [[]]
            if isinstance(c, cmd.Syn):
                return [gone]
            return [[(at(a.port), "inherit", name, replace(a), True)] + gone]
        if isinstance(c, cmd.Ack):
            return [[(at(a.port), "inherit", name, replace(a), True)]] if s.ok and a else [[]]
        if isinstance(c, cmd.Close) and a is not None and a.state is State.FULL:
            kind = "to-time-wait" if d.hashed is not None else "remove"
            return [[(at(a.port), kind, name, None, True)]]
        if isinstance(c, (cmd.Close, cmd.Drop)) and s.owner_entry:
            return [[(at(a.port), "remove", name, None, True)]]
        if isinstance(c, cmd.Reap):
            return [[(bind_bucket(h.card.lport, h.card.net, self.shape), "remove-waiting",
                      h.key[:2], None, None) for h in d.left]]
        return [[]]

    def connect_options(self, d: Deed, at: Any, name: Any, gone: list[Entry]) -> list[list[Entry]]:
        s = d.step
        a = s.asked

        def passed(k: int) -> Iterator[list[Entry]]:
            """The first k ports passed over, each by an owner or by its four-tuple."""
            ways = []
            for p in s.ports[:k]:
                way = [(at(p), "free", (p, a.net), None, False)]
                if self.kept(d, s.four._replace(lport=p)):
                    way.append((at(p), "free", (p, a.net), None, True))
                ways.append(way)
            for w in product(*ways):
                yield list(w)
        out = []
        if s.found is not None:
            p = s.ports[s.found]
            full = replace(a, addr=s.four.local, port=p, remote=s.four.remote, rport=s.four.rport,
                           state=State.FULL, by_connect=True)
            for w in passed(s.found):
                out.append(w + [(at(p), "free", (p, a.net), None, True),
                                (at(p), "connect-auto", name, full, True)] + gone)
        elif s.refusal == "EADDRNOTAVAIL":
            out += list(passed(len(s.ports)))
        else:
            for k, p in enumerate(s.ports):
                out += [w + [(at(p), "free", (p, a.net), None, True)] for w in passed(k)]
        return out

    def with_entries(self, sections: list[list[Deed]]) -> Iterator[Witness]:
        """AreJournalsOf."""
        wanted = {b: n for _, b, n in self.r.journals}
        all_options = [self.options(d) for deeds in sections for d in deeds]
        for choice in product(*all_options):
            counts: dict[int, int] = {}
            for entries in choice:
                for e in entries:
                    counts[e[0]] = counts.get(e[0], 0) + 1
            if counts != wanted:
                self.why = "journals' counts"
                continue
            at, entries = 0, []
            for deeds in sections:
                entries.append([list(e) for e in choice[at:at + len(deeds)]])
                at += len(deeds)
            if not all(self.legal(entries, b) for b in wanted):
                self.why = "no legal journal"
            elif not self.in_order(sections, entries):
                self.why = "no order of steps"
            else:
                yield Witness(sections, entries)

    def legal(self, entries: list[list[list[Entry]]], bucket: int) -> bool:
        """Whether some order of the sections' entries is a legal journal of the bucket."""
        lists = [[e for step in section for e in step if e[0] == bucket] for section in entries]
        return legal_order(lists, self.shape)


def legal_order(lists: list[list[Entry]], shape: Any, allowed: Any = None) -> bool:
    """Some merge of the lists is legal. `allowed(positions, k)`: k's next entry may come."""
    start = (0,) * len(lists)
    seen = {(start, ())}
    stack = [(start, ())]
    while stack:
        at, owners = stack.pop()
        if all(k == len(x) for k, x in zip(at, lists)):
            return True
        for k, x in enumerate(lists):
            if at[k] == len(x) or (allowed is not None and not allowed(at, k)):
                continue
            after = entry_step(owners, x[at[k]], shape)
            if after is None or not agree_all(after):
                continue
            key = (at[:k] + (at[k] + 1,) + at[k + 1:], after)
            if key not in seen:
                seen.add(key)
                stack.append(key)
    return False


def agree_all(owners: tuple) -> bool:
    """OwnersAgree."""
    return all(agree(a, b, a.origin == b.origin, a.by_connect and b.by_connect)
               for k, b in enumerate(owners) for a in owners[:k])


class Own:
    """An owner in a journal, hashable by its fields."""

    __slots__ = ("f", "name", "origin", "addr", "port", "dev", "net", "uid", "reuseaddr",
                 "reuseport", "state", "by_connect")

    def __init__(self, *f: Any) -> None:
        self.f = f
        (self.name, self.origin, self.addr, self.port, self.dev, self.net, self.uid, self.reuseaddr,
         self.reuseport, self.state, self.by_connect) = f

    def __hash__(self) -> int:
        return hash(self.f)

    def __eq__(self, other: Any) -> bool:
        return self.f == other.f

    def with_state(self, state: State) -> "Own":
        f = list(self.f)
        f[9] = state
        return Own(*f)


def own(s: Any, state: Optional[State] = None) -> Own:
    return Own((s.name.script, s.name.label), (s.origin.script, s.origin.label), s.addr, s.port,
               s.dev, s.net, s.uid, s.reuseaddr, s.reuseport, state or s.state, s.by_connect)


def entry_step(owners: tuple, e: Entry, shape: Any) -> Optional[tuple]:
    """OwnerStep, where the entry's answer is its own; None where it isn't."""
    _, kind, name, sock, answer = e
    if kind in ("bind", "bind-auto"):
        a = own(sock, State.BOUND)
        rule = bind_conflict if kind == "bind" else overlap
        free = not any(rule(a, o) for o in owners)
        if free != answer:
            return None
        return owners + (a,) if free else owners
    if kind == "free":
        free = all(o.by_connect for o in owners if (o.port, o.net) == name)
        return owners if free == answer else None
    if kind == "connect-auto":
        return owners + (own(sock, State.FULL),)
    if kind == "inherit":
        return owners + (own(sock, State.FULL),)
    k = next((i for i, o in enumerate(owners) if o.name == name
              and (kind != "remove-waiting" or o.state is State.TIME_WAIT)), None)
    if k is None:
        return owners if kind == "remove-waiting" else None
    mine = owners[k]
    if kind in ("remove", "remove-waiting"):
        return owners[:k] + owners[k + 1:]
    if kind == "may-listen":
        others = owners[:k] + owners[k + 1:]
        if any(bind_conflict(mine, o) for o in others):
            got = "in-use"
        else:
            mates = [o for o in others if o.state is State.LISTENING and o.reuseport]
            same = [o for o in mates if (o.addr, o.port, o.dev, o.net, o.uid) == (
                mine.addr, mine.port, mine.dev, mine.net, mine.uid)]
            keys = {(o.addr, o.port, o.dev, o.net, o.uid) for o in mates}
            full = mine.reuseport and (len(same) >= ROOM or (not same and len(keys) >= PLACES))
            got = "full" if full else "ok"
        return owners if got == answer else None
    state = {"listen": State.LISTENING, "to-time-wait": State.TIME_WAIT}.get(kind)
    new = own(sock, State.FULL) if kind == "connect-bound" else mine.with_state(state)
    return owners[:k] + (new,) + owners[k + 1:]


def lawful(given: program.Input, lookers: int, passes: int, text: bytes) -> Optional[Witness]:
    """A witness, or None."""
    r = record.read(text)
    if isinstance(r, record.BadRecord):
        return None
    return next(Lawful(given, lookers, passes, r).witnesses(), None)
