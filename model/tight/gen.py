"""All texts of a script that could be lawful: the candidates.

Lawful fixes much of a text: the lives are those of the replies, a section's numbers
ascend over its steps, the journals' counts are those of the steps' entries. What is left
is tried whole, or by so many random choices where it is too much: each reply that a
section's own state allows; who unhashed each TIME_WAIT; every merge of the sections'
numbers; every slot of every life; every `dump` with its loads and items; every answer
with its loads for each packet. Texts that differ from these elsewhere are refused at
sight; `strays` tries some of them.
"""

from __future__ import annotations

import random
from copy import deepcopy
from dataclasses import dataclass
from itertools import combinations, product
from typing import Any, Iterator, Optional

from .. import commands as cmd
from .. import program, record
from ..cards import Kind, Packet, address, card_text, end, home, packet_buckets, tw_expired, tw_replaceable
from ..record import Again, Found, Life, PacketLine, Receipt, Record, ReplyLine
from ..replay import Replay, Wrong, kind_named
from .lawful import Deed, Lawful, Witness


@dataclass
class Base:
    """A text without its packets, which is lawful so far."""

    lines: list[str]                               # all but packets, cut and clock
    clock: int
    record: Record
    lawful: Lawful
    witnesses: list[Witness]

    def text(self, given: program.Input, packets: list[str]) -> str:
        lines = self.lines + [f"packet {k} {p}" for k, p in enumerate(packets, 1)]
        if given.capture.cut:
            lines.append("cut")
        return "\n".join(lines + [f"clock {self.clock}"]) + "\n"


class Gen:
    """The candidates of one script."""

    def __init__(self, given: program.Input, lookers: int, passes: int, most: int, seed: int = 1) -> None:
        self.given, self.lookers, self.passes, self.most = given, lookers, passes, most
        self.header = given.script.header
        self.shape = self.header.shape
        self.choose = random.Random(seed)
        self.tried = 0
        self.whole = True                          # nothing was left to chance
        ports = set()
        if self.header.high - self.header.low < 8:
            ports |= set(range(self.header.low, self.header.high + 1))
        addrs = set()
        for section in given.script.sections:
            for c in section:
                for f in ("port", "lport"):
                    if getattr(c, f, 0):
                        ports.add(getattr(c, f))
                for f in ("addr", "source", "local"):
                    if getattr(c, f, None):
                        addrs.add(getattr(c, f))
        self.ports, self.addrs = sorted(ports), sorted(addrs)

    # -- replies ---------------------------------------------------------------------

    def replies(self, c: cmd.Command) -> list[str]:
        """What a reply could be."""
        n = self.shape.slots
        full = [f"{o} {n - o}" for o in range(n + 1)]
        if isinstance(c, cmd.Dump):
            return ["0 t0 0 t1 0"]
        if isinstance(c, cmd.Reap):
            return [f"ok {k}" for k in range(3)]
        out = ["ok", "EBADF", "EINVAL", "EISCONN", "EADDRINUSE", "EADDRNOTAVAIL", "EMFILE"]
        if isinstance(c, (cmd.Bind, cmd.Listen)):
            out += [f"ok {p}" for p in self.ports]
        if isinstance(c, cmd.Connect):
            out += [f"ok {address(a)}:{p}" for a in self.addrs for p in self.ports]
        if isinstance(c, (cmd.Listen, cmd.Connect, cmd.Accept, cmd.Syn, cmd.Ack)):
            out += [f"ENFILE {f}" for f in full]
        if isinstance(c, cmd.Close):
            out += ["ok time-wait"] + [f"ok no-slot {f}" for f in full]
        return out

    def section(self, n: int) -> Iterator[Replay]:
        """Every way in which a section's replies may go by its own state."""
        def go(replay: Replay, at: int) -> Iterator[Replay]:
            commands = self.given.script.sections[n - 1]
            if at == len(commands):
                yield replay
                return
            c = commands[at]
            head = cmd.line_head(n, c)
            for reply in self.replies(c):
                self.tried += 1
                next_ = deepcopy(replay)
                try:
                    next_.step(c, ReplyLine(0, tuple(f"{head} {reply}".split(" "))), [])
                except Wrong:
                    continue
                yield from go(next_, at + 1)
        yield from go(Replay(n, self.given.script.sections[n - 1], self.header), 0)

    # -- who did what --------------------------------------------------------------------

    def bases(self) -> Iterator[Base]:
        """The lawful texts without their packets."""
        ways = [list(self.section(n)) for n in range(1, len(self.given.script.sections) + 1)]
        for replays in product(*ways):
            yield from self.of_replies(list(replays))

    def of_replies(self, replays: list[Replay]) -> Iterator[Base]:
        steps = [s for r in replays for s in r.steps]
        cards = {kind_named(s.hashed): s.hashed for s in steps if s.hashed is not None}
        stamps = {kind_named(s.hashed): s.moment for s in steps
                  if s.hashed is not None and s.hashed.kind is Kind.TIME_WAIT}
        waits = list(stamps)
        takers = []
        for key in waits:
            mine: list[Optional[tuple[int, int]]] = [None]
            for i, r in enumerate(replays):
                for j, s in enumerate(r.steps):
                    if isinstance(s.command, cmd.Reap):
                        if s.section == key[0] and tw_expired(stamps[key], s.moment) and s.reaped:
                            mine.append((i, j))
                    elif s.replaces and s.ok and s.hashed is not None and (
                            s.hashed.four == cards[key].four) and (
                            not isinstance(s.command, cmd.Connect) or tw_replaceable(
                                stamps[key], s.moment, self.header.twreuse)):
                        mine.append((i, j))
            takers.append(mine)
        for choice in product(*takers):
            tokens: list[list[tuple]] = []
            ok = True
            for i, r in enumerate(replays):
                seq: list[tuple] = []
                for j, s in enumerate(r.steps):
                    if s.seen is not None:
                        seq.append(("v", i, j))
                    if s.hashed is not None:
                        seq += [("h", kind_named(s.hashed), 0), ("h", kind_named(s.hashed), 1)]
                    for card in s.unhashed:
                        if kind_named(card) not in cards:
                            ok = False
                        seq += [("u", kind_named(card), 0), ("u", kind_named(card), 1)]
                    own = [k for k, c in zip(waits, choice) if c == (i, j)]
                    if isinstance(s.command, cmd.Reap) and len(own) != s.reaped:
                        ok = False
                    if not isinstance(s.command, cmd.Reap) and len(own) > 1:
                        ok = False
                    for k in own:
                        seq += [("u", k, 0), ("u", k, 1)]
                tokens.append(seq)
            if ok:
                yield from self.of_tokens(replays, cards, tokens)

    def merges(self, tokens: list[list[tuple]]) -> Iterator[list[tuple]]:
        """Every merge of the sections' numbers."""
        def go(at: tuple, out: list[tuple]) -> Iterator[list[tuple]]:
            if all(k == len(t) for k, t in zip(at, tokens)):
                yield list(out)
                return
            for k, t in enumerate(tokens):
                if at[k] < len(t):
                    out.append(t[at[k]])
                    yield from go(at[:k] + (at[k] + 1,) + at[k + 1:], out)
                    out.pop()
        yield from go((0,) * len(tokens), [])

    def some_merges(self, tokens: list[list[tuple]]) -> Iterator[list[tuple]]:
        """All merges, or so many random ones."""
        ways, n = 1, 0
        for t in tokens:
            for k in range(1, len(t) + 1):
                n += 1
                ways = ways * n // k
        if ways <= self.most:
            yield from self.merges(tokens)
            return
        self.whole = False
        for _ in range(self.most):
            left = [i for i, t in enumerate(tokens) for _ in t]
            self.choose.shuffle(left)
            at, out = [0] * len(tokens), []
            for i in left:
                out.append(tokens[i][at[i]])
                at[i] += 1
            yield out

    def of_tokens(self, replays: list[Replay], cards: dict, tokens: list[list[tuple]]) -> Iterator[Base]:
        keys = list(cards)
        for merged in self.some_merges(tokens):
            number = {t: n for n, t in enumerate(merged)}
            ok = True
            for key in keys:                       # quick: within a bucket changes don't overlap
                ok = ok and (("u", key, 0) not in number
                             or number[("h", key, 1)] < number[("u", key, 0)])
            if not ok:
                self.tried += 1
                continue
            if not self.apart(cards, number):
                self.tried += 1
                continue
            for slots in product(range(self.shape.slots), repeat=len(keys)):
                self.tried += 1
                lives = []
                for key, slot in zip(keys, slots):
                    card = cards[key]
                    u = (number[("u", key, 0)], number[("u", key, 1)]) if ("u", key, 0) in number else None
                    lives.append((number[("h", key, 0)], number[("h", key, 1)], u,
                                  home(card, self.shape, self.header.seed), slot, card))
                if any(a[4] == b[4] and not ((a[2] and a[2][0] < b[1]) or (b[2] and b[2][0] < a[1]))
                       for a, b in combinations(lives, 2)):
                    continue
                lives.sort(key=lambda x: x[0])
                yield from self.of_lives(replays, lives, len(merged))

    def apart(self, cards: dict, number: dict) -> bool:
        spans: dict[int, list[tuple[int, int]]] = {}
        for (what, key, k), n in number.items():
            if what in "hu" and k == 0:
                b = home(cards[key], self.shape, self.header.seed)
                spans.setdefault(b, []).append((n, number[(what, key, 1)]))
        return all(x[1] < y[0] or y[1] < x[0] for v in spans.values() for x, y in combinations(v, 2))

    def of_lives(self, replays: list[Replay], lives: list, clock: int) -> Iterator[Base]:
        life_lines = []
        for b0, e0, u, bucket, slot, card in lives:
            tail = f"{u[0]} {u[1]}" if u else "-"
            life_lines.append(f"life {bucket} {slot} {card_text(card)} hash {b0} {e0} unhash {tail}")
        dumps = [(s.section, s) for r in replays for s in r.steps if s.dump is not None]
        for lists in self.listings(dumps, [x[5] for x in lives], clock):
            head = [f"race lookers {self.lookers} passes {self.passes}",
                    f"shape {self.shape.slots} {self.shape.bind} {self.shape.hash} {self.shape.listen} "
                    f"seed {self.header.seed}"]
            at = 0
            for r in replays:
                for s in r.steps:
                    if s.dump is not None:
                        head += lists[at]
                        at += 1
                    else:
                        head.append(f"{cmd.line_head(s.section, s.command)} {s.reply}")
            for counts in self.counts(head, life_lines, clock):
                self.tried += 1
                journal = [f"journal {b} {n}" for b, n in sorted(counts.items())]
                lines = head + journal + life_lines
                r2 = record.read(("\n".join(lines + [f"clock {clock}"]) + "\n").encode())
                if isinstance(r2, record.BadRecord):
                    continue
                lawful = Lawful(self.given, self.lookers, self.passes, r2)
                r2.cut = self.given.capture.cut
                ws = []
                for w in lawful.witnesses(packets=False):
                    ws.append(w)
                    if len(ws) >= 16:
                        break
                if ws:
                    yield Base(lines, clock, r2, lawful, ws)

    def counts(self, head: list[str], life_lines: list[str], clock: int) -> list[dict[int, int]]:
        """The journals' counts that the steps' entries may come to."""
        text = "\n".join(head + life_lines + [f"clock {clock}"]) + "\n"
        r = record.read(text.encode())
        if isinstance(r, record.BadRecord):
            return []
        r.cut = self.given.capture.cut
        lawful = Lawful(self.given, self.lookers, self.passes, r)
        found: list[dict[int, int]] = []

        def keep(sections: list[list[Deed]]) -> Iterator[Witness]:
            for choice in product(*[lawful.options(d) for deeds in sections for d in deeds]):
                counts: dict[int, int] = {}
                for entries in choice:
                    for e in entries:
                        counts[e[0]] = counts.get(e[0], 0) + 1
                if counts not in found:
                    found.append(counts)
            return iter(())
        lawful.with_entries = keep                 # type: ignore[method-assign]
        for _ in lawful.witnesses(packets=False):
            pass
        return found

    def listings(self, dumps: list, cards: list, clock: int) -> Iterator[list[list[str]]]:
        """What each dump could list, between which loads."""
        if not dumps:
            yield []
            return
        ordered = sorted(cards, key=lambda c: (c.name.word(), c.kind))
        each = []
        for n, _ in dumps:
            mine = []
            for t0 in range(clock + 1):
                for t1 in range(t0, clock + 1):
                    for k in range(len(ordered) + 1):
                        for some in combinations(ordered, k):
                            mine.append([f"{n} dump {k} t0 {t0} t1 {t1}"]
                                        + [f"{n} item {card_text(c)}" for c in some])
            each.append(mine)
        yield from (list(x) for x in product(*each))

    # -- packets -----------------------------------------------------------------------------

    def answers(self, base: Base, item: Any) -> Iterator[tuple[str, Any]]:
        """The lawful lines of one item."""
        if isinstance(item, str):
            yield item, item
            return
        p: Packet = item
        net = f" net {p.net}" if p.net else ""
        tail = f"from {end(p.src, p.sport)} to {end(p.dst, p.dport)} dev {p.dev}{net}"
        buckets = sorted(set(packet_buckets(p, self.shape, self.header.seed)))
        forms: list[Any] = [None]
        forms += [Found(h.key[2], h.key[0], h.key[1]) for h in base.record.lives]
        for w in buckets:
            forms += [Again(why, s, w) for why in ("dead", "changed") for s in range(self.shape.slots)]
            forms += [Again("foreign", b, w) for b in range(self.shape.hash + self.shape.listen)]
            forms += [Again("long", self.shape.slots + 1, w)]
        for form in forms:
            if form is None:
                words = "none"
            elif isinstance(form, Again):
                words = f"again {form.why} {form.number} in {form.walked}"
            else:
                card = base.lawful.lives[(form.script, form.label, form.kind)].card
                words = card_text(card).split()[0] + f" {card.name}"
            for t0 in range(base.clock + 1):
                for t1 in range(t0, base.clock + 1):
                    self.tried += 1
                    what = Receipt(form, t0, t1, p)
                    if base.lawful.receipt(p, what):
                        yield f"{words} t0 {t0} t1 {t1} {tail}", what

    def texts(self, most: int) -> Iterator[tuple[Base, str, list[Any]]]:
        """The lawful texts: base, text, receipts. At most so many of each base."""
        for base in self.bases():
            items = self.given.capture.items
            if not items:
                yield base, base.text(self.given, []), []
                continue
            each = [list(self.answers(base, item)) for item in items]
            size = 1
            for e in each:
                size *= len(e)
            picks: Any = product(*each)
            if size > most:
                self.whole = False
                picks = (tuple(self.choose.choice(e) for e in each) for _ in range(most))
            for pick in picks:
                base.record.packets = [PacketLine(0, what) for _, what in pick]
                if len(items) > 1 and not base.lawful.shares():
                    continue
                yield base, base.text(self.given, [x for x, _ in pick]), [w for _, w in pick]


def strays(text: str, choose: random.Random) -> str:
    """A change of one word or line somewhere, or of two numbers for each other."""
    lines = text.splitlines()
    words = [(i, j) for i, line in enumerate(lines) for j, w in enumerate(line.split(" ")) if w.isdigit()]
    what = choose.randrange(5)
    if what <= 1 and words:
        i, j = choose.choice(words)
        ws = lines[i].split(" ")
        ws[j] = str(max(0, int(ws[j]) + choose.choice((-2, -1, 1, 2))))
        lines[i] = " ".join(ws)
    elif what == 2 and len(words) > 1:
        (i, j), (k, l) = choose.sample(words, 2)
        a, b = lines[i].split(" ")[j], lines[k].split(" ")[l]
        for (x, y), v in (((i, j), b), ((k, l), a)):
            ws = lines[x].split(" ")
            ws[y] = v
            lines[x] = " ".join(ws)
    elif what == 3:
        i = choose.randrange(len(lines))
        if choose.random() < 0.5:
            lines.pop(i)
        else:
            lines.insert(i, lines[choose.randrange(len(lines))])
    else:
        i = choose.randrange(len(lines))
        j = choose.randrange(len(lines))
        lines[i], lines[j] = lines[j], lines[i]
    lives = [k for k, line in enumerate(lines) if line.startswith("life ")]
    order = sorted((lines[k] for k in lives), key=lambda line: int((line.split("hash ")[1:] or ["0"])[0].split()[0] or 0)
                   if "hash " in line and line.split("hash ")[1].split()[0].isdigit() else 0)
    for k, line in zip(lives, order):
        lines[k] = line
    return "\n".join(lines) + "\n"
