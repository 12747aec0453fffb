"""Clauses that Lawful hasn't: each refuses some lawful texts, and none that a run gives.

A clause is a predicate of a text with a witness of its lawfulness. In words each stands in
model/tight/README.md.
"""

from __future__ import annotations

from itertools import combinations
from typing import Any, Callable, Iterator, Optional

from .. import book
from .. import commands as cmd
from ..cards import (Card, Four, bind_bucket, Kind, Packet, home, packet_buckets, packet_hash, rank)
from ..hashes import scale
from ..record import Again, Change, Found, Life, Receipt
from .lawful import Deed, Entry, Lawful, Witness, agree_all, entry_step

Clause = Callable[[Lawful, Witness], bool]


def own_changes(d: Deed) -> list[tuple[Life, Change]]:
    out = [(d.hashed, d.hashed.hash)] if d.hashed is not None else []
    return out + [(h, h.unhash) for h in d.left if h.unhash is not None]


def locked_spans(l: Lawful, w: Witness) -> Iterator[tuple[int, int, int]]:
    """(bucket, first number, last number) of each time that a chain was locked for changes."""
    for d in w.steps():
        c = d.step.command
        if isinstance(c, cmd.Reap):
            for h in d.left:
                yield h.bucket, h.unhash.begin, h.unhash.end  # type: ignore[union-attr]
            continue
        bucket = bucket_of(l, d)
        if d.draws and bucket is not None:
            yield bucket, d.draws[0], d.draws[-1]


def bucket_of(l: Lawful, d: Deed) -> Optional[int]:
    """The chain that the step's changes and tries are of; None: not known from the text."""
    if d.hashed is not None:
        return d.hashed.bucket
    if d.left:
        return d.left[0].bucket
    s = d.step
    if s.seen is None:
        return None
    if s.test == "listen" and s.asked is not None:
        a = s.asked
        return home(Card(a.addr, a.port, 0, 0, a.dev, a.net, Kind.LISTEN, a.name), l.shape, l.seed)
    if s.four is not None and s.ports is None:
        f = s.four
        return home(Card(f.local, f.lport, f.remote, f.rport, 0, f.net, Kind.FULL, None),  # type: ignore
                    l.shape, l.seed)
    if isinstance(s.command, cmd.Ack) and l.shape.hash == 1:
        return 0
    if s.test == "listen search" and l.shape.listen == 1:
        return l.shape.hash
    if s.four is not None and l.shape.hash == 1:
        return 0
    return None


def one_lock(l: Lawful, w: Witness) -> bool:
    """What one call changes and tries in a chain is together there: no change of others between."""
    spans = list(locked_spans(l, w))
    return all(x[0] != y[0] or x[2] < y[1] or y[2] < x[1] for x, y in combinations(spans, 2))


def taken(l: Lawful, w: Witness) -> bool:
    """Who keeps a four-tuple is in the chain at one clock between the step's two numbers."""
    def stood(d: Deed, four: Four, lo: int, hi: int) -> bool:
        return any(max(h.hash.end + 1, lo) <= min(h.unhash.begin if h.unhash else hi, hi)
                   for h in l.keeps(d, four))

    for deeds, entries in zip(w.sections, w.entries):
        for d, es in zip(deeds, entries):
            s = d.step
            if s.refusal == "EADDRNOTAVAIL" and s.ports is None and not stood(d, s.four, d.lo, d.hi):
                return False
            if s.test == "connect search":         # ports passed over though they were free
                frees = [e for e in es if e[1] == "free"]
                for k, e in enumerate(frees):
                    last = k == len(frees) - 1 and s.refusal != "EADDRNOTAVAIL"
                    hi = min([d.hi] + d.draws[:1])
                    if e[4] and not last and not stood(d, s.four._replace(lport=e[2][0]), d.lo, hi):
                        return False
    return True


def bind_of(l: Lawful, d: Deed) -> Optional[int]:
    """The bind bucket whose turn the step holds as it changes a chain; None: none, or not known."""
    if l.shape.bind == 1:
        gone = [h.card.kind for h in d.left]
        plain = isinstance(d.step.command, (cmd.Close, cmd.Drop))
        return None if plain and gone == [Kind.REQUEST] else 0
    if d.hashed is not None:
        return bind_bucket(d.hashed.card.lport, d.hashed.card.net, l.shape)
    if d.left:
        h = d.left[0]
        return None if h.card.kind is Kind.REQUEST else bind_bucket(h.card.lport, h.card.net, l.shape)
    if d.step.asked is not None and d.step.ports is None and d.step.asked.port:
        return bind_bucket(d.step.asked.port, d.step.asked.net, l.shape)
    return None


def try_ends(l: Lawful, w: Witness, d: Deed) -> int:
    """Before this number a try that drew a number in vain is over: the next that its own section, or
    another under the same lock or turn, draws."""
    out = [d.hi] + [n for n in d.draws if n > d.vain]  # type: ignore[operator]
    for e in w.steps():
        if e is d or e.step.section == d.step.section:
            continue
        for mine, theirs in ((bucket_of(l, d), bucket_of(l, e)), (bind_of(l, d), bind_of(l, e))):
            if mine is not None and mine == theirs:
                out += [n for n in e.draws if n > d.vain]  # type: ignore[operator]
    return min(out)


def vain(l: Lawful, w: Witness) -> bool:
    """A slot that is reported owned had a life that stood between the number drawn in vain and the
    try's end."""
    for d in w.steps():
        if d.vain is None:
            continue
        hi = try_ends(l, w, d)
        owned, _ = d.step.seen                     # type: ignore[misc]
        if owned > len({h.slot for h in l.r.lives if book.stood(h, d.vain, hi)}):
            return False
    return True


def holding(l: Lawful, r: Receipt, lo: int, hi: int) -> set[int]:
    """The slots that the lookup may have held alone between: of lives that match and were on their way out
    before it ended; none where it took none."""
    if r.answer is None and l.passes == 1 or not (r.t0 <= hi and r.t1 > lo):
        return set()
    found = (l.lives[(r.answer.script, r.answer.label, r.answer.kind)]
             if isinstance(r.answer, Found) and l.passes == 1 else None)

    again = r.answer if isinstance(r.answer, Again) and l.passes == 1 else None

    def fits(x: Life) -> bool:
        """What was found, its group's, or what was the best before it on the way."""
        if again is not None and again.why in ("dead", "changed"):
            here = [h for h in l.r.lives if h.slot == again.number]
            return x in here or any(x.bucket == h.bucket and x.hash.begin > h.hash.begin
                                    and rank(x.card, r.packet) < rank(h.card, r.packet) or len(here) > 1
                                    for h in here)
        return (found is None or x is found or group_of(found, l.replayed) is not None
                or (x.bucket == found.bucket and x.hash.begin > found.hash.begin
                    and rank(x.card, r.packet) < rank(found.card, r.packet)))
    return {x.slot for x, _, k in ((x, y, k) for s in range(l.shape.slots)
                                   for x, y, k in mixes(l.r.lives, s, r.packet))
            if k and fits(x) and book.stood(x, r.t0, r.t1) and x.unhash and x.unhash.begin < min(hi, r.t1)}


def held(l: Lawful, w: Witness) -> bool:
    """Each slot that is reported held has a lookup that may have held it during the try, at most two each."""
    over = list(receipts(l))
    for d in w.steps():
        if d.vain is None or not d.step.seen[1]:   # type: ignore[index]
            continue
        hi = try_ends(l, w, d)
        owned, n = d.step.seen                     # type: ignore[misc]
        places = [holding(l, r, d.vain, hi) for r in over for _ in range(2)]
        stood = {h.slot for h in l.r.lives if book.stood(h, d.vain, hi)}

        def fit(hs: tuple[int, ...], left: list[set[int]]) -> bool:
            if not hs:
                return True
            return any(hs[0] in x and fit(hs[1:], left[:k] + left[k + 1:]) for k, x in enumerate(left))
        if n > 2 * l.lookers or not any(fit(hs, places) and len(stood - set(hs)) >= owned
                                        for hs in combinations(range(l.shape.slots), n)):
            return False
    return True


def claims(l: Lawful, w: Witness) -> bool:
    """A slot that a claim passed over, from the section's last on, was owned or held meanwhile."""
    n = l.shape.slots
    for deeds in w.sections:
        last = -1
        for d in deeds:
            if d.hashed is None:
                continue
            h, at = d.hashed, (last + 1) % n
            while at != h.slot:
                lo, hi = h.hash.begin, h.hash.end
                owned = any(o.slot == at and o is not h and book.stood(o, lo, hi) for o in l.r.lives)
                looked = any(at in holding(l, r, lo, hi) for r in receipts(l))
                if not owned and not looked:
                    return False
                at = (at + 1) % n
            last = h.slot
    return True


def blocks(l: Lawful, w: Witness) -> list[list[tuple[int, list[Entry], int, Optional[int], Optional[int], int]]]:
    """Of each section its turns: (bucket, entries, number before, first, last, number after)."""
    out = []
    for deeds, entries in zip(w.sections, w.entries):
        mine: list[Any] = []
        before = -1
        for d, es in zip(deeds, entries):
            groups: list[list[Entry]] = []
            if isinstance(d.step.command, cmd.Reap):
                groups = [[e] for e in es]
                pairs = [(h.unhash.begin, h.unhash.end) for h in d.left]
            else:
                for e in es:
                    first = e[1] in ("bind", "bind-auto", "free") or not groups
                    if e[1] == "may-listen" and groups and groups[-1][-1][1] == "bind-auto" and groups[-1][-1][4]:
                        first = False
                    if first:
                        groups.append([e])
                    else:
                        groups[-1].append(e)
                if d.draws and not groups:
                    groups = [[]]
                pairs = [None] * max(0, len(groups) - 1) + [(d.draws[0], d.draws[-1]) if d.draws else None] \
                    if groups else []
            for g, p in zip(groups, pairs):
                bucket = g[0][0] if g else None
                mine.append([bucket, g, before, p[0] if p else None, p[1] if p else None, l.r.clock])
                if p:
                    before = p[1]
        after = l.r.clock
        for x in reversed(mine):
            x[5] = after
            if x[3] is not None:
                after = x[3]
        out.append([tuple(x) for x in mine])
    return out


def journals(l: Lawful, w: Witness) -> bool:
    """One order of all turns that fits the numbers: legal, a turn's entries together, its changes within."""
    lists = blocks(l, w)
    start = ((0,) * len(lists), (), ())
    seen = {start}
    stack = [start]
    while stack:
        at, owners_of, clocks = stack.pop()
        if all(k == len(x) for k, x in zip(at, lists)):
            return True
        owners, clock = dict(owners_of), dict(clocks)
        for k, x in enumerate(lists):
            if at[k] == len(x):
                continue
            bucket, es, before, first, last, after = x[at[k]]
            c = max(before + 1, clock.get(("s", k), 0), clock.get(("b", bucket), 0) if es else 0)
            if c > (first if first is not None else after):
                continue
            now: Optional[tuple] = owners.get(bucket, ())
            for e in es:
                now = entry_step(now, e, l.shape)  # type: ignore[arg-type]
                if now is None or not agree_all(now):
                    now = None
                    break
            if now is None:
                continue
            end = c if last is None else last + 1
            o2, c2 = dict(owners), dict(clock)
            o2[bucket] = now
            c2[("s", k)] = end
            if es:
                c2[("b", bucket)] = end
            key = (at[:k] + (at[k] + 1,) + at[k + 1:], tuple(sorted(o2.items(), key=lambda i: repr(i[0]))),
                   tuple(sorted(c2.items(), key=repr)))
            if key not in seen:
                seen.add(key)
                stack.append(key)
    return False


def unlocked(l: Lawful, w: Witness) -> bool:
    """A dump has each chain as it was at a clock at which nobody had it locked for changes."""
    spans = list(locked_spans(l, w))
    for d in w.steps():
        if d.step.dump is None:
            continue
        items = l.items_of(d)
        if items is None:
            return False
        c = d.step.dump.t0
        for b in range(l.shape.hash + l.shape.listen):
            mine = {h.key for h in items if h.bucket == b}
            for t in range(c, d.step.dump.t1 + 1):
                busy = any(x[0] == b and x[1] < t <= x[2] for x in spans)
                if not busy and mine == {h.key for h in l.r.lives if h.bucket == b and book.stands(h, t)}:
                    c = t
                    break
            else:
                return False
    return True


# -- packets --------------------------------------------------------------------


def receipts(l: Lawful) -> Iterator[Receipt]:
    for p in l.r.packets:
        if isinstance(p.what, Receipt):
            yield p.what


def stage_fits(l: Lawful, r: Receipt, lives: list[Life], bucket: int, least: int, a: int, b: int,
               last: bool, joined: Callable[[list[Life], int, int], bool]) -> bool:
    """One of the three lookups, from a to b: its answer, or that it found nothing."""
    mine = [h for h in lives if h.bucket == bucket and rank(h.card, r.packet) >= least]
    if not last or r.answer is None:
        return not any(book.throughout(h, a, b) for h in mine) and not joined(mine, a, b)
    if isinstance(r.answer, Found):
        for h in lives:
            k = rank(h.card, r.packet)
            if h.key == (r.answer.script, r.answer.label, r.answer.kind) and k >= least and book.stood(h, a, b):
                better = [g for g in mine if rank(g.card, r.packet) > k]
                if not any(book.throughout(g, a, b) for g in better):
                    return True
        return False
    return book.explained_again(lives, Receipt(r.answer, a, b, r.packet), r.answer, l.shape)


def staged(l: Lawful, r: Receipt, joined: Callable[[list[Life], int, int], bool]) -> bool:
    """The three lookups one after the other: each by the lives of its own chain, between its own loads."""
    three = list(zip(packet_buckets(r.packet, l.shape, l.seed), (5, 3, 1)))
    lives = l.r.lives

    def go(k: int, a: int) -> bool:
        bucket, least = three[k]
        ends = isinstance(r.answer, Again) and r.answer.walked == bucket
        if isinstance(r.answer, Found) or ends or (r.answer is None and k == 2):
            if stage_fits(l, r, lives, bucket, least, a, r.t1, True, joined):
                return True
        return k < 2 and any(stage_fits(l, r, lives, bucket, least, a, b, False, joined) and go(k + 1, b)
                             for b in range(a, r.t1 + 1))
    return go(0, r.t0)


def nobody(mine: list[Life], a: int, b: int) -> bool:
    return False


def stages(l: Lawful, w: Witness) -> bool:
    """The three lookups of a packet one after the other, each explained by its own span and chain."""
    return all(staged(l, r, nobody) for r in receipts(l))


def joining(w: Witness) -> Callable[[list[Life], int, int], bool]:
    """Whether of these lives one was there throughout, or some that took each other's place."""
    pairs = [(h, d.hashed) for d in w.steps() if d.hashed is not None
             and not isinstance(d.step.command, cmd.Reap) for h in d.left]

    def joined(mine: list[Life], a: int, b: int) -> bool:
        for h in mine:
            if not h.hash.end < a:
                continue
            g: Optional[Life] = h
            while g is not None:
                if not (g.unhash and g.unhash.begin < b):
                    return True
                g = next((y for x, y in pairs if x is g and y in mine), None)
        return False
    return joined


def handover(l: Lawful, w: Witness) -> bool:
    """Two lives of which one takes the other's place under one lock stand throughout together."""
    joined = joining(w)
    return all(staged(l, r, joined) for r in receipts(l))


def mixes(lives: list[Life], slot: int, packet: Packet) -> Iterator[tuple[Optional[Life], Life, int]]:
    """Ranks that two loaded words of a slot may give: word 0 of one life, word 1 of it or an earlier one."""
    here = sorted((h for h in lives if h.slot == slot), key=lambda h: h.hash.begin)
    for i, x in enumerate(here):
        yield x, x, rank(x.card, packet)
        for y in here[:i] + here[i + 1:]:
            c = y.card._replace(local=x.card.local, remote=x.card.remote)
            yield x, y, rank(c, packet)


def matched(l: Lawful, w: Witness) -> bool:
    """P3: `dead` and `changed` name a slot whose words matched: of lives that met the call; `changed` with a
    hash there that met it, behind an unhash that did."""
    for r in receipts(l):
        a = r.answer
        if not isinstance(a, Again) or a.why not in ("dead", "changed"):
            continue
        three = [(b, least) for b, least in zip(packet_buckets(r.packet, l.shape, l.seed), (5, 3, 1))
                 if b == a.walked]
        least = min(x for _, x in three)
        lives = l.r.lives
        if not any(k >= least and book.stood(x, r.t0, r.t1) and book.stood(y, r.t0, r.t1)
                   for x, y, k in mixes(lives, a.number, r.packet)):
            return False
        if not any(h.slot == a.number and h.bucket == a.walked and book.stood(h, r.t0, r.t1) for h in lives):
            return False
        if any(h.slot == a.number and book.throughout(h, r.t0, r.t1) for h in lives):
            return False                           # it was LIVE all the time
        ranks = {k for _, _, k in mixes(lives, a.number, r.packet) if k >= least}
        if a.why == "changed" and not moved(lives, r, lambda h, g: h.slot == a.number
                                            and bool(ranks - {rank(g.card, r.packet)})):
            return False
    return True


def moved(lives: list[Life], r: Receipt, fits: Callable[[Life, Life], bool]) -> bool:
    """A life left its slot and a later one came there, while the lookup ran."""
    return any(h.slot == g.slot and h.unhash and h.unhash.begin < g.hash.end and h is not g
               and book.meets(h.unhash, r.t0, r.t1) and book.meets(g.hash, r.t0, r.t1) and fits(h, g)
               for h in lives for g in lives)


def strayed(l: Lawful, w: Witness) -> bool:
    """P4: `foreign B` and `long`: a slot of the walked chain was left and used again, while the lookup ran."""
    for r in receipts(l):
        a = r.answer
        if not isinstance(a, Again) or a.why not in ("foreign", "long"):
            continue
        if not moved(l.r.lives, r, lambda h, g: h.bucket == a.walked):
            return False
        again = {g.key for h in l.r.lives for g in l.r.lives
                 if moved([h, g], r, lambda x, y: y is g)}
        if a.why == "long" and len(again) < 2:     # the slot that was left links to another that was
            return False
    return True


def group_of(h: Life, replayed: Any) -> Optional[tuple]:
    """The group of a listener."""
    for replay in replayed:
        for p in replay.presences:
            if p.sock.reuseport and p.card is not None and p.card.kind is Kind.LISTEN and (
                    p.card.name.script, p.card.name.label, p.card.kind) == h.key:
                s = p.sock
                return (s.addr, s.port, s.dev, s.net, s.uid)
    return None


def grouped(l: Lawful, w: Witness) -> bool:
    """Of a group the member that the packet's hash picks from a list that may have stood meanwhile."""
    for r in receipts(l):
        if not isinstance(r.answer, Found) or r.answer.kind is not Kind.LISTEN:
            continue
        h = l.lives[(r.answer.script, r.answer.label, r.answer.kind)]
        group = group_of(h, l.replayed)
        if group is None:
            continue
        events = []                                # (earliest, latest, life, joins)
        for deeds in w.sections:
            for k, d in enumerate(deeds):
                after = min([n for e in deeds[k + 1:] for n in e.draws], default=l.r.clock + 1)
                before = max([n for e in deeds[:k] for n in e.draws], default=-1)
                if d.hashed is not None and group_of(d.hashed, l.replayed) == group:
                    events.append((d.hashed.hash.end + 1, after, d.hashed, True))
                for g in d.left:
                    if group_of(g, l.replayed) == group and g.unhash:
                        events.append((before + 1, g.unhash.begin, g, False))
        events.sort(key=lambda e: (e[0] if e[3] else e[1]))
        states: list[tuple[int, int, list[Life]]] = []
        now: list[Life] = []
        since = -1
        for first, last, g, joins in events:
            states.append((since, last, list(now)))
            if joins:
                now.append(g)
            elif g in now:
                at = now.index(g)
                now[at] = now[-1]
                now.pop()
            since = first
        states.append((since, l.r.clock + 1, list(now)))
        over = [m for a, b, m in states if a <= r.t1 and b >= max(r.t0, h.hash.begin + 1)]
        counts = {len(m) for m in over}
        picks = []
        for n in counts - {0}:
            k = scale(packet_hash(r.packet, l.seed), n)
            picks += [m[k] for m in over if k < len(m)]
        since_h = max(r.t0, h.hash.begin + 1)      # the list is read while h is held, if it was found first
        falls_back = 0 in counts or any(not book.throughout(g, since_h, r.t1) for g in picks)
        if h not in picks and not falls_back:
            return False
    return True


def nearest(l: Lawful, w: Witness) -> bool:
    """No life of equal rank that came later into the same chain was throughout: the walk meets it first."""
    joined = joining(w)

    def in_front(h: Life, r: Receipt) -> bool:
        return joined([g for g in l.r.lives if g.bucket == h.bucket and g.hash.begin > h.hash.begin
                       and rank(g.card, r.packet) >= rank(h.card, r.packet)], r.t0, r.t1)

    for r in receipts(l):
        if isinstance(r.answer, Again) and r.answer.why in ("dead", "changed"):
            here = [h for h in l.r.lives if h.slot == r.answer.number]
            if len(here) == 1 and in_front(here[0], r):
                return False
        if not isinstance(r.answer, Found):
            continue
        h = l.lives[(r.answer.script, r.answer.label, r.answer.kind)]
        if group_of(h, l.replayed) is not None:
            continue
        if in_front(h, r):
            return False
    return True


def its_slot(l: Lawful, w: Witness) -> bool:
    """Of the life that was found, or was dead or changed, no later one of its slot had its hash ended as
    the lookup began."""
    def over(h: Life, t0: int) -> bool:
        return any(g.slot == h.slot and h.unhash and h.unhash.begin < g.hash.end < t0
                   and not (g.unhash and g.unhash.begin < h.hash.end) for g in l.r.lives)

    for r in receipts(l):
        if isinstance(r.answer, Found) and over(
                l.lives[(r.answer.script, r.answer.label, r.answer.kind)], r.t0):
            return False
        if isinstance(r.answer, Again) and r.answer.why in ("dead", "changed"):
            here = [h for h in l.r.lives if h.slot == r.answer.number and h.bucket == r.answer.walked]
            if here and all(over(h, r.t0) for h in here):
                return False
    return True


CLAUSES: dict[str, Clause] = {
    "one lock": one_lock, "taken": taken, "vain": vain, "held": held,
    "slots": claims, "journals": journals, "unlocked": unlocked, "stages": stages,
    "handover": handover, "matched": matched, "strayed": strayed, "group": grouped, "nearest": nearest,
    "its slot": its_slot,
}
PACKET_CLAUSES = ("held", "slots", "stages", "handover", "matched", "strayed", "group", "nearest", "its slot")
