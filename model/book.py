"""What lives explain: the clock's rules over the lives that a text prints.

docs/RACE.md has them under "The clock", "A list of all sockets" and "What is
proved of it"; docs/inet.1 under RACES and AUDITS.
"""

from __future__ import annotations

from typing import Optional

from .cards import Shape, rank
from .record import Again, Change, Found, Life, Receipt


def throughout(life: Life, t0: int, t1: int) -> bool:
    """It was there from before t0 until after t1."""
    return life.hash.end < t0 and not (life.unhash and life.unhash.begin < t1)


def stands(life: Life, number: int) -> bool:
    """It was hashed below the number, and nobody began to unhash it below the number."""
    return life.hash.end < number and not (life.unhash and life.unhash.begin < number)


def picture(lives: list[Life], keys: set, lo: int, hi: int) -> Optional[int]:
    """The first number from lo to hi at which of these lives exactly those of the keys stand."""
    turns = {lo} | {c + 1 for h in lives for c in ([h.hash.end] + ([h.unhash.begin] if h.unhash else []))}
    return next((n for n in sorted(turns) if lo <= n <= hi and keys == {h.key for h in lives if stands(h, n)}), None)



def meets(change: Change, t0: int, t1: int) -> bool:
    """The change may have been under way between t0 and t1."""
    return change.begin < t1 and change.end >= t0


def stood(life: Life, t0: int, t1: int) -> bool:
    """It stood at some time between t0 and t1."""
    return life.hash.begin < t1 and not (life.unhash and life.unhash.end < t0)


def explained_found(lives: list[Life], r: Receipt, found: Found) -> bool:
    """Some life of that name and kind explains that it was found."""
    for life in lives:
        mine = rank(life.card, r.packet)
        if (life.key == (found.script, found.label, found.kind) and mine >= 1
                and stood(life, r.t0, r.t1)
                and not any(rank(o.card, r.packet) > mine and throughout(o, r.t0, r.t1)
                            for o in lives)):
            return True
    return False


def explained_again(lives: list[Life], r: Receipt, again: Again, shape: Shape) -> bool:
    """A change was under way that explains why the lookup was given up."""
    if again.why == "foreign":
        return (again.walked != again.number
                and any(life.bucket == again.number and meets(life.hash, r.t0, r.t1)
                        for life in lives))
    if again.why == "long":
        return (again.number == shape.slots + 1
                and any(meets(life.hash, r.t0, r.t1) for life in lives))
    return any(life.slot == again.number and meets(change, r.t0, r.t1)
               for life in lives for change in life.changes)


def explained(lives: list[Life], r: Receipt, shape: Shape) -> bool:
    """The lives explain the answer of a packet's line."""
    if r.answer is None:
        return not any(rank(life.card, r.packet) >= 1 and throughout(life, r.t0, r.t1)
                       for life in lives)
    if isinstance(r.answer, Found):
        return explained_found(lives, r, r.answer)
    return explained_again(lives, r, r.answer, shape)


def apart(a: Change, b: Change) -> bool:
    """Of two changes one ends before the other begins."""
    return a.end < b.begin or b.end < a.begin


def slots_apart(a: Life, b: Life) -> bool:
    """Of two lives in one slot one is on its way out before the other is in."""
    return bool((a.unhash and a.unhash.begin < b.hash.end)
                or (b.unhash and b.unhash.begin < a.hash.end))


def together(a: Life, b: Life) -> bool:
    """Each comes before the other is on its way out."""
    return (not (b.unhash and a.hash.begin >= b.unhash.begin)
            and not (a.unhash and b.hash.begin >= a.unhash.begin))
