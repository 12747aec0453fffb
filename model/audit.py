"""`inet audit`: the verdict on the text of a race (docs/inet.1, AUDITS; docs/RACE.md)."""

from __future__ import annotations

from dataclasses import dataclass
from typing import Callable, Iterator, Union

from . import book, record
from .cards import Kind, home, packet_buckets
from .record import Again, BadRecord, Life, Record


@dataclass(frozen=True)
class Yes:
    """The record passes each test."""

    lives: int
    packets: int
    clock: int

    def text(self) -> str:
        """The program's line."""
        return f"yes lives {self.lives} packets {self.packets} clock {self.clock}"


@dataclass(frozen=True)
class No:
    """The first test that fails, and the first line that fails it."""

    line: int
    why: str

    def text(self) -> str:
        """The program's line."""
        return f"no line {self.line} {self.why}"


Verdict = Union[Yes, No, BadRecord]


def pairs(r: Record) -> Iterator[tuple[Life, list[Life]]]:
    """Each life line with the earlier ones."""
    for at, life in enumerate(r.lives):
        yield life, r.lives[:at]


def stamp(r: Record) -> Iterator[int]:
    """A beginning not below its end, and so on; a number of an earlier life line."""
    used: set[int] = set()
    for life in r.lives:
        numbers = life.numbers
        ascending = all(a < b for a, b in zip(numbers, numbers[1:]))
        if not ascending or max(numbers) >= r.clock or used & set(numbers):
            yield life.line
        used |= set(numbers)


def in_home(r: Record) -> Iterator[int]:
    """Its bucket isn't its card's Home by shape and seed."""
    for life in r.lives:
        if life.bucket != home(life.card, r.shape, r.seed):
            yield life.line


def overlap(r: Record) -> Iterator[int]:
    """Two changes in one bucket: neither ends before the other begins."""
    for life, earlier in pairs(r):
        if any(not book.apart(c, d) for o in earlier if o.bucket == life.bucket
               for c in life.changes for d in o.changes):
            yield life.line


def slot(r: Record) -> Iterator[int]:
    """Two lives in one slot, neither of which is over before the other."""
    for life, earlier in pairs(r):
        if any(o.slot == life.slot and not book.slots_apart(life, o) for o in earlier):
            yield life.line


def twin(r: Record) -> Iterator[int]:
    """Two full lives with one four-tuple at one time."""
    for life, earlier in pairs(r):
        if life.card.kind is Kind.FULL and any(
                o.card.kind is Kind.FULL and o.card.four == life.card.four
                and book.together(life, o) for o in earlier):
            yield life.line


def receipt(r: Record) -> Iterator[int]:
    """The lives don't explain a packet's answer, or the chain walked is none of its three."""
    for line in r.packets:
        if isinstance(line.what, str):
            continue
        answer = line.what.answer
        strange = (isinstance(answer, Again) and answer.walked not in
                   packet_buckets(line.what.packet, r.shape, r.seed))
        if strange or not book.explained(r.lives, line.what, r.shape):
            yield line.line


def count(r: Record) -> Iterator[int]:
    """C isn't twice the changes plus the replies ENFILE and no-slot."""
    changes = sum(len(life.changes) for life in r.lives)
    spent = sum(1 for reply in r.replies
                if reply.words[3:4] == ("ENFILE",) or reply.words[3:5] == ("ok", "no-slot"))
    if r.clock != 2 * changes + spent:
        yield r.clock_line


WHYS: tuple[tuple[str, Callable[[Record], Iterator[int]]], ...] = (
    ("stamp", stamp), ("home", in_home), ("overlap", overlap), ("slot", slot),
    ("twin", twin), ("receipt", receipt), ("count", count),
)


def audit(text: bytes) -> Verdict:
    """A bad line first, then the tests in their order, each at its first line."""
    r = record.read(text)
    if isinstance(r, BadRecord):
        return r
    for why, failing in WHYS:
        for line in failing(r):
            return No(line, why)
    return Yes(len(r.lives), len(r.packets), r.clock)
