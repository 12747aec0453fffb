"""The text of a race: its lines in their order (docs/inet.1, RACES and AUDITS).

The same grammar serves `audit` and judge.py.
"""

from __future__ import annotations

import re
from dataclasses import dataclass, field
from typing import Callable, Optional, Union

from . import grammar
from .cards import Card, Kind, Name, Packet, Shape, kind_of_word

MOST = 2 ** 64 - 1
DIGITS = re.compile(rb"0|[1-9][0-9]{0,19}")

REPLY_VERBS = frozenset((
    b"socket", b"bind", b"listen", b"connect", b"accept", b"close", b"drop", b"at", b"reap",
    b"look", b"packets", b"syn", b"ack", b"dump", b"item"))


@dataclass(frozen=True)
class BadRecord:
    """Line n is the first that can't stand there."""

    line: int

    def text(self) -> str:
        """The program's line."""
        return f"bad record line {self.line}"


@dataclass(frozen=True)
class Change:
    """A Hash or Unhash with both of its stamps."""

    begin: int
    end: int


@dataclass(frozen=True)
class Life:
    """A `life` line; the card's name has the number 0, since no line shows it."""

    line: int
    bucket: int
    slot: int
    card: Card
    hash: Change
    unhash: Optional[Change]

    @property
    def changes(self) -> list[Change]:
        """The hash, and the unhash if there is one."""
        return [self.hash] + ([self.unhash] if self.unhash else [])

    @property
    def numbers(self) -> list[int]:
        """Its stamps in the line's order."""
        return [n for change in self.changes for n in (change.begin, change.end)]

    @property
    def key(self) -> tuple[int, str, Kind]:
        """Script, label and kind."""
        return (self.card.name.script, self.card.name.label, self.card.kind)


@dataclass(frozen=True)
class Again:
    """`again foreign B`, `dead`, `changed` or `long`, and the chain walked."""

    why: str
    number: int
    walked: int


@dataclass(frozen=True)
class Found:
    """`KIND n.S`."""

    kind: Kind
    script: int
    label: str


@dataclass(frozen=True)
class Receipt:
    """A `packet` line that isn't skip or short; answer None is `none`."""

    answer: Union[Found, Again, None]
    t0: int
    t1: int
    packet: Packet


@dataclass(frozen=True)
class PacketLine:
    """A `packet` line: a receipt, or `skip` or `short`."""

    line: int
    what: Union[Receipt, str]


@dataclass(frozen=True)
class ReplyLine:
    """A command's line, by its words."""

    line: int
    words: tuple[str, ...]

    @property
    def text(self) -> str:
        """The line without its line feed."""
        return " ".join(self.words)


@dataclass
class Record:
    """The whole text."""

    lookers: int = 0
    passes: int = 0
    shape: Shape = Shape()
    seed: int = 0
    replies: list[ReplyLine] = field(default_factory=list)
    journals: list[tuple[int, int, int]] = field(default_factory=list)  # line, bucket, count
    lives: list[Life] = field(default_factory=list)
    packets: list[PacketLine] = field(default_factory=list)
    cut: bool = False
    clock: int = 0
    clock_line: int = 0


class Outside(Exception):
    """The line isn't in the grammar."""


class Words:
    """A cursor over a line's words."""

    def __init__(self, line: bytes) -> None:
        self.words = line.split(b" ")
        self.at = 0

    def left(self) -> int:
        """How many words are left."""
        return len(self.words) - self.at

    def peek(self) -> bytes:
        """The next word, or nothing."""
        return self.words[self.at] if self.left() else b""

    def take(self) -> bytes:
        """The next word."""
        if not self.left():
            raise Outside
        self.at += 1
        return self.words[self.at - 1]

    def expect(self, *words: bytes) -> None:
        """The next words are these."""
        for word in words:
            if self.take() != word:
                raise Outside

    def number(self, least: int = 0, most: int = MOST) -> int:
        """A number without a leading zero, in its range."""
        word = self.take()
        if not DIGITS.fullmatch(word) or not least <= int(word) <= most:
            raise Outside
        return int(word)

    def kind(self, kind: str) -> int:
        """A value of a kind of grammar.py."""
        value = grammar.KINDS[kind](self.take())
        if value is None:
            raise Outside
        return value

    def an_end(self) -> tuple[int, int]:
        """An end."""
        value = grammar.an_end(self.take())
        if value is None:
            raise Outside
        return value

    def done(self) -> None:
        """No word is left."""
        if self.left():
            raise Outside


class Reader:
    """Reads the lines in their order."""

    ORDER = ("race", "shape", "reply", "journal", "life", "packet", "cut", "clock", "end")

    def __init__(self) -> None:
        self.record = Record()
        self.phase = 0
        self.line = 0

    def take(self, line: bytes) -> None:
        """One line; raises Outside."""
        self.line += 1
        words = Words(line)
        first = words.peek()
        part = first.decode("latin-1") if first in (
            b"race", b"shape", b"journal", b"life", b"packet", b"cut", b"clock") else "reply"
        place = self.ORDER.index(part)
        if self.phase < 2 and place != self.phase:
            raise Outside
        if place < self.phase:
            raise Outside
        readers: dict[str, Callable[[Words], None]] = {
            "race": self._race, "shape": self._shape, "reply": self._reply,
            "journal": self._journal, "life": self._life, "packet": self._packet,
            "cut": self._cut, "clock": self._clock,
        }
        readers[part](words)
        once = part in ("race", "shape", "cut", "clock")
        self.phase = place + 1 if once else place

    def _race(self, w: Words) -> None:
        w.expect(b"race", b"lookers")
        self.record.lookers = w.number()
        w.expect(b"passes")
        self.record.passes = w.number()
        w.done()

    def _shape(self, w: Words) -> None:
        w.expect(b"shape")
        self.record.shape = Shape(w.kind("slots"), w.kind("bindpower"),
                                  w.kind("hashpower"), w.kind("listenpower"))
        w.expect(b"seed")
        self.record.seed = w.kind("seed")
        w.done()

    def _reply(self, w: Words) -> None:
        """First word 1 to 64, second a verb or `item`, then at least one word."""
        w.number(1, 64)
        if w.take() not in REPLY_VERBS or not w.left():
            raise Outside
        if any(not word or min(word) <= 32 for word in w.words):
            raise Outside
        words = tuple(word.decode("latin-1") for word in w.words)
        self.record.replies.append(ReplyLine(self.line, words))

    def _journal(self, w: Words) -> None:
        w.expect(b"journal")
        self.record.journals.append((self.line, w.number(), w.number()))
        w.done()

    def named_kind(self, w: Words) -> tuple[Kind, int, str]:
        """`KIND n.S`."""
        kind = kind_of_word(w.take().decode("latin-1"))
        if kind is None:
            raise Outside
        script, dot, label = w.take().partition(b".")
        number, text = grammar.number(script, 1, 64), grammar.label(label)
        if not dot or number is None or text is None:
            raise Outside
        return kind, number, text

    def device(self, w: Words) -> tuple[int, int]:
        """`dev D`, and ` net N` where N isn't 0."""
        w.expect(b"dev")
        dev = w.number(0, 65535)
        if w.peek() == b"net":
            w.take()
            return dev, w.number(1, 15)
        return dev, 0

    def _life(self, w: Words) -> None:
        w.expect(b"life")
        bucket, slot = w.number(), w.number()
        kind, script, label = self.named_kind(w)
        local, lport = w.an_end()
        remote, rport = w.an_end()
        dev, net = self.device(w)
        w.expect(b"hash")
        hashed = Change(w.number(), w.number())
        w.expect(b"unhash")
        unhash = None
        if w.peek() == b"-":
            w.take()
        else:
            unhash = Change(w.number(), w.number())
        w.done()
        if self.record.lives and hashed.begin < self.record.lives[-1].hash.begin:
            raise Outside                          # `life` lines ascend by B0
        card = Card(local, lport, remote, rport, dev, net, kind, Name(script, 0, label))
        self.record.lives.append(Life(self.line, bucket, slot, card, hashed, unhash))

    def _again(self, w: Words) -> Again:
        w.expect(b"again")
        why = w.take()
        if why not in (b"foreign", b"dead", b"changed", b"long"):
            raise Outside
        number = w.number()
        w.expect(b"in")
        return Again(why.decode(), number, w.number())

    def _packet(self, w: Words) -> None:
        w.expect(b"packet")
        if w.number() != len(self.record.packets) + 1:
            raise Outside                          # numbered from 1
        if w.peek() in (b"skip", b"short"):
            word = w.take().decode()
            w.done()
            self.record.packets.append(PacketLine(self.line, word))
            return
        answer: Union[Found, Again, None] = None
        if w.peek() == b"none":
            w.take()
        elif w.peek() == b"again":
            answer = self._again(w)
        else:
            answer = Found(*self.named_kind(w))
        w.expect(b"t0")
        t0 = w.number()
        w.expect(b"t1")
        t1 = w.number()
        w.expect(b"from")
        src, sport = w.an_end()
        w.expect(b"to")
        dst, dport = w.an_end()
        dev, net = self.device(w)
        w.done()
        packet = Packet(src, sport, dst, dport, dev, net)
        self.record.packets.append(PacketLine(self.line, Receipt(answer, t0, t1, packet)))

    def _cut(self, w: Words) -> None:
        w.expect(b"cut")
        w.done()
        self.record.cut = True

    def _clock(self, w: Words) -> None:
        w.expect(b"clock")
        self.record.clock = w.number()
        self.record.clock_line = self.line
        w.done()


def read(text: bytes) -> Union[Record, BadRecord]:
    """The record, or the first line outside the grammar."""
    reader = Reader()
    lines = text.split(b"\n")
    rest = lines.pop()                             # what has no line feed
    for number, line in enumerate(lines, 1):
        try:
            reader.take(line)
        except Outside:
            return BadRecord(number)
    if rest or Reader.ORDER[reader.phase] != "end":
        return BadRecord(len(lines) + 1)
    return reader.record
