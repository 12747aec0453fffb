"""Texts for `inet audit`: those of races, and near misses of each kind of `no`."""

from __future__ import annotations

import random
import re

from . import fuzz_scripts, micro, simulate

STAMPS = re.compile(rb"hash (\d+) (\d+) unhash (?:(\d+) (\d+)|-)")
ENDS = re.compile(rb"(life \d+ \d+ [a-z-]+ \S+ )(\S+ \S+)( dev)")
PACKET = re.compile(rb"packet (\S+) (.*?) t0 (.*)\Z")
SHAPE = re.compile(rb"^shape (\d+) ", re.M)
CLOCK = re.compile(rb"^clock (\d+)\n\Z", re.M)
NUMBER = re.compile(rb"(?<![0-9.:a-zA-Z_-])\d+(?![0-9.:a-zA-Z_-])")

BAD_NUMBERS = (b"00", b"01", b"-1", b"+1", b"18446744073709551615", b"18446744073709551616",
               b"99999999999999999999999", b"x", b"", b"65535", b"65536", b"4294967296", b"0",
               b"1", b"64", b"65")
BAD_LINES = (b"1 socket a ok", b"65 socket a ok", b"0 socket a ok", b"1 walk a ok", b"1 socket",
             b"1 at 5 ok", b"1 item x", b"1 dump", b"2 item listen 1.a \x7f\xff", b"cut", b"cut x",
             b"clock 5", b"clock", b"journal 0 1", b"journal 0", b"journal 9 0", b"packet 1 skip",
             b"packet 0 skip", b"", b" ", b"1  socket a ok", b"1 socket a ok ", b"1 socket a ok\r",
             b"1 syn r ok", b"1 ack c ENFILE 2 0", b"1 socket a\tok",
             b"race lookers 1 passes 1", b"shape 1 1 1 1 seed 0", b"1 listen a ENFILE 1 0",
             b"1 close a ok no-slot 1 0", b"1 reap ENFILE", b"1 reap ENFILE x")


def lines_of(text: bytes) -> list[bytes]:
    """The lines."""
    return text.split(b"\n")[:-1]


def joined(lines: list[bytes]) -> bytes:
    """The lines, each ended."""
    return b"".join(line + b"\n" for line in lines)


def swap_stamps(text: bytes, choose: random.Random) -> bytes:
    """Two stamps that follow one another change places; lives stay by B0."""
    numbers = sorted({int(n) for m in STAMPS.findall(text) for n in m if n})
    if len(numbers) < 2:
        return text
    at = choose.randrange(len(numbers) - 1)
    a, b = numbers[at], numbers[at + 1]

    def swapped(m: re.Match[bytes]) -> bytes:
        """The stamps with the two exchanged."""
        new = [{a: b, b: a}.get(int(n), int(n)) if n else None for n in m.groups()]
        tail = b"-" if new[2] is None else b"%d %d" % (new[2], new[3])
        return b"hash %d %d unhash %s" % (new[0], new[1], tail)

    return by_beginning(STAMPS.sub(swapped, text))


def by_beginning(text: bytes) -> bytes:
    """The life lines sorted by B0."""
    lines = lines_of(text)
    lives = [line for line in lines if line.startswith(b"life ")]

    def beginning(line: bytes) -> int:
        """A line's B0."""
        m = STAMPS.search(line)
        return int(m[1]) if m else 0

    lives.sort(key=beginning)
    return joined([lives.pop(0) if line.startswith(b"life ") else line for line in lines])


def copy_ends(text: bytes, choose: random.Random) -> bytes:
    """A life gets another's ends."""
    lines = lines_of(text)
    lives = [i for i, line in enumerate(lines) if line.startswith(b"life ")]
    if len(lives) < 2:
        return text
    one, other = choose.sample(lives, 2)
    found = ENDS.search(lines[other])
    if found:
        lines[one] = ENDS.sub(lambda m: m[1] + found[2] + m[3], lines[one])
    return joined(lines)


def copy_slot(text: bytes, choose: random.Random) -> bytes:
    """A life gets another's slot, or bucket."""
    lines = lines_of(text)
    lives = [i for i, line in enumerate(lines) if line.startswith(b"life ")]
    if len(lives) < 2:
        return text
    one, other = choose.sample(lives, 2)
    word = choose.choice((1, 2, 2))
    words, others = lines[one].split(b" "), lines[other].split(b" ")
    words[word] = others[word]
    lines[one] = b" ".join(words)
    return joined(lines)


def no_unhash(text: bytes, choose: random.Random) -> bytes:
    """A life loses its unhash, and the clock may follow."""
    found = list(re.finditer(rb"unhash \d+ \d+", text))
    if not found:
        return text
    m = choose.choice(found)
    text = text[:m.start()] + b"unhash -" + text[m.end():]
    clock = CLOCK.search(text)                     # an earlier change may have spoilt its line
    if clock and choose.random() < 0.7:
        text = text[:clock.start()] + b"clock %d\n" % (int(clock[1]) - 2)
    return text


def change_answer(text: bytes, choose: random.Random) -> bytes:
    """A packet's answer, or one of its numbers, is another."""
    lines = lines_of(text)
    lives = [words for words in (line.split(b" ") for line in lines)
             if words[0] == b"life" and len(words) > 4]      # whole, whatever was changed before
    packets = [i for i, line in enumerate(lines) if PACKET.match(line)]
    if not packets:
        return text
    at = choose.choice(packets)
    number, answer, tail = PACKET.match(lines[at]).groups()
    if choose.random() < 0.7:
        answer = choose.choice(other_answers(text, lives, choose))
    if choose.random() < 0.4:
        t0 = choose.randrange(12)
        tail = re.sub(rb"^\d+ t1 \d+", b"%d t1 %d" % (t0, t0 + choose.randrange(8)), tail)
    lines[at] = b"packet %s %s t0 %s" % (number, answer, tail)
    return joined(lines)


def other_answers(text: bytes, lives: list[list[bytes]], choose: random.Random) -> list[bytes]:
    """Answers by the lives of the text, and each reason of `again`."""
    bucket = choose.choice(lives)[1] if lives else b"0"
    slot = choose.choice(lives)[2] if lives else b"0"
    walked = choose.choice((bucket, b"0", b"1", b"2"))
    shape = SHAPE.search(text)
    links = (int(shape[1]) if shape else 2) + choose.choice((0, 1))
    again = [b"foreign %s" % bucket, b"dead %s" % slot, b"changed %s" % slot, b"long %d" % links]
    return ([b"none"] + [b"again %s in %s" % (why, walked) for why in again]
            + [b"%s %s" % (life[3], life[4]) for life in lives])


def change_number(text: bytes, choose: random.Random) -> bytes:
    """A number is another, or no number."""
    found = list(NUMBER.finditer(text))
    m = choose.choice(found)
    new = choose.choice((choose.choice(BAD_NUMBERS), choose.choice(found).group(),
                         b"%d" % (int(m.group()) + choose.choice((-1, 1, 2)))))
    return text[:m.start()] + new + text[m.end():]


def change_line(text: bytes, choose: random.Random) -> bytes:
    """A line is left out, doubled, moved, or another put in."""
    lines = lines_of(text)
    at = choose.randrange(len(lines) + 1)
    what = choose.randrange(4)
    if what == 0 and at < len(lines):
        lines.pop(at)
    elif what == 1:
        lines.insert(at, choose.choice(lines))
    elif what == 2:
        lines.insert(at, lines.pop(choose.randrange(len(lines))))
    else:
        lines.insert(at, choose.choice(BAD_LINES))
    return joined(lines)


def change_bytes(text: bytes, choose: random.Random) -> bytes:
    """A byte is another, or the text ends early."""
    at = choose.randrange(len(text))
    if choose.random() < 0.4:
        return text[:at]
    return text[:at] + bytes([choose.choice((0, 10, 13, 32, 45, 48, 57, 255))]) + text[at + 1:]


CHANGES = (swap_stamps, swap_stamps, swap_stamps, copy_ends, copy_ends, copy_slot, copy_slot,
           no_unhash, no_unhash, change_answer, change_answer, change_number, change_line,
           change_bytes)


def undecided(text: bytes) -> bool:
    """Whether the text has what the manual page leaves open (README.md, Choices)."""
    lines = [line.split(b" ") for line in text.split(b"\n")]
    head = re.search(rb"^race lookers (\d+) passes (\d+)$", text, re.M)
    if head and not (1 <= int(head[1]) <= 16 and 1 <= int(head[2]) <= 64):
        return True
    if any(words[1:2] in ([b"look"], [b"packets"]) for words in lines):
        return True
    journals = re.findall(rb"^journal (\d+) (\d+)$", text, re.M)
    order = [int(bucket) for bucket, _ in journals]
    bind = re.search(rb"^shape \d+ (\d+) ", text, re.M)
    most = int(bind[1]) if bind else 256
    if order != sorted(set(order)) or any(b >= most for b in order) or (
            b"0" in [count for _, count in journals]):
        return True
    begins = [int(b) for b in re.findall(rb"^life .* hash (\d+) ", text, re.M)]
    if any(a == b for a, b in zip(begins, begins[1:])):
        return True
    scripts = re.findall(rb" (\d+)\.[A-Za-z0-9_-]{1,16} ", text)
    return any(not 1 <= int(n) <= 64 for n in scripts)


def audit_text(seed: int, number: int) -> bytes:
    """Text `number` of a seed, of those that are decided."""
    choose = random.Random(f"audit {seed} {number}")
    while undecided(made := one_text(choose)):
        pass
    return made


def one_text(choose: random.Random) -> bytes:
    """A text of a race, mostly with a change or two."""
    made = b""
    while not made.startswith(b"race"):
        data = fuzz_scripts.script(choose.randrange(2 ** 32), 0, True)
        simulator = choose.choice((micro.race, simulate.race))
        made = simulator(data, choose.choice((1, 3)), choose.choice((1, 2)),
                         choose.randrange(2 ** 32)).out
    for _ in range(choose.choice((0, 1, 1, 1, 2))):
        if made.endswith(b"\n") and len(made) > 20:
            made = choose.choice(CHANGES)(made, choose)
    return made
