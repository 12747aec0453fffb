"""Worked rows: inputs of the program, and what it must write to each.

Expectations were written by hand from the rules; nothing here asks the model.
`python3 -m model.rows` runs the model over all of them, `--program PATH` a
program; `--only NAME` those whose names begin so, `--list` prints the names.
"""

from __future__ import annotations

import argparse
import subprocess
import sys
from dataclasses import dataclass
from typing import Optional, Sequence

from . import program, simulate
from .words import read_words

Arrow = tuple[str, str]                            # a line, and the rest of its output line

LIMIT = 16_777_216
RUN = ("run",)
AUDIT = ("audit",)
RACE = ("race", "--lookers", "1", "--passes", "1")


@dataclass(frozen=True)
class Row:
    """The words, standard input, standard output and the exit status."""

    name: str
    words: tuple[str, ...]
    data: bytes
    out: bytes
    status: int


def lines(*texts: str) -> bytes:
    """Lines, each ended by a line feed."""
    return "".join(f"{text}\n" for text in texts).encode()


def output_line(section: int, line: str, rest: str) -> str:
    """The output line of a command's line."""
    words = line.split()
    verb = words[0]
    if verb in ("accept", "syn", "ack"):
        return f"{section} {verb} {words[2]} {rest}"
    if verb in ("at", "reap", "look", "dump"):
        return f"{section} {verb} {rest}"
    return f"{section} {verb} {words[1]} {rest}"


def arrows(name: str, header: Sequence[str], body: Sequence[Arrow]) -> Row:
    """A row of one section: lines, and beside each the rest of its output line."""
    text = lines(*header, "script 1", *(line for line, _ in body))
    out = lines(*(output_line(1, line, rest) for line, rest in body))
    return Row(name, RUN, text, out, 0)


def ok(*commands: str) -> list[Arrow]:
    """Commands answered `ok`."""
    return [(command, "ok") for command in commands]


BOUND_TWICE = lines("script 1", "socket a", "socket b", "bind a 0.0.0.0:80", "bind b 10.0.0.1:80")
BOUND_TWICE_OUT = lines("1 socket a ok", "1 socket b ok", "1 bind a ok 80", "1 bind b EADDRINUSE")

ONE_LISTENER = lines("table slots 2 bind 1 hash 1 listen 1", "script 1", "socket a",
                     "bind a 10.0.0.1:80", "listen a")


def one_listener_text(dump: Sequence[str] = (), clock: int = 2, stamps: str = "hash 0 1") -> bytes:
    """What a race of the script above writes."""
    return lines("race lookers 1 passes 1", "shape 2 1 1 1 seed 0", "1 socket a ok", "1 bind a ok 80",
                 "1 listen a ok 80", *dump, "journal 0 3",
                 f"life 1 0 listen 1.a 10.0.0.1:80 0.0.0.0:0 dev 0 {stamps} unhash -",
                 f"clock {clock}")


# A pcap file of Ethernet: a packet, a frame of ARP, the packet in a VLAN, a later fragment, and
# a record that is cut off.
PCAP = bytes.fromhex("""
d4c3b2a1 0200 0400 00000000 00000000 ffff0000 01000000
00000000 00000000 26000000 36000000
000000000000 000000000000 0800 45000028 00000000 40060000 0a000002 0a000001 03e80050
00000000 00000000 0e000000 0e000000
000000000000 000000000000 0806
00000000 00000000 2a000000 3a000000
000000000000 000000000000 8100 0005 0800 45000028 00000000 40060000 0a000002 0a000001 03e80050
00000000 00000000 26000000 36000000
000000000000 000000000000 0800 45000028 00000001 40060000 0a000002 0a000001 03e80050
00000000 00000000
""")

# A pcapng file of one packet: a section, an interface, an enhanced packet.
PCAPNG = bytes.fromhex("""
0a0d0d0a 1c000000 4d3c2b1a 0100 0000 ffffffffffffffff 1c000000
01000000 14000000 0100 0000 00000000 14000000
06000000 48000000 00000000 00000000 00000000 26000000 26000000
000000000000 000000000000 0800 45000028 00000000 40060000 0a000002 0a000001 03e80050 0000 48000000
""")

LISTENER = lines("script 1", "socket a", "bind a 0.0.0.0:80", "listen a")
LISTENER_REPLIES = ("1 socket a ok", "1 bind a ok 80", "1 listen a ok 80")
PCAP_ANSWERS = ("packet 1 listen 1.a", "packet 2 skip", "packet 3 listen 1.a", "packet 4 skip")


def rows_of_inputs() -> list[Row]:
    """Inputs as a whole: empty, refused by a line, too long."""
    return [
        Row("nothing", RUN, b"", b"", 0),
        Row("bound twice", RUN, BOUND_TWICE, BOUND_TWICE_OUT, 0),
        Row("label twice", RUN, lines("script 1", "socket a", "socket a"),
            b"bad script line 3\n", 3),
        Row("no section", RUN, lines("bind a 1.2.3.4:5"), b"bad script line 1\n", 3),
        Row("no section, no line feed", RUN, b"bind a 1.2.3.4:5", b"bad script line 1\n", 3),
        Row("capture of three bytes", RUN, b"capture\nabc", b"bad capture\n", 4),
        Row("longest input", RUN, b"#" * LIMIT, b"", 0),
        Row("one byte too long", RUN, b"#" * (LIMIT + 1), b"", 5),
        Row("record of one byte too long", AUDIT, b"#" * (LIMIT + 1), b"", 5),
    ]


def rows_of_words() -> list[Row]:
    """Words that are refused, and some that aren't."""
    refused: list[tuple[str, ...]] = [
        (), ("help",), ("--help",), ("-h",), ("--version",), ("walk",), ("run", "x"), ("run", "run"),
        ("run", "--help"), ("run", ""), ("",), ("run ",), ("make",), ("make", "1"),
        ("make", "1", "2", "3"), ("make", "4294967296", "1"), ("make", "1", "100001"),
        ("make", "x", "1"), ("make", "-1", "1"), ("make", "1", " 1"), ("audit", "x"), ("race",),
        ("race", "--lookers", "1"), ("race", "--passes", "1"),
        ("race", "--lookers", "0", "--passes", "1"), ("race", "--lookers", "17", "--passes", "1"),
        ("race", "--lookers", "1", "--passes", "0"), ("race", "--lookers", "1", "--passes", "65"),
        ("race", "--lookers", "1", "--passes", "1", "x"),
        ("race", "--lookers", "1", "--lookers", "1", "--passes", "1"),
        ("race", "--", "--lookers", "1", "--passes", "1"),
    ]
    made = [Row(f"words {' '.join(words) or '(none)'}", words, BOUND_TWICE, b"", 2)
            for words in refused]
    made += [Row(f"words {' '.join(words)}", words, ONE_LISTENER, one_listener_text(), 0)
             for words in (("race", "--passes=1", "--lookers=1"),
                           ("race", "--passes", "1", "--lookers=1"),
                           ("race", "--passes", "+1", "--lookers", "01"))]
    none = lines("commands 0", "ok 0", "refused 0", "found 0", "none 0")
    made += [Row(f"words {' '.join(words)}", words, b"", none, 0)
             for words in (("make", "1", "0"), ("make", "+1", "00"), ("make", "--", "4294967295", "0"))]
    made.append(Row("words run --", ("run", "--"), BOUND_TWICE, BOUND_TWICE_OUT, 0))
    return made


def rows_of_bind() -> list[Row]:
    """`bind` and `listen` to a port."""
    made = [
        arrows("until one listens", (), ok("socket a reuseaddr", "socket b reuseaddr",
                                           "socket c reuseaddr") + [
            ("bind a 10.0.0.1:80", "ok 80"), ("bind b 10.0.0.1:80", "ok 80"),
            ("listen a", "ok 80"), ("listen b", "EADDRINUSE"),
            ("bind c 10.0.0.1:80", "EADDRINUSE"), ("listen a", "ok 80")]),
        arrows("shared by one user", (), ok("socket a uid 1 reuseport", "socket b uid 2 reuseport",
                                            "socket c uid 1 reuseport") + [
            ("bind a 10.0.0.1:80", "ok 80"), ("bind b 10.0.0.1:80", "EADDRINUSE"),
            ("bind c 10.0.0.1:80", "ok 80")]),
        arrows("beside each other by device", (), ok("socket a dev 1", "socket b dev 2", "socket c") + [
            ("bind a 10.0.0.1:80", "ok 80"), ("bind b 10.0.0.1:80", "ok 80"),
            ("bind c 10.0.0.1:80", "EADDRINUSE")]),
        arrows("one slot", ("table slots 1 bind 1 hash 1 listen 1",), ok("socket a", "socket b") + [
            ("bind a 10.0.0.1:80", "ok 80"), ("bind b 10.0.0.1:81", "ok 81"),
            ("listen a", "ok 80"), ("listen b", "ENFILE 1 0"),
            ("look 10.0.0.2:5 10.0.0.1:80", "listen 1.a")]),
    ]
    for closing in ("close", "drop"):
        for option in ("", " reuseaddr"):
            tail = [("bind d 10.0.0.1:80", "EADDRINUSE")] if not option else [
                ("bind d 10.0.0.1:80", "ok 80"), ("listen d", "ok 80")]
            made.append(arrows(f"child keeps the port: {closing}{option}", (), [
                (f"socket a{option}", "ok"), ("bind a 10.0.0.1:80", "ok 80"),
                ("listen a", "ok 80"),
                ("accept a c from 10.0.0.2:1000 at 10.0.0.1:80", "ok"),
                (f"{closing} a", "ok"), (f"socket d{option}", "ok")] + tail))
    return made


def rows_of_ports() -> list[Row]:
    """Searches for a port."""
    binds = [(f"bind {s} 0.0.0.0:0", rest) for s, rest in zip(
        "abcde", ("ok 40001", "ok 40003", "ok 40000", "ok 40002", "EADDRINUSE"))]
    from_two = [(f"bind {s} 0.0.0.0:0", f"ok {p}")
                for s, p in zip("abcd", (40003, 40001, 40002, 40000))]
    connects = [(f"connect {s} from 10.0.0.1 to 10.0.0.2:80", f"ok 10.0.0.1:{p}")
                for s, p in zip("abcd", (40002, 40000, 40003, 40001))]
    four = [f"socket {s}" for s in "abcd"]
    return [
        arrows("four ports", ("range 40000 40003", "offset 0"),
               ok(*(f"socket {s}" for s in "abcdef")) + binds
               + [("connect f from 10.0.0.1 to 10.0.0.2:80", "EADDRNOTAVAIL")]),
        arrows("ports shared by connect", ("range 40000 40001",), ok(*four) + [
            ("connect a from 10.0.0.1 to 10.0.0.2:80", "ok 10.0.0.1:40000"),
            ("connect b from 10.0.0.1 to 10.0.0.2:80", "ok 10.0.0.1:40001"),
            ("connect c from 10.0.0.1 to 10.0.0.2:80", "EADDRNOTAVAIL"),
            ("connect d from 10.0.0.1 to 10.0.0.2:81", "ok 10.0.0.1:40000")]),
        arrows("listens anywhere", ("range 40000 40001",), [
            ("socket a", "ok"), ("listen a", "ok 40001"),
            ("look 10.0.0.2:5 10.0.0.7:40001", "listen 1.a")]),
        arrows("binds from an offset", ("range 40000 40003", "offset 2"), ok(*four) + from_two),
        arrows("connects from an offset", ("range 40000 40003", "offset 2"), ok(*four) + connects),
        arrows("reserved ports", ("range 40000 40003", "offset 0", "reserved 40001 40003"),
               ok(*four) + [
            ("bind a 0.0.0.0:0", "ok 40000"), ("bind b 0.0.0.0:0", "ok 40002"),
            ("bind c 0.0.0.0:0", "EADDRINUSE"), ("bind d 0.0.0.0:40001", "ok 40001")]),
        arrows("late ports", ("range 40000 40001",), ok("socket a noport", "socket b noport") + [
            ("bind a 10.0.0.1:0", "ok 0"), ("bind b 10.0.0.1:0", "ok 0"),
            ("connect a to 10.0.0.2:80", "ok 10.0.0.1:40000"),
            ("connect b to 10.0.0.2:81", "ok 10.0.0.1:40000"),
            ("socket c noport", "ok"), ("bind c 10.0.0.9:0", "ok 0"), ("listen c", "ok 40001"),
            ("look 10.0.0.2:5 10.0.0.9:40001", "listen 1.c"),
            ("look 10.0.0.2:5 10.0.0.7:40001", "none")]),
    ]


def rows_of_connections() -> list[Row]:
    """Connections, TIME_WAITs, and which states refuse what."""
    made = [
        arrows("one four-tuple, accepted", (), [
            ("socket a", "ok"), ("bind a 10.0.0.1:80", "ok 80"), ("listen a", "ok 80"),
            ("accept a c from 10.0.0.2:1000 at 10.0.0.1:80", "ok"),
            ("accept a d from 10.0.0.2:1000 at 10.0.0.1:80", "EADDRNOTAVAIL"),
            ("look 10.0.0.2:1000 10.0.0.1:80", "full 1.c"), ("drop c", "ok"),
            ("look 10.0.0.2:1000 10.0.0.1:80", "listen 1.a")]),
        arrows("one four-tuple, connected", (), ok("socket a reuseaddr", "socket b reuseaddr") + [
            ("bind a 10.0.0.1:90", "ok 90"), ("bind b 10.0.0.1:90", "ok 90"),
            ("connect a to 10.0.0.2:80", "ok 10.0.0.1:90"),
            ("connect b to 10.0.0.2:80", "EADDRNOTAVAIL")]),
        arrows("no slot for a TIME_WAIT", ("table slots 1 bind 1 hash 1 listen 1",), [
            ("socket l", "ok"), ("bind l 10.0.0.1:80", "ok 80"), ("listen l", "ok 80"),
            ("accept l c from 10.0.0.2:1000 at 10.0.0.1:80", "ENFILE 1 0"), ("drop l", "ok"),
            ("accept l d from 10.0.0.2:1000 at 10.0.0.1:80", "EBADF"), ("socket k", "ok"),
            ("bind k 10.0.0.1:90", "ok 90"), ("connect k to 10.0.0.2:80", "ok 10.0.0.1:90"),
            ("close k", "ok no-slot 1 0"), ("look 10.0.0.2:80 10.0.0.1:90", "none")]),
        arrows("states refuse", (), [
            ("socket a", "ok"), ("connect a to 10.0.0.2:80", "EINVAL"),
            ("bind a 10.0.0.1:90", "ok 90"), ("bind a 10.0.0.1:91", "EINVAL"),
            ("connect a from 10.0.0.3 to 10.0.0.2:80", "EINVAL"),
            ("connect a to 10.0.0.2:80", "ok 10.0.0.1:90"), ("listen a", "EINVAL"),
            ("connect a to 10.0.0.2:81", "EISCONN"),
            ("accept a b from 10.0.0.2:81 at 10.0.0.1:90", "EINVAL"), ("drop a", "ok"),
            ("drop a", "EBADF"), ("close b", "EBADF"), ("at 5", "5 ok"), ("at 4", "4 EINVAL")]),
    ]
    for switch, second, look, first_reap, last_reap in (
            (1, "ok 10.0.0.1:5000", "full 1.b", "ok 0", "ok 0"),
            (0, "EADDRNOTAVAIL", "time-wait 1.a", "ok 0", "ok 1")):
        made.append(arrows(f"a TIME_WAIT, twreuse {switch}", (f"twreuse {switch}",), [
            ("socket a reuseaddr", "ok"), ("bind a 10.0.0.1:5000", "ok 5000"),
            ("connect a to 10.0.0.2:80", "ok 10.0.0.1:5000"), ("close a", "ok time-wait"),
            ("socket b reuseaddr", "ok"), ("bind b 10.0.0.1:5000", "ok 5000"),
            ("connect b to 10.0.0.2:80", "EADDRNOTAVAIL"), ("at 1", "1 ok"),
            ("connect b to 10.0.0.2:80", second), ("look 10.0.0.2:80 10.0.0.1:5000", look),
            ("at 59", "59 ok"), ("reap", first_reap), ("at 60", "60 ok"), ("reap", last_reap)]))
    return made


def rows_of_groups() -> list[Row]:
    """Which listener a packet finds, and groups."""
    from_1001 = "look 10.0.0.2:1001 10.0.0.1:80"
    made = [
        arrows("the better listener", (), [
            ("socket w reuseport", "ok"), ("bind w 0.0.0.0:80", "ok 80"), ("listen w", "ok 80"),
            ("socket x reuseport", "ok"), ("bind x 10.0.0.1:80", "ok 80"), ("listen x", "ok 80"),
            ("socket y dev 3 reuseport", "ok"), ("bind y 10.0.0.1:80", "ok 80"),
            ("listen y", "ok 80"), ("accept x e from 10.0.0.2:1000 at 10.0.0.1:80", "ok"),
            ("look 10.0.0.2:1000 10.0.0.1:80", "full 1.e"), (from_1001, "listen 1.x"),
            (f"{from_1001} dev 3", "listen 1.y"), (f"{from_1001} dev 4", "listen 1.x"),
            ("look 10.0.0.2:1001 10.0.0.9:80", "listen 1.w"),
            ("look 10.0.0.2:1001 10.0.0.9:81", "none"), ("drop x", "ok"),
            (f"{from_1001} dev 4", "listen 1.w")]),
        arrows("chosen by the hash", ("seed 559038725",),
               ok(*(f"socket {s} reuseport" for s in "abc"))
               + [(f"bind {s} 10.0.0.1:80", "ok 80") for s in "abc"]
               + [(f"listen {s}", "ok 80") for s in "abc"] + [
            ("look 10.0.0.2:1002 10.0.0.1:80", "listen 1.a"),
            ("look 10.0.0.2:1000 10.0.0.1:80", "listen 1.c"),
            ("look 10.0.0.2:1001 10.0.0.1:80", "listen 1.c"), ("drop a", "ok"),
            ("look 10.0.0.2:1002 10.0.0.1:80", "listen 1.c"),
            ("look 10.0.0.2:1000 10.0.0.1:80", "listen 1.b")]),
    ]
    labels = [f"s{i}" for i in range(1, 66)]
    head = ok(*(f"socket {s} reuseport" for s in labels))
    binds = [(f"bind {s} 10.0.0.1:80", "ok 80") for s in labels]
    listens = [(f"listen {s}", r) for s, r in zip(labels, ["ok 80"] * 64 + ["EMFILE"])]
    made.append(arrows("a member too many", (), head + binds + listens))
    one_by_one = [arrow for three in zip(head, binds, listens) for arrow in three]
    made.append(arrows("a member too many, one by one", (), one_by_one))
    return made


def rows_of_handshakes() -> list[Row]:
    """Namespaces, requests and a list of all sockets."""
    ends = "from 10.0.0.2:1000 at 10.0.0.1:80"
    look = "look 10.0.0.2:1000 10.0.0.1:80"
    begun = [("socket a", "ok"), ("bind a 10.0.0.1:80", "ok 80"), ("listen a", "ok 80"),
             (f"syn a r {ends}", "ok")]
    return [
        arrows("namespaces", (), [
            ("socket a", "ok"), ("socket b net 1", "ok"),
            ("bind a 10.0.0.1:80", "ok 80"), ("listen a", "ok 80"),
            ("bind b 10.0.0.1:80", "ok 80"), ("listen b", "ok 80"),
            ("look 10.0.0.2:5 10.0.0.1:80", "listen 1.a"),
            ("look 10.0.0.2:5 10.0.0.1:80 net 1", "listen 1.b"),
            ("look 10.0.0.2:5 10.0.0.1:80 net 2", "none"),
            ("socket c", "ok"), ("socket d net 1", "ok"),
            ("bind c 10.0.0.1:90", "ok 90"), ("bind d 10.0.0.1:90", "ok 90"),
            ("connect c to 10.0.0.2:80", "ok 10.0.0.1:90"),
            ("connect d to 10.0.0.2:80", "ok 10.0.0.1:90")]),
        arrows("a handshake", (), begun + [
            (look, "request 1.r"), (f"syn a q {ends}", "EADDRNOTAVAIL"),
            (f"accept a b {ends}", "EADDRNOTAVAIL"), ("ack r c", "ok"), (look, "full 1.c"),
            ("ack r d", "EBADF")]),
        arrows("a handshake without a slot", ("table slots 2 bind 1 hash 1 listen 1",), begun + [
            ("ack r c", "ENFILE 2 0"), (look, "request 1.r"), ("drop a", "ok"),
            ("ack r d", "EINVAL")]),
        Row("a dump", RUN, ONE_LISTENER + b"dump\n",
            lines("1 socket a ok", "1 bind a ok 80", "1 listen a ok 80", "1 dump 1",
                  "1 item listen 1.a 10.0.0.1:80 0.0.0.0:0 dev 0"), 0),
    ]


def rows_of_races() -> list[Row]:
    """Races that have one text, whatever the schedule."""
    dump = ("1 dump 1 t0 2 t1 2", "1 item listen 1.a 10.0.0.1:80 0.0.0.0:0 dev 0")
    answer = "none t0 0 t1 0 from 10.0.0.2:1000 to 10.0.0.1:80 dev 0"
    return [
        Row("race: one listener", RACE, ONE_LISTENER, one_listener_text(), 0),
        Row("race: a dump", RACE, ONE_LISTENER + b"dump\n", one_listener_text(dump), 0),
        Row("race: nobody listens", ("race", "--lookers", "2", "--passes", "1"),
            lines("script 1", "socket a", "socket b", "script 2", "socket c", "socket d",
                  "capture") + PCAP,
            lines("race lookers 2 passes 1", "shape 1024 16 256 32 seed 0", "1 socket a ok",
                  "1 socket b ok", "2 socket c ok", "2 socket d ok", f"packet 1 {answer}",
                  "packet 2 skip", f"packet 3 {answer}", "packet 4 skip", "cut", "clock 0"), 0),
        Row("race: a line of run alone", RACE, lines("script 1", "look 10.0.0.1:1 10.0.0.2:2"),
            b"bad script line 2\n", 3),
    ]


def rows_of_audits() -> list[Row]:
    """Records, lawful and not."""
    text = lines(
        "race lookers 1 passes 1", "shape 2 1 1 1 seed 0", "1 socket a ok", "1 bind a ok 80",
        "1 listen a ok 80", "journal 0 3",
        "life 1 0 listen 1.a 10.0.0.1:80 0.0.0.0:0 dev 0 hash 0 1 unhash -",
        "packet 1 listen 1.a t0 2 t1 2 from 10.0.0.2:1000 to 10.0.0.1:80 dev 0",
        "packet 2 skip", "packet 3 none t0 0 t1 1 from 10.0.0.2:1000 to 10.0.0.1:80 dev 0",
        "packet 4 skip", "cut", "clock 2")
    return [
        Row("audit: one listener", AUDIT, one_listener_text(),
            b"yes lives 1 packets 0 clock 2\n", 0),
        Row("audit: another clock", AUDIT, one_listener_text(clock=3), b"no line 8 count\n", 10),
        Row("audit: no beginning", AUDIT, one_listener_text(stamps="hash 1 1"),
            b"no line 7 stamp\n", 10),
        Row("audit: nothing", AUDIT, b"", b"bad record line 1\n", 9),
        Row("audit: packets", AUDIT, text, b"yes lives 1 packets 4 clock 2\n", 0),
        Row("audit: none beside a listener", AUDIT, text.replace(b"none t0 0 t1 1", b"none t0 2 t1 2"),
            b"no line 10 receipt\n", 10),
        Row("audit: another chain", AUDIT, text.replace(b"life 1 0", b"life 0 0"),
            b"no line 7 home\n", 10),
    ]


def rows_of_captures() -> list[Row]:
    """Captures, whole and cut at each byte; scripts cut at each byte."""
    script = LISTENER + b"capture\n"
    made = [
        Row("pcap", RUN, script + PCAP, lines(*LISTENER_REPLIES, *PCAP_ANSWERS, "cut"), 0),
        Row("packets between commands", RUN, LISTENER + b"packets 1\ndrop a\ncapture\n" + PCAP,
            lines(*LISTENER_REPLIES, "packet 1 listen 1.a", "1 drop a ok", "packet 2 skip",
                  "packet 3 none", "packet 4 skip", "cut"), 0),
        Row("pcapng", RUN, script + PCAPNG, lines(*LISTENER_REPLIES, "packet 1 listen 1.a"), 0),
        Row("pcapng, cut", RUN, script + PCAPNG[:-4], lines(*LISTENER_REPLIES, "cut"), 0),
        Row("pcapng, 27 bytes", RUN, script + PCAPNG[:27], b"bad capture\n", 4),
    ]
    for length in range(len(PCAP) + 1):
        out, status = capture_cut(length)
        made.append(Row(f"pcap of {length} bytes", RUN, script + PCAP[:length], out, status))
    for length in range(len(BOUND_TWICE) + 1):
        out, status = script_cut(length)
        made.append(Row(f"script of {length} bytes", RUN, BOUND_TWICE[:length], out, status))
    return made


def capture_cut(length: int) -> tuple[bytes, int]:
    """What becomes of the capture cut to a length: its records end at these bytes."""
    if 1 <= length <= 23:
        return b"bad capture\n", 4
    whole = sum(1 for at in (78, 108, 166, 220) if length >= at)
    cut = () if length in (0, 24, 78, 108, 166, 220) else ("cut",)
    return lines(*LISTENER_REPLIES, *PCAP_ANSWERS[:whole], *cut), 0


def script_cut(length: int) -> tuple[bytes, int]:
    """What becomes of the script cut to a length.

    Its lines begin at the bytes 0, 9, 18, 27 and 45. A line that was cut is
    outside the grammar, but where nothing of it is left, where it is whole,
    and where a `bind` lost the last digit of its port: then it binds port 8.
    """
    starts, ends = (0, 9, 18, 27, 45), (8, 17, 26, 44, 63)
    replies = ("", "1 socket a ok", "1 socket b ok", "1 bind a ok 80", "1 bind b EADDRINUSE")
    short = {43: "1 bind a ok 8", 62: "1 bind b ok 8"}
    done = [r for r, e in zip(replies, ends) if r and length >= e]
    if length in short:
        return lines(*done, short[length]), 0
    for number, (start, end) in enumerate(zip(starts, ends), 1):
        if start < length < end:
            return f"bad script line {number}\n".encode(), 3
    return lines(*done), 0


def all_rows() -> list[Row]:
    """Every row."""
    return (rows_of_inputs() + rows_of_words() + rows_of_bind() + rows_of_ports()
            + rows_of_connections() + rows_of_groups() + rows_of_handshakes() + rows_of_races()
            + rows_of_audits() + rows_of_captures())


def by_model(row: Row) -> tuple[bytes, int]:
    """What the model (for `race` the simulator) gives for a row."""
    call = read_words(list(row.words))
    if call is not None and call.verb == "race":
        made = simulate.race(row.data, call.numbers[0], call.numbers[1], 0)
    else:
        made = program.inet(list(row.words), row.data)
    return made.out, made.status


def by_program(path: str, row: Row) -> tuple[bytes, int]:
    """What a program gives for a row."""
    done = subprocess.run([path, *row.words], input=row.data, stdout=subprocess.PIPE,
                          stderr=subprocess.DEVNULL, check=False)
    return done.stdout, done.returncode


def shown(data: bytes) -> str:
    """Bytes for a message, the long ones cut."""
    return repr(data if len(data) <= 1500 else data[:1500] + b"...")


def check(path: Optional[str], only: str = "") -> tuple[int, int]:
    """A program, or the model, over the rows whose names begin so: agree, differ."""
    agree = differ = 0
    for row in all_rows():
        if not row.name.startswith(only):
            continue
        got = by_program(path, row) if path else by_model(row)
        if got == (row.out, row.status):
            agree += 1
            continue
        differ += 1
        print(f"row '{row.name}' ({' '.join(row.words)})")
        print(f"  input    {shown(row.data)}")
        print(f"  expected {row.status} {shown(row.out)}")
        print(f"  got      {got[1]} {shown(got[0])}")
    return agree, differ


def main(arguments: Optional[Sequence[str]] = None) -> int:
    """The command line of this file."""
    parser = argparse.ArgumentParser(prog="python3 -m model.rows", description="worked rows")
    parser.add_argument("--program", help="a program in place of the model")
    parser.add_argument("--only", default="", help="rows whose names begin so")
    parser.add_argument("--list", action="store_true", help="print the names, and end")
    asked = parser.parse_args(arguments)
    if asked.list:
        print("\n".join(row.name for row in all_rows()))
        return 0
    agree, differ = check(asked.program, asked.only)
    print(f"rows: {agree} agree, {differ} differ")
    return 1 if differ else 0


if __name__ == "__main__":
    sys.exit(main())
