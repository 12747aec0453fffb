"""Four races with a lawful text each, checked by eye, and forged texts that the judge must refuse.

`python3 -m model.forged` tries them.
"""

from __future__ import annotations

import sys
from dataclasses import dataclass

from . import judge
from .rows import PCAP, lines


@dataclass(frozen=True)
class Fixture:
    """An input, its words, and a lawful text."""

    name: str
    passes: int
    data: bytes
    text: bytes


SHARED = Fixture("shared", 1, lines(
    "table slots 6 bind 2 hash 2 listen 2", "range 40000 40003", "offset 0", "twreuse 1",
    "script 1", "socket a reuseaddr", "bind a 10.0.0.1:80", "listen a",
    "accept a c from 10.0.0.2:1000 at 10.0.0.1:80",
    "accept a e from 10.0.0.2:1000 at 10.0.0.1:80", "close c", "at 60", "reap",
    "accept a f from 10.0.0.2:1001 at 10.0.0.1:80", "drop f",
    "script 2", "socket b", "bind b 10.0.0.1:81", "connect b to 10.0.0.2:80", "close b", "at 1",
    "socket g", "bind g 10.0.0.1:81", "socket h reuseport", "socket i",
    "connect i from 10.0.0.1 to 10.0.0.2:80", "listen h",
    "connect g from 10.0.0.1 to 10.0.0.2:80", "socket j", "bind j 0.0.0.0:0", "socket k",
    "listen k", "close zz", "capture") + PCAP, lines(
    "race lookers 1 passes 1", "shape 6 2 2 2 seed 0", "1 socket a ok", "1 bind a ok 80",
    "1 listen a ok 80", "1 accept c ok", "1 accept e EADDRNOTAVAIL", "1 close c ok time-wait",
    "1 at 60 ok", "1 reap ok 1", "1 accept f ok", "1 drop f ok", "2 socket b ok",
    "2 bind b ok 81", "2 connect b ok 10.0.0.1:81", "2 close b ok time-wait", "2 at 1 ok",
    "2 socket g ok", "2 bind g EADDRINUSE", "2 socket h ok", "2 socket i ok",
    "2 connect i ok 10.0.0.1:40000", "2 listen h ok 40001", "2 connect g ok 10.0.0.1:40002",
    "2 socket j ok", "2 bind j ok 40003", "2 socket k ok", "2 listen k EADDRINUSE",
    "2 close zz EBADF", "journal 0 15", "journal 1 11",
    "life 2 0 listen 1.a 10.0.0.1:80 0.0.0.0:0 dev 0 hash 0 1 unhash -",
    "life 1 1 full 1.c 10.0.0.1:80 10.0.0.2:1000 dev 0 hash 2 3 unhash 12 13",
    "life 1 2 full 2.b 10.0.0.1:81 10.0.0.2:80 dev 0 hash 4 5 unhash 8 9",
    "life 1 3 time-wait 2.b 10.0.0.1:81 10.0.0.2:80 dev 0 hash 6 7 unhash -",
    "life 1 2 time-wait 1.c 10.0.0.1:80 10.0.0.2:1000 dev 0 hash 10 11 unhash 20 21",
    "life 0 4 full 2.i 10.0.0.1:40000 10.0.0.2:80 dev 0 hash 14 15 unhash -",
    "life 3 5 listen 2.h 0.0.0.0:40001 0.0.0.0:0 dev 0 hash 16 17 unhash -",
    "life 1 1 full 2.g 10.0.0.1:40002 10.0.0.2:80 dev 0 hash 18 19 unhash -",
    "life 0 2 full 1.f 10.0.0.1:80 10.0.0.2:1001 dev 0 hash 22 23 unhash 24 25",
    "packet 1 full 1.c t0 4 t1 4 from 10.0.0.2:1000 to 10.0.0.1:80 dev 0", "packet 2 skip",
    "packet 3 full 1.c t0 4 t1 4 from 10.0.0.2:1000 to 10.0.0.1:80 dev 0", "packet 4 skip",
    "cut", "clock 26"))

REPLACED = Fixture("replaced", 2, lines(
    "table slots 4 bind 2 hash 1 listen 1", "range 40000 40003", "offset 1", "twreuse 1",
    "script 1", "socket a reuseaddr", "bind a 10.0.0.1:80", "connect a to 10.0.0.2:80",
    "close a", "at 1", "socket b reuseaddr", "bind b 10.0.0.1:80", "connect b to 10.0.0.2:80",
    "script 2", "socket r reuseport", "bind r 10.0.0.1:90", "listen r", "socket s reuseport",
    "bind s 10.0.0.1:90", "listen s", "drop r", "socket t", "bind t 10.0.0.1:80", "socket u",
    "connect u from 10.0.0.3 to 10.0.0.2:80"), lines(
    "race lookers 1 passes 2", "shape 4 2 1 1 seed 0", "1 socket a ok", "1 bind a ok 80",
    "1 connect a ok 10.0.0.1:80", "1 close a ok time-wait", "1 at 1 ok", "1 socket b ok",
    "1 bind b ok 80", "1 connect b ok 10.0.0.1:80", "2 socket r ok", "2 bind r ok 90",
    "2 listen r ok 90", "2 socket s ok", "2 bind s ok 90", "2 listen s ok 90", "2 drop r ok",
    "2 socket t ok", "2 bind t EADDRINUSE", "2 socket u ok", "2 connect u ok 10.0.0.3:40000",
    "journal 0 16", "life 1 0 listen 2.r 10.0.0.1:90 0.0.0.0:0 dev 0 hash 0 1 unhash 4 5",
    "life 1 1 listen 2.s 10.0.0.1:90 0.0.0.0:0 dev 0 hash 2 3 unhash -",
    "life 0 0 full 1.a 10.0.0.1:80 10.0.0.2:80 dev 0 hash 6 7 unhash 10 11",
    "life 0 2 time-wait 1.a 10.0.0.1:80 10.0.0.2:80 dev 0 hash 8 9 unhash 14 15",
    "life 0 3 full 1.b 10.0.0.1:80 10.0.0.2:80 dev 0 hash 12 13 unhash -",
    "life 0 2 full 2.u 10.0.0.3:40000 10.0.0.2:80 dev 0 hash 16 17 unhash -", "clock 18"))
# In REPLACED section 1's first slot is 0 although section 2 hashed r there: r was
# unhashed before a was hashed.

HANDSHAKE = Fixture("handshake", 2, lines(
    "table slots 5 bind 2 hash 1 listen 1", "range 40000 40003", "seed 9", "reserved 40001",
    "script 1", "socket a net 1", "bind a 0.0.0.0:80", "listen a",
    "syn a r from 10.0.0.2:1000 at 10.0.0.1:80", "dump", "ack r c", "dump", "close c", "dump",
    "script 2", "socket p noport", "bind p 10.0.0.1:0", "listen p", "drop p", "dump",
    "capture net 1") + PCAP, lines(
    "race lookers 1 passes 2", "shape 5 2 1 1 seed 9", "1 socket a ok", "1 bind a ok 80",
    "1 listen a ok 80", "1 syn r ok", "1 dump 2 t0 4 t1 8",
    "1 item listen 1.a 0.0.0.0:80 0.0.0.0:0 dev 0 net 1",
    "1 item request 1.r 10.0.0.1:80 10.0.0.2:1000 dev 0 net 1", "1 ack c ok",
    "1 dump 2 t0 12 t1 12", "1 item listen 1.a 0.0.0.0:80 0.0.0.0:0 dev 0 net 1",
    "1 item full 1.c 10.0.0.1:80 10.0.0.2:1000 dev 0 net 1", "1 close c ok time-wait",
    "1 dump 2 t0 16 t1 16", "1 item listen 1.a 0.0.0.0:80 0.0.0.0:0 dev 0 net 1",
    "1 item time-wait 1.c 10.0.0.1:80 10.0.0.2:1000 dev 0 net 1", "2 socket p ok",
    "2 bind p ok 0", "2 listen p ok 40003", "2 drop p ok", "2 dump 2 t0 8 t1 8",
    "2 item listen 1.a 0.0.0.0:80 0.0.0.0:0 dev 0 net 1",
    "2 item request 1.r 10.0.0.1:80 10.0.0.2:1000 dev 0 net 1", "journal 1 9",
    "life 1 0 listen 1.a 0.0.0.0:80 0.0.0.0:0 dev 0 net 1 hash 0 1 unhash -",
    "life 0 1 request 1.r 10.0.0.1:80 10.0.0.2:1000 dev 0 net 1 hash 2 3 unhash 10 11",
    "life 1 2 listen 2.p 10.0.0.1:40003 0.0.0.0:0 dev 0 hash 4 5 unhash 6 7",
    "life 0 2 full 1.c 10.0.0.1:80 10.0.0.2:1000 dev 0 net 1 hash 8 9 unhash 14 15",
    "life 0 3 time-wait 1.c 10.0.0.1:80 10.0.0.2:1000 dev 0 net 1 hash 12 13 unhash -",
    "packet 1 request 1.r t0 4 t1 4 from 10.0.0.2:1000 to 10.0.0.1:80 dev 0 net 1",
    "packet 2 skip",
    "packet 3 request 1.r t0 4 t1 4 from 10.0.0.2:1000 to 10.0.0.1:80 dev 0 net 1",
    "packet 4 skip", "cut", "clock 16"))

Swap = tuple[str, str]                             # old and new text, each once in it


@dataclass(frozen=True)
class Wrong:
    """What is wrong, in which text, and the swaps that make it so."""

    what: str
    base: Fixture
    swaps: tuple[Swap, ...]
    why: str = ""                                  # what one of the faults must say

    def text(self) -> bytes:
        """The text that isn't lawful."""
        text = self.base.text.decode()
        for old, new in self.swaps:
            if text.count(old) != 1:
                raise ValueError(f"{self.what}: `{old}` stands {text.count(old)} times")
            text = text.replace(old, new)
        return text.encode()


def wrong(what: str, base: Fixture, *swaps: Swap, why: str = "") -> Wrong:
    """A wrong text."""
    return Wrong(what, base, swaps, why)


REAPED = Fixture("reaped", 1, lines(
    "script 1", "socket a", "bind a 10.0.0.1:80", "connect a to 10.0.0.2:80", "close a", "at 60",
    "reap"), lines(
    "race lookers 1 passes 1", "shape 1024 16 256 32 seed 0", "1 socket a ok", "1 bind a ok 80",
    "1 connect a ok 10.0.0.1:80", "1 close a ok time-wait", "1 at 60 ok", "1 reap ok 1",
    "journal 0 4", "life 241 0 full 1.a 10.0.0.1:80 10.0.0.2:80 dev 0 hash 0 1 unhash 4 5",
    "life 241 1 time-wait 1.a 10.0.0.1:80 10.0.0.2:80 dev 0 hash 2 3 unhash 6 7", "clock 8"))


WRONG = (
    # The text's form.
    wrong("no line feed at the end", SHARED, ("clock 26\n", "clock 26")),
    wrong("another number of lookers", SHARED, ("lookers 1", "lookers 2")),
    wrong("another number of passes", SHARED, ("passes 1", "passes 2")),
    wrong("another shape", SHARED, ("shape 6", "shape 7")),
    wrong("another seed", HANDSHAKE, ("seed 9", "seed 8")),
    wrong("no cut", SHARED, ("cut\n", "")),
    wrong("a blank too many", SHARED, ("1 at 60 ok", "1 at 60  ok")),
    wrong("a command without its line", SHARED, ("1 at 60 ok\n", "")),
    wrong("a line that no command has", SHARED, ("1 at 60 ok\n", "1 at 60 ok\n1 at 60 ok\n")),
    wrong("sections in another order", SHARED, ("1 socket a ok\n", ""), ("2 socket b ok\n",
                                                                   "1 socket a ok\n2 socket b ok\n")),
    wrong("a packet's line is left out", SHARED, ("packet 4 skip\n", "")),
    wrong("packets numbered from 0", SHARED, ("packet 4 skip", "packet 5 skip")),
    wrong("short for skip", SHARED, ("packet 2 skip", "packet 2 short")),
    wrong("lives not by their beginnings", SHARED,
          ("life 2 0 listen 1.a 10.0.0.1:80 0.0.0.0:0 dev 0 hash 0 1 unhash -\n", ""),
          ("hash 2 3 unhash 12 13\n", "hash 2 3 unhash 12 13\n"
           "life 2 0 listen 1.a 10.0.0.1:80 0.0.0.0:0 dev 0 hash 0 1 unhash -\n")),
    # Replies that the section's own state rules out.
    wrong("EBADF answered ok", SHARED, ("2 close zz EBADF", "2 close zz ok")),
    wrong("ok of an open label answered EBADF", SHARED, ("1 drop f ok", "1 drop f EBADF")),
    wrong("bind of another port", SHARED, ("1 bind a ok 80", "1 bind a ok 81")),
    wrong("at back in time", SHARED, ("2 at 1 ok", "2 at 1 EINVAL")),
    wrong("a port outside of the range", SHARED, ("2 bind j ok 40003", "2 bind j ok 40005")),
    wrong("close without TIME_WAIT", SHARED, ("1 close c ok time-wait", "1 close c ok")),
    wrong("connect from another address", SHARED, ("2 connect b ok 10.0.0.1:81",
                                              "2 connect b ok 10.0.0.2:81")),
    wrong("a reserved port", HANDSHAKE, ("2 listen p ok 40003", "2 listen p ok 40001"),
          ("listen 2.p 10.0.0.1:40003", "listen 2.p 10.0.0.1:40001")),
    # Stamps.
    wrong("a stamp twice", SHARED, ("hash 16 17", "hash 15 17")),
    wrong("an end before its beginning", SHARED, ("hash 16 17", "hash 17 16")),
    wrong("a stamp at the clock", SHARED, ("unhash 24 25", "unhash 24 26")),
    wrong("a larger clock", SHARED, ("clock 26", "clock 28")),
    wrong("a change left out", SHARED, (
        "life 0 2 full 1.f 10.0.0.1:80 10.0.0.2:1001 dev 0 hash 22 23 unhash 24 25\n", ""),
        ("clock 26", "clock 22")),
    wrong("changes of a section in another order", SHARED,
          ("dev 0 hash 14 15 unhash -", "dev 0 hash 16 17 unhash -"),
          ("life 3 5 listen 2.h 0.0.0.0:40001 0.0.0.0:0 dev 0 hash 16 17 unhash -\n", ""),
          ("life 0 4 full 2.i", "life 3 5 listen 2.h 0.0.0.0:40001 0.0.0.0:0 dev 0 "
           "hash 14 15 unhash -\nlife 0 4 full 2.i")),
    wrong("overlap in one bucket", SHARED, ("1.c 10.0.0.1:80 10.0.0.2:1000 dev 0 hash 2 3 ",
                                       "1.c 10.0.0.1:80 10.0.0.2:1000 dev 0 hash 2 5 "),
          ("hash 4 5 unhash 8 9", "hash 3 4 unhash 8 9")),
    # Lives.
    wrong("another Home", SHARED, ("life 3 5 listen 2.h", "life 2 5 listen 2.h")),
    wrong("a slot that is in use", SHARED, ("life 3 5 listen 2.h", "life 3 4 listen 2.h")),
    wrong("a slot that the table hasn't", SHARED, ("life 3 5 listen 2.h", "life 3 6 listen 2.h")),
    wrong("not the next free slot", SHARED, ("life 0 4 full 2.i", "life 0 5 full 2.i"),
          ("life 3 5 listen 2.h", "life 3 4 listen 2.h"), why="slot 4 was free"),
    wrong("another kind", SHARED, ("life 1 3 time-wait 2.b", "life 1 3 full 2.b")),
    wrong("another local port", SHARED, ("listen 2.h 0.0.0.0:40001", "listen 2.h 0.0.0.0:40003")),
    wrong("another device", SHARED, ("listen 2.h 0.0.0.0:40001 0.0.0.0:0 dev 0",
                                "listen 2.h 0.0.0.0:40001 0.0.0.0:0 dev 1")),
    wrong("another name", SHARED, ("listen 2.h 0.0.0.0:40001", "listen 2.g 0.0.0.0:40001")),
    wrong("a dropped socket that stays", SHARED, ("unhash 24 25", "unhash -"),
          ("clock 26", "clock 24")),
    wrong("a listener unhashed by nobody", SHARED,
          ("listen 2.h 0.0.0.0:40001 0.0.0.0:0 dev 0 hash 16 17 unhash -",
           "listen 2.h 0.0.0.0:40001 0.0.0.0:0 dev 0 hash 16 17 unhash 26 27"),
          ("clock 26", "clock 28")),
    wrong("a life of a refused command", SHARED,
          ("packet 1", "life 1 3 full 1.e 10.0.0.1:80 10.0.0.2:1000 dev 0 hash 26 27 unhash -\n"
           "packet 1"), ("clock 26", "clock 28")),
    # TIME_WAITs.
    wrong("reap counts too few", SHARED, ("1 reap ok 1", "1 reap ok 0")),
    wrong("reap counts too many", SHARED, ("1 reap ok 1", "1 reap ok 2")),
    wrong("reap leaves an expired one", REAPED, ("1 reap ok 1", "1 reap ok 0"),
          ("journal 0 4", "journal 0 3"), ("unhash 6 7", "unhash -"), ("clock 8", "clock 6"),
          why="it left the TIME_WAIT"),
    wrong("reap of one that isn't expired", Fixture(
        "reaped at 59", 1, REAPED.data.replace(b"at 60", b"at 59"),
        REAPED.text.replace(b"at 60", b"at 59")), why="wasn't expired"),
    wrong("close removes first", REAPED, ("hash 0 1 unhash 4 5", "hash 0 1 unhash 2 3"),
          ("hash 2 3 unhash 6 7", "hash 4 5 unhash 6 7"), why="it adds first"),
    wrong("the TIME_WAIT is kept beside the new socket", REPLACED, ("unhash 14 15", "unhash -"),
          ("hash 16 17", "hash 14 15"), ("clock 18", "clock 16"),
          ("life 0 2 full 2.u", "life 0 0 full 2.u"), why="doesn't replace the TIME_WAIT"),
    wrong("the TIME_WAIT is removed first", REPLACED, ("hash 8 9 unhash 14 15", "hash 8 9 unhash 12 13"),
          ("hash 12 13 unhash -", "hash 14 15 unhash -")),
    wrong("replaced at the moment of its stamp", Fixture(
        "replaced at 0", 2, REPLACED.data.replace(b"at 1\n", b"at 0\n"),
        REPLACED.text.replace(b"1 at 1 ok", b"1 at 0 ok"))),
    wrong("replaced with the switch off", Fixture(
        "replaced twreuse 0", 2, REPLACED.data.replace(b"twreuse 1", b"twreuse 0"), REPLACED.text)),
    # Other sections.
    wrong("no owner of the port conflicts", REPLACED, ("2 bind s ok 90", "2 bind s EADDRINUSE"),
          ("2 listen s ok 90", "2 listen s ok 40001"),
          ("listen 2.s 10.0.0.1:90", "listen 2.s 0.0.0.0:40001"),
          ("journal 0 16", "journal 0 14\njournal 1 3"), why="no owner of the port conflicts"),
    wrong("an own owner conflicts", SHARED, ("2 bind g EADDRINUSE", "2 bind g ok 81"),
          ("2 connect g ok 10.0.0.1:40002", "2 connect g EADDRNOTAVAIL"),
          ("life 1 1 full 2.g 10.0.0.1:40002 10.0.0.2:80 dev 0 hash 18 19 unhash -\n", ""),
          ("unhash 20 21", "unhash 18 19"), ("hash 22 23 unhash 24 25", "hash 20 21 unhash 22 23"),
          ("clock 26", "clock 24"), why="an owner of the port conflicts"),
    wrong("a search that passes over a free port", SHARED, ("2 bind j ok 40003", "2 bind j EADDRINUSE"),
          why="a port was free"),
    wrong("a search that takes a port in use", SHARED,
          ("2 connect g ok 10.0.0.1:40002", "2 connect g ok 10.0.0.1:40000"),
          ("life 1 1 full 2.g 10.0.0.1:40002", "life 0 1 full 2.g 10.0.0.1:40000"),
          why="four-tuple"),
    wrong("nobody has the four-tuple", SHARED, ("1 accept f ok", "1 accept f EADDRNOTAVAIL"),
          ("1 drop f ok", "1 drop f EBADF"), ("journal 0 15", "journal 0 13"),
          ("life 0 2 full 1.f 10.0.0.1:80 10.0.0.2:1001 dev 0 hash 22 23 unhash 24 25\n", ""),
          ("clock 26", "clock 22"), why="the four-tuple is taken stood"),
    wrong("a taken four-tuple", SHARED, ("1 accept e EADDRNOTAVAIL", "1 accept e ok"),
          why="no life of 1.e"),
    wrong("EMFILE of no group", SHARED, ("2 listen h ok 40001", "2 listen h EMFILE"),
          ("life 3 5 listen 2.h 0.0.0.0:40001 0.0.0.0:0 dev 0 hash 16 17 unhash -\n", ""),
          ("hash 18 19", "hash 16 17"), ("unhash 20 21", "unhash 18 19"),
          ("hash 22 23 unhash 24 25", "hash 20 21 unhash 22 23"), ("clock 26", "clock 24"),
          ("life 1 1 full 2.g", "life 1 5 full 2.g"), why="EMFILE doesn't come here"),
    wrong("ENFILE with free slots", SHARED, ("2 listen h ok 40001", "2 listen h ENFILE 6 0"),
          ("life 3 5 listen 2.h 0.0.0.0:40001 0.0.0.0:0 dev 0 hash 16 17 unhash -\n", ""),
          ("clock 26", "clock 25"), ("hash 18 19", "hash 17 18"),
          ("unhash 20 21", "unhash 19 20"),
          ("hash 22 23 unhash 24 25", "hash 21 22 unhash 23 24"),
          why="slots may have been owned"),
    wrong("two owners that conflict at the end", REPLACED, ("2 bind t EADDRINUSE", "2 bind t ok 80"),
          why="don't agree"),
    # Journals.
    wrong("an entry twice", SHARED, ("journal 1 11", "journal 1 12")),
    wrong("an entry too few", SHARED, ("journal 0 15", "journal 0 14")),
    wrong("an entry in another bucket", SHARED, ("journal 0 15", "journal 0 14"),
          ("journal 1 11", "journal 1 12")),
    wrong("no journal", REPLACED, ("journal 0 16\n", "")),
    wrong("an empty journal", REPLACED, ("journal 0 16\n", "journal 0 16\njournal 1 0\n")),
    # Packets.
    wrong("another packet", SHARED, ("packet 1 full 1.c t0 4 t1 4 from 10.0.0.2:1000",
                                "packet 1 full 1.c t0 4 t1 4 from 10.0.0.2:1001")),
    wrong("none although one stood throughout", SHARED, ("packet 1 full 1.c t0 4", "packet 1 none t0 4")),
    wrong("a worse match", SHARED, ("packet 1 full 1.c t0 4", "packet 1 listen 1.a t0 4")),
    wrong("found before it was hashed", SHARED, ("packet 1 full 1.c t0 4 t1 4",
                                            "packet 1 full 1.c t0 0 t1 2")),
    wrong("found after it was unhashed", SHARED, ("packet 3 full 1.c t0 4 t1 4",
                                             "packet 3 full 1.c t0 14 t1 20")),
    wrong("found without matching keys", SHARED, ("packet 3 full 1.c t0 4 t1 4",
                                             "packet 3 full 2.b t0 4 t1 6")),
    wrong("t1 before t0", SHARED, ("packet 3 full 1.c t0 4 t1 4", "packet 3 full 1.c t0 5 t1 4")),
    wrong("t1 above the clock", SHARED, ("packet 3 full 1.c t0 4 t1 4",
                                    "packet 3 full 1.c t0 4 t1 27")),
    wrong("t0 below what the looker had seen", SHARED, ("packet 3 full 1.c t0 4 t1 4",
                                                   "packet 3 full 1.c t0 3 t1 4")),
    wrong("an Again without cause", SHARED, ("packet 3 full 1.c t0 4 t1 4",
                                        "packet 3 again dead 5 in 1 t0 4 t1 4")),
    wrong("an Again by a foreign bucket without a hash", SHARED, (
        "packet 3 full 1.c t0 4 t1 4", "packet 3 again foreign 3 in 1 t0 4 t1 14")),
    wrong("a Long that isn't slots + 1", SHARED, ("packet 3 full 1.c t0 4 t1 4",
                                             "packet 3 again long 6 in 1 t0 4 t1 8")),
    wrong("an Again in a bucket that isn't the packet's", HANDSHAKE, (
        "packet 3 request 1.r t0 4 t1 4", "packet 3 again dead 2 in 2 t0 4 t1 9")),
    # Namespaces, requests, dumps.
    wrong("another namespace", HANDSHAKE, ("listen 1.a 0.0.0.0:80 0.0.0.0:0 dev 0 net 1 hash",
                                   "listen 1.a 0.0.0.0:80 0.0.0.0:0 dev 0 hash")),
    wrong("the request is unhashed first", HANDSHAKE, ("hash 2 3 unhash 10 11", "hash 2 3 unhash 8 9"),
          ("hash 8 9 unhash 14 15", "hash 10 11 unhash 14 15")),
    wrong("the request stays", HANDSHAKE, ("hash 2 3 unhash 10 11", "hash 2 3 unhash -"),
          ("clock 16", "clock 14"), ("hash 8 9 unhash 14 15", "hash 8 9 unhash 12 13"),
          ("hash 12 13 unhash -", "hash 10 11 unhash -")),
    wrong("a dump that skips the last bucket", HANDSHAKE, (
        "2 dump 2 t0 8 t1 8\n2 item listen 1.a 0.0.0.0:80 0.0.0.0:0 dev 0 net 1\n",
        "2 dump 1 t0 8 t1 8\n")),
    wrong("an empty dump", HANDSHAKE, (
        "1 dump 2 t0 16 t1 16\n1 item listen 1.a 0.0.0.0:80 0.0.0.0:0 dev 0 net 1\n"
        "1 item time-wait 1.c 10.0.0.1:80 10.0.0.2:1000 dev 0 net 1\n", "1 dump 0 t0 16 t1 16\n")),
    wrong("a dump in another order", HANDSHAKE, (
        "1 dump 2 t0 12 t1 12\n1 item listen 1.a 0.0.0.0:80 0.0.0.0:0 dev 0 net 1\n"
        "1 item full 1.c 10.0.0.1:80 10.0.0.2:1000 dev 0 net 1\n",
        "1 dump 2 t0 12 t1 12\n1 item full 1.c 10.0.0.1:80 10.0.0.2:1000 dev 0 net 1\n"
        "1 item listen 1.a 0.0.0.0:80 0.0.0.0:0 dev 0 net 1\n")),
    wrong("a dump that lists one that is gone", HANDSHAKE, (
        "1 dump 2 t0 16 t1 16", "1 dump 3 t0 16 t1 16"),
        ("1 item time-wait 1.c 10.0.0.1:80 10.0.0.2:1000 dev 0 net 1\n",
         "1 item request 1.r 10.0.0.1:80 10.0.0.2:1000 dev 0 net 1\n"
         "1 item time-wait 1.c 10.0.0.1:80 10.0.0.2:1000 dev 0 net 1\n")),
    wrong("a dump that counts wrong", HANDSHAKE, ("1 dump 2 t0 12 t1 12", "1 dump 1 t0 12 t1 12")),
    wrong("a dump before its section's own stamps", HANDSHAKE, ("1 dump 2 t0 12 t1 12",
                                                        "1 dump 2 t0 10 t1 12")),
    wrong("a dump after its section's next stamps", HANDSHAKE, ("1 dump 2 t0 4 t1 8",
                                                        "1 dump 2 t0 4 t1 9")),
)


def check() -> int:
    """How many texts the judge takes wrongly, or refuses wrongly."""
    differ = 0
    for fixture in (SHARED, REPLACED, HANDSHAKE, REAPED):
        faults = judge.judge(fixture.data, 1, fixture.passes, fixture.text)
        if faults:
            differ += 1
            print(f"the judge refuses the lawful text {fixture.name}: {faults[:3]}")
    for case in WRONG:
        faults = judge.judge(case.base.data, 1, case.base.passes, case.text())
        if not faults or case.why not in "\n".join(faults):
            differ += 1
            print(f"the judge says of '{case.what}': {faults[:3] or 'lawful'}")
    return differ


def main() -> int:
    """Tries all texts."""
    differ = check()
    print(f"forged texts: 4 lawful and {len(WRONG)} forged ones, {differ} judged wrongly")
    return 1 if differ else 0


if __name__ == "__main__":
    sys.exit(main())
