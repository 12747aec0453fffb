"""Random scripts, biased by a model that runs along.

The generator keeps a `Flat` and applies each command that it writes, so that
it can aim at sockets in a wanted state and at four-tuples that are taken.
"""

from __future__ import annotations

import random
from dataclasses import replace
from typing import Callable, Optional

from . import commands as cmd
from . import grammar, pcaps
from .cards import Packet, State, address, end
from .flat import MEMBERS, Flat, Sock

LOCALS = tuple(0x0A000001 + i for i in range(3))
REMOTES = tuple(0x0A000102 + i for i in range(2))
LOCAL_PORTS = (80, 81, 90, 5000)
REMOTE_PORTS = (80, 1000, 1001)
LABEL_LETTERS = "abcdefghijklmnopqrstuvwxyzABCDEFGHIJKLMNOPQRSTUVWXYZ0123456789_-"


class Writer:
    """Writes one script."""

    def __init__(self, choose: random.Random, race: bool = False) -> None:
        self.choose = choose
        self.race = race
        self.lines: list[str] = []
        self.header = cmd.Header()
        self.n = 0
        self.used: set[str] = set()
        self.flat = Flat(self.header)
        self.history: list[Sock] = []              # hashed at some time

    def chance(self, share: float) -> bool:
        """True in that share of calls."""
        return self.choose.random() < share

    # -- header ----------------------------------------------------------------

    def write_header(self) -> None:
        """Some header lines in any order."""
        c = self.choose
        made: list[str] = []
        if self.chance(0.7):
            slots = c.choice((1, 2, 3, 4, 5, 6, 8, 12, 1024))
            made.append(f"table slots {slots} bind {c.choice((1, 2, 4, 16, 256))} "
                        f"hash {c.choice((1, 2, 4, 256))} listen {c.choice((1, 2, 32))}")
        if self.chance(0.8):
            low = c.choice((40000, 40000, 40000, 78, 89, 1, 4999))
            size = c.choice((2, 2, 4, 4, 6, 10))
            made.append(f"range {low} {low + size - 1}")
        if self.chance(0.5):
            made.append(f"seed {c.choice((0, 1, 7, 559038725, 4294967295, c.randrange(2 ** 32)))}")
        if self.chance(0.5):
            made.append(f"offset {c.choice((0, 1, 2, 3, 5, 65535, c.randrange(65536)))}")
        if self.chance(0.6):
            made.append(f"twreuse {c.choice((0, 1, 1))}")
        if self.chance(0.3):
            made.append(self.reserved_line(made))
        c.shuffle(made)
        self.lines += made
        script = grammar.parse(self.text())
        assert isinstance(script, cmd.Script), self.text()
        self.header = script.header
        self.flat = Flat(self.header)

    def reserved_line(self, made: list[str]) -> str:
        """`reserved`, mostly of ports of the range."""
        ranges = [line.split() for line in made if line.startswith("range")]
        low, high = (int(ranges[0][1]), int(ranges[0][2])) if ranges else (32768, 32775)
        near = range(max(1, low - 1), min(65535, high + 1) + 1)
        chosen = self.choose.sample(near, self.choose.randrange(1, min(len(near), 64) + 1))
        return "reserved " + " ".join(str(p) for p in sorted(chosen))

    # -- names and numbers ---------------------------------------------------

    def new_label(self) -> str:
        """A label that wasn't given in this section."""
        while True:
            if self.chance(0.9):
                text = f"{self.choose.choice('abcst')}{len(self.used)}"
            else:
                text = "".join(self.choose.choice(LABEL_LETTERS)
                               for _ in range(self.choose.choice((1, 2, 15, 16))))
            if text not in self.used:
                self.used.add(text)
                return text

    def opened(self, *states: State) -> list[Sock]:
        """The section's open sockets in these states."""
        return [s for s in self.flat.section(self.n).open.values()
                if not states or s.state in states]

    def label(self, *states: State) -> str:
        """A label, mostly of an open socket in these states."""
        found = self.opened(*states)
        if found and self.chance(0.93):
            return self.choose.choice(found).name.label
        if self.used and self.chance(0.8):
            return self.choose.choice(sorted(self.used))
        return f"x{self.choose.randrange(3)}"

    def local(self) -> int:
        """A local address."""
        return 0 if self.chance(0.25) else self.choose.choice(LOCALS)

    def port(self) -> int:
        """A local port, sometimes one of the range."""
        h = self.header
        if self.chance(0.2):
            return min(65535, h.low + self.choose.randrange(min(6, h.high - h.low + 1)))
        return self.choose.choice(LOCAL_PORTS)

    def remote_end(self) -> tuple[int, int]:
        """A remote end, now and then 0.0.0.0 or port 0."""
        addr = 0 if self.chance(0.03) else self.choose.choice(REMOTES)
        port = 0 if self.chance(0.03) else self.choose.choice(REMOTE_PORTS)
        return addr, port

    # -- commands ------------------------------------------------------------

    def put(self, line: str) -> None:
        """Writes a line, and applies its command."""
        self.lines.append(line)
        parser = grammar.Parser(grammar.RUN)
        parser.line([b"script", b"1"])
        good = parser.line([word.encode() for word in line.split()])
        assert good, line
        command = parser.sections[0][0]
        if not isinstance(command, (cmd.Look, cmd.Packets, cmd.Dump)):
            self.flat.apply(self.n, command)
            self.history += [replace(s) for s in self.flat.hashed()[-2:]]

    def options(self) -> str:
        """Options of `socket`."""
        c, words = self.choose, []
        if self.chance(0.25):
            words.append(f"net {c.choice((0, 1, 1, 2, 15))}")
        if self.chance(0.25):
            words.append(f"uid {c.choice((0, 1, 2, 4294967295))}")
        if self.chance(0.2):
            words.append(f"dev {c.choice((1, 2, 3, 65535))}")
        if self.chance(0.5):
            words.append("reuseaddr")
        if self.chance(0.4):
            words.append("reuseport")
        if self.chance(0.25):
            words.append("noport")
        return "".join(f" {word}" for word in words)

    def socket(self, options: Optional[str] = None) -> str:
        """`socket`; its label."""
        label = self.new_label()
        self.put(f"socket {label}{self.options() if options is None else options}")
        return label

    def bind(self) -> None:
        """`bind`."""
        label = (self.label(State.UNBOUND, State.ADDRESSED) if self.chance(0.85)
                 else self.label())
        port = 0 if self.chance(0.3) else self.port()
        self.put(f"bind {label} {end(self.local(), port)}")

    def listen(self) -> None:
        """`listen`."""
        wanted = [State.BOUND] if self.chance(0.6) else [State.UNBOUND, State.ADDRESSED]
        label = self.label(*wanted) if self.chance(0.85) else self.label()
        self.put(f"listen {label}")

    def taken_end(self, s: Sock) -> Optional[tuple[int, int]]:
        """The remote end of a hashed connection, of this socket's port if there is one."""
        others = [t for t in self.flat.sockets
                  if t.state in (State.FULL, State.TIME_WAIT, State.REQUEST)]
        near = [t for t in others if t.port == s.port and t.addr == s.addr]
        if not others:
            return None
        t = self.choose.choice(near or others)
        return t.remote, t.rport

    def connect(self) -> None:
        """`connect`."""
        wanted = [State.BOUND] if self.chance(0.55) else [State.UNBOUND, State.ADDRESSED]
        label = self.label(*wanted) if self.chance(0.9) else self.label()
        s = self.flat.named(self.n, label)
        far = self.remote_end()
        if s is not None and self.chance(0.35):
            far = self.taken_end(s) or far
        source = ""
        bare = s is None or s.state is State.UNBOUND or s.addr == 0
        if self.chance(0.9) if bare else self.chance(0.15):
            addr = 0 if self.chance(0.05) else self.choose.choice(LOCALS)
            if not bare and s is not None and self.chance(0.5):
                addr = s.addr
            source = f" from {address(addr)}"
        self.put(f"connect {label}{source} to {end(*far)}")

    def pair(self, verb: str) -> None:
        """`accept` or `syn`."""
        label = self.label(State.LISTENING) if self.chance(0.93) else self.label()
        s = self.flat.named(self.n, label)
        far = self.remote_end()
        if s is not None and self.chance(0.35):
            far = self.taken_end(s) or far
        addr, port = self.choose.choice(LOCALS), self.port()
        if s is not None and self.chance(0.92):
            addr, port = s.addr or addr, s.port
        if self.chance(0.04):
            addr = self.local()
        self.put(f"{verb} {label} {self.new_label()} from {end(*far)} at {end(addr, port)}")

    def accept(self) -> None:
        """`accept`."""
        self.pair("accept")

    def syn(self) -> None:
        """`syn`."""
        self.pair("syn")

    def ack(self) -> None:
        """`ack`."""
        label = self.label(State.REQUEST) if self.chance(0.9) else self.label()
        self.put(f"ack {label} {self.new_label()}")

    def close(self) -> None:
        """`close`."""
        label = self.label(State.FULL) if self.chance(0.7) else self.label()
        self.put(f"close {label}")

    def drop(self) -> None:
        """`drop`."""
        self.put(f"drop {self.label()}")

    def at(self) -> None:
        """`at`, mostly later, sometimes back."""
        now = self.flat.section(self.n).moment
        step = self.choose.choice((0, 1, 1, 5, 59, 60, 61))
        moment = min(now + step, 4294967295)
        if self.chance(0.15):
            moment = max(0, now - self.choose.choice((1, 2, 100)))
        if self.chance(0.01):
            moment = 4294967295
        self.put(f"at {moment}")

    def reap(self) -> None:
        """`reap`."""
        self.put("reap")

    def dump(self) -> None:
        """`dump`."""
        self.put("dump")

    def packets(self) -> None:
        """`packets`."""
        self.put(f"packets {self.choose.choice((0, 1, 1, 2, 1000000))}")

    def packet(self) -> Packet:
        """A packet, mostly one that some hashed socket takes."""
        hashed = self.history[-200:] if self.race else self.flat.hashed()
        far, local, port = self.remote_end(), self.choose.choice(LOCALS), self.port()
        dev, net = 0, 0
        if hashed and self.chance(0.85):
            s = self.choose.choice(hashed)
            local, port, net = s.addr or local, s.port, s.net
            if s.state is not State.LISTENING and self.chance(0.9):
                far = s.remote, s.rport
            dev = s.dev if self.chance(0.7) else 0
        if self.chance(0.05):
            local = 0
        if self.chance(0.15):
            dev = self.choose.choice((1, 2, 3, 65535))
        if self.chance(0.1):
            net = self.choose.choice((0, 1, 2, 15))
        return Packet(far[0], far[1], local, port, dev, net)

    def look(self) -> None:
        """`look`."""
        p = self.packet()
        dev = f" dev {p.dev}" if p.dev else ""
        net = f" net {p.net}" if (p.net or self.chance(0.05)) else ""
        self.put(f"look {end(p.src, p.sport)} {end(p.dst, p.dport)}{dev}{net}")

    # -- small stories -------------------------------------------------------

    def story_listener(self) -> None:
        """A listener from nothing."""
        label = self.socket()
        port = self.port()
        self.put(f"bind {label} {end(self.local(), port)}")
        self.put(f"listen {label}")

    def story_group(self) -> None:
        """Some alike reuseport listeners, with looks and leavers."""
        count = self.choose.choice((2, 3, 4))
        where = end(self.local(), self.port())
        labels = []
        for _ in range(count):
            labels.append(self.socket(" reuseport"))
            self.put(f"bind {labels[-1]} {where}")
            self.put(f"listen {labels[-1]}")
            if not self.race and self.chance(0.5):
                self.look()
        if self.chance(0.7):
            self.put(f"{self.choose.choice(('close', 'drop'))} {self.choose.choice(labels)}")
        for _ in range(2 if not self.race else 0):
            self.look()

    def story_group_full(self) -> None:
        """One member too many."""
        where = end(self.choose.choice(LOCALS), 8080)
        for _ in range(MEMBERS + 2):
            label = self.socket(" uid 7 reuseport")
            self.put(f"bind {label} {where}")
            self.put(f"listen {label}")

    def story_groups_full(self) -> None:
        """One group too many in one bind bucket."""
        buckets = self.header.shape.bind
        base = 10000
        for k in range(10):
            label = self.socket(" uid 8 reuseport")
            self.put(f"bind {label} {end(LOCALS[0], base + k * buckets)}")
            self.put(f"listen {label}")
            if k == 8 and self.chance(0.5):
                self.drop()
                self.put(f"listen {label}")

    def story_waiting(self) -> None:
        """A TIME_WAIT, and one who wants its four-tuple."""
        first = self.socket(" reuseaddr")
        port = self.port()
        local, far = self.choose.choice(LOCALS), (REMOTES[0], REMOTE_PORTS[0])
        self.put(f"bind {first} {end(local, port)}")
        self.put(f"connect {first} to {end(*far)}")
        self.put(f"close {first}")
        if self.chance(0.6):
            self.at()
        second = self.socket(" reuseaddr")
        self.put(f"bind {second} {end(local, port)}")
        if self.chance(0.5):
            self.put(f"connect {second} to {end(*far)}")
        else:
            self.put(f"listen {second}")
            self.put(f"accept {second} {self.new_label()} from {end(*far)} at {end(local, port)}")
        if not self.race:
            self.put(f"look {end(*far)} {end(local, port)}")

    def story_taken(self) -> None:
        """Two bound sockets of one port and one destination."""
        where, far = end(self.choose.choice(LOCALS), self.port()), end(*self.remote_end())
        labels = [self.socket(" reuseaddr") for _ in range(2)]
        for label in labels:
            self.put(f"bind {label} {where}")
        for label in labels:
            self.put(f"connect {label} to {far}")

    def story_request(self) -> None:
        """A listener, a request, who else wants its four-tuple, and its `ack`."""
        label, request = self.socket(), self.new_label()
        where = end(self.choose.choice(LOCALS), self.port())
        ends = f"from {end(*self.remote_end())} at {where}"
        self.put(f"bind {label} {where}")
        self.put(f"listen {label}")
        self.put(f"syn {label} {request} {ends}")
        if self.chance(0.3):
            self.put(f"{self.choose.choice(('syn', 'accept'))} {label} {self.new_label()} {ends}")
        if self.chance(0.3):
            self.story_listener()
        if self.chance(0.2):
            verb = self.choose.choice(("close", "drop"))
            self.put(f"{verb} {self.choose.choice((label, request))}")
        self.put(f"ack {request} {self.new_label()}")

    def story_connects(self) -> None:
        """Unbound sockets that connect to one end."""
        far, source = self.remote_end(), self.choose.choice(LOCALS)
        for _ in range(self.choose.choice((2, 3, 5))):
            label = self.socket()
            self.put(f"connect {label} from {address(source)} to {end(*far)}")
            if self.chance(0.4):
                self.put(f"close {label}")
            if self.chance(0.2):
                self.at()

    def story_shared_bind(self) -> None:
        """Two bound sockets of one port, of which one listens first."""
        labels = [self.socket(" reuseaddr") for _ in range(2)]
        where = end(self.local(), self.port())
        for label in labels:
            self.put(f"bind {label} {where}")
        for label in labels:
            self.put(f"listen {label}")

    # -- the whole -----------------------------------------------------------

    def weighted(self) -> list[tuple[float, Callable[[], object]]]:
        """Commands and stories with their weights."""
        made: list[tuple[float, Callable[[], object]]] = [
            (3, self.socket), (3, self.bind), (2.5, self.listen),
            (3, self.connect), (3, self.accept), (1, self.drop),
            (2.5, self.close), (1.5, self.at), (1.5, self.reap),
            (1, self.ack), (1.5, self.syn), (0.7, self.story_request),
            (0.7, self.dump),
            (0.8, self.story_listener), (0.25, self.story_group),
            (0.02, self.story_group_full), (0.03, self.story_groups_full),
            (0.5, self.story_waiting), (0.3, self.story_taken), (0.4, self.story_connects),
            (0.3, self.story_shared_bind),
        ]
        if not self.race:
            made += [(2, self.look), (0.5, self.packets)]
        return made

    def write_sections(self) -> None:
        """Some sections with some commands each."""
        weighted = self.weighted()
        weights, calls = [w for w, _ in weighted], [f for _, f in weighted]
        count = self.choose.choice((1, 1, 1, 2, 2, 3))
        if self.race:
            count = self.choose.choice((1, 2, 2, 3, 4))
        for n in range(1, count + 1):
            self.n, self.used = n, set()
            self.lines.append(f"script {n}")
            if self.chance(0.15):
                continue
            for _ in range(self.choose.choice((3, 8, 15, 25, 40))):
                self.choose.choices(calls, weights)[0]()

    def ends(self) -> pcaps.Ends:
        """The ends of a captured packet."""
        p = self.packet()
        return p.src, p.sport, p.dst, p.dport

    def capture(self) -> bytes:
        """The capture line and its bytes, or nothing."""
        if self.chance(0.2 if self.race else 0.55):
            return b""
        if self.chance(0.85 if self.race else 0.3):
            count = self.choose.choice((3, 10, 30, 60) if self.race else (1, 3, 6))
            return b"capture\n" + pcaps.plain(self.ends, count, self.choose)
        line = "capture"
        if self.chance(0.25):
            line += f" dev {self.choose.choice((1, 2, 3, 65535))}"
        if self.chance(0.25):
            line += f" net {self.choose.choice((0, 1, 2, 15))}"
        if self.chance(0.04):
            return line.encode()
        if self.chance(0.03):
            return line.encode() + b"\r\n" + self.choose.randbytes(self.choose.randrange(40))
        make = pcaps.classic
        if self.chance(0.6):
            make = pcaps.pcapng
        return line.encode() + b"\n" + make(self.ends, self.choose)

    def text(self) -> bytes:
        """The lines so far."""
        return "".join(f"{line}\n" for line in self.lines).encode()

    def write(self) -> tuple[bytes, bytes]:
        """The lines, and the capture's part."""
        self.write_header()
        if not self.chance(0.02):
            self.write_sections()
        return self.text(), self.capture()
