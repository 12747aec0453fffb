"""Random scripts, written command by command beside the rules, so that they stay on interesting ground."""

from __future__ import annotations

import random
from dataclasses import dataclass
from typing import Optional

from .rules import ANY, Rules, Sock

LOCALS, REMOTES, REMOTE_PORTS = ("10.0.0.1", "10.0.0.2"), ("10.1.0.1", "10.1.0.2"), (7, 8)
STRANGER = ("10.1.0.2", 9)                         # a remote end that nobody connects to
RESERVED = (((80, 83), (80, 81)), ((80, 83), (82, 83)), ((80, 83), (80, 81, 82)), ((80, 83), (81, 82, 83)),
            ((80, 81), (80,)), ((80, 81), (81,)), ((80, 81), (80, 81)), ((80, 81), (79, 82)),
            ((80, 85), (80, 82, 83, 85)), ((80, 83), (80, 81, 82, 83)))


@dataclass(frozen=True)
class Header:
    """The header lines of a script."""

    ports: tuple[int, int] = (32768, 60999)
    twreuse: int = 0
    reserved: tuple[int, ...] = ()
    table: str = ""

    def lines(self) -> list[str]:
        """As a script has them."""
        out = [self.table] if self.table else []
        out += [f"range {self.ports[0]} {self.ports[1]}", f"twreuse {self.twreuse}"]
        return out + (["reserved " + " ".join(map(str, self.reserved))] if self.reserved else [])


class Writer:
    """One random script. What it has of each kind is drawn first, so that scripts differ."""

    def __init__(self, choose: random.Random) -> None:
        self.choose, self.count, self.moment = choose, 0, 0
        pick = choose.choice
        ports, reserved = pick(RESERVED) if choose.random() < 0.2 else ((80, 81), ())
        table = ""
        if choose.random() < 0.2:
            table = (f"table slots {pick((256, 1000, 65536))} bind {pick((1, 2, 4, 256))} "
                     f"hash {pick((1, 2, 4, 65536))} listen {pick((1, 2, 4096))}")
        self.header = Header(ports, pick((0, 1)), reserved, table)
        self.users = pick(((0,), (1000, 1001), (0, 1000, 1001)))
        self.devices = pick(((0,), (0,), (0, 1), (0, 1, 2)))
        self.nets = pick(((0,), (0, 5), (0, 5, 15), (5, 15)))
        self.reuseaddr, self.reuseport = pick(((0, 0), (.5, 0), (.9, 0), (0, .9), (.3, .7), (.5, .5), (.9, .9)))
        self.noport = pick((0, .3, .9))
        self.ports = pick(((80,), (80,), (80, 81), (80, 80, 0), (80, 81, 0))) + ((0,) if self.noport else ())
        self.addresses = pick((("10.0.0.1",), (ANY, "10.0.0.1"), (ANY, *LOCALS)))
        self.length = choose.randint(3, 30)
        self.requests, self.dumps = pick((0, 1, 2)), pick((0, 1))
        self.two_sections = choose.random() < 0.2
        self.large_group = choose.random() < 0.05

    def next(self, rules: Rules) -> list[list[str]]:
        """The next commands."""
        if self.large_group:
            self.large_group = False
            return self.group()
        if self.two_sections and rules.section == 1 and self.choose.random() < 0.1:
            self.moment = 0
            return [["script", "2"]]
        live = {label: s for (section, label), s in rules.open.items() if section == rules.section}
        verb = self.verb(live)
        self.count += 1
        return getattr(self, f"write_{verb}")(rules, live, f"s{self.count}")

    def verb(self, live: dict[str, Sock]) -> str:
        """Which command comes next, by the states that there are."""
        def some(states: str) -> bool:
            return any(s.state in states for s in live.values())

        r = self.requests
        weights = {"new": 5, "socket": 2, "bind": 4 * some("UA"), "listen": 3 * some("UAB"), "connect": 4 * some("UAB"),
                   "accept": 5 * some("L"), "close": 2 * some("F") + .7 * bool(live), "drop": .8 * bool(live),
                   "at": .5, "reap": .2, "syn": 4 * r * some("L"), "ack": 3 * r * some("R") + .1 * r * bool(live),
                   "end": r * some("R"), "dump": self.dumps, "meet": 2 * bool(r and some("RF"))}
        return self.choose.choices(list(weights), list(weights.values()))[0]

    # -- sockets ---------------------------------------------------------------------------------------------------

    def socket_line(self, label: str, net: int, user: int, device: int, *flags: str) -> list[str]:
        """A line `socket`."""
        return (["socket", label] + (["net", str(net)] if net else []) + (["uid", str(user)] if user else [])
                + (["dev", str(device)] if device else []) + list(flags))

    def random_socket(self, label: str) -> list[str]:
        """A socket with options as this script has them."""
        pick, chance = self.choose.choice, self.choose.random
        flags = [name for name, share in (("reuseaddr", self.reuseaddr), ("reuseport", self.reuseport),
                                          ("noport", self.noport)) if chance() < share]
        return self.socket_line(label, pick(self.nets), pick(self.users), pick(self.devices), *flags)

    def group(self) -> list[list[str]]:
        """A large group, of which some leave."""
        pick = self.choose.choice
        count, address = pick((17, 20, 33, 64)), pick(self.addresses)
        net, user, device = pick(self.nets), pick(self.users), pick(self.devices)
        out, labels = [], [f"g{i}" for i in range(1, count + 1)]
        for label in labels:
            out += [self.socket_line(label, net, user, device, "reuseport"), ["bind", label, f"{address}:80"],
                    ["listen", label]]
        leavers = self.choose.sample(labels, self.choose.randint(0, 15))
        return out + [[pick(("close", "drop")), label] for label in leavers]

    def write_socket(self, rules: Rules, live: dict[str, Sock], new: str) -> list[list[str]]:
        """A socket alone."""
        return [self.random_socket(new)]

    def write_new(self, rules: Rules, live: dict[str, Sock], new: str) -> list[list[str]]:
        """A socket that mostly goes on at once."""
        out = [self.random_socket(new)]
        address, how = self.choose.choice(self.addresses), self.choose.random()
        if how >= 0.8:
            return out + [self.connect_line(new, ANY)]
        out.append(["bind", new, f"{address}:{self.choose.choice(self.ports)}"])
        if "noport" in out[0] and self.choose.random() < 0.3:
            out.append(self.bind_line(new))
        if how < 0.45:
            out.append(["listen", new])
        elif how < 0.6:
            out.append(self.connect_line(new, address))
        return out

    def write_meet(self, rules: Rules, live: dict[str, Sock], new: str) -> list[list[str]]:
        """A socket that wants the four-tuple of a connection or a request."""
        o = self.one(live, "RF")
        flags = [f for f, share in (("reuseaddr", .6), ("reuseport", .4)) if self.choose.random() < share]
        device = self.choose.choice((o.dev, o.dev, 0))
        line = self.socket_line(new, o.net, o.uid, device, *flags)
        far = f"{o.remote}:{o.rport}"
        if self.choose.random() < 0.3:
            return [line, ["connect", new, "from", o.addr, "to", far]]
        out = [line, ["bind", new, f"{o.addr}:{o.port}"], ["connect", new, "to", far]]
        listener = o.listener
        if listener in rules.listeners and listener and listener.name[0] == rules.section and self.choose.random() < .6:
            out.insert(0, ["close", listener.name[1]])
        return out

    # -- commands about a socket that is there ---------------------------------------------------------------------

    def one(self, live: dict[str, Sock], states: str) -> Sock:
        """A socket in one of these states."""
        return self.choose.choice([s for s in live.values() if s.state in states])

    def label(self, live: dict[str, Sock], states: str, share: float) -> str:
        """Mostly a label of such a socket, else any."""
        fit = [label for label, s in live.items() if s.state in states]
        return self.choose.choice(fit if fit and self.choose.random() < share else list(live))

    def bind_line(self, label: str) -> list[str]:
        """A line `bind`."""
        return ["bind", label, f"{self.choose.choice(self.addresses)}:{self.choose.choice(self.ports)}"]

    def connect_line(self, label: str, address: str) -> list[str]:
        """A line `connect` of a socket at that address."""
        far = f"{self.choose.choice(REMOTES)}:{self.choose.choice(REMOTE_PORTS)}"
        if address == ANY:
            return ["connect", label, "from", self.choose.choice(LOCALS), "to", far]
        return ["connect", label, "to", far]

    def remote_end(self, rules: Rules, port: int) -> str:
        """A remote end, often one that a connection of the port has."""
        known = [(o.remote, o.rport) for o in rules.chain if o.port == port]
        if known and self.choose.random() < 0.5:
            return "{}:{}".format(*self.choose.choice(known))
        return f"{self.choose.choice(REMOTES)}:{self.choose.choice(REMOTE_PORTS)}"

    def write_bind(self, rules: Rules, live: dict[str, Sock], new: str) -> list[list[str]]:
        """`bind`."""
        return [self.bind_line(self.label(live, "UA", .95))]

    def write_listen(self, rules: Rules, live: dict[str, Sock], new: str) -> list[list[str]]:
        """`listen`."""
        return [["listen", self.label(live, "UAB", .9)]]

    def write_connect(self, rules: Rules, live: dict[str, Sock], new: str) -> list[list[str]]:
        """`connect`."""
        label = self.label(live, "UAB", .95)
        return [self.connect_line(label, live[label].addr)]

    def pair(self, verb: str, rules: Rules, live: dict[str, Sock], new: str) -> list[list[str]]:
        """`accept` or `syn`."""
        label = self.label(live, "L", .97)
        s = live[label]
        address = s.addr if s.addr != ANY else self.choose.choice(LOCALS)
        return [[verb, label, new, "from", self.remote_end(rules, s.port), "at", f"{address}:{s.port or 80}"]]

    def write_accept(self, rules: Rules, live: dict[str, Sock], new: str) -> list[list[str]]:
        """`accept`."""
        return self.pair("accept", rules, live, new)

    def write_syn(self, rules: Rules, live: dict[str, Sock], new: str) -> list[list[str]]:
        """`syn`."""
        return self.pair("syn", rules, live, new)

    def write_ack(self, rules: Rules, live: dict[str, Sock], new: str) -> list[list[str]]:
        """`ack`."""
        return [["ack", self.label(live, "R", .95), new]]

    def write_end(self, rules: Rules, live: dict[str, Sock], new: str) -> list[list[str]]:
        """A request ends."""
        return [[self.choose.choice(("close", "drop")), self.label(live, "R", 1)]]

    def write_close(self, rules: Rules, live: dict[str, Sock], new: str) -> list[list[str]]:
        """`close`."""
        return [["close", self.label(live, "F", .7)]]

    def write_drop(self, rules: Rules, live: dict[str, Sock], new: str) -> list[list[str]]:
        """`drop`."""
        return [["drop", self.choose.choice(list(live))]]

    def write_at(self, rules: Rules, live: dict[str, Sock], new: str) -> list[list[str]]:
        """`at`, later."""
        self.moment += self.choose.choice((1, 1, 2, 60))
        return [["at", str(self.moment)]]

    def write_reap(self, rules: Rules, live: dict[str, Sock], new: str) -> list[list[str]]:
        """`reap`."""
        return [["reap"]]

    def write_dump(self, rules: Rules, live: dict[str, Sock], new: str) -> list[list[str]]:
        """`dump`."""
        return [["dump"]]

    # -- the end ---------------------------------------------------------------------------------------------------

    def tail(self, rules: Rules) -> list[list[str]]:
        """A list, a lookup of each end on each device, some by a real SYN, and the order of each group."""
        out = [["dump"]] if self.dumps else []
        ports = sorted({o.port for o in rules.owners + rules.chain}) or [80]
        far_ends = sorted({(o.remote, o.rport) for o in rules.chain}) + [STRANGER]
        devices = sorted({*self.devices, 0} | ({3} if self.choose.random() < .1 else set()))
        for net in self.nets:
            for port in ports:
                for local in LOCALS:
                    for far in far_ends:
                        for device in devices:
                            verb = "wire" if far == STRANGER and self.choose.random() < .3 else "look"
                            out.append([verb, f"{far[0]}:{far[1]}", f"{local}:{port}"]
                                       + (["dev", str(device)] if device else []) + (["net", str(net)] if net else []))
        return out + self.orders(rules)

    def orders(self, rules: Rules) -> list[list[str]]:
        """`order LABEL ADDRESS DEVICE NET PORT` for each group of this section that packets of its own can reach."""
        out: list[list[str]] = []
        for s in rules.listeners:
            group = s.group
            if not group or len(group) < 2 or s.name[0] != rules.section or group[0] is not s:
                continue
            address: Optional[str] = s.addr
            if address == ANY:
                there = {o.addr for o in rules.listeners if (o.port, o.net) == (s.port, s.net)}
                address = next((a for a in LOCALS if a not in there), None)
            wanted = sorted(f"listen {o.name[0]}.{o.name[1]}" for o in group)
            if address and sorted(rules.looks(STRANGER, (address, s.port), s.dev, s.net)) == wanted:
                out.append(["order", s.name[1], address, str(s.dev), str(s.net), str(s.port)])
        return out
