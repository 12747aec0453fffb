"""Workloads for `inet run`, each the same bytes every time.

`python3 -m bench.workloads FOLDER [NAME ..]` writes FOLDER/NAME.txt; without names, all of them. They are the rows of
docs/PERFORMANCE.md, in its order.
"""

from __future__ import annotations

import random
import struct
import sys
from pathlib import Path

LIMIT = 16_777_216
BIG = "table slots 65536 bind 256 hash 65536 listen 4096"


def ip(n):
    """An address."""
    return f"{n >> 24}.{n >> 16 & 255}.{n >> 8 & 255}.{n & 255}"


def many_ends(r):
    """Sockets that bind, listen and go, and lookups."""
    t, opened, listening, n = [BIG, "script 1"], [], [], 0

    def add(line):
        t.append(line)

    addrs = ["0.0.0.0"] + [f"10.0.0.{i}" for i in range(1, 16)]
    while len(t) < 200_000:
        k = r.random()
        if k < 0.22:
            n += 1
            options = r.choice(["", "", " reuseaddr", " reuseaddr", " reuseport", " uid 7 reuseport",
                                " dev 2", " dev 3 reuseaddr"])
            port = r.randrange(1, 20_000)
            add(f"socket s{n}{options}")
            add(f"bind s{n} {r.choices(addrs, [2] + [1] * 15)[0]}:{port}")
            opened.append(n)
            if r.random() < 0.7:
                add(f"listen s{n}")
                listening.append(port)
        elif k < 0.34 and opened:
            i = r.randrange(len(opened))
            opened[i], opened[-1] = opened[-1], opened[i]
            add(f"{r.choice(['drop', 'close'])} s{opened.pop()}")
        else:
            port = r.choice(listening) if listening and r.random() < 0.8 else r.randrange(1, 65536)
            dev = r.choice(["", "", "", " dev 2", " dev 3"])
            add(f"look 10.1.{r.randrange(256)}.{r.randrange(256)}:{r.randrange(1, 65536)} "
                f"{r.choice(addrs[1:])}:{port}{dev}")
    return "\n".join(t) + "\n"


def connects(r):
    """Automatic ports of `connect` and `bind`."""
    t, n, made = [BIG, "seed 12345", "script 1"], 0, []
    for _ in range(3_000):
        n += 1
        t += [f"socket b{n}", f"bind b{n} 10.0.9.{r.randrange(1, 200)}:0"]
    for _ in range(56_000):
        n += 1
        src, dst, port = f"10.0.0.{r.randrange(1, 4)}", f"10.0.1.{r.randrange(1, 4)}", r.choice([80, 443])
        t += [f"socket c{n}", f"connect c{n} from {src} to {dst}:{port}"]
        made.append((n, src, dst, port))
        if r.random() < 0.1:
            i = r.randrange(len(made))
            made[i], made[-1] = made[-1], made[i]
            t.append(f"drop c{made.pop()[0]}")
        if r.random() < 0.5:
            _, src, dst, port = made[r.randrange(len(made))]
            t.append(f"look {dst}:{port} {src}:{r.randrange(32768, 61000)}")
    return "\n".join(t) + "\n"


def established(r, ports):
    """60,000 accepted sockets; their (remote, rport, local, lport)."""
    t, tuples = [BIG, "seed 99", "script 1"], []
    for i, port in enumerate(ports):
        t += [f"socket l{i}", f"bind l{i} 0.0.0.0:{port}", f"listen l{i}"]
    used = set()
    while len(tuples) < 60_000:
        i = r.randrange(len(ports))
        key = (0x0A010000 + r.randrange(1, 65536), r.randrange(1024, 65536), 0x0A000001 + r.randrange(8), ports[i])
        if key in used:
            continue
        used.add(key)
        tuples.append(key)
        t.append(f"accept l{i} c{len(tuples)} from {ip(key[0])}:{key[1]} at {ip(key[2])}:{key[3]}")
    return t, tuples


def packet(r, tuples):
    """80 % to an established socket, 15 % to a listener, 5 % to nobody."""
    k = r.random()
    src, sport, dst, dport = tuples[r.randrange(len(tuples))]
    if k >= 0.8:
        sport = r.randrange(1, 1024)
    if k >= 0.95:
        dport = r.randrange(1, 8000)
    return src, sport, dst, dport


def capture(packets):
    """A pcap file of raw IP."""
    out = [struct.pack("<IHHIIII", 0xA1B2C3D4, 2, 4, 0, 0, 65535, 101)]
    for src, sport, dst, dport in packets:
        out.append(struct.pack("<IIII", 0, 0, 24, 40))
        out.append(struct.pack(">BBHHHBBHII", 0x45, 0, 40, 0, 0, 64, 6, 0, src, dst))
        out.append(struct.pack(">HH", sport, dport))
    return b"".join(out)


def packets(r):
    """Established sockets on 200 ports, then a capture."""
    t, tuples = established(r, list(range(8000, 8200)))
    text = "\n".join([*t, "capture"]) + "\n"
    return text.encode() + capture(packet(r, tuples) for _ in range(300_000))


def looks(r):
    """The same sockets, looked up by lines."""
    t, tuples = established(r, list(range(8000, 8200)))
    for _ in range(350_000):
        src, sport, dst, dport = packet(r, tuples)
        t.append(f"look {ip(src)}:{sport} {ip(dst)}:{dport}")
    return "\n".join(t) + "\n"


def time_waits(r):
    """Clients and servers that come back."""
    t, n, now = [BIG, "twreuse 1", "seed 4", "script 1"], 0, 0
    for i in range(100):
        t += [f"socket l{i} reuseaddr", f"bind l{i} 0.0.0.0:{9000 + i}", f"listen l{i}"]
    clients, servers = {}, {}
    while len(t) < 200_000:
        k = r.random()
        if k < 0.55:                          # client: fixed port, closes, comes back, replaces its TIME_WAIT
            c = r.randrange(2_000)
            if c in clients:
                t.append(f"close {clients.pop(c)}")
                continue
            n += 1
            t += [f"socket c{n} reuseaddr", f"bind c{n} 10.0.{c // 250}.{c % 250 + 1}:{20000 + c}",
                  f"connect c{n} to 10.9.0.1:80"]
            clients[c] = f"c{n}"
        elif k < 0.95:                        # server: the same remote end comes back
            i, q = key = r.randrange(100), r.randrange(1, 40)
            if key in servers:
                t.append(f"close {servers.pop(key)}")
                continue
            n += 1
            t.append(f"accept l{i} a{n} from 10.8.0.{q}:{40000 + q} at 10.0.0.1:{9000 + i}")
            servers[key] = f"a{n}"
        elif k < 0.98:
            now += 1
            t.append(f"at {now}")
        elif k < 0.99:
            t.append("reap")
        else:
            c = r.randrange(2_000)
            t.append(f"look 10.9.0.1:80 10.0.{c // 250}.{c % 250 + 1}:{20000 + c}")
    return "\n".join(t) + "\n"


def groups(r):
    """Groups that members join and leave."""
    t, n = [BIG, "seed 559038725", "script 1"], 0
    groups = [(f"10.0.0.{i % 4 + 1}", 7000 + i // 4) for i in range(1_000)]
    members = [[] for _ in groups]

    def join(g):
        nonlocal n
        n += 1
        addr, port = groups[g]
        t.extend([f"socket s{n} uid 5 reuseport", f"bind s{n} {addr}:{port}", f"listen s{n}"])
        members[g].append(n)

    for g in range(len(groups)):
        for _ in range(8):
            join(g)
    while len(t) < 200_000:
        g = r.randrange(len(groups))
        k = r.random()
        if k < 0.03:
            if len(members[g]) < 16:
                join(g)
        elif k < 0.06 and members[g]:
            t.append(f"drop s{members[g].pop(r.randrange(len(members[g])))}")
        else:
            addr, port = groups[g]
            t.append(f"look 10.1.{r.randrange(256)}.{r.randrange(1, 255)}:{r.randrange(1024, 65536)} {addr}:{port}")
    return "\n".join(t) + "\n"


def children(r):
    """Connections of one listener, dropped."""
    t, tuples = established(r, [80])
    order = list(range(1, len(tuples) + 1))
    r.shuffle(order)
    t += [f"drop c{i}" for i in order]
    return "\n".join(t) + "\n"


def long_chains(r):
    """Connections in few chains."""
    t, tuples = established(r, list(range(8000, 8200)))
    t[0] = "table slots 65536 bind 256 hash 64 listen 64"
    for _ in range(20_000):
        src, sport, dst, dport = packet(r, tuples)
        t.append(f"look {ip(src)}:{sport} {ip(dst)}:{dport}")
    return "\n".join(t) + "\n"


def used_ports(r):
    """Searches in a range that is used up."""
    t = [BIG, "seed 3", "range 40000 49999", "script 1"]
    for i in range(10_000):
        t += [f"socket a{i}", f"connect a{i} from 10.0.0.1 to 10.0.0.2:80"]
    for i in range(500):
        t += [f"socket f{i}", f"connect f{i} from 10.0.0.1 to 10.0.0.2:80",
              f"socket g{i}", f"bind g{i} 10.0.0.1:0"]
    return "\n".join(t) + "\n"


def one_port(r):
    """All at one port and address."""
    t = [BIG, "script 1"]
    for i in range(60_000):
        t += [f"socket a{i} reuseaddr", f"bind a{i} 10.0.0.1:80"]
    return "\n".join(t) + "\n"


def no_slots(r):
    """A full table, and refusals."""
    t, n = [BIG, "script 1", "socket l", "bind l 0.0.0.0:80", "listen l"], 0
    for n in range(65_535 + 10_000):
        t.append(f"accept l c{n} from 10.{n >> 16}.{n >> 8 & 255}.{n & 255}:7 at 10.9.0.1:80")
    return "\n".join(t) + "\n"


def one_user(r):
    """Bound to one port with `reuseport`, of one user."""
    return owners(lambda i: (f"socket a{i} reuseport", f"bind a{i} 10.0.0.1:80"))


def own_addresses(r):
    """Bound to one port, each at an address of its own."""
    return owners(lambda i: (f"socket a{i}", f"bind a{i} {ip(0x0A010000 + i)}:80"))


def one_without(r):
    """Bound to one port with `reuseaddr`, beside one without at another address."""
    return owners(lambda i: (f"socket a{i} reuseaddr", f"bind a{i} 10.0.0.1:80"),
                  "socket z", "bind z 10.0.0.2:80")


def searches(r):
    """Bound to port 0, in a range of 28,228 ports."""
    t = [BIG, "seed 15", "range 32768 60995", "script 1"]
    for i in range(27_000):
        t += [f"socket a{i}", f"bind a{i} 10.0.0.1:0"]
    return "\n".join(t) + "\n"


def other_device(r):
    """Bound to one port and address with `reuseaddr`, beside one of another device without."""
    return owners(lambda i: (f"socket a{i} dev 1 reuseaddr", f"bind a{i} 10.0.0.1:80"),
                  "socket z dev 2", "bind z 10.0.0.1:80")


def owners(lines, *first):
    """60,000 sockets, each by its two lines."""
    t = [BIG, "script 1", *first]
    for i in range(60_000):
        t += lines(i)
    return "\n".join(t) + "\n"


# Each with the words of docs/PERFORMANCE.md.
WORKLOADS = {
    many_ends: "200,000 lines of socket, bind, listen and look, many ends",
    connects: "150,000 lines of connects from ports that are searched for",
    packets: "60,000 sockets, and a capture of 300,000 packets",
    looks: "the same sockets, and 350,000 lines of look",
    time_waits: "TIME_WAITs that come, are replaced and reaped",
    groups: "large groups of listeners",
    children: "60,000 children of one port, then dropped in any order",
    one_port: "60,000 sockets bound to one port with `reuseaddr`",
    long_chains: "60,000 sockets in 64 chains, and 20,000 lookups",
    no_slots: "65,536 slots taken, then 10,000 refused for want of one",
    used_ports: "searches through 10,000 ports that are all used, 35 million tries",
    one_user: "60,000 sockets bound to one port with `reuseport`, of one user",
    own_addresses: "60,000 sockets bound to one port, each at an address of its own",
    one_without: "60,000 sockets with `reuseaddr` at one port, beside one without at another address",
    searches: "27,000 sockets bound to port 0, in a range of 28,228 ports",
    other_device: "60,000 sockets with `reuseaddr` at one port and address, beside one of another device without",
}
BY_NAME = {make.__name__: make for make in WORKLOADS}


def write(folder: Path, name: str) -> Path:
    """One workload's file."""
    data = BY_NAME[name](random.Random(name))
    data = data.encode() if isinstance(data, str) else data
    assert len(data) <= LIMIT, (name, len(data))
    path = folder / f"{name}.txt"
    path.write_bytes(data)
    return path


def main() -> None:
    """The command line of this file."""
    folder = Path(sys.argv[1])
    folder.mkdir(parents=True, exist_ok=True)
    for name in sys.argv[2:] or BY_NAME:
        path = write(folder, name)
        print(f"{path} {path.stat().st_size} bytes")


if __name__ == "__main__":
    main()
