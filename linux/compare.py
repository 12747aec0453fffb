"""A program beside the kernel, script by script, line by line to the first difference."""

from __future__ import annotations

import itertools
import random
import subprocess
import time
from collections import Counter
from dataclasses import dataclass, field
from pathlib import Path
from typing import Callable, Optional, Sequence

from model.cards import Packet, packet_hash
from model.grammar import address as number_of
from model.hashes import scale

from .generate import Header, Writer
from .kernel import Kernel, options_of
from .netlink import Failed
from .rules import DIFFERENCES, Rules

Done = tuple[list[str], str]                       # a command's words, and the kernel's reply
UNNAMED = "no named difference"
WRONG = "the program, which answers otherwise than by its rules"
OPEN = "a choice that the rules leave open"


@dataclass
class Difference:
    """Where a program and the kernel part."""

    header: Header
    done: list[Done]                               # up to the difference
    program: str                                   # what the program says to the last one
    causes: tuple[str, ...]

    def text(self) -> str:
        """For a reader."""
        lines = self.header.lines() + [f"{' '.join(words)} -> {flat(reply)}" for words, reply in self.done]
        return "\n".join("    " + line for line in lines) + f"\n    the program: {flat(self.program)}"


@dataclass
class Total:
    """What came of many scripts."""

    scripts: int = 0
    commands: int = 0
    late: int = 0                                  # cut since the machine was too slow
    unasked: int = 0                               # commands that the kernel can't be asked
    failed: Counter[str] = field(default_factory=Counter)
    causes: Counter[tuple[str, ...]] = field(default_factory=Counter)
    unnamed: list[Difference] = field(default_factory=list)
    listed: int = 0                                # scripts whose sockets ss(8) listed
    listed_wrong: list[str] = field(default_factory=list)


def flat(reply: str) -> str:
    """A reply in one line."""
    return reply.replace("\n", " / ")


def script_of(header: Header, commands: Sequence[Sequence[str]]) -> bytes:
    """The script's bytes."""
    return ("\n".join([*header.lines(), "script 1", *(" ".join(c) for c in commands)]) + "\n").encode()


def commands_for(words: list[str], reply: str) -> list[list[str]]:
    """What the program is given for one of ours: `wire` is a look, `order` one look for each member."""
    if words[0] == "wire":
        return [["look", *words[1:]]]
    if words[0] != "order":
        return [words]
    _, _, address, device, net, port = words
    local, remote, count, out = number_of(address.encode()), number_of(b"10.1.0.9"), len(reply.split()), []
    assert local is not None and remote is not None
    sport = 30000
    for place in range(count):
        while scale(packet_hash(Packet(remote, sport, local, int(port), int(device), int(net)), 0), count) != place:
            sport += 1
        out.append(["look", f"10.1.0.9:{sport}", f"{address}:{port}"]
                   + (["dev", device] if device != "0" else []) + (["net", net] if net != "0" else []))
    return out


def head_of(section: int, words: Sequence[str]) -> str:
    """How the program's line of a command begins."""
    verb = words[0]
    if verb in ("look", "reap", "dump"):
        return f"{section} {verb} "
    return f"{section} {verb} {words[2 if verb in ('accept', 'syn', 'ack') else 1]} "


def replies_of(path: str, header: Header, done: Sequence[Done]) -> list[str]:
    """The program's replies to the same commands."""
    asked = [commands_for(words, reply) for words, reply in done]
    run = subprocess.run([path, "run"], input=script_of(header, [c for cs in asked for c in cs]),
                         capture_output=True, timeout=120, check=False)
    if run.returncode:
        raise Failed(f"the program ended with {run.returncode}: {run.stdout[:200]!r}")
    lines, out, section = iter(run.stdout.decode().splitlines()), [], 1
    for (words, _), commands in zip(done, asked):
        if words[0] == "script":
            section = int(words[1])
            out.append("")
            continue
        got = []
        for command in commands:
            line, head = next(lines), head_of(section, command)
            if not line.startswith(head):
                raise Failed(f"the program's line {line!r} doesn't begin with {head!r}")
            reply = line[len(head):]
            if command[0] == "dump":
                items = [next(lines)[len(f"{section} "):] for _ in range(int(reply))]
                reply = "\n".join([reply, *items])
            got.append(reply)
        out.append(" ".join(r.split(" ")[-1] for r in got) if words[0] == "order" else got[0])
    return out


class Trial:
    """One script on the kernel and beside it the rules; what the kernel did is kept in `done`."""

    def __init__(self, kernel: Kernel, header: Header) -> None:
        self.kernel, self.header = kernel, header
        self.rules = Rules()
        self.done: list[Done] = []
        self.right: list[Optional[list[str]]] = []  # of a lookup all answers that are right
        self.late, self.unasked = False, 0
        kernel.begin(header.ports, header.twreuse, header.reserved)
        self.rules.begin(header.ports, header.twreuse, header.reserved)

    def step(self, words: list[str]) -> bool:
        """One command; whether the script may go on."""
        young = self.kernel.young() if words[0] == "connect" else []
        reply = self.kernel.do(words)
        if self.kernel.too_late(young):
            self.late = True
            return False
        if reply.startswith("n/a"):
            self.unasked += 1
            return True
        looks = words[0] in ("look", "wire")
        self.right.append(self.rules.looks_of(words) if looks else None)
        self.done.append((words, reply))
        return self.rules.fits(words, reply)

    def steps(self, commands: Sequence[list[str]]) -> bool:
        """Commands one after the other."""
        return all(self.step(list(words)) for words in commands)

    def random(self, writer: Writer) -> None:
        """A script as it is written."""
        going = True
        while going and len(self.done) < writer.length:
            going = self.steps(writer.next(self.rules))
        if going:
            self.steps(writer.tail(self.rules))

    def difference(self, path: str) -> Optional[Difference]:
        """Where the program parts from the kernel first."""
        if not self.done:
            return None
        all_said = replies_of(path, self.header, self.done)
        for at, ((_, reply), said) in enumerate(zip(self.done, all_said)):
            if "EMFILE" in said or "ENFILE" in said:
                return None                        # limits: docs/LINUX.md has them among the choices
            right = self.right[at]
            if said != reply and not (right and said in right and reply in right):
                done = self.done[:at + 1]
                own = [(words, mine) for (words, _), mine in zip(done, all_said)]
                by_rules = follows((), self.header, own)
                return Difference(self.header, done, said, causes_of(self.header, done) if by_rules else (WRONG,))
        return None


def follows(names: Sequence[str], header: Header, done: Sequence[Done]) -> bool:
    """Whether all replies of the kernel come by the rules with these differences."""
    rules = Rules(names)
    rules.begin(header.ports, header.twreuse, header.reserved)
    try:
        return all(rules.fits(list(words), reply) for words, reply in done)
    except (KeyError, ValueError, AssertionError):
        return False


def causes_of(header: Header, done: Sequence[Done]) -> tuple[str, ...]:
    """The fewest named differences that explain the kernel's replies."""
    if follows((), header, done):
        return (OPEN,)
    for count in range(1, 4):
        for names in itertools.combinations(DIFFERENCES, count):
            if follows(names, header, done):
                return names
    return (UNNAMED,)


def without(words: list[str]) -> list[list[str]]:
    """A line `socket` with one option less."""
    if words[0] != "socket":
        return []
    out = [[w for w in words if w != flag] for flag in ("reuseaddr", "reuseport", "noport") if flag in words]
    for name in ("uid", "dev", "net"):
        if name in words:
            at = words.index(name)
            out.append(words[:at] + words[at + 2:])
    return out


def shrunk(kernel: Kernel, path: str, found: Difference, seconds: float = 15) -> Difference:
    """A smaller script with a difference of the same cause."""
    last = time.monotonic() + seconds

    def again(commands: list[list[str]]) -> Optional[Difference]:
        try:
            trial = Trial(kernel, found.header)
            trial.steps(commands)
            other = trial.difference(path)
        except (Failed, StopIteration):
            return None
        return other if other and other.causes == found.causes else None

    best, smaller = found, True
    while smaller and time.monotonic() < last:
        commands = [words for words, _ in best.done]
        tries = [commands[:at] + commands[at + 1:] for at in range(len(commands) - 2, -1, -1)]
        tries += [commands[:at] + [less] + commands[at + 1:] for at, words in enumerate(commands)
                  for less in without(words)]
        smaller = False
        for some in tries:
            other = again(some) if time.monotonic() < last else None
            if other:
                best, smaller = other, True
                break
    return best


STATES_OF_SS = {"full": "ESTAB", "listen": "LISTEN", "request": "SYN-RECV", "time-wait": "TIME-WAIT"}


def listed_by_program(path: str, trial: Trial) -> list[tuple[str, str, str, int, int]]:
    """The program's `dump` at the end of a script, as ss(8) would list it."""
    items = replies_of(path, trial.header, [*trial.done, (["dump"], "")])[-1].split("\n")[1:]
    out = []
    for words in (item.split() for item in items):
        options = options_of(words[5:])
        out.append((STATES_OF_SS[words[1]], words[3], words[4], options["dev"], options.get("net", 0)))
    return sorted(out)


def random_scripts(kernel: Kernel, path: str, seed: int, seconds: float,
                   say: Callable[[str], None]) -> Total:
    """As many random scripts as there is time for."""
    total, last, number = Total(), time.monotonic() + seconds, 0
    with_ss = any((Path(folder) / "ss").exists() for folder in ("/usr/bin", "/bin", "/sbin", "/usr/sbin"))
    while time.monotonic() < last:
        number += 1
        writer = Writer(random.Random(f"{seed} {number}"))
        try:
            trial = Trial(kernel, writer.header)
            trial.random(writer)
            found = trial.difference(path)
        except Failed as error:
            total.failed[str(error)[:70]] += 1
            continue
        total.scripts += 1
        total.commands += len(trial.done)
        total.late += trial.late
        total.unasked += trial.unasked
        if found:
            total.causes[found.causes] += 1
            if found.causes[0] not in DIFFERENCES:
                total.unnamed.append(shrunk(kernel, path, found))
                say(f"seed {seed}, script {number}: docs/LINUX.md doesn't name it: by {found.causes[0]}\n"
                    + total.unnamed[-1].text())
        elif with_ss and number % 10 == 0 and not trial.late and trial.done:
            total.listed += 1
            wanted, got = listed_by_program(path, trial), kernel.listed_by_ss()
            if wanted != got:
                total.listed_wrong.append(f"seed {seed}, script {number}: ss lists {got}, the program {wanted}")
                say(total.listed_wrong[-1])
    return total
