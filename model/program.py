"""The program by the manual page: words and bytes in, text and status out.

`race` is left to judge.py, since its text isn't determined. The parts stand in
their own files: words.py, grammar.py, flat.py, captures.py, audit.py.
"""

from __future__ import annotations

from dataclasses import dataclass, field
from typing import Callable, Iterator, Optional

from . import audit, captures, grammar
from . import commands as cmd
from .cards import Packet
from .flat import Flat, Reply
from .hashes import Lcg64Xsh32
from .words import Call, read_words

LIMIT = 16_777_216

DONE, USAGE, BAD_SCRIPT, BAD_CAPTURE, TOO_LONG = 0, 2, 3, 4, 5
READ_FAULT, WRITE_FAULT, MEMORY, BAD_RECORD, REFUTED = 6, 7, 8, 9, 10


@dataclass(frozen=True)
class Outcome:
    """What stands on the standard output, and the status."""

    out: bytes
    status: int


@dataclass
class Trace:
    """What a run did, for coverage: (verb, reply, cause)."""

    seen: list[tuple[str, str, str]] = field(default_factory=list)

    def reply(self, verb: str, reply: Reply) -> None:
        """Takes a reply without its numbers."""
        words = reply.words.split()
        shape = " ".join(w for w in words if not w[0].isdigit())
        self.seen.append((verb, shape, reply.cause))

    def answer(self, verb: str, answer: str) -> None:
        """Takes an answer's first word."""
        self.seen.append((verb, answer.split()[0], ""))


class Run:
    """`inet run` on a script: sections in order, then the packets left."""

    def __init__(self, script: cmd.Script, capture: captures.Capture,
                 trace: Optional[Trace] = None) -> None:
        self.script = script
        self.capture = capture
        self.flat = Flat(script.header)
        self.trace = trace or Trace()
        self.looked_up = 0

    def lines(self) -> Iterator[str]:
        """The output's lines."""
        for n, section in enumerate(self.script.sections, 1):
            for command in section:
                yield from self.step(n, command)
        yield from self.packets(len(self.capture.items))
        if self.capture.cut:
            self.trace.answer("packets", "cut")
            yield "cut"

    def step(self, n: int, command: cmd.Command) -> Iterator[str]:
        """A command's lines."""
        if isinstance(command, cmd.Packets):
            yield from self.packets(command.count)
            return
        if isinstance(command, cmd.Dump):
            self.trace.answer("dump", "dump")
            yield from self.flat.dump_lines(n)
            return
        head = cmd.line_head(n, command)
        if isinstance(command, cmd.Look):
            answer = self.flat.look(Packet(command.src, command.sport, command.dst,
                                           command.dport, command.dev, command.net))
            self.trace.answer("look", answer)
            yield f"{head} {answer}"
            return
        reply = self.flat.apply(n, command)
        self.trace.reply(cmd.VERBS[type(command)], reply)
        yield f"{head} {reply.words}"

    def packets(self, count: int) -> Iterator[str]:
        """The next packets of the capture, or those that are left."""
        for item in self.capture.items[self.looked_up:self.looked_up + count]:
            self.looked_up += 1
            answer = item if isinstance(item, str) else self.flat.look(item)
            self.trace.answer("packet", answer)
            yield f"packet {self.looked_up} {answer}"


def text_of(lines: Iterator[str]) -> bytes:
    """Each line ends with a line feed."""
    return "".join(f"{line}\n" for line in lines).encode("ascii")


@dataclass(frozen=True)
class Input:
    """A script in the grammar, with its capture."""

    script: cmd.Script
    capture: captures.Capture


def read_input(data: bytes, mode: str) -> Input | Outcome:
    """Too long, a bad line or a bad capture, in this order; or the input."""
    if len(data) > LIMIT:
        return Outcome(b"", TOO_LONG)
    script = grammar.parse(data, mode)
    if isinstance(script, grammar.BadLine):
        return Outcome(f"bad script line {script.line}\n".encode(), BAD_SCRIPT)
    capture: Optional[captures.Capture] = captures.Capture()
    if script.capture is not None:
        line = script.capture
        capture = captures.packets(line.data, line.dev, line.net)
    if capture is None:
        return Outcome(b"bad capture\n", BAD_CAPTURE)
    return Input(script, capture)


def run(data: bytes, trace: Optional[Trace] = None) -> Outcome:
    """`inet run`."""
    given = read_input(data, grammar.RUN)
    if isinstance(given, Outcome):
        return given
    return Outcome(text_of(Run(given.script, given.capture, trace).lines()), DONE)


def make_text(seed: int, count: int) -> str:
    """The script of `make` (docs/inet.1, GENERATED SCRIPTS)."""
    lines = ["table slots 4096 bind 16 hash 1024 listen 16", f"seed {seed}", "twreuse 1",
             "script 1"]
    generator = Lcg64Xsh32(seed, 1000)
    for i in range(1, count + 1):
        lines += make_step(i, generator.next_u32())
    return "".join(f"{line}\n" for line in lines)


def make_step(i: int, w: int) -> list[str]:
    """The lines of step i."""
    a = f"10.0.0.{1 + w // 8 % 4}"
    p = 8000 + w // 32 % 64
    j = 1 + w // 2048 % i
    r = 1000 + i % 60000
    return [
        [f"socket s{i} reuseaddr", f"bind s{i} 0.0.0.0:{p}"],
        [f"socket s{i} reuseport", f"bind s{i} {a}:{p}", f"listen s{i}"],
        [f"socket s{i}", f"bind s{i} {a}:0", f"listen s{i}"],
        [f"socket s{i}", f"connect s{i} from {a} to 10.0.1.1:{p}"],
        [f"accept s{j} s{i} from 10.0.1.2:{r} at {a}:{p}"],
        [f"close s{j}"],
        [f"look 10.0.1.2:{r} {a}:{p}"],
        [f"at {i}", "reap"],
    ][w % 8]


def make(seed: int, count: int) -> Outcome:
    """`inet make`: the five counts over the output of `run` on that text."""
    out = run(make_text(seed, count).encode()).out.decode()
    lines = [line.split() for line in out.splitlines()]
    looks = [words for words in lines if words[1] == "look"]
    others = [words for words in lines if words[1] != "look"]
    # The reply stands after the label, or after the verb where there is none;
    # of `at` after T.
    replies = [words[2] if words[1] == "reap" else words[3] for words in others]
    ok = replies.count("ok")
    none = sum(1 for words in looks if words[2] == "none")
    counts = [("commands", len(others)), ("ok", ok), ("refused", len(others) - ok),
              ("found", len(looks) - none), ("none", none)]
    return Outcome(text_of(f"{word} {count}" for word, count in counts), DONE)


def run_audit(data: bytes) -> Outcome:
    """`inet audit`."""
    if len(data) > LIMIT:
        return Outcome(b"", TOO_LONG)
    verdict = audit.audit(data)
    status = {audit.Yes: DONE, audit.No: REFUTED, audit.BadRecord: BAD_RECORD}[type(verdict)]
    return Outcome(f"{verdict.text()}\n".encode(), status)


def inet(words: list[str], data: bytes) -> Outcome:
    """The program, without `race`; `words` are those after its name."""
    call = read_words(words)
    if call is None:
        return Outcome(b"", USAGE)
    does: dict[str, Callable[[Call], Outcome]] = {
        "run": lambda c: run(data),
        "make": lambda c: make(*c.numbers),
        "audit": lambda c: run_audit(data),
    }
    return does[call.verb](call)
