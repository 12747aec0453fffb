"""Random inputs: a program against the model, or its races judged.

`python3 -m model.fuzz --program PATH --seed N --count K` compares `PATH run`
(and now and then a small `make`) with the model on K scripts; `--race` judges
`PATH race` on random scripts; `--audit` compares `PATH audit` on texts of
races, lawful and not. Without `--program` the model runs alone, and what it
covered is printed. `--show NUMBER` writes one input.
"""

from __future__ import annotations

import argparse
import os
import random
import subprocess
import sys
from collections import Counter
from concurrent.futures import ProcessPoolExecutor
from dataclasses import dataclass, field
from typing import Iterator, Optional, Sequence

from . import audit_texts, judge, micro, program, simulate
from .fuzz_scripts import script

Cause = tuple[str, str, str]                       # command, reply, the rule that gave it
SHOWN = 3
LATE = -1000                                       # in place of a status: it took too long


@dataclass(frozen=True)
class Work:
    """A share of the runs."""

    path: Optional[str]                            # None: the model alone
    seed: int
    first: int
    count: int
    kind: str                                      # run, race or audit
    slow: float


@dataclass
class Done:
    """What a share found."""

    runs: int = 0
    differ: int = 0
    seen: Counter[Cause] = field(default_factory=Counter)
    shown: list[str] = field(default_factory=list)

    def add(self, part: "Done") -> None:
        """Takes what another share found."""
        self.runs += part.runs
        self.differ += part.differ
        self.seen.update(part.seen)
        self.shown += part.shown


def run_program(path: str, words: Sequence[str], data: bytes, slow: float) -> tuple[bytes, int]:
    """A program's output and status."""
    try:
        done = subprocess.run([path, *words], input=data, stdout=subprocess.PIPE,
                              stderr=subprocess.DEVNULL, check=False, timeout=slow)
    except subprocess.TimeoutExpired as late:
        return late.stdout or b"", LATE
    return done.stdout, done.returncode


def one_run(work: Work, number: int, done: Done) -> None:
    """One script, `run`; every fortieth is a small `make` too."""
    if number % 40 == 39:
        one_make(work, number, done)
    data = script(work.seed, number, False)
    trace = program.Trace()
    wanted = program.run(data, trace)
    done.seen.update(trace.seen)
    done.seen[("status", str(wanted.status), "")] += 1
    compare(work, number, done, ("run",), data, wanted)


def one_make(work: Work, number: int, done: Done) -> None:
    """A small `make`."""
    choose = random.Random(f"make {work.seed} {number}")
    seed = choose.choice((0, 1, 4294967295, choose.randrange(2 ** 32)))
    words = ("make", str(seed), str(choose.randrange(400)))
    compare(work, number, done, words, b"", program.inet(list(words), b""))


def one_audit(work: Work, number: int, done: Done) -> None:
    """One text, `audit`."""
    data = audit_texts.audit_text(work.seed, number)
    wanted = program.run_audit(data)
    words = wanted.out.decode().split()
    why = words[3] if words[0] == "no" else ""
    done.seen[(f"audit {words[0]}", why, "")] += 1
    compare(work, number, done, ("audit",), data, wanted)


def compare(work: Work, number: int, done: Done, words: Sequence[str], data: bytes,
            wanted: program.Outcome) -> None:
    """A program's output against the model's."""
    if work.path is None:
        return
    got = run_program(work.path, words, data, work.slow)
    if got != (wanted.out, wanted.status):
        note(work, done, number, data, f"{' '.join(words)}: {wanted.status} {wanted.out!r}",
             f"{got[1]} {got[0]!r}")


def one_race(work: Work, number: int, done: Done) -> None:
    """One script, `race`."""
    data = script(work.seed, number, True)
    choose = random.Random(number)
    lookers, passes = choose.choice((1, 2, 3, 16)), choose.choice((1, 2, 5, 64))
    words = ("race", "--lookers", str(lookers), "--passes", str(passes))
    if work.path is None:
        simulator = micro.race if number % 2 else simulate.race
        made = simulator(data, lookers, passes, number)
        got = made.out, made.status
    else:
        got = run_program(work.path, words, data, work.slow)
    faults = judge.judge(data, lookers, passes, got[0], got[1])
    done.seen[("race status", str(got[1]), "")] += 1
    done.seen.update(met(got[0]))
    if faults:
        note(work, done, number, data, " ".join(words) + "\n" + "\n".join(faults[:8]),
             f"{got[1]} {got[0]!r}")


def met(text: bytes) -> Counter[Cause]:
    """Packets by whether their lookups came before, between or behind the changes."""
    lines = [line.split() for line in text.split(b"\n")]
    clock = next((line[1] for line in lines if line[:1] == [b"clock"] and len(line) == 2), b"0")
    out: Counter[Cause] = Counter()
    for line in lines:
        if line[:1] == [b"packet"] and b"t0" in line:
            at = line.index(b"t0")
            t0, t1 = line[at + 1], line[at + 3]
            when = ("before all changes" if t1 == b"0" else "behind all changes" if t0 == clock
                    else "beside changes")
            out[("race packet", when, "")] += 1
    return out


def note(work: Work, done: Done, number: int, data: bytes, wanted: str, got: str) -> None:
    """Keeps a mismatch."""
    done.differ += 1
    if len(done.shown) < SHOWN:
        done.shown.append(f"{work.kind}, seed {work.seed}, number {number}: {data!r}\n"
                          f"  expected {wanted}\n  got      {got}")


def share(work: Work) -> Done:
    """Does a share."""
    done = Done()
    does = {"run": one_run, "race": one_race, "audit": one_audit}
    for number in range(work.first, work.first + work.count):
        done.runs += 1
        does[work.kind](work, number, done)
    return done


def shares(path: Optional[str], kind: str, seed: int, count: int, jobs: int,
           slow: float) -> Iterator[Work]:
    """The work in pieces."""
    piece = max(1, min(100, count // (4 * jobs) or 1))
    for first in range(0, count, piece):
        yield Work(path, seed, first, min(piece, count - first), kind, slow)


def total(path: Optional[str], kind: str, seed: int, count: int, jobs: int = os.cpu_count() or 1,
          slow: float = 60.0) -> Done:
    """All shares of so many runs together."""
    out = Done()
    work = list(shares(path, kind, seed, count, jobs, slow))
    if jobs == 1:
        for part in map(share, work):
            out.add(part)
        return out
    with ProcessPoolExecutor(jobs) as pool:
        for part in pool.map(share, work):
            out.add(part)
    return out


def covered(seen: Counter[Cause]) -> str:
    """(command, reply) without the causes, each with its count."""
    counts: Counter[tuple[str, str]] = Counter()
    for (verb, reply, _), count in seen.items():
        counts[(verb, reply)] += count
    return "; ".join(f"{verb} {reply} {count}" for (verb, reply), count in sorted(counts.items()))


def main(arguments: Optional[Sequence[str]] = None) -> int:
    """The command line of this file."""
    parser = argparse.ArgumentParser(prog="python3 -m model.fuzz", description="random inputs")
    parser.add_argument("--program", help="a program; without it the model alone")
    parser.add_argument("--seed", type=int, default=1)
    parser.add_argument("--count", type=int, default=1000)
    parser.add_argument("--jobs", type=int, default=os.cpu_count() or 1)
    parser.add_argument("--race", action="store_true", help="judge races")
    parser.add_argument("--audit", action="store_true", help="compare `audit` on texts of races")
    parser.add_argument("--causes", action="store_true", help="print the causes of replies too")
    parser.add_argument("--timeout", type=float, default=60.0, help="seconds for one run")
    parser.add_argument("--show", type=int, metavar="NUMBER", help="write one input and end")
    asked = parser.parse_args(arguments)
    kind = "race" if asked.race else "audit" if asked.audit else "run"
    if asked.show is not None:
        text = (audit_texts.audit_text(asked.seed, asked.show) if asked.audit
                else script(asked.seed, asked.show, asked.race))
        sys.stdout.buffer.write(text)
        return 0
    done = total(asked.program, kind, asked.seed, asked.count, asked.jobs, asked.timeout)
    for text in done.shown[:SHOWN]:
        print(text)
    if asked.causes:
        for (verb, reply, cause), count in sorted(done.seen.items()):
            print(f"  {verb} | {reply} | {cause}: {count}")
    print(f"fuzz: {done.runs} run, {done.differ} differ, coverage: {covered(done.seen)}")
    return 1 if done.differ else 0


if __name__ == "__main__":
    sys.exit(main())
