"""python3 -m model.tight.cross [--seconds N] [--case NAME]... [--program PATH]

Whether what others play or run is among the texts that play.py finds: micro.py's random
orders of steps, simulate.py's of commands, and a program's own races.
"""

from __future__ import annotations

import argparse
import subprocess
import sys
import time

from .. import grammar, micro, program, simulate
from . import cases, lawful, play


def main() -> int:
    parser = argparse.ArgumentParser(prog="python3 -m model.tight.cross")
    parser.add_argument("--seconds", type=float, default=3)
    parser.add_argument("--case", action="append")
    parser.add_argument("--program", help="its own races, in place of those of the simulators")
    parser.add_argument("--show", action="store_true")
    asked = parser.parse_args()
    bad = 0
    for case in cases.CASES:
        if asked.case and case.name not in asked.case:
            continue
        data = cases.data(case)
        given = program.read_input(data, grammar.RACE)
        assert not isinstance(given, program.Outcome)
        reach = play.Play(given, case.lookers, case.passes).texts(case.most)
        sources = {"micro": lambda n: micro.race(data, case.lookers, case.passes, n).out.decode(),
                   "simulate": lambda n: simulate.race(data, case.lookers, case.passes, n).out.decode()}
        if asked.program:
            words = [asked.program, "race", "--lookers", str(case.lookers), "--passes", str(case.passes)]
            sources = {"program": lambda n: subprocess.run(
                words, input=data, stdout=subprocess.PIPE, check=False).stdout.decode("latin-1")}
        said = []
        for name, play_one in sources.items():
            got: set[str] = set()
            until, n = time.time() + asked.seconds, 0
            while time.time() < until:
                got.add(play_one(n))
                n += 1
            outside = got - reach
            bad += len(outside)
            said.append(f"{name} {n} runs, {len(got)} texts, outside {len(outside)}")
            if outside and asked.show:
                print(min(outside, key=len))
        print(f"{case.name:15} reachable {len(reach)}: " + "; ".join(said), flush=True)
    return 1 if bad else 0


if __name__ == "__main__":
    sys.exit(main())
