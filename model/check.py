"""`python3 -m model.check`: all that is compared before a change is taken.

The judge's own texts, lawful and forged; the rows; scripts, `run` and now and then `make`, against the model; races,
judged; audits of texts of races against the model. Half of each number has
the fixed seed 1, half the seed of the day, which is printed. The program is
$INET, or the launcher's. The status is 1 where anything differs.
"""

from __future__ import annotations

import argparse
import os
import sys
import time
from typing import Optional, Sequence

from . import forged, fuzz, rows
from .where import find_program

FIXED = 1


def main(arguments: Optional[Sequence[str]] = None) -> int:
    """The command line of this file."""
    parser = argparse.ArgumentParser(prog="python3 -m model.check",
                                     description="rows, and random scripts, races and audits")
    parser.add_argument("--scripts", type=int, default=2000)
    parser.add_argument("--races", type=int, default=200)
    parser.add_argument("--audits", type=int, default=200)
    parser.add_argument("--seed", type=int, default=int(time.strftime("%Y%m%d", time.gmtime())),
                        help="in place of the seed of the day")
    parser.add_argument("--jobs", type=int, default=os.cpu_count() or 1)
    asked = parser.parse_args(arguments)
    path = find_program()
    begun = time.monotonic()
    differ = forged.check()
    print(f"forged texts: {differ} judged wrongly")
    agree, wrong = rows.check(path)
    print(f"rows: {agree} agree, {wrong} differ", flush=True)
    differ += wrong
    for kind, count in (("run", asked.scripts), ("race", asked.races), ("audit", asked.audits)):
        for seed, some in ((FIXED, count - count // 2), (asked.seed, count // 2)):
            done = fuzz.total(path, kind, seed, some, asked.jobs)
            for text in done.shown[:fuzz.SHOWN]:
                print(text)
            print(f"{kind}, seed {seed}: {done.runs} inputs, {done.differ} differ", flush=True)
            differ += done.differ
    print(f"model: {'ok' if not differ else f'{differ} DIFFER'}, "
          f"seed of the day {asked.seed}, {time.monotonic() - begun:.0f} s")
    return 1 if differ else 0


if __name__ == "__main__":
    sys.exit(main())
