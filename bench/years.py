"""`python3 -m bench.years`: shared tables that last, measured by programs of callers/c.

Builds the library with the toolchain's `rt lib` (or takes $LIBRARY, a libinet_c.a), compiles the programs over it, and
runs one after the other: calls at full speed for ten minutes, a million standing connections, workers and lookers that
come and go, tables with few slots left, and one port that several workers share. Each tells its figures; of `years` the
lines of full minutes are shown, and the last one, with how far memory rose since the first minute. Ends with 1 where a
program's standard output isn't what stands beside it in callers/c, but for the numbers that it was called with.
"""

from __future__ import annotations

import argparse
import re
import subprocess
import sys
import tempfile
from pathlib import Path
from typing import Optional, Sequence

from .__main__ import machine
from .words.__main__ import TOP, library

CALLERS = TOP / "callers" / "c"
# The words of each program: in full, quickly, and those whose output stands beside it.
PROGRAMS = {
    "years": (["600"], ["3"], ["1"]),
    "standing": (["1048576"], ["100000"], ["100000"]),
    "turnover": (["100000", "10000"], ["1000", "1000"], ["100000", "10000"]),
    "nearly_full": (["1048576"], ["65536"], ["65536"]),
    "one_port": (["10"], ["1"], ["1"]),
}
REPORT = re.compile(r" *(\d+) s: .* VmRSS (\d+) KiB")


def compiled(folder: Path, name: str, archive: Path) -> Path:
    """One of the programs."""
    out = folder / name
    subprocess.run(["cc", "-std=c11", "-O2", "-pthread", "-I", TOP / "callers", CALLERS / f"{name}.c",
                    TOP / "callers" / "heap.c", archive, "-o", out], check=True)
    return out


def minutes(lines: list[str]) -> list[str]:
    """Of reports each ten seconds those of full minutes and the last, and how memory went since the first of them."""
    reports = [(int(found[1]), int(found[2]), line) for line in lines if (found := REPORT.match(line))]
    shown = [report for at, report in enumerate(reports, 1) if at % 6 == 0 or at == len(reports)]
    told = [line for _, _, line in shown] + [line for line in lines if not REPORT.match(line)]
    if len(shown) > 1:
        told.append(f"memory since the first minute: {shown[-1][1] / shown[0][1] - 1:+.2%}")
    return told


def run(program: Path, words: Sequence[str]) -> bool:
    """Runs it and shows its figures; whether its output is as it must be."""
    done = subprocess.run([program, *words], capture_output=True, text=True, check=False)
    lines = done.stderr.splitlines()
    for line in minutes(lines) if program.name == "years" else lines:
        print(f"  {line}")
    wanted = (CALLERS / f"{program.name}.out").read_text(encoding="utf-8")
    for usual, asked in zip(PROGRAMS[program.name][2], words):
        wanted = re.sub(rf"\b{usual}\b", asked, wanted)
    print("".join(f"  {line}\n" for line in done.stdout.splitlines()), end="", flush=True)
    return done.returncode == 0 and done.stdout == wanted


def main(arguments: Optional[Sequence[str]] = None) -> int:
    """The command line."""
    parser = argparse.ArgumentParser(prog="python3 -m bench.years", description="shared tables that last")
    parser.add_argument("--quick", action="store_true", help="some seconds in all, to see that the programs run")
    parser.add_argument("name", nargs="*", help=", ".join(PROGRAMS))
    asked = parser.parse_args(arguments)
    unknown = set(asked.name) - set(PROGRAMS)
    if unknown:
        parser.error(f"no such program: {', '.join(unknown)}")
    wrong = 0
    with tempfile.TemporaryDirectory() as folder:
        archive = library()
        for name, (full, quick, _) in PROGRAMS.items():
            if asked.name and name not in asked.name:
                continue
            words = quick if asked.quick else full
            print(f"{name} {' '.join(words)}, on {machine()}", flush=True)
            if not run(compiled(Path(folder), name, archive), words):
                print(f"  {name}: its output DIFFERS from callers/c/{name}.out")
                wrong += 1
    return 1 if wrong else 0


if __name__ == "__main__":
    sys.exit(main())
