"""`python3 -m bench`: the table of docs/PERFORMANCE.md, measured anew on this machine.

Builds the plain program (cargo) and a small one that measures (cc), makes the workloads, and runs `inet run` and the
plain program turn and turn about. Seconds are processor time, user and system, and MiB is peak memory: medians.
Instructions are counted by valgrind's callgrind, where it is there: slow, but the same on a busy machine. Where the
two write other bytes it says so, and ends with 1. The program is $INET, or the launcher's; builds and inputs go to
$BENCH_FOLDER, or a folder of the system's for temporary files.
"""

from __future__ import annotations

import argparse
import hashlib
import os
import platform
import re
import shutil
import statistics
import subprocess
import sys
import tempfile
import time
from pathlib import Path
from typing import NamedTuple, Optional, Sequence

from model.where import find_program

from .workloads import BY_NAME, WORKLOADS, write

HERE = Path(__file__).resolve().parent
COUNTED = 9                                        # of the first rows instructions are counted


class Run(NamedTuple):
    """One run."""

    seconds: float
    mib: float
    status: int
    digest: str


class Late(Exception):
    """It didn't end in its time."""


def build(folder: Path) -> tuple[Path, Path]:
    """The plain program, and the one that measures."""
    for name in ("cargo", "cc"):
        if not shutil.which(name):
            sys.exit(f"bench: {name} is not on the PATH")
    environment = {**os.environ, "CARGO_TARGET_DIR": str(folder / "target")}
    subprocess.run(["cargo", "build", "--quiet", "--release", "--offline"], cwd=HERE / "plain", env=environment,
                   check=True)
    spawn = folder / "spawn"
    subprocess.run(["cc", "-O2", "-Wall", "-Wextra", str(HERE / "spawn.c"), "-o", str(spawn)], check=True)
    return folder / "target" / "release" / "plain", spawn


def once(spawn: Path, program: Path, data: Path, limit: int) -> Run:
    """One run, in a process whose parent is small, so that its peak memory is its own."""
    memory = "/dev/shm" if os.access("/dev/shm", os.W_OK) else None
    with tempfile.NamedTemporaryFile(dir=memory) as out:
        done = subprocess.run([spawn, str(limit), data, out.name, program, "run"], capture_output=True, text=True,
                              check=True)
        _, seconds, peak, status = done.stdout.split()
        if status == "-1":
            raise Late
        with open(out.name, "rb") as written:
            digest = hashlib.file_digest(written, "sha256").hexdigest()
    return Run(float(seconds), int(peak) / 1024, int(status), digest)


def instructions(program: Path, data: Path) -> float:
    """Millions of instructions."""
    with open(data, "rb") as stdin:
        done = subprocess.run(["valgrind", "--tool=callgrind", "--callgrind-out-file=/dev/null", program, "run"],
                              stdin=stdin, stdout=subprocess.DEVNULL, stderr=subprocess.PIPE, text=True, check=True)
    found = re.search(r"Collected : (\d+)", done.stderr)
    if not found:
        sys.exit(f"bench: valgrind counted nothing: {done.stderr[-300:]}")
    return int(found[1]) / 1e6


def machine() -> str:
    """What it was measured on."""
    try:
        text = Path("/proc/cpuinfo").read_text(encoding="utf-8")
        model = (re.findall(r"^model name\s*: (.*)$", text, re.M) or [platform.processor()])[0]
    except OSError:
        model = platform.processor()
    load = ", ".join(f"{x:.1f}" for x in os.getloadavg())
    return (f"{os.cpu_count()} processors, {model}; {platform.system()} {platform.release()}; "
            f"load {load}; {time.strftime('%Y-%m-%d %H:%M', time.gmtime())} UTC")


def number(value: float) -> str:
    """As the page has it."""
    return f"{value:,.0f}" if value >= 10 else f"{value:.1f}" if value >= 1 else f"{value:.2f}"


def row(at: int, words: str, inet: list[Run], plain: list[Run], counts: Optional[tuple[float, float]]) -> str:
    """A row of the table."""
    cells = [str(at), words]
    cells += [number(counts[0]), number(counts[1]), f"{counts[0] / counts[1]:.2f}"] if counts else ["", "", ""]
    for column in (0, 1):
        cells += [number(statistics.median(r[column] for r in runs)) for runs in (inet, plain)]
    return "| " + " | ".join(cells) + " |"


def measure(asked: argparse.Namespace, inet: Path, folder: Path) -> int:
    """The table; how many rows are wrong."""
    plain, spawn = build(folder)
    valgrind = shutil.which("valgrind") and not asked.no_instructions
    print(f"measured on: {machine()}\n", flush=True)
    print("| | Input | `inet`: million instructions | plain | ratio | `inet`: s | plain | `inet`: MiB | plain |")
    print("|---|---|---|---|---|---|---|---|---|", flush=True)
    wrong = 0
    for at, (make, words) in enumerate(WORKLOADS.items(), 1):
        if asked.name and make.__name__ not in asked.name:
            continue
        data = folder / f"{make.__name__}.txt"
        if not data.exists() or data.stat().st_mtime < (HERE / "workloads.py").stat().st_mtime:
            write(folder, make.__name__)
        runs: dict[Path, list[Run]] = {inet: [], plain: []}
        try:
            for _ in range(asked.reps):
                for program, mine in runs.items():
                    mine.append(once(spawn, program, data, asked.limit))
        except Late:
            print(f"| {at} | {words} | no end within {asked.limit} s | | | | | | |", flush=True)
            wrong += 1
            continue
        counts = (instructions(inet, data), instructions(plain, data)) if valgrind and at <= COUNTED else None
        print(row(at, words, runs[inet], runs[plain], counts), flush=True)
        if len({(r.status, r.digest) for mine in runs.values() for r in mine}) > 1:
            print(f"row {at}: the two write OTHER BYTES", flush=True)
            wrong += 1
    print(f"\nmeasured on: {machine()}")
    return wrong


def main(arguments: Optional[Sequence[str]] = None) -> int:
    """The command line."""
    parser = argparse.ArgumentParser(prog="python3 -m bench", description="`inet run` beside a plain program")
    parser.add_argument("--reps", type=int, default=3)
    parser.add_argument("--limit", type=int, default=300, help="seconds for one run")
    parser.add_argument("--no-instructions", action="store_true", help="doesn't count instructions")
    parser.add_argument("name", nargs="*", help="workloads: " + ", ".join(BY_NAME))
    asked = parser.parse_args(arguments)
    unknown = [name for name in asked.name if name not in BY_NAME]
    if unknown:
        parser.error(f"no such workload: {' '.join(unknown)}")
    inet = Path(find_program())
    named = os.environ.get("BENCH_FOLDER")
    if named:
        Path(named).mkdir(parents=True, exist_ok=True)
        return 1 if measure(asked, inet, Path(named)) else 0
    with tempfile.TemporaryDirectory() as folder:
        return 1 if measure(asked, inet, Path(folder)) else 0


if __name__ == "__main__":
    sys.exit(main())
