"""`python3 -m bench.words`: the library beside plain C over the same words.

Builds the library with the toolchain's `rt lib` (or takes $LIBRARY, a libinet_c.a), compiles the driver over it and
over plain.c, and runs the two turn and turn about: processor nanoseconds of a lookup, or of a socket that comes and
goes, on 1, 2 and 4 threads, as medians.
"""

from __future__ import annotations

import argparse
import os
import re
import statistics
import subprocess
import sys
import tempfile
from pathlib import Path
from typing import Optional, Sequence

from ..__main__ import machine

HERE = Path(__file__).resolve().parent
TOP = HERE.parent.parent
MODES = {
    "hit": "a lookup that finds a connection", "miss": "a lookup that finds nothing: three chains",
    "listener": "a lookup that finds a listener", "hot": "a lookup of one connection, again and again",
    "accept-close": "`accept`, `close`, and the TIME_WAIT's end by `reap`", "accept-drop": "`accept` and `drop`",
    "connect-close": "`connect` from a searched port, `close`, and `reap`",
    "connect-drop": "`connect` from a searched port, and `drop`", "bind-drop": "`bind` to a port, and `drop`",
    "search-drop": "`bind` to port 0, and `drop`",
}


def library() -> Path:
    """The static library."""
    named = os.environ.get("LIBRARY")
    if named:
        return Path(named).resolve()
    crate = TOP / "crates" / "inet_c"
    if subprocess.run(["rt", "lib"], cwd=crate, stdout=subprocess.DEVNULL, check=False).returncode:
        sys.exit("bench: rt lib built no library")
    return crate / "out" / "libinet_c.a"


def compiled(folder: Path, name: str, *more: object) -> Path:
    """The driver over one of the two tables."""
    out = folder / name
    subprocess.run(["cc", "-std=gnu11", "-O2", "-pthread", "-I", TOP / "callers", HERE / f"{name}.c", *more, "-o", out],
                   check=True)
    return out


def nanoseconds(program: Path, mode: str, threads: int, seconds: float) -> float:
    """Of one call."""
    done = subprocess.run([program, mode, str(threads), str(seconds)], capture_output=True, text=True, check=False)
    found = re.search(r": (\d+) ns", done.stdout)
    if done.returncode or not found:
        sys.exit(f"bench: {program} {mode}: {done.stdout}{done.stderr}")
    return int(found[1])


def main(arguments: Optional[Sequence[str]] = None) -> int:
    """The command line."""
    parser = argparse.ArgumentParser(prog="python3 -m bench.words", description="the library beside plain C")
    parser.add_argument("--reps", type=int, default=3)
    parser.add_argument("--seconds", type=float, default=1)
    parser.add_argument("mode", nargs="*", help=", ".join(MODES))
    asked = parser.parse_args(arguments)
    with tempfile.TemporaryDirectory() as name:
        folder = Path(name)
        ours = compiled(folder, "inet", TOP / "callers" / "heap.c", library())
        plain = compiled(folder, "plain")
        print(f"measured on: {machine()}\n")
        print("| Call | here: ns, on 1, 2, 4 threads | plain C: ns | here / plain |\n|---|---|---|---|", flush=True)
        for mode, words in MODES.items():
            if asked.mode and mode not in asked.mode:
                continue
            rows: list[list[float]] = []
            for threads in (1, 2, 4):
                runs = [[nanoseconds(program, mode, threads, asked.seconds) for program in (ours, plain)]
                        for _ in range(asked.reps)]
                rows.append([statistics.median(column) for column in zip(*runs)])
            cells = [", ".join(f"{row[k]:.0f}" for row in rows) for k in (0, 1)]
            cells.append(", ".join(f"{a / b:.2f}" for a, b in rows))
            print(f"| {words} | " + " | ".join(cells) + " |", flush=True)
    return 0


if __name__ == "__main__":
    sys.exit(main())
