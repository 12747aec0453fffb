"""`python3 -m model WORDS`: the program `inet` by the model.

`race` is served by the simulators, one lawful text of many; `--seed N` before
the words chooses it (with even ones workers step by commands, with odd ones
by atomic steps).
"""

from __future__ import annotations

import os
import sys

from . import micro, program, simulate
from .words import read_words


def read_all() -> bytes:
    """Standard input to its end, by its descriptor."""
    pieces = []
    while piece := os.read(0, 1 << 20):
        pieces.append(piece)
    return b"".join(pieces)


def write_all(data: bytes) -> None:
    """All of it to standard output, by its descriptor."""
    while data:
        data = data[os.write(1, data):]


def main(words: list[str]) -> int:
    """Runs the model, and returns its status."""
    seed = 0
    if words[:1] == ["--seed"] and len(words) > 1:
        seed, words = int(words[1]), words[2:]
    call = read_words(words)
    if call is None:
        return program.USAGE
    try:
        data = b"" if call.verb == "make" else read_all()
    except OSError:
        return program.READ_FAULT
    if call.verb == "race":
        simulator = micro.race if seed % 2 else simulate.race
        made = simulator(data, *call.numbers, seed)
    else:
        made = program.inet(words, data)
    try:
        write_all(made.out)
    except OSError:
        return program.WRITE_FAULT
    return made.status


if __name__ == "__main__":
    sys.exit(main(sys.argv[1:]))
