"""Script `number` of a seed, for fuzz.py and audit_texts.py."""

from __future__ import annotations

import random

from . import mutations
from .scripts import Writer


def script(seed: int, number: int, race: bool) -> bytes:
    """Mostly a valid script; some in other forms, some near misses."""
    choose = random.Random(f"{seed} {number} {race}")
    text, capture = Writer(choose, race).write()
    kind = choose.random()
    if kind < 0.12:
        text = mutations.harmless(text, choose)
    elif kind < (0.2 if race else 0.4):
        text = mutations.mutate(text, choose)
    if capture and text and not text.endswith(b"\n"):
        text += b"\n"
    return text + capture
