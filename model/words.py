"""The command line (docs/inet.1, SYNOPSIS and DESCRIPTION)."""

from __future__ import annotations

import re
from dataclasses import dataclass
from typing import Optional

DECIMAL = re.compile(r"\+?[0-9]+")


@dataclass(frozen=True)
class Call:
    """A subcommand with its numbers."""

    verb: str
    numbers: tuple[int, ...] = ()


def value(word: str, least: int, most: int) -> Optional[int]:
    """A number in its range. A plus sign and zeros before it are read over."""
    if not DECIMAL.fullmatch(word):
        return None
    number = int(word)
    return number if least <= number <= most else None


def options(words: list[str]) -> Optional[dict[str, str]]:
    """`--name value` or `--name=value`, each name at most once; None otherwise."""
    found: dict[str, str] = {}
    at = 0
    while at < len(words):
        name, equals, text = words[at].partition("=")
        if not equals:
            at += 1
            if at == len(words):
                return None
            text = words[at]
        if not name.startswith("--") or name in found or (not equals and text.startswith("-")):
            return None
        found[name] = text
        at += 1
    return found


def race_call(words: list[str]) -> Optional[Call]:
    """`race --lookers N --passes P`: N 1 to 16, P 1 to 64, both required."""
    found = options(words)
    if found is None or set(found) != {"--lookers", "--passes"}:
        return None
    lookers = value(found["--lookers"], 1, 16)
    passes = value(found["--passes"], 1, 64)
    if lookers is None or passes is None:
        return None
    return Call("race", (lookers, passes))


def make_call(words: list[str]) -> Optional[Call]:
    """`make SEED COUNT`: SEED to 4294967295, COUNT to 100000."""
    if len(words) != 2:
        return None
    seed, count = value(words[0], 0, 4294967295), value(words[1], 0, 100000)
    return None if seed is None or count is None else Call("make", (seed, count))


def plain(words: list[str]) -> Optional[list[str]]:
    """The words without the first `--`; None where an option stands before it or behind it."""
    at = words.index("--") if "--" in words else len(words)
    if any(word.startswith("-") for word in words[:at]):
        return None
    return words[:at] + words[at + 1:]


def read_words(words: list[str]) -> Optional[Call]:
    """The call that the words after the program's name make; None: they are refused."""
    if not words:
        return None
    verb, rest = words[0], words[1:]
    if verb == "race":
        return race_call(rest[:-1] if rest[-1:] == ["--"] else rest)
    rest = plain(rest)
    if rest is None:
        return None
    if verb == "make":
        return make_call(rest)
    return Call(verb) if verb in ("run", "audit") and not rest else None
