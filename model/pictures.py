"""`python3 -m model.pictures`: pictures of random races, read by an XML parser.

The texts are those of `audit`'s comparison: of races that the simulators make, lawful and not. Of each text that is a
record the picture must be well-formed XML, in which every life, packet and list has one shape, whose title is its line,
and the one that is drawn in red is of the line that `audit` names, if it refutes the text; of each other text the
answer must be `audit`'s. The program is $PICTURE, or the one that the launcher ./picture builds and keeps. The status
is 1 where anything differs.
"""

from __future__ import annotations

import argparse
import os
import re
import subprocess
import sys
import xml.etree.ElementTree as ElementTree
from collections import Counter
from typing import Optional, Sequence

from . import audit_texts, program
from .where import TOP

DRAWN = re.compile(r"life |packet |\d+ dump ")
SVG = "{http://www.w3.org/2000/svg}"


def find_picture() -> str:
    """The program's path; the launcher is called once, which builds where that is wanted."""
    named = os.environ.get("PICTURE")
    if named:
        return named
    with open(TOP / "examples" / "picture" / "visitor.record", "rb") as record:
        subprocess.run([str(TOP / "picture")], stdin=record, stdout=subprocess.DEVNULL, check=False)
    return str(TOP / "crates" / "picture" / "out" / "launcher" / "picture")


def lines_drawn(text: bytes) -> list[str]:
    """A record's lines, those that have a shape as its title has them, and no other word."""
    lines = (" ".join(line.removesuffix("\r").split()) for line in text.decode().split("\n"))
    return [line if DRAWN.match(line) else "" for line in lines]


def red(group: ElementTree.Element) -> bool:
    """Something in the group is drawn as refuted."""
    return any("wrong" in part.get("class", "").split() for part in group)


def fault(path: str, text: bytes) -> Optional[str]:
    """What is wrong with the answer to a text, if anything is."""
    wanted = program.run_audit(text)
    got = subprocess.run([path], input=text, stdout=subprocess.PIPE, stderr=subprocess.DEVNULL, check=False, timeout=60)
    if got.returncode != wanted.status:
        return f"status {got.returncode}, for {wanted.status}"
    if wanted.status == program.BAD_RECORD:
        return None if got.stdout == wanted.out else f"{got.stdout!r}, for {wanted.out!r}"
    try:
        root = ElementTree.fromstring(got.stdout)
    except ElementTree.ParseError as error:
        return f"no XML: {error}"
    groups = [(group.findtext(f"{SVG}title") or "", red(group)) for group in root.iter(f"{SVG}g")]
    lines = lines_drawn(text)
    titles, all_lines = Counter(title for title, _ in groups if DRAWN.match(title)), Counter(filter(None, lines))
    if titles != all_lines:
        return f"shapes {dict(titles - all_lines)}, lines without one {dict(all_lines - titles)}"
    words = wanted.out.decode().split()
    named = lines[int(words[2]) - 1] if words[0] == "no" else ""
    wrong = [title for title, is_red in groups if is_red]
    return None if wrong == [named] * bool(named) else f"red {wrong}, for {named!r}"


def main(arguments: Optional[Sequence[str]] = None) -> int:
    """The command line of this file."""
    parser = argparse.ArgumentParser(prog="python3 -m model.pictures", description="pictures of random races")
    parser.add_argument("--count", type=int, default=200)
    parser.add_argument("--seed", type=int, default=1)
    asked = parser.parse_args(arguments)
    path, differ = find_picture(), 0
    for number in range(asked.count):
        text = audit_texts.audit_text(asked.seed, number)
        wrong = fault(path, text)
        if wrong:
            differ += 1
            print(f"picture of text {number}, seed {asked.seed}: {wrong}")
    print(f"pictures: {asked.count} texts, {differ} differ")
    return 1 if differ else 0


if __name__ == "__main__":
    sys.exit(main())
