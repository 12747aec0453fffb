"""The script's grammar (docs/inet.1, SCRIPTS).

Each form is written as in the manual page. A word in capitals with a kind behind a
colon stands for a value; words in square brackets may be absent; every other
word stands for itself.
"""

from __future__ import annotations

import re
from dataclasses import dataclass, replace
from typing import Any, Callable, Optional, Union

from . import commands as cmd
from .cards import Shape

RUN = "run"
RACE = "race"

TEN_DIGITS = re.compile(rb"0|[1-9][0-9]{0,9}")
LABEL = re.compile(rb"[A-Za-z0-9_-]{1,16}")
WORD_BREAK = re.compile(rb"[ \t]+")

U32 = 4294967295

Values = dict[str, Any]


@dataclass(frozen=True)
class BadLine:
    """Line n, from 1, is the first outside the grammar."""

    line: int


def number(word: bytes, least: int, most: int) -> Optional[int]:
    """One to ten digits without a leading zero, within the range."""
    if not TEN_DIGITS.fullmatch(word):
        return None
    value = int(word)
    return value if least <= value <= most else None


def power(word: bytes, most: int) -> Optional[int]:
    """A power of two up to `most`."""
    value = number(word, 1, most)
    return value if value is not None and value & (value - 1) == 0 else None


def address(word: bytes) -> Optional[int]:
    """Four numbers to 255 joined by dots."""
    parts = [number(part, 0, 255) for part in word.split(b".")]
    if len(parts) != 4 or None in parts:
        return None
    return sum(part << shift for part, shift in zip(parts, (24, 16, 8, 0)))


def an_end(word: bytes) -> Optional[tuple[int, int]]:
    """An address, a colon and a port."""
    parts = word.split(b":")
    if len(parts) != 2:
        return None
    addr, port = address(parts[0]), number(parts[1], 0, 65535)
    return None if addr is None or port is None else (addr, port)


def label(word: bytes) -> Optional[str]:
    """1 to 16 letters, digits, `_` and `-`."""
    return word.decode("ascii") if LABEL.fullmatch(word) else None


KINDS: dict[str, Callable[[bytes], Any]] = {
    "label": label,
    "new": label,                                  # a label that is given here
    "addr": address,
    "end": an_end,
    "user": lambda w: number(w, 0, U32),
    "moment": lambda w: number(w, 0, U32),
    "dev": lambda w: number(w, 1, 65535),
    "net": lambda w: number(w, 0, 15),
    "slots": lambda w: number(w, 1, 65536),
    "bindpower": lambda w: power(w, 256),
    "hashpower": lambda w: power(w, 65536),
    "listenpower": lambda w: power(w, 4096),
    "port1": lambda w: number(w, 1, 65535),
    "offset": lambda w: number(w, 0, 65535),
    "seed": lambda w: number(w, 0, U32),
    "bit": lambda w: number(w, 0, 1),
    "section": lambda w: number(w, 1, 64),
    "packets": lambda w: number(w, 0, 1000000),
}


HEADER_FORMS = (
    "table slots N:slots bind B:bindpower hash E:hashpower listen L:listenpower",
    "range LO:port1 HI:port1",
    "seed N:seed",
    "offset N:offset",
    "twreuse N:bit",
)

COMMAND_FORMS = (
    "socket S:new [net N:net] [uid U:user] [dev D:dev] [reuseaddr] [reuseport] [noport]",
    "bind S:label A:end",
    "listen S:label",
    "connect S:label [from F:addr] to B:end",
    "accept L:label C:new from B:end at A:end",
    "syn L:label R:new from B:end at A:end",
    "ack R:label C:new",
    "close S:label",
    "drop S:label",
    "at T:moment",
    "reap",
    "look B:end A:end [dev D:dev] [net N:net]",
    "packets N:packets",
    "dump",
)

SECTION_FORMS = ("script N:section",)

CAPTURE_FORMS = ("capture [dev D:dev] [net N:net]",)

RUN_ONLY = ("look", "packets")                     # not in a race

PART = re.compile(r"\[([^\]]*)\]|(\S+)")


def match_word(part: str, word: bytes, values: Values) -> bool:
    """Matches one word of a form."""
    if ":" not in part:
        values[part] = True
        return word == part.encode()
    key, kind = part.split(":")
    values[key] = KINDS[kind](word)
    return values[key] is not None


def match(form: str, words: list[bytes]) -> Optional[Values]:
    """The values of a line that has exactly the form's words; None else.

    No word of an optional part can be taken for what follows it, so that the
    part is there exactly where its first word is.
    """
    values: Values = {}
    at = 0
    for optional, plain in PART.findall(form):
        parts = optional.split() if optional else [plain]
        if optional and (at >= len(words) or words[at] != parts[0].encode()):
            continue
        for part in parts:
            if at >= len(words) or not match_word(part, words[at], values):
                return None
            at += 1
    return values if at == len(words) else None


def first_match(forms: tuple[str, ...], words: list[bytes]) -> Optional[Values]:
    """The values by the one form that the line has."""
    for form in forms:
        if words[0] == form.split()[0].encode():
            values = match(form, words)
            if values is not None:
                return values
    return None


def command_of(verb: str, v: Values) -> cmd.Command:
    """The command of a line of that verb."""
    builders: dict[str, Callable[[], cmd.Command]] = {
        "socket": lambda: cmd.MakeSocket(
            v["S"], v.get("N", 0), v.get("U", 0), v.get("D", 0),
            "reuseaddr" in v, "reuseport" in v, "noport" in v),
        "bind": lambda: cmd.Bind(v["S"], *v["A"]),
        "listen": lambda: cmd.Listen(v["S"]),
        "connect": lambda: cmd.Connect(v["S"], v.get("F"), *v["B"]),
        "accept": lambda: cmd.Accept(v["L"], v["C"], *v["B"], *v["A"]),
        "close": lambda: cmd.Close(v["S"]),
        "drop": lambda: cmd.Drop(v["S"]),
        "at": lambda: cmd.At(v["T"]),
        "reap": lambda: cmd.Reap(),
        "look": lambda: cmd.Look(*v["B"], *v["A"], v.get("D", 0), v.get("N", 0)),
        "packets": lambda: cmd.Packets(v["N"]),
        "syn": lambda: cmd.Syn(v["L"], v["R"], *v["B"], *v["A"]),
        "ack": lambda: cmd.Ack(v["R"], v["C"]),
        "dump": lambda: cmd.Dump(),
    }
    return builders[verb]()


class Parser:
    """The lines so far; `line` tells whether one more is in the grammar."""

    def __init__(self, mode: str) -> None:
        self.mode = mode
        self.header = cmd.Header()
        self.seen_headers: set[str] = set()
        self.sections: list[list[cmd.Command]] = []
        self.labels: set[str] = set()
        self.capture: Optional[Values] = None

    def line(self, words: list[bytes]) -> bool:
        """Takes a line's words; False where the line is outside the grammar."""
        if not words or words[0].startswith(b"#"):
            return True                            # passed over
        return (self._header(words) or self._section(words)
                or self._command(words) or self._capture(words))

    def _header(self, words: list[bytes]) -> bool:
        """Before the first `script` line, each at most once."""
        verb = words[0].decode("latin-1")
        if self.sections or verb in self.seen_headers:
            return False
        changed = self._changed_header(verb, words)
        if changed is None:
            return False
        self.seen_headers.add(verb)
        self.header = changed
        return True

    def _changed_header(self, verb: str, words: list[bytes]) -> Optional[cmd.Header]:
        """The header with this line's values."""
        if verb == "reserved":
            ports = reserved_ports(words[1:])
            return None if ports is None else replace(self.header, reserved=ports)
        v = first_match(HEADER_FORMS, words)
        if v is None:
            return None
        if verb == "table":
            return replace(self.header, shape=Shape(v["N"], v["B"], v["E"], v["L"]))
        if verb == "range":
            if v["HI"] <= v["LO"] or (v["HI"] - v["LO"]) % 2 == 0:
                return None                        # HI above LO, HI - LO odd
            return replace(self.header, low=v["LO"], high=v["HI"])
        if verb == "seed":
            return replace(self.header, seed=v["N"])
        if verb == "offset":
            return replace(self.header, offset=v["N"])
        return replace(self.header, twreuse=v["N"] == 1)

    def _section(self, words: list[bytes]) -> bool:
        """Numbers 1, 2, 3 without a gap, to 64."""
        v = first_match(SECTION_FORMS, words)
        if v is None or v["N"] != len(self.sections) + 1:
            return False
        self.sections.append([])
        self.labels = set()
        return True

    def _command(self, words: list[bytes]) -> bool:
        """A command of the section that began last; a label is given once."""
        verb = words[0].decode("latin-1")
        if not self.sections or (self.mode == RACE and verb in RUN_ONLY):
            return False
        v = first_match(COMMAND_FORMS, words)
        if v is None:
            return False
        command = command_of(verb, v)
        given = cmd.given_label(command)
        if given is not None:
            if given in self.labels:
                return False                       # given before
            self.labels.add(given)
        self.sections[-1].append(command)
        return True

    def _capture(self, words: list[bytes]) -> bool:
        """The line that ends the script."""
        self.capture = first_match(CAPTURE_FORMS, words)
        return self.capture is not None


def reserved_ports(words: list[bytes]) -> Optional[tuple[int, ...]]:
    """1 to 64 ports from 1 to 65535, in ascending order."""
    ports = [number(word, 1, 65535) for word in words]
    if not 1 <= len(ports) <= 64 or None in ports:
        return None
    ascending = all(a < b for a, b in zip(ports, ports[1:]))
    return tuple(ports) if ascending else None


def words_of(line: bytes) -> list[bytes]:
    """One CR at the end is dropped; words are runs of other bytes than blanks."""
    if line.endswith(b"\r"):
        line = line[:-1]
    return [word for word in WORD_BREAK.split(line) if word]


def parse(text: bytes, mode: str = RUN) -> Union[cmd.Script, BadLine]:
    """The script, or the first line that is in none of its forms."""
    parser = Parser(mode)
    start, line_number = 0, 0
    while start < len(text):
        line_number += 1
        feed = text.find(b"\n", start)
        stop = len(text) if feed < 0 else feed
        if not parser.line(words_of(text[start:stop])):
            return BadLine(line_number)
        start = stop + 1
        if parser.capture is not None:             # the capture's bytes follow
            dev, net = parser.capture.get("D", 0), parser.capture.get("N", 0)
            capture = cmd.CaptureLine(dev, net, text[start:])
            return cmd.Script(parser.header, parser.sections, capture)
    return cmd.Script(parser.header, parser.sections, None)
