"""Near misses of the script's grammar, and harmless changes of form."""

from __future__ import annotations

import random
import re

BAD_WORDS = (b"", b"00", b"01", b"+1", b"-1", b"0x10", b"1.5", b"65536", b"4294967296",
             b"99999999999", b"10000000000", b"1e3", b"\xff", b"\x00", b"a:b", b"10.0.0.1",
             b"10.0.0.1:", b":80", b"10.0.0:80", b"10.0.0.256:80", b"10.0.0.01:80",
             b"10.0.0.1:080", b"10.0.0.1:65536", b"10.0.0.1.2:80", b"1.2.3.4:5:6",
             b"abcdefghijklmnopq", b"a.b", b"dev", b"to", b"from", b"at", b"reuseaddr",
             b"reuseport", b"uid", b"net", b"noport", b"#", b"x#y", b"0", b"1", b"64", b"65",
             b"3", b"16", b"128", b"257", b"512", b"131072", b"8192", b"\x0b", b"a\x0bb", b"\x0c")

STRANGE_LINES = (
    b"dump", b"syn a q from 10.0.0.2:80 at 10.0.0.1:80", b"ack a q9", b"reserved 80 81",
    b"reserved 81 80", b"reserved", b"reserved 0", b"packets 1", b"packets 1000001", b"packets",
    b"at 1", b"at", b"at 01", b"reap", b"reap 1", b"close a0", b"drop a0", b"drop a0 b0",
    b"twreuse 1", b"twreuse 2", b"offset 1", b"offset 65536", b"seed 4294967296", b"seed 1",
    b"range 1 2", b"range 2 1", b"range 1 3", b"range 0 1", b"range 65534 65535",
    b"range 65535 65536", b"range 5 5", b"table slots 0 bind 1 hash 1 listen 1",
    b"table slots 65536 bind 256 hash 65536 listen 4096", b"table slots 1 bind 512 hash 1 listen 1",
    b"table slots 65537 bind 1 hash 1 listen 1", b"table slots 1 bind 3 hash 1 listen 1",
    b"table slots 1 bind 1 hash 131072 listen 1", b"table slots 1 bind 1 hash 1 listen 8192",
    b"table slots 1 bind 0 hash 1 listen 1", b"table bind 1 slots 1 hash 1 listen 1",
    b"script 1", b"script 2", b"script 65", b"script", b"script 0", b"script 01", b"SCRIPT 1",
    b"capture", b"capture dev 0", b"capture dev 5", b"capture dev 65536", b"capture net 1",
    b"capture dev 5 net 1", b"capture net 1 dev 5", b"capture net 16", b"capture x",
    b"socket", b"socket q-_Z9", b"socket qqqqqqqqqqqqqqqqq", b"socket qqqqqqqqqqqqqqqq",
    b"socket q1 uid 1", b"socket q2 dev 1", b"socket q3 dev 0", b"socket q4 dev 65536",
    b"socket q5 reuseaddr", b"socket q6 reuseport", b"socket q7 reuseport reuseaddr",
    b"socket q8 dev 1 uid 1", b"socket q9 uid 1 dev 1", b"socket qa net 1", b"socket qb noport",
    b"socket qc noport reuseaddr", b"socket qd net 16", b"socket qe uid 4294967296",
    b"socket qf uid 1 net 1", b"socket qg dev 1 dev 1", b"socket qh reuseaddr reuseaddr",
    b"socket uid uid 3", b"socket q.i", b"socket q:j", b"socket q\xc3\xa9", b"socket q\x00",
    b"bind a0 10.0.0.1:0", b"bind a0 10.0.0.1", b"bind a0 10.0.0.1:80 x", b"bind a0",
    b"listen", b"listen a0 b0", b"listen zz", b"connect a0 10.0.0.1:80",
    b"connect a0 to 10.0.0.9:0", b"connect a0 from 10.0.0.1:5 to 10.0.0.2:80",
    b"connect a0 to 10.0.0.2:80 from 10.0.0.1", b"connect a0 from 10.0.0.1 to 10.0.0.2",
    b"accept a0 from 10.0.0.2:80 at 10.0.0.1:80", b"accept a0 qk from 10.0.0.2:80",
    b"accept a0 a0 from 10.0.0.2:80 at 10.0.0.1:80", b"accept zz ql at 10.0.0.1:80 from 10.0.0.2:80",
    b"look 10.0.0.1:1 10.0.0.2:2 dev 1", b"look 10.0.0.1:1 10.0.0.2:2 dev 0",
    b"look 10.0.0.1:1", b"look 10.0.0.1:1 10.0.0.2:2 net 1", b"look 10.0.0.1:1 10.0.0.2:2 dev 1 net 0",
    b"look 10.0.0.1:1 10.0.0.2:2 net 1 dev 1", b"look 10.0.0.1:0 0.0.0.0:0", b"quit", b"\x00",
    b"\xff\xfe", b"#", b"##x \x00\xff", b" # x", b"\t#", b"\r", b"\r\r", b" \r", b"\x0b", b"\x0c",
)

WORD = re.compile(rb"[^ \t\r\n]+")


def lines_of(text: bytes) -> list[bytes]:
    """The lines, without the end of the last."""
    return text.split(b"\n")[:-1] if text.endswith(b"\n") else text.split(b"\n")


def joined(lines: list[bytes]) -> bytes:
    """The lines, each ended."""
    return b"".join(line + b"\n" for line in lines)


def harmless(text: bytes, choose: random.Random) -> bytes:
    """A change of form that the grammar passes over, of some lines."""
    out = []
    for line in lines_of(text):
        what = choose.randrange(12)
        if what == 0:
            line += b"\r"
        elif what == 1:
            line = WORD.sub(lambda m: m.group() + choose.choice((b"", b" ", b"\t", b" \t ")), line)
        elif what == 2:
            line = choose.choice((b" ", b"\t", b"  ")) + line
        elif what == 3:
            line = line.replace(b" ", choose.choice((b"  ", b"\t", b" \t")))
        elif what == 4:
            out.append(choose.choice((b"", b"#", b"# socket a", b"   ", b"\t#\x00\xff", b"\r",
                                      b"#script 9", b" \t\r", b"#\r\r")))
        out.append(line)
    return joined(out)


def change_word(text: bytes, choose: random.Random) -> bytes:
    """One word replaced, dropped, doubled, extended or upper-cased."""
    found = list(WORD.finditer(text))
    if not found:
        return text
    at = choose.choice(found)
    word = at.group()
    new = choose.choice((
        choose.choice(BAD_WORDS), b"", word + b" " + word, word + choose.choice((b"0", b"x", b"\x00")),
        b"0" + word, b"+" + word, word.upper(), word[:-1], word[1:],
        choose.choice(found).group()))
    return text[:at.start()] + new + text[at.end():]


def change_byte(text: bytes, choose: random.Random) -> bytes:
    """One byte replaced, dropped or added."""
    if not text:
        return choose.randbytes(1)
    at = choose.randrange(len(text))
    byte = bytes([choose.choice((0, 9, 10, 13, 32, 35, 45, 46, 48, 58, 95, 127, 128, 255,
                                 choose.randrange(256)))])
    keep = choose.choice((0, 1))
    return text[:at] + choose.choice((byte, b"")) + text[at + keep:]


def change_lines(text: bytes, choose: random.Random) -> bytes:
    """A line doubled, dropped, moved, or a strange one put in."""
    lines = lines_of(text)
    at = choose.randrange(len(lines) + 1)
    what = choose.randrange(5)
    if what == 0 and lines:
        lines.insert(at, choose.choice(lines))
    elif what == 1 and at < len(lines):
        lines.pop(at)
    elif what == 2 and lines:
        lines.insert(at, lines.pop(choose.randrange(len(lines))))
    else:
        lines.insert(at, choose.choice(STRANGE_LINES))
    return joined(lines)


def change_end(text: bytes, choose: random.Random) -> bytes:
    """The text cut at a byte, or without its last line feed, or with CRs at its end."""
    what = choose.randrange(4)
    if what == 0:
        return text[:choose.randrange(len(text) + 1)]
    if what == 1:
        return text.removesuffix(b"\n")
    if what == 2:
        return text.removesuffix(b"\n") + b"\r"
    return text.removesuffix(b"\n") + choose.choice((b"\r\r", b"\r\r\n", b" \r\n", b"\n\n\n", b"\x00"))


def all_crlf(text: bytes, choose: random.Random) -> bytes:
    """Every line ended by CR and LF."""
    return text.replace(b"\n", b"\r\n")


def mutate(text: bytes, choose: random.Random) -> bytes:
    """One to three changes."""
    for _ in range(choose.choice((1, 1, 1, 2, 3))):
        change = choose.choice((change_word, change_word, change_byte, change_lines, change_lines,
                                change_end, harmless, all_crlf))
        text = change(text, choose)
    return text
