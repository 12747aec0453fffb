"""python3 -m model.tight.audits [--seconds N]

What `inet audit` lets through, by design or not: texts that runs give are changed in one
word, or two, or in a line; each that `audit` says yes to though it is no lawful text is
counted by what was changed.
"""

from __future__ import annotations

import argparse
import random
import sys
import time

from .. import audit, grammar, program
from . import cases, lawful, play

FIELDS = {
    "race": {3: "lookers", 5: "passes"},
    "shape": {1: "slots", 2: "bind", 3: "hash", 4: "listen", 6: "seed"},
    "journal": {1: "bucket", 2: "count"},
    "clock": {1: "clock"},
}


def changed(lines: list[str], choose: random.Random) -> tuple[str, list[str]]:
    """One change, and what it is called."""
    out = list(lines)
    i = choose.randrange(len(out))
    ws = out[i].split(" ")
    kind = ws[0] if ws[0].isalpha() else "item" if ws[1] == "item" else "reply"
    what = choose.randrange(4)
    if what == 0:
        out.pop(i)
        return f"{kind} line left out", out
    if what == 1:
        j = choose.randrange(len(out))
        out.insert(j, out[i])
        return f"{kind} line twice", out
    if what == 2 and kind in ("reply", "packet"):
        new = choose.choice(("ok", "EADDRINUSE", "EADDRNOTAVAIL", "none", "EINVAL", "ok 80"))
        at = 3 if kind == "reply" else 2
        if kind == "packet":
            k = ws.index("t0") if "t0" in ws else len(ws)
            out[i] = " ".join(ws[:2] + ["none"] + ws[k:])
            return "packet answer none", out
        out[i] = " ".join(ws[:at] + [new])
        return "reply", out
    j = choose.randrange(len(ws))
    if not ws[j].isdigit():
        return "", out
    if kind == "life":
        name = {1: "bucket", 2: "slot"}.get(j) or ws[j - 1] if ws[j - 1] in ("dev",) else None
        h = ws.index("hash")
        name = {1: "bucket", 2: "slot", h + 1: "hash begin", h + 2: "hash end", h + 4: "unhash begin",
                h + 5: "unhash end"}.get(j, "card")
    elif kind == "packet":
        name = ws[j - 1] if ws[j - 1] in ("t0", "t1", "dev", "in") else "number" if j == 1 else "again's number"
    elif kind == "reply":
        name = ws[j - 1] if ws[j - 1] in ("t0", "t1") else "section" if j == 0 else ws[1] + " numbers"
    else:
        name = FIELDS.get(kind, {}).get(j, str(j))
    ws[j] = str(max(0, int(ws[j]) + choose.choice((-2, -1, 1, 2, 90))))
    out[i] = " ".join(ws)
    return f"{kind} {name}", out


def main() -> int:
    parser = argparse.ArgumentParser(prog="python3 -m model.tight.audits")
    parser.add_argument("--seconds", type=float, default=3)
    asked = parser.parse_args()
    choose = random.Random(3)
    seen: dict[str, list] = {}
    tried = 0
    for case in cases.CASES:
        data = cases.data(case)
        given = program.read_input(data, grammar.RACE)
        assert not isinstance(given, program.Outcome)
        reach = sorted(play.Play(given, case.lookers, case.passes).texts(case.most))
        until = time.time() + asked.seconds
        while time.time() < until:
            name, lines = changed(choose.choice(reach).splitlines(), choose)
            text = "\n".join(lines) + "\n"
            tried += 1
            if not name or not isinstance(audit.audit(text.encode()), audit.Yes):
                continue
            if lawful.lawful(given, case.lookers, case.passes, text.encode()) is not None:
                continue
            mine = seen.setdefault(name, [0, ""])
            mine[0] += 1
            if not mine[1] or len(text) < len(mine[1]):
                mine[1] = text
    print(f"{tried} changes tried; audit says yes, and the text isn't lawful for its input:")
    for name, (n, text) in sorted(seen.items(), key=lambda x: -x[1][0]):
        print(f"{n:7} {name}")
    return 0


if __name__ == "__main__":
    sys.exit(main())
