"""python3 -m model.tight [--case NAME]... [--seconds N] [--examples] [--json FILE]"""

from __future__ import annotations

import argparse
import json
import random
import sys
import time
from typing import Any, Optional

from .. import audit, grammar, judge, program, record
from . import cases, clauses, gen, lawful, play


class Count:
    """What a class comes to."""

    def __init__(self) -> None:
        self.fails = self.alone = 0
        self.example: Optional[str] = None
        self.case = ""

    def take(self, alone: bool, text: str, case: str) -> None:
        self.fails += 1
        if alone:
            self.alone += 1
            if self.example is None or len(text) < len(self.example):
                self.example, self.case = text, case


def failing(base: gen.Base, names: Any, memo: Optional[dict] = None) -> frozenset[str]:
    """The clauses that refuse the text: of its witnesses the one that fewest refuse."""
    best: Optional[frozenset[str]] = None
    for k, w in enumerate(base.witnesses):
        mine = set()
        for name in names:
            if memo is not None and name not in clauses.PACKET_CLAUSES:
                key = (k, name)
                if key not in memo:
                    memo[key] = clauses.CLAUSES[name](base.lawful, w)
                ok = memo[key]
            else:
                ok = clauses.CLAUSES[name](base.lawful, w)
            if not ok:
                mine.add(name)
        if best is None or len(mine) < len(best):
            best = frozenset(mine)
    return best or frozenset()


def measure(case: cases.Case, seconds: float, totals: dict[str, Count], judged: dict[str, Count],
            audited: dict[str, int]) -> dict[str, Any]:
    data = cases.data(case)
    given = program.read_input(data, grammar.RACE)
    assert not isinstance(given, program.Outcome), given
    began = time.time()
    game = play.Play(given, case.lookers, case.passes)
    whole_runs = True
    try:
        reach = game.texts(case.most)
    except play.TooMany:
        whole_runs = False
        reach = game.random_texts(random.Random(1), 5000)
    refused = sum(1 for x in reach if lawful.lawful(given, case.lookers, case.passes, x.encode()) is None)
    refused_judge = sum(1 for x in list(reach)[:400] if judge.judge(
        data, case.lookers, case.passes, x.encode()))
    makes = gen.Gen(given, case.lookers, case.passes, 3000)
    accepted: set[str] = set()
    loose = unexplained = judge_yes = judge_asked = audit_yes = 0
    mine: dict[str, int] = {}
    odd: list[str] = []
    wrong: list[tuple[str, frozenset]] = []
    last: Any = None
    memo: dict = {}
    cut = False
    choose = random.Random(2)
    for base, text, _ in makes.texts(4000):
        if base is not last:
            last, memo = base, {}
        if text in accepted:
            continue
        accepted.add(text)
        fails = failing(base, clauses.CLAUSES, memo)
        if text in reach:
            if fails:
                wrong.append((text, fails))
            continue
        loose += 1
        if not fails:
            unexplained += 1
            odd.append(text)
        for f in fails:
            mine[f] = mine.get(f, 0) + 1
            totals[f].take(len(fails) == 1, text, case.name)
        if choose.random() < 0.03 or loose < 60:
            judge_asked += 1
            if not judge.judge(data, case.lookers, case.passes, text.encode()):
                judge_yes += 1
                for f in fails or ("none",):
                    judged.setdefault(f, Count()).take(len(fails) <= 1, text, case.name)
        if time.time() - began > seconds:
            cut = True
            break
    # texts that differ elsewhere: none of them may be lawful and not among the accepted
    stray = stray_lawful = 0
    some = sorted(accepted)
    until = time.time() + 1
    while some and time.time() < until:
        x = gen.strays(choose.choice(some), choose)
        stray += 1
        if lawful.lawful(given, case.lookers, case.passes, x.encode()) is not None and x not in accepted:
            stray_lawful += 1
        elif isinstance(audit.audit(x.encode()), audit.Yes) and x not in accepted:
            audit_yes += 1
    audited[case.name] = audit_yes
    return {"case": case.name, "reachable": len(reach), "states": game.states, "all runs": whole_runs,
            "refused": refused, "refused by the judge": refused_judge, "tried": makes.tried + stray,
            "accepted": len(accepted), "whole": makes.whole and not cut, "missed": len(reach - accepted),
            "loose": loose, "unexplained": unexplained, "classes": mine, "judge asked": judge_asked,
            "judge yes": judge_yes, "strays": stray, "strays lawful": stray_lawful,
            "strays audit yes": audit_yes, "clauses wrong": len(wrong), "wrong": wrong[:2],
            "odd": sorted(odd, key=len)[:3], "seconds": round(time.time() - began, 1)}


def main() -> int:
    parser = argparse.ArgumentParser(prog="python3 -m model.tight")
    parser.add_argument("--case", action="append")
    parser.add_argument("--seconds", type=float, default=30)
    parser.add_argument("--examples", action="store_true")
    parser.add_argument("--odd", action="store_true")
    parser.add_argument("--json")
    asked = parser.parse_args()
    totals = {name: Count() for name in clauses.CLAUSES}
    judged: dict[str, Count] = {}
    audited: dict[str, int] = {}
    rows = []
    print("case            reachable  tried  accepted  loose  unexplained | classes (texts that a clause refuses)")
    for case in cases.CASES:
        if asked.case and case.name not in asked.case:
            continue
        row = measure(case, asked.seconds, totals, judged, audited)
        rows.append(row)
        marks = ("" if row["whole"] else " part") + ("" if row["all runs"] else " random-runs")
        print(f"{row['case']:15} {row['reachable']:6} {row['tried']:9} {row['accepted']:8} {row['loose']:7} "
              f"{row['unexplained']:6} | " + ", ".join(f"{k} {v}" for k, v in sorted(row["classes"].items()))
              + f" | judge {row['judge yes']}/{row['judge asked']} {row['seconds']}s{marks}",
              flush=True)
        for what in ("refused", "refused by the judge", "clauses wrong", "strays lawful"):
            if row[what] and (what != "strays lawful" or row["whole"]):
                print(f"    !! {what}: {row[what]}")
        if row["missed"] and row["whole"]:
            print(f"    !! missed {row['missed']}")
        if asked.odd:
            for x in row["odd"][:2]:
                print("    odd:", x.replace("\n", "\n    "))
            for x, f in row["wrong"][:1]:
                print("    wrong:", sorted(f), x.replace("\n", "\n    "))
    print("\nclass          refuses   alone   the judge lets through, of a sample (alone)")
    for name, c in totals.items():
        j = judged.get(name)
        print(f"{name:14} {c.fails:7} {c.alone:7}   {j.fails if j else 0} ({j.alone if j else 0})")
        if asked.examples and c.example:
            print(f"  smallest, of {c.case}:\n    " + c.example.replace("\n", "\n    "))
    if asked.json:
        out = {"rows": [{k: v for k, v in r.items() if k != "wrong"} for r in rows],
               "classes": {n: {"fails": c.fails, "alone": c.alone, "case": c.case, "example": c.example}
                           for n, c in totals.items()},
               "judge": {n: {"fails": c.fails, "alone": c.alone, "case": c.case, "example": c.example}
                              for n, c in judged.items()}}
        with open(asked.json, "w", encoding="utf-8") as f:
            json.dump(out, f, indent=1)
    return 0


if __name__ == "__main__":
    sys.exit(main())
