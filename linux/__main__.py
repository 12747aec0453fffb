"""`python3 -m linux`: `inet run` beside the kernel that this machine runs. Needs root.

The scripts of docs/LINUX.md are done as real sockets, and then random ones for some seconds, in network namespaces
that are made for it and go away with it. Nothing outside them is touched, and no packet leaves. The program is $INET,
or the launcher's. The status is 0 where the kernel differs from the program only as docs/LINUX.md says, 1 where it
differs otherwise, and 2 where it can't be asked.
"""

from __future__ import annotations

import argparse
import os
import platform
import subprocess
import sys
import time
from collections import Counter
from typing import Optional, Sequence

from model.where import find_program

from . import compare, named
from .kernel import Kernel
from .netlink import Failed
from .rules import DIFFERENCES


def check_scripts(kernel: Kernel, path: str, keep: bool) -> int:
    """The scripts of docs/LINUX.md; how many aren't as it says."""
    wrong = 0
    for name in named.names():
        said = subprocess.run([path, "run"], input=(named.SCRIPTS / f"{name}.inet").read_bytes(), check=False,
                              stdout=subprocess.PIPE).stdout.decode("latin-1")
        wanted = (named.SCRIPTS / f"{name}.out").read_text(encoding="ascii")
        try:
            got = named.on_kernel(kernel, name)
        except (Failed, OSError) as error:
            got = f"failed: {error}\n"
        if keep:
            (named.ANSWERS / f"{name}.out").write_text(got, encoding="ascii")
        known = named.answer(name)
        if said == wanted and got == known:
            where = [f"{a} (the program: {b})" for a, b in zip(got.splitlines(), said.splitlines()) if a != b]
            print(f"script {name}: as docs/LINUX.md says: {'; '.join(where) or 'no line differs'}")
            continue
        wrong += 1
        print(f"script {name}: NOT as docs/LINUX.md says")
        for what, text in (("the program", said), ("its output in examples/linux", wanted), ("this kernel", got),
                           ("Linux as in linux/answers", known or "nothing\n")):
            print(f"  {what}:\n" + "".join(f"    {line}\n" for line in text.splitlines()), end="")
    return wrong


def check_random(kernel: Kernel, path: str, seed: int, seconds: float) -> int:
    """Random scripts; how many differ in a way that has no name."""
    total = compare.random_scripts(kernel, path, seed, seconds, lambda text: print(text, flush=True))
    print(f"random scripts, seed {seed}: {total.scripts}, of {total.commands} commands compared; "
          f"{total.late} cut since this machine was slow, {total.unasked} commands that the kernel can't be asked, "
          f"{total.listed} lists of ss(8)")
    each: Counter[str] = Counter()
    for causes, count in total.causes.items():
        for cause in causes:
            each[cause] += count
    for cause, count in sorted(each.items()):
        print(f"  {count} differ by {cause}" + (f": {DIFFERENCES[cause]}" if cause in DIFFERENCES else ""))
    for error, count in total.failed.most_common():
        print(f"  {count} were given up: {error}")
    if total.scripts and sum(total.failed.values()) > total.scripts / 10:
        print("  too many were given up")
        return 1
    return len(total.unnamed) + len(total.listed_wrong)


def main(arguments: Optional[Sequence[str]] = None) -> int:
    """The command line."""
    parser = argparse.ArgumentParser(prog="python3 -m linux", description="the program beside this machine's kernel")
    parser.add_argument("--seconds", type=float, default=60, help="for random scripts; 0: none")
    parser.add_argument("--seed", type=int, default=int(time.strftime("%Y%m%d", time.gmtime())))
    parser.add_argument("--keep", action="store_true", help="keeps this kernel's answers in linux/answers")
    asked = parser.parse_args(arguments)
    print(f"kernel: {platform.system()} {platform.release()} {platform.machine()}")
    if os.geteuid() != 0:
        print("linux: only root may make network namespaces and TUN devices: sudo -E python3 -m linux")
        return 2
    path = find_program()
    try:
        kernel = Kernel((0, 5, 15))
    except (Failed, OSError) as error:
        print(f"linux: this machine doesn't let itself be asked: {error}")
        return 2
    try:
        wrong = check_scripts(kernel, path, asked.keep)
        if asked.seconds:
            wrong += check_random(kernel, path, asked.seed, asked.seconds)
    finally:
        kernel.end()
    print(f"linux: {f'{wrong} NOT as docs/LINUX.md says' if wrong else 'as docs/LINUX.md says'}, "
          f"{platform.system()} {platform.release()}")
    return 1 if wrong else 0


if __name__ == "__main__":
    sys.exit(main())
