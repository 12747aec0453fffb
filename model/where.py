"""Which program is tried: $INET, or the one that the launcher builds and keeps."""

from __future__ import annotations

import os
import subprocess
import sys
from pathlib import Path

TOP = Path(__file__).resolve().parent.parent
LAUNCHER = TOP / "inet"
KEPT = TOP / "crates" / "inet" / "out" / "launcher" / "inet"


def find_program() -> str:
    """Its path; ends where there is none. The launcher is called once, which builds where that is wanted."""
    named = os.environ.get("INET")
    if named:
        path = Path(named).resolve()
        if not os.access(path, os.X_OK) or path.is_dir():
            sys.exit(f"INET={named}: no program")
        return str(path)
    done = subprocess.run([str(LAUNCHER), "make", "0", "0"], stdout=subprocess.DEVNULL, check=False)
    if done.returncode or not KEPT.exists():
        sys.exit(f"{LAUNCHER}: ended with {done.returncode}, so there is no program to try")
    return str(KEPT)
