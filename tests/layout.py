#!/usr/bin/env python3
"""Fails if a source, a definition or a proof isn't laid out as `rt fmt` lays it out. `rt ci` finds that too, in each
crate as it comes to it.

usage: tests/layout.py
"""

import pathlib
import subprocess
import sys

ROOT = pathlib.Path(__file__).resolve().parent.parent
sys.path.append(str(ROOT / "tools"))

from crates import LIBRARIES, sources
from rattle import RATTLE


def main():
    files = [str(it) for crate in LIBRARIES for it in sources(crate) if it.suffix in (".rt", ".antt")]
    failed = subprocess.run([RATTLE, "fmt", "--check", *files], cwd=ROOT).returncode
    print(f"layout: {len(files)} files{': run rt fmt in the crates of those above' if failed else ''}")
    return 1 if failed else 0


if __name__ == "__main__":
    sys.exit(main())
