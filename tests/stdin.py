#!/usr/bin/env python3
"""Fails if what `osb_conformance` reads and prints isn't what its conversations say: its standard input is their files, one
behind the other, and its standard output has a line for each.

usage: tests/stdin.py [--keep]

--keep writes both.
"""

import pathlib
import sys

CRATE = pathlib.Path(__file__).resolve().parent.parent / "crates" / "osb_conformance"


def wanted():
    """The two files, each with what it has to have."""
    groups = sorted((CRATE / "conversations").glob("*.txt"))
    return {
        CRATE / "stdin": "".join(it.read_text(encoding="utf-8") for it in groups),
        CRATE / "stdout": "".join(f"{it.stem}: as written\n" for it in groups),
    }


def main():
    others = [it for it, text in wanted().items() if not it.exists() or it.read_text(encoding="utf-8") != text]
    if sys.argv[1:] == ["--keep"]:
        for each in others:
            each.write_text(wanted()[each], encoding="utf-8")
        others = []
    for each in others:
        print(f"stdin: {each.relative_to(CRATE)} isn't that of the conversations: python3 tests/stdin.py --keep")
    print(f"stdin: {len(wanted()) - len(others)} passed, {len(others)} failed")
    return 1 if others else 0


if __name__ == "__main__":
    sys.exit(main())
