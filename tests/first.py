#!/usr/bin/env python3
"""What takes seconds, and proves nothing: what this machine lacks, the counts, the pages, the input of the conversations, the
layout of all files and the files of the edits. All are tried at the same time.

usage: tests/first.py
"""

import os
import pathlib
import subprocess
import sys
import time
from concurrent.futures import ThreadPoolExecutor

ROOT = pathlib.Path(__file__).resolve().parent.parent
SCRIPTS = ["needs", "counts", "pages", "stdin", "layout", "edits --files"]


def run(script):
    """What a script prints, and whether it passes."""
    name, *words = script.split()
    how = {"stdin": subprocess.DEVNULL, "stdout": subprocess.PIPE, "stderr": subprocess.STDOUT, "text": True}
    ran = subprocess.run([sys.executable, str(ROOT / "tests" / f"{name}.py"), *words], cwd=ROOT, errors="replace", **how)
    return ran.stdout, ran.returncode == 0


def main():
    begun = time.monotonic()
    # (the scripts are looked for beside this one, and leave nothing there)
    os.environ["PYTHONDONTWRITEBYTECODE"] = "1"
    with ThreadPoolExecutor(len(SCRIPTS)) as pool:
        found = dict(zip(SCRIPTS, pool.map(run, SCRIPTS)))
    for text, _ in found.values():
        print(text, end="")
    failed = [script for script, (_, passes) in found.items() if not passes]
    for script in failed:
        print(f"first: {script} failed")
    print(f"first: {len(SCRIPTS) - len(failed)} of {len(SCRIPTS)} passed, {time.monotonic() - begun:.0f} s")
    return 1 if failed else 0


if __name__ == "__main__":
    sys.exit(main())
