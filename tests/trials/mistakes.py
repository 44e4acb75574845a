#!/usr/bin/env python3
"""Tries what `check --explain` says to frequent mistakes in a settings file. Each is examples/queues.json with one
mistake, tests/trials/mistakes/NAME.json, and NAME.said beside it has the lines that are said: on standard output where the
file is accepted, else on standard error.

usage: tests/trials/mistakes.py PROGRAM
"""

import os
import pathlib
import shutil
import subprocess
import sys
import tempfile

sys.path.append(os.path.join(os.path.dirname(os.path.abspath(__file__)), "..", "lib"))

from serving import ROOT, tell

FOLDER = pathlib.Path(ROOT) / "tests" / "trials" / "mistakes"
GOOD = pathlib.Path(ROOT) / "examples" / "queues.json"
ACCEPTED = "services 1, plans 2\n"
OPEN = "every user may read or write it\n"


def checked(program, *words):
    """How `check` ends: the status, standard output and standard error."""
    ended = subprocess.run([program, "check", *words], capture_output=True, text=True, timeout=60)
    return ended.returncode, ended.stdout, ended.stderr


def ends(said):
    """How `check` ends that says this."""
    return (0, said, "") if said.startswith(ACCEPTED) else (3, "", said)


def copied(file, folder, mode=0o600):
    """A copy of a file that only its owner may read, or with another mode."""
    copy = pathlib.Path(shutil.copy(file, folder))
    copy.chmod(mode)
    return copy


def tries_over(program, folder):
    files = sorted(FOLDER.glob("*.json"))
    yield "there are so many", len(files) >= 25, True
    for file in files:
        said = file.with_suffix(".said").read_text()
        first = said.partition("\n")[0] + "\n"
        yield file.stem, checked(program, "--explain", copied(file, folder)), ends(said)
        yield f"{file.stem}, without a word more", checked(program, file), ends(first)
    yield "no mistake", checked(program, GOOD), (0, ACCEPTED, "")
    modes = "plan queues-shared: instances synchronous, bindings synchronous\n"
    modes += "plan queues-own: instances asynchronous, bindings asynchronous\n"
    passwords = "".join(f"a password that is easily guessed: {login}\n" for login in ("platform", "backend"))
    for mode, more in [(0o600, ""), (0o640, ""), (0o660, ""), (0o604, OPEN), (0o602, OPEN), (0o644, OPEN), (0o666, OPEN)]:
        found = checked(program, "--explain", copied(GOOD, folder, mode))
        yield f"no mistake but its passwords, with mode {mode:o}", found, (0, ACCEPTED + modes + passwords + more, "")


def tries(program):
    with tempfile.TemporaryDirectory() as folder:
        yield from tries_over(program, folder)


if __name__ == "__main__":
    sys.exit(tell("mistakes", tries(sys.argv[1])))
