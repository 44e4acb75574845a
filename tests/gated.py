#!/usr/bin/env python3
"""Tries tests/gate.py over a small repository whose scripts prove nothing: what its first and its last lines say, and what it
does when its time is over.

usage: tests/gated.py
"""

import os
import pathlib
import shutil
import signal
import subprocess
import sys
import tempfile

sys.path.append(os.path.join(os.path.dirname(os.path.abspath(__file__)), "lib"))

import gate
from processes import started_by
from serving import ROOT, tell

COPIED = ["tests/gate.py", "tests/outside.py", "tools/crates.py", "tools/rattle.py"]
# A toolkit that keeps two proofs.
TOOLKIT = '#!/bin/sh\n[ "$1" = version ] && echo "toolkit 1" || echo {}/kit/page\n'
SCRIPT = "print('{}: 1 passed, 0 failed')\n"
EDITS = "import sys, subprocess, time\n"
GOOD = """print('rt: low proved')
print('rt: high is kept')
print('low: 1 edits, 0 faults, 1 weak')
print('outside: clients: 3 s, status 0, load 1.0')
print('rt: ok; handles allowed: none')
print('outside: 1 of 1 passed')
print('weak: low/edits/x: refused for a name only')
print('edits: 1 to be tried, 0 faults, 1 weak')
"""
BAD = """print('rt: high NOT PROVED')
print('low/edits/y: refused in f: returns')
print('low/edits/x: f: no holes')
print('outside: clients: 3 s, status 1, load 1.0')
print('outside: clients failed:')
print('    by itself: python3 tests/trials/clients.py PROGRAM')
sys.exit(1)
"""
# Goes on until it is ended, and so does what it starts in a session of its own.
ENDLESS = """print('rt: low proved', flush=True)
subprocess.Popen(['sleep', '1000'], start_new_session=True)
print('waits', flush=True)
time.sleep(1000)
"""


class Small:
    """A repository of two crates and a trial. These scripts have these texts, and all others pass."""

    def __init__(self, room, **scripts):
        self.root = pathlib.Path(tempfile.mkdtemp(dir=room))
        for name in COPIED:
            (self.root / name).parent.mkdir(exist_ok=True)
            shutil.copy(os.path.join(ROOT, name), self.root / name)
        shutil.copytree(os.path.join(ROOT, "tests", "lib"), self.root / "tests" / "lib")
        for name in [gate.FIRST, *gate.OWN, "edits"]:
            (self.root / "tests" / f"{name}.py").write_text(scripts.get(name, SCRIPT.format(name)))
        (self.root / "tests" / "trials.txt").write_text("clients: 9\n")
        (self.root / "crates.txt").write_text("low:\nhigh: low\n")
        (self.root / "crates" / "low" / "edits").mkdir(parents=True)
        for name in ("proof-low-1", "proof-high-2", "lock-proof-3"):
            (self.root / "rattle-kept" / name).mkdir(parents=True)
        (self.root / "rt").write_text(TOOLKIT.format(self.root))
        (self.root / "rt").chmod(0o755)

    def start(self, **environment):
        words = [sys.executable, str(self.root / "tests" / "gate.py")]
        environment = {**os.environ, "RT": str(self.root / "rt"), "SMALL": str(self.root), **environment}
        how = {"stdout": subprocess.PIPE, "stderr": subprocess.STDOUT, "text": True, "env": environment}
        return subprocess.Popen(words, **how)

    def ran(self, **environment):
        """The status of the gate, and the lines that it prints."""
        with self.start(**environment) as it:
            said = it.stdout.read()
        return it.returncode, said.splitlines()

    def remains(self):
        """What the gate started and didn't end."""
        return list(started_by("SMALL", str(self.root)))


def try_passing(room):
    status, lines = Small(room, edits=EDITS + GOOD).ran()
    yield "a gate that passes", status, 0
    yield "its first line", lines[0].endswith("toolkit 1; the toolkit keeps 2 proofs of earlier runs here"), True
    yield "its last line", (lines[-1].startswith("the gate passed on "), "toolkit 1, after 0 minutes" in lines[-1]), (True, True)
    again = [line.strip() for line in lines[-5:-1]]
    expected = ["rt: ok; handles allowed: none", "outside: 1 of 1 passed", "weak: low/edits/x: refused for a name only"]
    yield "what it says again", again, [*expected, "edits: 1 to be tried, 0 faults, 1 weak"]


def try_failing(room):
    small = Small(room, judged="print('judged: 0 passed, 1 failed')\nraise SystemExit(1)\n", edits=EDITS + GOOD)
    status, lines = small.ran()
    yield "a script that fails", (status, lines[-1].startswith("the gate failed on ")), (1, True)
    found = ["  failed: the script judged, with status 1", "    by itself: python3 tests/judged.py"]
    yield "how it is tried by itself", lines[-3:-1], found
    yield "the rest is tried", "rt: low proved" in lines, True
    first = "print('first: pages failed')\nprint('first: edits --files failed')\nraise SystemExit(1)\n"
    status, lines = Small(room, first=first, edits=EDITS + GOOD).ran()
    commands = [line.partition("by itself: python3 tests/")[2] for line in lines if "by itself: " in line]
    yield "what takes seconds", (status, commands), (1, ["pages.py", "edits.py --files", "first.py"])
    yield "behind it nothing is begun", [line for line in lines if line.startswith("rt: ")], []
    status, lines = Small(room, edits=EDITS + BAD).ran()
    commands = [line.partition("by itself: ")[2] for line in lines[-12:] if "by itself: " in line]
    found = ["trials/clients.py PROGRAM", "edits.py", "edits.py low/x"]
    expected = sorted([f"python3 tests/{it}" for it in found] + ["python3 tools/check.py high"])
    yield "a proof, an edit and a trial that fail", (status, sorted(set(commands))), (1, expected)


def try_late(room):
    """A gate that is told to end, and one whose time is over."""
    small = Small(room, edits=EDITS + ENDLESS)
    with small.start() as it:
        before = []
        while not before or before[-1] != "waits\n":
            before.append(it.stdout.readline())
        it.send_signal(signal.SIGTERM)
        *_, passed, left, last = it.stdout.read().splitlines()
    yield "a gate that is stopped", (it.returncode, last.startswith("the gate was stopped on ")), (1, True)
    yield "what passed", (passed.startswith("  passed: "), "the proof of low" in passed), (True, True)
    yield "what is left", left, "  left: the proof of high, the edits of low, the trial clients"
    yield "nothing of it goes on", small.remains(), []
    small = Small(room, first="import time\ntime.sleep(1000)\n")
    status, lines = small.ran(GATE_MINUTES="0.02")
    found = (status, lines[-1].startswith("the gate was stopped on "), lines[-3])
    yield "one whose time is over", found, (1, True, "  passed: nothing")
    yield "nothing of that goes on", small.remains(), []


def try_sharing():
    """The toolkit shares by itself with four processors and memory for their checks."""
    shared = [gate.sharing(*it) for it in ((2, 64e9), (4, 10e9), (4, 20e9), (16, 64e9))]
    yield "what is shared", [it.get("RT_JOBS") for it in shared], [None, None, "", ""]


def tries():
    yield from try_sharing()
    with tempfile.TemporaryDirectory() as room:
        for part in (try_passing, try_failing, try_late):
            yield from part(room)


if __name__ == "__main__":
    sys.exit(tell("gated", tries()))
