#!/usr/bin/env python3
"""The gate: runs what proves and tries everything. Its last lines say what failed, how that is tried by itself, what passed
only barely, on what machine it ran, and how long it took.

usage: tests/gate.py

CI ends what takes too long, and then nothing is said. So after GATE_MINUTES, 170 if that isn't set, the gate ends all that
it began, and says what passed and what is left. Its status is then 1.
"""

import os
import pathlib
import re
import signal
import subprocess
import sys
import threading
import time
from concurrent.futures import ThreadPoolExecutor

ROOT = pathlib.Path(__file__).resolve().parent.parent
sys.path += [str(ROOT / name) for name in ("tests", "tests/lib", "tools")]

from crates import LIBRARIES, free_memory, toolkit
from outside import listed
from processes import end_all
from rattle import KIT

# What takes seconds.
FIRST = "first"
# What tries the gate's own scripts, for minutes: two at a time, beside the rest.
OWN, AT_ONCE = ["judged", "building", "tried", "gated", "greened"], 2
# Every proof from nothing and the built program from outside, with the edits beside them.
REST = ["edits", "--beside", "make", "--no-print-directory", "tried"]
MINUTES = float(os.environ.get("GATE_MINUTES", 170))
# With so many processors and so much memory the toolkit shares what is idle between the checks that run.
SHARED_FROM, SHARED_BYTES = 4, 18_000_000_000
# A variable of the environment of all that the gate starts, by which it is found.
MARK = "OSB_GATE"
# Lines that say that something passed, and what.
PASSED = [
    (r"rt: (\w+) (?:proved|is kept\b.*)", "the proof of {}"),
    (r"rt: (\w+): its tests passed", "the tests of {}"),
    (r"(\w+): \d+ edits, (?:0 faults.*|refused before)", "the edits of {}"),
    (r"outside: ([\w ]+): \d+ s, status 0, .*", "the trial {}"),
]
# Lines that say that something failed, and how that is tried by itself.
FAILED = [
    (r"first: (\w+)( --\w+)? failed", "python3 tests/{}.py{}"),
    (r"rt: (\w+) NOT PROVED.*", "python3 tools/check.py {}"),
    (r"rt: (\w+): its tests NOT PROVED.*", "python3 tools/check.py {} --test"),
    (r"rt: (\w+): its tests FAILED", "cd crates/{} && rt test"),
    (r"rt: must-fail (\w+)/\S+: (?!refused, as it must be).*", "rt must-fail {}"),
    (r"(\w+)/edits/(\w+): (?!refused|met only).*", "python3 tests/edits.py {}/{}"),
    (r"(\w+): \S+ without an edit: .*", "python3 tests/edits.py {}"),
]
# Lines that are said again at the end.
SUMS = r"rt: ok; |rt: FAILED: |edits: \d+ to be tried|weak: |outside: (?!.*: \d+ s, status )|    by itself: "


def say(text):
    print(text, flush=True)


def machine():
    return f"{len(os.sched_getaffinity(0))} processors, {free_memory() / 1e9:.0f} GB free, {toolkit()}"


def sharing(processors, memory):
    """Says to the toolkit whether it shares what is idle by itself: it does if no number of checks is given."""
    return {"RT_JOBS": ""} if processors >= SHARED_FROM and memory >= SHARED_BYTES else {}


def has_tests(crate):
    return any("#[test]" in file.read_text() for file in (ROOT / "crates" / crate / "src").rglob("*.rt"))


class Log:
    """What passed, what failed with how it is tried by itself, and the lines that are said again."""

    def __init__(self):
        self.passed, self.failed, self.sums = [], [], []

    def read(self, line):
        for pattern, name in PASSED:
            if found := re.fullmatch(pattern, line):
                self.passed.append(name.format(*found.groups()))
        for pattern, command in FAILED:
            if found := re.fullmatch(pattern, line):
                self.failed.append((line[:300], command.format(*(it or "" for it in found.groups()))))
        if re.match(SUMS, line):
            self.sums.append(line)

    def left(self):
        """What nobody said that it passed."""
        every = [f"the proof of {it}" for it in LIBRARIES]
        every += [f"the tests of {it}" for it in LIBRARIES if has_tests(it)]
        every += [f"the edits of {it}" for it in LIBRARIES if (ROOT / "crates" / it / "edits").is_dir()]
        every += [f"the trial {it.title}" for it in listed()]
        return [it for it in every if it not in self.passed]


class Gate:
    """The steps of the gate, and what they printed."""

    def __init__(self):
        self.log, self.begun, self.is_late = Log(), time.monotonic(), False
        self.mark = f"{os.getpid()}-{time.time()}"

    def start(self, name, *words):
        words = [sys.executable, str(ROOT / "tests" / f"{name}.py"), *words]
        how = {"stdin": subprocess.DEVNULL, "stdout": subprocess.PIPE, "stderr": subprocess.STDOUT}
        shared = sharing(len(os.sched_getaffinity(0)), free_memory())
        how |= {"text": True, "errors": "replace", "cwd": ROOT, "env": {**shared, **os.environ, MARK: self.mark}}
        script = subprocess.Popen(words, **how)
        if self.is_late:
            # (it began as all was ended)
            end_all(MARK, self.mark)
        return script

    def step(self, name, *words):
        """Whether a script passes; what it prints is shown at once."""
        if self.is_late:
            return False
        say(f"gate: {' '.join([name, *words])}")
        with self.start(name, *words) as script:
            for line in script.stdout:
                print(line, end="", flush=True)
                self.log.read(line.rstrip("\n"))
        return self.ended(name, script.returncode)

    def own(self, name):
        """The same of one that runs beside others; what it prints is shown once it has ended."""
        if self.is_late:
            return False
        with self.start(name) as script:
            said = script.stdout.read()
        print(f"gate: {name}\n{said}", end="", flush=True)
        return self.ended(name, script.returncode)

    def ended(self, name, status):
        if status == 0:
            self.log.passed.append(f"the script {name}")
        elif not self.is_late:
            self.log.failed.append((f"the script {name}, with status {status}", f"python3 tests/{name}.py"))
        return status == 0

    def passes(self):
        if not self.step(FIRST):
            return False
        with ThreadPoolExecutor(AT_ONCE) as pool:
            own = [pool.submit(self.own, name) for name in OWN]
            rest = self.step(*REST)
        return all(it.result() for it in own) and rest

    def stop(self, *_):
        """Ends what runs. What that prints then isn't looked at."""
        self.is_late = True
        end_all(MARK, self.mark)

    def report(self, passes):
        """The last lines."""
        for line in self.log.sums:
            say(f"  {line}")
        for what, command in {} if self.is_late else dict(self.log.failed).items():
            say(f"  failed: {what}\n    by itself: {command}")
        if self.is_late:
            say(f"  passed: {', '.join(self.log.passed) or 'nothing'}")
            say(f"  left: {', '.join(self.log.left())}")
        how = "was stopped" if self.is_late else "passed" if passes else "failed"
        say(f"the gate {how} on {machine()}, after {(time.monotonic() - self.begun) / 60:.0f} minutes")


def main():
    kept = len(list((KIT.parent / "rattle-kept").glob("proof-*")))
    say(f"the gate begins on {machine()}; the toolkit keeps {kept} proofs of earlier runs here")
    gate = Gate()
    timer = threading.Timer(60 * MINUTES, gate.stop)
    timer.daemon = True
    timer.start()
    signal.signal(signal.SIGTERM, gate.stop)
    passes = gate.passes() and not gate.is_late
    timer.cancel()
    gate.report(passes)
    return 0 if passes else 1


if __name__ == "__main__":
    sys.exit(main())
