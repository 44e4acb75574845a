#!/usr/bin/env python3
"""Tries the built program from outside, by all scripts that do so, and beside it the one that `make try` serves.

usage: tests/outside.py PROGRAM [TRIAL ..]

The trials of tests/trials.txt, or those that are named, run side by side, two for each processor, since most of them
wait for files or for time. Those that look how long somebody waits run behind them, one after the other. What one
prints is shown once it has ended.

Wrong bytes and long times are two things. A trial that ends with status 1 failed, and isn't tried again. One that ends
with status 3 found only that something took too long (`tell` of tests/lib/serving.py). It is tried again by itself,
behind all others, three times in all at most. A trial that isn't over at its limit is ended with all that it started.
It failed if it printed a line `NAME: wrong: ..`, else it took too long.

What is passed over isn't passed, so the last line names it. What lacks time is tried again, as often as what took too
long, and doesn't fail. With CI=true the lack of a tool fails, unless OSB_PASS_OVER names that tool.
"""

import itertools
import os
import re
import shlex
import signal
import subprocess
import sys
import tempfile
import threading
import time
from concurrent.futures import ThreadPoolExecutor
from dataclasses import dataclass

sys.path.append(os.path.join(os.path.dirname(os.path.abspath(__file__)), "lib"))

from processes import end_all
from serving import ONLY_LATE, ROOT, TIME

TABLE = os.path.join(ROOT, "tests", "trials.txt")
# How often a trial is tried in all.
MOST = 3
# How many of the lines of one that failed are shown again at the end.
LINES = 8
PASSED_OVER = re.compile(r"^\w+: passed over (.*?), for lack of ([\w. -]+)(?:: .*)?$")
# A variable of the environment of all that a trial starts, by which it is found.
MARK = "OSB_TRIED_BY"
NUMBERS = itertools.count(1)
# Set once this is to end.
ENDING = threading.Event()


# How a trial is tried once more, by a word of its line: what its title says then, and its environment.
WAYS = {"one": ("together 1", {"TOGETHER": "1"}), "kept": ("kept", {"PER_CONNECTION": "1000"})}


@dataclass
class Trial:
    """A line of the table: a script, and its limit in seconds. Its way may be one of WAYS."""

    name: str
    seconds: float
    is_alone: bool = False
    way: str = ""

    @property
    def title(self):
        return f"{self.name} {WAYS[self.way][0]}" if self.way else self.name

    @property
    def environment(self):
        return WAYS[self.way][1] if self.way else {}


def listed():
    """The trials of the table."""
    with open(TABLE, encoding="utf-8") as file:
        lines = [line.strip() for line in file if not line.startswith("#")]
    for name, _, words in (line.partition(": ") for line in lines):
        seconds, *more = words.split(", ")
        yield Trial(name, float(seconds), "by itself" in more)
        for way in WAYS:
            if way in more:
                yield Trial(name, float(seconds), "by itself" in more, way)


def end_ours(number, _):
    """What this started ends with it."""
    ENDING.set()
    end_all(MARK, f"{os.getpid()}/")
    os._exit(128 + number)


def run(words, seconds, environment):
    """The status of a script, or none if it was ended at its limit, and what it printed. Nothing of it still runs."""
    mark = f"{os.getpid()}/{next(NUMBERS)}/"
    environment = {**os.environ, **environment, "PYTHONUNBUFFERED": "1", MARK: mark}
    with tempfile.TemporaryFile() as printed:
        how = {"stdin": subprocess.DEVNULL, "stdout": printed, "stderr": subprocess.STDOUT, "start_new_session": True}
        script = subprocess.Popen(words, env=environment, **how)
        try:
            status = script.wait(seconds)
        except subprocess.TimeoutExpired:
            status = None
            os.killpg(script.pid, signal.SIGKILL)
            script.wait()
        end_all(MARK, mark)
        printed.seek(0)
        return status, printed.read().decode(errors="replace")


class Tried:
    """A trial, with what its last run found and why it was tried again."""

    def __init__(self, trial, program):
        self.trial, self.program = trial, program
        self.runs, self.why = 0, []

    def command(self):
        """How it is tried by itself."""
        way = "".join(f"{name}={text} " for name, text in self.trial.environment.items())
        return f"{way}python3 tests/trials/{self.trial.name}.py {shlex.quote(self.program)}"

    def run(self):
        if ENDING.is_set():
            return
        trial, begun = self.trial, time.monotonic()
        words = [sys.executable, os.path.join(ROOT, "tests", "trials", f"{trial.name}.py"), self.program]
        self.runs += 1
        self.status, said = run(words, trial.seconds, trial.environment)
        said += "\n" if said and not said.endswith("\n") else ""
        if self.status is None:
            is_wrong = re.search(rf"^{trial.name}: wrong: ", said, re.MULTILINE)
            self.status = 1 if is_wrong else ONLY_LATE
            said += f"{trial.name}: late: it isn't over after {trial.seconds:g} s\n"
        self.lines = said.splitlines()
        took = f"{time.monotonic() - begun:.0f} s, status {self.status}, load {os.getloadavg()[0]:.1f}"
        sys.stdout.buffer.write(f"{said}outside: {trial.title}: {took}\n".encode())
        sys.stdout.flush()

    def late(self):
        """The first that took too long."""
        begins = f"{self.trial.name}: late: "
        found = [it.removeprefix(begins)[:200] for it in self.lines if it.startswith(begins)]
        return found[0] if found else "it doesn't say what"

    def passed_over(self):
        """What it passed over, and what was lacking for each."""
        return [(it[1], it[2].split(" and ")) for it in map(PASSED_OVER.match, self.lines) if it]

    def lacks_time(self):
        return any(TIME in lacking for _, lacking in self.passed_over())

    def refused_lacks(self):
        """The tools that it lacks and may not lack here."""
        if os.environ.get("CI") != "true":
            return []
        allowed = {TIME, *re.split(r"[\s,]+", os.environ.get("OSB_PASS_OVER", ""))}
        return sorted({it for _, lacking in self.passed_over() for it in lacking} - allowed)

    def has_failed(self):
        return self.status != 0 or bool(self.refused_lacks())

    def is_tried_again(self):
        """Whether its last run found nothing wrong, and took too long or lacked time."""
        if self.runs == MOST or self.status not in (0, ONLY_LATE):
            return False
        return self.status == ONLY_LATE or self.lacks_time()

    def try_again(self):
        lacked = [what for what, lacking in self.passed_over() if TIME in lacking]
        self.why.append(self.late() if self.status == ONLY_LATE else f"no time for {' and '.join(lacked)}")
        self.run()


def print_failed(tried):
    """What one that failed found, or its last lines, and how it is tried by itself."""
    why = "" if tried.status else f", since it may not lack {' and '.join(tried.refused_lacks())}"
    print(f"outside: {tried.trial.title} failed{why}:")
    found = [it for it in tried.lines if re.match(rf"{tried.trial.name}: (wrong|late): ", it)]
    for line in [*found[:LINES], *tried.lines[-1:]] if found else tried.lines[-LINES:]:
        print(f"    {line}")
    print(f"    by itself: {tried.command()}")


def last_line(tried):
    """How many passed, and which didn't; which were tried again, and why; what was passed over."""
    failed = [it.trial.title for it in tried if it.has_failed()]
    again = [f"{it.trial.title} {len(it.why)} times ({'; '.join(it.why)})" for it in tried if it.why]
    over = [
        f"{it.trial.title}: {what}, for lack of {' and '.join(lacking)}"
        for it in tried
        for what, lacking in it.passed_over()
    ]
    parts = [f"{len(tried) - len(failed)} of {len(tried)} passed" + (f", not {', '.join(failed)}" if failed else "")]
    parts += [f"tried again: {', '.join(again)}"] if again else []
    parts += [f"passed over: {'; '.join(over)}"] if over else []
    return f"outside: {' | '.join(parts)}"


def try_all(tried):
    beside = [it for it in tried if not it.trial.is_alone]
    with ThreadPoolExecutor(2 * len(os.sched_getaffinity(0))) as pool:
        list(pool.map(Tried.run, beside))
    for each in (it for it in tried if it.trial.is_alone):
        each.run()
    for each in (it for _ in range(1, MOST) for it in tried):
        if each.is_tried_again():
            each.try_again()


def main():
    program, names = os.path.abspath(sys.argv[1]), set(sys.argv[2:])
    trials = list(listed())
    unknown = names - {it.name for it in trials}
    if unknown:
        print(f"outside: there is no trial {', '.join(sorted(unknown))}")
        return 2
    for number in (signal.SIGTERM, signal.SIGINT, signal.SIGHUP):
        signal.signal(number, end_ours)
    tried = [Tried(it, program) for it in trials if not names or it.name in names]
    try_all(tried)
    failed = [it for it in tried if it.has_failed()]
    for each in failed:
        print_failed(each)
    print(last_line(tried))
    return 1 if failed else 0


if __name__ == "__main__":
    sys.exit(main())
