#!/usr/bin/env python3
"""Tries what tries the program from outside: tests/outside.py, over small trials of its own, and what trials share.

usage: tests/tried.py
"""

import os
import pathlib
import re
import shutil
import socket
import subprocess
import sys
import tempfile
from concurrent.futures import ThreadPoolExecutor
from functools import partial

FOLDER = os.path.dirname(os.path.abspath(__file__))
sys.path += [os.path.join(FOLDER, "lib"), os.path.join(FOLDER, "trials")]

from database import starts
from serving import PORTS, ROOT, is_free, side_by_side, tell, wait_until

# What each small trial begins with: the number of its run.
BEGINNING = """import os, pathlib, sys
runs = pathlib.Path(__file__).with_suffix(".runs")
with runs.open("a") as file:
    file.write(".")
run = len(runs.read_text())
import subprocess, time
"""
SHARED = """
sys.path.append(os.path.join(os.path.dirname(os.path.abspath(__file__)), "..", "lib"))
from serving import Late, TIME, in_time, passed_over, side_by_side, tell
"""
# One that hangs: of what it starts one process is in a session of its own.
HANGS = """
for words in ({}, {"start_new_session": True}):
    started = subprocess.Popen(["sleep", "1000"], **words)
    with open(pathlib.Path(__file__).with_suffix(".started"), "a") as file:
        print(started.pid, file=file)
print("so far")
time.sleep(1000)
"""
WRONG_THEN_HANGS = """
def tries():
    yield "the reply", b"wrong", b"right"
    time.sleep(1000)
sys.exit(tell("one", tries()))
"""
LATE = 'sys.exit(tell("one", [("the wait", *in_time(2 if run < {} else 0.5, 1)), ("the reply", 1, 1)]))'
WRONG = 'sys.exit(tell("one", [("the reply", b"wrong", b"right")]))'
BOTH = """
late = ("the wait", *in_time(2, 1))
sys.exit(tell("one", [late, ("the reply", b"wrong", b"right"), late]))
"""
# A wait without end is that of a wrong reply, and a time that is too short isn't late.
ENDLESS = 'sys.exit(tell("one", [("the wait", *in_time(float("inf"), 1))]))'
EARLY = 'sys.exit(tell("one", [("the wait", *in_time(0.2, 2, 1))]))'
WAITS = """
def tries():
    yield "the reply", 1, 1
    if run < 2:
        subprocess.run(["sleep", "9"], timeout=0.1)
sys.exit(tell("one", tries()))
"""
# Two parts at the same time, of which one is ended by a wait.
SIDES = """
from concurrent.futures import ThreadPoolExecutor
def late():
    yield "a reply", 1, 1
    raise TimeoutError("no reply")
def wrong():
    time.sleep(0.5)
    yield "the reply", b"wrong", b"right"
with ThreadPoolExecutor(2) as pool:
    sys.exit(tell("one", side_by_side(pool, [late, wrong])))
"""
# Two parts at the same time: an error ends one, and a wait the other. All that was found is said.
ERRORS = """
from concurrent.futures import ThreadPoolExecutor
def ends():
    yield "a reply", b"wrong", b"right"
    raise OSError("in use")
def late():
    time.sleep(0.5)
    raise TimeoutError("no reply")
with ThreadPoolExecutor(2) as pool:
    sys.exit(tell("one", side_by_side(pool, [late, ends])))
"""
LACKS_TOOL = """
passed_over("one", "a proxy", "nginx", "openssl")
sys.exit(tell("one", [("the reply", 1, 1)]))
"""
LACKS_TIME = """
if run < {}:
    passed_over("one", "a container", TIME, why="it doesn't boot")
sys.exit(tell("one", [("the reply", 1, 1)]))
"""
APART = 'sys.exit(tell("one", [("the reply", "e" * 400 + "found", "e" * 400 + "other")]))'
PASSES = 'sys.exit(tell("{}", [("the reply", 1, 1)]))'
CRASHES = 'raise RuntimeError("it crashed")'


class Outside:
    """A repository that has only trials from outside, with these texts, and the limit of each in seconds."""

    def __init__(self, room, texts, seconds=20, table=None):
        self.root = pathlib.Path(tempfile.mkdtemp(dir=room))
        self.trials = self.root / "tests" / "trials"
        self.trials.mkdir(parents=True)
        shutil.copytree(os.path.join(ROOT, "tests", "lib"), self.root / "tests" / "lib")
        shutil.copy(os.path.join(ROOT, "tests", "outside.py"), self.root / "tests")
        lines = [f"{name}: {seconds}" for name in texts] if table is None else table
        (self.root / "tests" / "trials.txt").write_text("# a table\n" + "\n".join(lines) + "\n")
        for name, text in texts.items():
            (self.trials / f"{name}.py").write_text(BEGINNING + ("" if text == HANGS else SHARED) + text)

    def tried(self, *names, **environment):
        """The status of tests/outside.py, all that it says, and its last line."""
        with self.begun(*names, **environment) as outside:
            said = outside.communicate()[0]
        return outside.returncode, said, said.rstrip("\n").rpartition("\n")[2]

    def begun(self, *names, **environment):
        """The process of tests/outside.py."""
        kept = {name: it for name, it in os.environ.items() if name not in ("CI", "OSB_PASS_OVER", "TOGETHER", "PER_CONNECTION")}
        words = [sys.executable, str(self.root / "tests" / "outside.py"), "program", *names]
        how = {"stdout": subprocess.PIPE, "stderr": subprocess.STDOUT, "text": True}
        return subprocess.Popen(words, env={**kept, **environment}, **how)

    def runs(self, name="one"):
        """How often a trial was run."""
        return len((self.trials / f"{name}.runs").read_text())

    def running(self, name="one"):
        """What the trial started and still runs: one that has ended has no words."""
        started = (self.trials / f"{name}.started").read_text().split()
        words = [pathlib.Path("/proc", it, "cmdline") for it in started]
        return [it for it in words if it.exists() and it.read_bytes()]


def judged(room, name, text, status, runs, *said, **environment):
    """A trial with this text: the status, how often it is run, and what the last line says of it."""
    outside = Outside(room, {"one": text})
    found, printed, last = outside.tried(**environment)
    yield name, (found, outside.runs(), [it for it in said if it not in last]), (status, runs, [])
    lines = re.findall(r"^outside: one: \d+ s, status \d, load \d", printed, re.MULTILINE)
    yield f"{name}: a line for each run", len(lines), runs


def try_times(room):
    late = "the wait: 2.00 s, expected '0 to 1 s'"
    passed, failed = "1 of 1 passed", "0 of 1 passed, not one"
    yield from judged(room, "late twice", LATE.format(3), 0, 3, passed, "tried again: one 2 times", late)
    yield from judged(room, "late three times", LATE.format(9), 1, 3, failed, "tried again: one 2 times", late)
    yield from judged(room, "a wait that ends it", WAITS, 0, 2, passed, "tried again: one 1 times", "timed out after")
    yield from judged(room, "wrong", WRONG, 1, 1, failed)
    yield from judged(room, "wrong and late", BOTH, 1, 1, failed)
    yield from judged(room, "wrong beside a wait", SIDES, 1, 1, failed)
    yield from judged(room, "a wait without end", ENDLESS, 1, 1, failed)
    yield from judged(room, "a time that is too short", EARLY, 1, 1, failed)
    yield from judged(room, "one that crashes", CRASHES, 1, 1, failed)


def try_errors(room):
    outside = Outside(room, {"one": ERRORS})
    status, printed, _ = outside.tried()
    said = ["    one: wrong: a reply: ", "    one: wrong: behind a reply: OSError('in use')"]
    yield "errors that end parts", (status, outside.runs(), [it for it in said if it not in printed]), (1, 1, [])


def try_addresses():
    """Processes that ask at the same time get different addresses, at which nobody listens."""
    script = "from serving import free_address; print(*(free_address() for _ in range(25)))"
    own = {**os.environ, "PYTHONPATH": os.path.join(FOLDER, "lib")}
    asking = [subprocess.Popen([sys.executable, "-c", script], env=own, stdout=subprocess.PIPE, text=True) for _ in range(8)]
    found = [it for each in asking for it in each.communicate()[0].split()]
    yield "addresses", (len(found), len(set(found))), (200, 200)
    with socket.create_server(("127.0.0.1", PORTS[7])):
        yield "a port that is in use", is_free(PORTS[7]), False


# Enough for a beginning on a machine that is busy.
LIMIT = 10


def try_limit(room):
    """A trial that isn't over at its limit, with what it started."""
    outside = Outside(room, {"one": HANGS}, seconds=LIMIT)
    status, printed, last = outside.tried()
    yield "one that hangs", (status, outside.runs(), "0 of 1 passed, not one" in last), (1, 3, True)
    yield "why it is tried again", f"tried again: one 2 times (it isn't over after {LIMIT} s" in last, True
    yield "what it printed", printed.count("so far\n"), 3
    yield "what it started", outside.running(), []


def try_wrong_at_limit(room):
    outside = Outside(room, {"one": WRONG_THEN_HANGS}, seconds=LIMIT)
    status, printed, last = outside.tried()
    yield "one that hangs behind wrong bytes", (status, outside.runs(), "tried again" in last), (1, 1, False)


def try_ended(room):
    """What runs ends with tests/outside.py."""
    outside = Outside(room, {"one": HANGS})
    started = outside.trials / "one.started"
    with outside.begun() as process:
        wait_until("what it starts", lambda: started.exists() and len(started.read_text().split()) == 2, 60)
        process.terminate()
        said = process.communicate()[0]
    yield "it is ended", (process.returncode, "1 passed" in said, outside.running()), (143, False, [])


def try_passed_over(room):
    over = "passed over: one: a proxy, for lack of nginx and openssl"
    both = {"CI": "true", "OSB_PASS_OVER": "podman, nginx openssl"}
    yield from judged(room, "a tool is lacking", LACKS_TOOL, 0, 1, "1 of 1 passed", over)
    yield from judged(room, "a tool is lacking in CI", LACKS_TOOL, 1, 1, "0 of 1 passed, not one", over, CI="true")
    yield from judged(room, "one that may be lacking", LACKS_TOOL, 0, 1, "1 of 1 passed", over, **both)
    one = {"CI": "true", "OSB_PASS_OVER": "nginx"}
    yield from judged(room, "only one may be lacking", LACKS_TOOL, 1, 1, "0 of 1 passed, not one", over, **one)
    again = "tried again: one 2 times (no time for a container; "
    lacks = "passed over: one: a container, for lack of time"
    yield from judged(room, "time is lacking twice", LACKS_TIME.format(3), 0, 3, "1 of 1 passed", again, CI="true")
    yield from judged(room, "time is lacking", LACKS_TIME.format(9), 0, 3, "1 of 1 passed", again, lacks, CI="true")


def try_last_lines(room):
    """What is said of several, and of those that are named."""
    table = ["one: 20", "two: 20, one", "three: 20, by itself"]
    outside = Outside(room, {"one": APART, "two": PASSES.format("two"), "three": PASSES.format("three")}, table=table)
    status, printed, last = outside.tried()
    yield "several", (status, last), (1, "outside: 3 of 4 passed, not one")
    yield "so often", [outside.runs(it) for it in ("one", "two", "three")], [1, 2, 1]
    apart = re.search("the reply: from character ([0-9]+) on: e+found', expected e+other'", printed)
    yield "where texts differ", 300 < int(apart[1]) < 400 if apart else printed, True
    by_itself = f"by itself: python3 tests/trials/one.py {os.path.abspath('program')}\n"
    behind = printed.rpartition("outside: one failed:\n")[2]
    yield "the last lines of one that failed", ("one: 0 passed, 1 failed" in behind, by_itself in behind), (True, True)
    status, printed, last = outside.tried("two")
    yield "by its name", (status, last), (0, "outside: 2 of 2 passed")
    outside = Outside(room, {"two": WRONG}, table=["two: 20, one"])
    yield "with one client", "by itself: TOGETHER=1 python3 tests/trials/two.py" in outside.tried()[1], True
    yield "no such trial", outside.tried("ten")[::2], (2, "outside: there is no trial ten")


def program(room, text):
    """A program that does this."""
    path = os.path.join(tempfile.mkdtemp(dir=room), "program")
    with open(path, "w", encoding="utf-8") as file:
        file.write(f"#!/bin/sh\n{text}\n")
    os.chmod(path, 0o755)
    return path


def try_starts(room):
    """A start is judged by its first line, however long that takes: 11 seconds were more than a trial once waited."""
    refuses = program(room, "sleep 11; echo 'database: 1 Refused' >&2; exit 1")
    yield "a slow start that is refused", starts(refuses, "file"), (1, b"", b"database: 1 Refused\n")
    serves = program(room, "sleep 1; echo 'listening on 127.0.0.1:1'; exec sleep 1000")
    yield "a start that serves", starts(serves, "file"), b"listening on 127.0.0.1:1\n"


# Steps of a worker, which prints the number of each before it takes it.
STEPS = """import worker
step = worker.dying(lambda number: print(number, flush=True))
for number in range(1000):
    step(number)
"""
NO_LIBRARY = {"psycopg2": "sql = None\n"}


def deaths(room, **environment):
    """How far a worker comes, and the status that it ends with."""
    for name, text in NO_LIBRARY.items():
        pathlib.Path(room, f"{name}.py").write_text(text)
    path = os.pathsep.join([room, os.path.join(ROOT, "tests", "trials")])
    own = {**os.environ, "PYTHONPATH": path, **environment}
    ran = subprocess.run([sys.executable, "-c", STEPS], env=own, capture_output=True, text=True)
    return len(ran.stdout.splitlines()), ran.returncode


def try_deaths(room):
    """A worker dies by its seed, and once for certain."""
    seeds = [str(number) for number in range(4)]
    found = [[deaths(room, DIES="0.02", SEED=seed) for seed in seeds] for _ in range(2)]
    yield "the same seeds", found[0], found[1]
    yield "it kills itself", {status for _, status in found[0]}, {-9}
    yield "other seeds", len({steps for steps, _ in found[0]}) > 1, True
    certain = [deaths(room, DIES="0", SEED="1", DIES_AT=moment) for moment in ("1", "4", "5")]
    yield "for certain", certain, [(0, -9), (2, -9), (2, -9)]
    yield "not at all", deaths(room, DIES="0", SEED="1"), (1000, 0)


def tries():
    trials = [try_times, try_limit, try_wrong_at_limit, try_ended, try_passed_over]
    trials += [try_errors, try_last_lines, try_starts, try_deaths]
    with tempfile.TemporaryDirectory() as room, ThreadPoolExecutor(len(trials)) as pool:
        yield from side_by_side(pool, [partial(it, room) for it in trials])
    yield from try_addresses()


if __name__ == "__main__":
    sys.exit(tell("tried", tries()))
