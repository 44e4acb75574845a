"""Tries the whole gate on a commit, in a clean clone beside this one, and notes the commit if it passed.

    python3 tools/green.py [--keep] [COMMIT]    HEAD without another
    python3 tools/green.py --last

The gate is that commit's .ci/run, so `rt ci`, which keeps what it proved: the next gate on this machine proves only
what changed. It runs at the lowest priority. The clone is taken away in the end, unless --keep is given. If the gate
fails, its log stays, and its last lines are printed.

What passed is noted in osb-broker/green below $XDG_CACHE_HOME, or below ~/.cache, so each clone on this machine finds
it: the commit, the minutes, the processors and the toolkit. --last prints the newest, and the commits since then."""

import argparse
import contextlib
import os
import pathlib
import shutil
import signal
import subprocess
import sys
import tempfile
import time

from crates import ROOT, toolkit

FOLDER = pathlib.Path(os.environ.get("XDG_CACHE_HOME") or pathlib.Path.home() / ".cache") / "osb-broker" / "green"
NOTES = FOLDER / "passed"
# How many lines of a log are printed where the gate failed.
LAST_LINES = 40


def say(text):
    print(f"green: {text}", flush=True)


def git(*words):
    """What git says in this repository; nothing where it fails."""
    ran = subprocess.run(["git", "-C", str(ROOT), *words], capture_output=True, text=True, errors="replace")
    return ran.stdout if ran.returncode == 0 else ""


def commit_of(name):
    """The commit of a name; nothing where it has none."""
    return git("rev-parse", "--verify", "-q", f"{name}^{{commit}}").strip()


def is_ancestor(commit, other):
    """Whether a commit is the other or is before it, as far as this clone knows both."""
    words = ["git", "-C", str(ROOT), "merge-base", "--is-ancestor", commit, other]
    return subprocess.run(words, capture_output=True).returncode == 0


def notes():
    """What passed with this toolkit, the newest last: each line, which begins with its commit."""
    lines = NOTES.read_text().splitlines() if NOTES.is_file() else []
    return [it for it in lines if it.endswith(f", {toolkit()}")]


def newest_green():
    """The newest commit before HEAD, or HEAD, that passed here; nothing where none did."""
    return next((it.split()[0] for it in reversed(notes()) if is_ancestor(it.split()[0], "HEAD")), "")


def note(commit, minutes):
    """Notes a commit that passed as the newest, unless it comes before one that is noted."""
    if any(is_ancestor(commit, it.split()[0]) for it in notes()):
        return say(f"{commit[:10]} isn't noted: that or a newer one is")
    with open(NOTES, "a", encoding="utf-8") as file:
        when, processors = time.strftime("%Y-%m-%d %H:%M"), len(os.sched_getaffinity(0))
        file.write(f"{commit} {when}, {minutes:.0f} minutes, {processors} processors, {toolkit()}\n")


def say_last():
    """Prints the newest commit of this clone that passed, and what came since then."""
    known = [it for it in notes() if commit_of(it.split()[0])]
    if not known:
        say("no commit of this clone has passed here with this toolkit")
        return 1
    since = git("log", "--oneline", f"{known[-1].split()[0]}..HEAD").splitlines()
    say(f"{known[-1]}; {len(since)} commits since then")
    print(*since, sep="\n")
    return 0


def yield_all():
    """Has this process, in a session of its own, run behind all others."""
    os.nice(19)
    with contextlib.suppress(OSError):
        pathlib.Path("/proc/self/autogroup").write_text("19")


def run_gate(clone, log):
    """The status of the gate in a clone; all that it prints goes to a log."""
    how = {"stdin": subprocess.DEVNULL, "stderr": subprocess.STDOUT, "start_new_session": True}
    with open(log, "wb") as file:
        gate = subprocess.Popen(["sh", ".ci/run"], cwd=clone, stdout=file, preexec_fn=yield_all, **how)
        try:
            return gate.wait()
        finally:
            with contextlib.suppress(ProcessLookupError):
                os.killpg(gate.pid, signal.SIGTERM)


def try_commit(commit, keep):
    """The gate on a commit: its status."""
    FOLDER.mkdir(parents=True, exist_ok=True)
    room, begun = tempfile.mkdtemp(prefix="osb-broker-green-", dir=ROOT.parent), time.monotonic()
    clone, log = os.path.join(room, "clone"), FOLDER / f"{commit}.log"
    say(f"{commit[:10]} is tried in {clone}; its log is {log}")
    # (a trial runs the program as another user)
    os.chmod(room, 0o755)
    try:
        subprocess.run(["git", "clone", "-q", str(ROOT), clone], check=True)
        subprocess.run(["git", "-C", clone, "checkout", "-q", "--detach", commit], check=True)
        status = run_gate(clone, log)
    finally:
        if not keep:
            shutil.rmtree(room, ignore_errors=True)
    minutes = (time.monotonic() - begun) / 60
    if status:
        print(*log.read_text(errors="replace").splitlines()[-LAST_LINES:], sep="\n")
        say(f"{commit[:10]} failed after {minutes:.0f} minutes; the whole log is {log}")
        return 1
    say(f"{commit[:10]} passed after {minutes:.0f} minutes")
    log.unlink()
    note(commit, minutes)
    return 0


def main():
    parser = argparse.ArgumentParser(usage="tools/green.py [--keep] [COMMIT] | --last")
    parser.add_argument("commit", nargs="?", default="HEAD")
    parser.add_argument("--keep", action="store_true")
    parser.add_argument("--last", action="store_true")
    given = parser.parse_args()
    # (without the toolkit nothing is begun)
    toolkit()
    if given.last:
        return say_last()
    commit = commit_of(given.commit)
    if not commit:
        say(f"{given.commit} is no commit")
        return 2
    signal.signal(signal.SIGTERM, signal.default_int_handler)
    return try_commit(commit, given.keep)


if __name__ == "__main__":
    try:
        sys.exit(main())
    except KeyboardInterrupt:
        say("stopped")
        sys.exit(130)
