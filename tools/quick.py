"""Tries what the changes since a commit may break, within a time.

    python3 tools/quick.py [COMMIT] [--minutes N] [--plan]

Without a COMMIT it is the newest one before HEAD that passed the gate on this machine (tools/green.py). If none did, it
is the last one that origin/main has too, or else the first of all. Files that aren't committed are changes as well.

What takes seconds comes first (tests/first.py). Then come the changed crates, their edits, the crates above those that
state something else, tests, the program, and the trials that name a changed file. What doesn't fit the time isn't begun,
and nor is what stands on something that failed or was left. Both are named in the end, with their minutes. The time is
20 minutes without --minutes. --plan only prints what would be tried. The status is 0, or 1 if something failed, or 4 if
something was left."""

import argparse
import re
import subprocess
import sys
import time

from build import PROGRAM, schedule_of
from changes import Change
from crates import LIBRARIES, ROOT, below
from green import commit_of, git, newest_green
from minutes import minutes_of
from proved import is_kept

# Minutes of the edits of a crate, of a crate of tests, of the scripts' own tests and of trials.
EDITS, TESTS, SCRIPTS, TRIALS = (minutes_of(it) for it in ("edits", "tests", "script", "trial"))
MINUTES_OF_OTHERS = 1
# What the trial `worked` sends.
CONVERSATIONS = "crates/osb_conformance/conversations/"
# The trials that speak of a crate; those of the program are tried with each change of it.
OF_PROGRAM = ["program", "served", "worked", "ready", "mistakes", "settings"]
OF_CRATES = {
    "osb_file": ["begun", "database", "backup", "power", "trim"],
    "osb_statements": ["database", "begun", "power"],
    "osb_records": ["groups", "trim", "power"],
    "osb_listen": ["clients", "together", "groups", "proxied"],
    "osb_broker": ["groups", "refused", "shards"],
    "osb_cli": ["backup", "trim", "examples"],
}


def say(text):
    print(f"quick: {text}", flush=True)


def base(commit):
    """The commit that changes are counted from; nothing where that is none."""
    merged = git("merge-base", "HEAD", "origin/main").strip()
    first = git("rev-list", "--max-parents=0", "HEAD").split()[-1:]
    return commit_of(commit or newest_green() or merged or "".join(first))


class Step:
    """A command, about how many minutes it takes, and the steps that it stands on."""

    def __init__(self, name, minutes, *words, needs=()):
        self.name, self.minutes, self.words, self.needs = name, minutes, [sys.executable, *words], needs
        self.done = False

    def run(self):
        """Runs it, and shows the end of what it prints if it fails. Gives the minutes that it took."""
        how = {"stdin": subprocess.DEVNULL, "stdout": subprocess.PIPE, "stderr": subprocess.STDOUT, "text": True}
        begun, ran = time.monotonic(), subprocess.run(self.words, cwd=ROOT, errors="replace", **how)
        took = (time.monotonic() - begun) / 60
        self.done = ran.returncode == 0
        say(f"{'passed' if self.done else 'failed'}: {self.name}, {took:.1f} minutes")
        for line in ran.stdout.splitlines()[-20:] if not self.done else []:
            print(f"    {line}", flush=True)
        return took


class Steps:
    """What is tried of a change, in this order. Minutes are reckoned when it is a step's turn."""

    def __init__(self, change):
        self.change, self.checks = change, {}

    def proving(self, crates):
        """About how many minutes the proofs of these crates take, without those that are kept or checked."""
        left = [it for it in crates if not is_kept(it) and not (it in self.checks and self.checks[it].done)]
        return schedule_of(left).minutes_left({})

    def first(self):
        """What takes seconds, and the scripts' own tests."""
        yield Step("what takes seconds", 0.2, "tests/first.py")
        for name, minutes in SCRIPTS.items():
            if self.change.is_named_in(ROOT / "tests" / f"{name}.py"):
                yield Step(f"scripts: {name}", minutes, f"tests/{name}.py")

    def proof(self, name, crate, minutes, *words):
        """A step over the libraries below a crate, which lack or are there."""
        needs = [self.checks[it] for it in below(crate) if it in self.checks]
        return Step(f"{crate}: {name}", self.proving(below(crate)) + minutes, *words, needs=needs)

    def check(self, crates):
        """The checks of those of these libraries that aren't kept."""
        for crate in (it for it in crates if it not in [*TESTS, PROGRAM] and not is_kept(it)):
            self.checks[crate] = self.proof("check", crate, self.proving([crate]), "tools/check.py", crate)
            yield self.checks[crate]

    def edits(self, crates):
        """All edits of these crates."""
        for crate in (it for it in crates if self.change.edits_in(it)):
            yield self.proof("edits", crate, EDITS.get(crate, MINUTES_OF_OTHERS), "tests/edits.py", "--strict", crate)

    def changed_edits(self):
        """The edits that were changed, of crates that weren't."""
        for crate in (it for it in LIBRARIES if it not in self.change.meant):
            if names := self.change.changed_edits(crate):
                minutes = EDITS.get(crate, MINUTES_OF_OTHERS) * len(names) / len(self.change.edits_in(crate))
                words = [f"{crate}/{it}" for it in names]
                yield self.proof(f"edits {' '.join(names)}", crate, minutes, "tests/edits.py", "--strict", *words)

    def tests(self):
        """The crates of tests that were changed, or that stand on what states something else."""
        for crate in (it for it in TESTS if it in [*self.change.crates, *self.change.above]):
            minutes = TESTS[crate] / schedule_of([crate]).jobs_for(crate, 1)
            yield self.proof("tests", crate, minutes, "tools/check.py", crate, "--test")

    def outside(self):
        """The program, and the trials that speak of what was changed."""
        crates = [*below(PROGRAM), PROGRAM]
        meant = [it for it in self.change.meant if it in crates]
        names = [*OF_PROGRAM * bool(meant), *(name for it in meant for name in OF_CRATES.get(it, []))]
        names += ["worked"] * any(it.startswith(CONVERSATIONS) for it in self.change.files)
        listed = re.findall(r"(?m)^(\w+):", (ROOT / "tests" / "trials.txt").read_text())
        trials = [ROOT / "tests" / "trials" / f"{it}.py" for it in listed]
        trials = [it for it in trials if it.stem in names or self.change.is_named_in(it)]
        if meant or trials or PROGRAM in [*self.change.crates, *self.change.above]:
            program = Step("the program", self.proving(crates), "tools/build.py", needs=[*self.checks.values()])
            yield program
        for trial in trials:
            minutes = TRIALS.get(trial.stem, MINUTES_OF_OTHERS)
            yield Step(f"trial {trial.stem}", minutes, "tests/outside.py", "./osb-broker", trial.stem, needs=[program])

    def all(self):
        yield from self.first()
        yield from self.check(self.change.crates)
        yield from self.edits(self.change.meant)
        yield from self.changed_edits()
        yield from self.check(self.change.above)
        yield from self.edits(self.change.above)
        yield from self.tests()
        yield from self.outside()


def main():
    parser = argparse.ArgumentParser(usage="tools/quick.py [COMMIT] [--minutes N] [--plan]")
    parser.add_argument("commit", nargs="?")
    parser.add_argument("--minutes", type=float, default=20)
    parser.add_argument("--plan", action="store_true")
    given = parser.parse_args()
    commit = base(given.commit)
    if not commit:
        say(f"there is no commit {given.commit or ''}")
        return 2
    change, spent, failed, left = Change(commit), 0.0, 0, []
    say(f"{len(change.files)} files were changed since {change.commit[:10]}")
    for step in Steps(change).all():
        if spent + step.minutes > given.minutes or not all(it.done for it in step.needs):
            left.append(step)
        elif given.plan:
            step.done, spent = True, spent + step.minutes
            say(f"to be tried: {step.name}, about {step.minutes:.1f} minutes")
        else:
            spent += step.run()
            failed += not step.done
    for step in left:
        say(f"left: {step.name}, about {step.minutes:.1f} minutes")
    say(f"{failed} failed, {len(left)} left, which take about {sum(it.minutes for it in left):.0f} minutes")
    return 1 if failed else 4 if left else 0


if __name__ == "__main__":
    sys.exit(main())
