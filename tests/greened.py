#!/usr/bin/env python3
"""Tries tools/green.py, tools/quick.py and tests/layout.py over a small repository whose gate and trials are fakes.

usage: tests/greened.py
"""

import os
import pathlib
import re
import shutil
import subprocess
import sys
import tempfile

sys.path.append(os.path.join(os.path.dirname(os.path.abspath(__file__)), "lib"))

from building import LOW, LOW_BY_TWO, LOW_COMMENTED, LOW_WRONG, MAIN
from serving import ROOT, tell

from changes import stated

GATE = 'echo "its priority is $(nice)"; cat verdict; grep -q good verdict\n'
LEMMA = "use Rattle.std.proofs.Common.{refl}\n\npub one : 1 ≡ 1\none = refl\n"
# What takes seconds: here only the layout.
LAYOUT = "import subprocess, sys\nraise SystemExit(subprocess.run([sys.executable, 'tests/layout.py']).returncode)\n"
# What is looked at first, whatever was changed.
FIRST = ["what takes seconds"]
PROGRAM = ["the program", "trial program"]
LEFT = re.compile(r"quick: left: (.*), about (?!0\.0)[\d.]+ minutes")


class Small:
    """A repository of two libraries and a program, with two edits, two pages and two trials."""

    def __init__(self, room):
        self.root, self.cache = pathlib.Path(room, "small"), pathlib.Path(room, "cache")
        self.environment = {**os.environ, "XDG_CACHE_HOME": str(self.cache)}
        for who in ("AUTHOR", "COMMITTER"):
            self.environment |= {f"GIT_{who}_NAME": "small", f"GIT_{who}_EMAIL": "small@localhost"}
        files = {"crates.txt": "low:\nosb_program: low\ntests_basics: low\n", "HANDLES": "Handles allowed: none.\n"}
        files |= {".ci/run": GATE, "verdict": "good\n", "docs/ONE.md": "One.\n", "docs/TWO.md": "Two.\n"}
        files |= {"crates/low/src/lib.rt": LOW, "crates/osb_program/src/main.rt": MAIN, "crates/low/edits/a.edit": "a"}
        files |= {"crates/low/edits/b.edit": "b", "crates/tests_basics/src/lib.rt": LOW, ".gitignore": "__pycache__/\n"}
        files |= {f"tests/{name}.py": "" for name in ("edits", "trials/program")}
        files |= {"tests/trials.txt": "program: 9\nshown: 9\n", "tests/trials/shown.py": "'TWO.md'\n"}
        files |= {"tests/greened.py": "'green.py'\n"}
        for name, text in files.items():
            self.write(name, text)
        self.write("tests/first.py", LAYOUT)
        shutil.copytree(os.path.join(ROOT, "tools"), self.root / "tools", ignore=shutil.ignore_patterns("__pycache__"))
        shutil.copy(os.path.join(ROOT, "tests", "layout.py"), self.root / "tests")
        self.git("init", "-q")
        self.commit("the first")

    def write(self, name, text):
        (self.root / name).parent.mkdir(parents=True, exist_ok=True)
        (self.root / name).write_text(text)

    def git(self, *words):
        how = {"env": self.environment, "check": True, "capture_output": True, "text": True}
        return subprocess.run(["git", "-C", str(self.root), *words], **how).stdout.strip()

    def commit(self, what):
        self.git("add", "-A")
        self.git("commit", "-q", "--allow-empty", "-m", what)
        return self.git("rev-parse", "HEAD")

    def ran(self, script, *words):
        """The status of a script, and what it says."""
        command = [sys.executable, str(self.root / f"{script}.py"), *words]
        ran = subprocess.run(command, env=self.environment, capture_output=True, text=True)
        return ran.returncode, ran.stdout + ran.stderr

    def planned(self, *words):
        """The status of a plan, and what would be tried, in its order."""
        status, said = self.ran("tools/quick", "--plan", *words)
        return status, re.findall(r"quick: to be tried: (.*), about [\d.]+ minutes", said)

    def cloned(self, *words):
        """What a clone of it says of the last that passed."""
        clone = tempfile.mkdtemp(dir=self.cache)
        self.git("clone", "-q", *words, f"file://{self.root}", clone)
        command = [sys.executable, os.path.join(clone, "tools", "green.py"), "--last"]
        return subprocess.run(command, env=self.environment, capture_output=True, text=True).stdout

    def left_over(self):
        """What lies beside the repository and in the folder of what passed."""
        logs = [it.name for it in (self.cache / "osb-broker" / "green").glob("*.log")]
        return {*logs, *(it.name for it in self.root.parent.iterdir())}


def try_green(small):
    """A commit is noted only if its gate passed, and no older one after it."""
    yield "none has passed", small.ran("tools/green", "--last")[0], 1
    first = small.git("rev-parse", "HEAD")
    small.write("verdict", "bad, and not committed\n")
    status, said = small.ran("tools/green")
    yield "what is committed passes", (status, "passed after 0 minutes" in said), (0, True)
    yield "what is left of it", small.left_over(), {"cache", "small"}
    small.write("verdict", "bad\n")
    second = small.commit("the second")
    status, said = small.ran("tools/green")
    yield "one that fails", (status, "its priority is 19\nbad\n" in said, f"{second}.log" in said), (1, True, True)
    yield "its log stays", small.left_over(), {f"{second}.log", "cache", "small"}
    status, said = small.ran("tools/green", "--last")
    yield "the last that passed", (status, first in said, "1 commits since" in said), (0, True, True)
    small.write("verdict", "good again\n")
    third = small.commit("the third")
    yield "the next that passes", small.ran("tools/green", "HEAD")[0], 0
    status, said = small.ran("tools/green", first)
    yield "an older one passes", (status, "isn't noted" in said), (0, True)
    small.git("branch", "old", first)
    yield "another clone finds it", third in small.cloned(), True
    yield "one that doesn't have it", first in small.cloned("--single-branch", "--branch", "old"), True
    yield "no such commit", small.ran("tools/green", "nothing")[0], 2


def planned_after(small, name, text):
    """What would be tried after one file was changed."""
    small.write(name, text)
    found = small.planned()
    small.git("checkout", "-q", ".")
    small.git("clean", "-qfd")
    return found


def try_plans(small):
    """What is tried after a change, since the newest commit that passed."""
    yield "nothing is changed", small.planned(), (0, FIRST)
    yield "since an older one", small.planned("HEAD~2"), (0, FIRST)
    yield "a page", planned_after(small, "docs/ONE.md", "Once.\n"), (0, FIRST)
    shown = [*FIRST, "the program", "trial shown"]
    yield "a page that a trial names", planned_after(small, "docs/TWO.md", "Twice.\n"), (0, shown)
    yield "a trial", planned_after(small, "tests/trials/shown.py", "'TWO.md', 2\n"), (0, shown)
    script = (small.root / "tools" / "green.py").read_text() + "# changed\n"
    yield "a script", planned_after(small, "tools/green.py", script), (0, [*FIRST, "scripts: greened"])
    yield "an edit", planned_after(small, "crates/low/edits/b.edit", "c"), (0, [*FIRST, "low: edits b"])
    yield "a new edit", planned_after(small, "crates/low/edits/c.edit", "c"), (0, [*FIRST, "low: edits c"])
    source, checked = "crates/low/src/lib.rt", [*FIRST, "low: check"]
    yield "a comment", planned_after(small, source, LOW_COMMENTED), (0, checked)
    yield "a body", planned_after(small, source, LOW_WRONG), (0, [*checked, "low: edits", *PROGRAM])
    main = planned_after(small, "crates/osb_program/src/main.rt", f"// Small.\n{MAIN}")
    yield "a comment in the program", main, (0, [*FIRST, "the program"])
    above = [*checked, "low: edits", "tests_basics: tests", *PROGRAM]
    yield "a contract", planned_after(small, source, LOW_BY_TWO), (0, above)
    handles = planned_after(small, "HANDLES", "Handles allowed: Net.\n")
    yield "the handles", handles, (0, [*checked, "low: edits", "tests_basics: tests", "the program"])
    others = [LEMMA, LEMMA.replace("= refl", "= _"), LEMMA.replace("1 ≡", "2 ≡")]
    lemmas = [stated("crates/low/proofs/Lemmas.antt", it) for it in others]
    yield "another proof, and another lemma", [it != lemmas[0] for it in lemmas[1:]], [False, True]


def try_quick(small):
    """What is tried, and what is left for lack of time or as something failed."""
    small.write("docs/ONE.md", "Once.\n")
    status, said = small.ran("tools/quick")
    yield "all passes", (status, "quick: 0 failed, 0 left" in said), (0, True)
    yield "since no commit", small.ran("tools/quick", "nothing")[0], 2
    small.write("crates/low/src/lib.rt", LOW_BY_TWO)
    status, names = small.planned("--minutes", "0.25")
    yield "what fits", (status, names), (4, FIRST)
    status, said = small.ran("tools/quick", "--minutes", "0")
    above = ["tests_basics: tests", *PROGRAM]
    yield "what doesn't is named", (status, LEFT.findall(said)), (4, [*FIRST, "low: check", "low: edits", *above])
    yield "nothing is begun", re.findall("passed|failed: ", said), []
    small.write("tools/check.py", "raise SystemExit(1)\n")
    status, said = small.ran("tools/quick")
    yield "what stands on what failed", (status, LEFT.findall(said)), (1, above)
    small.git("checkout", "-q", "tools/check.py")
    small.write("crates/low/src/lib.rt", LOW.replace("    n + 1\n}", "  n + 1\n}"))
    status, said = small.ran("tools/quick", "--minutes", "0.5")
    first = [line for line in said.splitlines() if line.startswith("quick: ")][1]
    yield "a wrong layout is found first", (status, first.startswith("quick: failed: what takes seconds, ")), (1, True)
    yield "it is named", re.search(r"^    \S*crates/low/src/lib.rt is not in the layout$", said, re.M) is not None, True
    status, said = small.ran("tests/layout")
    yield "by itself", (status, "3 files" in said), (1, True)


def tries():
    with tempfile.TemporaryDirectory() as room:
        small = Small(room)
        yield from try_green(small)
        yield from try_plans(small)
        yield from try_quick(small)


if __name__ == "__main__":
    sys.exit(tell("greened", tries()))
