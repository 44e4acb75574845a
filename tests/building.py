#!/usr/bin/env python3
"""Tries the scripts that prove and build, tools/build.py and tools/check.py, over a small repository of two crates.

usage: tests/building.py
"""

import os
import pathlib
import shlex
import shutil
import subprocess
import sys
import tempfile

sys.path.append(os.path.join(os.path.dirname(os.path.abspath(__file__)), "lib"))

from kits import kit_with
from serving import ROOT, tell

sys.path.append(os.path.join(ROOT, "tools"))

import build
from crates import RT

LOW = """//! The library of a small program.
#![tactic(auto)]

ghost use Rattle.std.specs.Prelude.{◌≡◌, ◌+◌, ◌≤◌};

/// The number after this one.
pub fn next(n: u8) -> u8
    requires { n ≤ 100 }
    ensures { result ≡ n + 1 }
{
    n + 1
}
"""
# The same with a comment, with another promise, and with a body that doesn't keep its promise.
LOW_COMMENTED = LOW.replace("    n + 1\n}", "    // the next\n    n + 1\n}")
LOW_BY_TWO = LOW.replace("n + 1", "n + 2")
LOW_WRONG = LOW.replace("    n + 1\n}", "    n + 2\n}")

# The same beside two functions that are proved, and that `rt ci` refuses.
LOW_REFUSED = LOW.replace("};\n", "};\nuse std::process::Abort;\n") + """
/// Ends the process.
pub fn leave<R: Abort>(rt: &R) {
    rt.abort()
}

/// No number is as small and as large as that.
pub fn never(n: u8) -> u8
    requires { n + 2 ≤ 1 }
    ensures { result ≡ 7 }
{
    n
}
"""

MAIN = """//! A small program, whose status is the number after three.
#![tactic(auto)]

use low::next;
use std::process::ExitCode;

fn main() -> ExitCode {
    ExitCode::from(next(3))
}
"""
MAIN_LISTENS = MAIN.replace("use std::process", "use std::net::TcpListener;\nuse std::process")
MAIN_LISTENS = MAIN_LISTENS.replace("fn main()", "fn main(rt: HostRuntime)").replace(
    "    ExitCode::from(next(3))",
    """    match TcpListener::bind(&rt, "127.0.0.1:0") {
        Ok(_) => ExitCode::from(next(3)),
        Err(_) => ExitCode::from(1),
    }""",
)
TOOLS = ("build.py", "check.py", "crates.py", "minutes.py", "minutes.txt", "proved.py", "rattle.py", "stamps.py")
# In the place of a toolkit whose compiler is slow: somebody changes a file while it works.
SLOW = "#!/bin/sh\necho '// changed' >> {root}/crates/low/src/lib.rt\nexec {{rattle}} \"$@\"\n"


class Small:
    """A repository of a library and a program."""

    def __init__(self, room):
        self.root = pathlib.Path(tempfile.mkdtemp(dir=room))
        (self.root / "tools").mkdir()
        for name in TOOLS:
            shutil.copy(os.path.join(ROOT, "tools", name), self.root / "tools")
        (self.root / "crates.txt").write_text("low:\nosb_program: low\n")
        (self.root / "HANDLES").write_text("Handles allowed: none.\n")
        self.program = self.root / "osb-broker"
        self.write(LOW)
        self.write(MAIN, "osb_program/src/main.rt")

    def write(self, text, name="low/src/lib.rt"):
        file = self.root / "crates" / name
        file.parent.mkdir(parents=True, exist_ok=True)
        file.write_text(text)

    def out(self, crate):
        return self.root / "crates" / crate / "out"

    def ran(self, script, *words, **environment):
        """The status of a script, and what it says."""
        command = [sys.executable, str(self.root / "tools" / f"{script}.py"), *words]
        ran = subprocess.run(command, env={**os.environ, **environment}, capture_output=True, text=True)
        return ran.returncode, ran.stdout + ran.stderr

    def built(self, *words, **environment):
        """What a build makes: its status, the crates that it proves, the program's status, and what it says."""
        status, said = self.ran("build", *words, **environment)
        begun = [line.partition(":")[0] for line in said.splitlines() if ": being proved" in line]
        ended = subprocess.run([self.program]).returncode if self.program.exists() else None
        return status, begun, ended, said


def try_changes(small):
    """What is proved from nothing, with nothing changed, and after a change."""
    *found, said = small.built()
    yield "from nothing", found, [0, ["low", "osb_program"], 4]
    yield "what it says", ("low: 1 functions proved in " in said, "none is left" in said), (True, True)
    *found, said = small.built()
    yield "with nothing changed", (found, "before, of the same sources" in said), ([0, [], 4], True)
    small.write(LOW_COMMENTED)
    yield "a comment below: nothing above is proved again", small.built()[:3], (0, ["low"], 4)
    small.write(LOW_BY_TWO)
    yield "another promise below: what is above is proved again", small.built()[:3], (0, ["low", "osb_program"], 5)
    small.write(LOW_WRONG)
    *found, said = small.built()
    yield "a crate that isn't proved", (found, "low: not proved" in said), ([1, ["low"], 5], True)
    yield "its library", os.path.exists(small.out("low") / "rlib" / "low.rlib"), False
    small.write(LOW_BY_TWO)
    yield "once the change is taken back", small.built()[:3], (0, [], 5)


def try_what_lies_there(small):
    """What somebody else took away or put there isn't taken for what was proved."""
    (small.out("osb_program") / "osb_program").write_text("#!/bin/sh\nexit 9\n")
    yield "without a library, and with another program", small.built()[:3], (0, ["low", "osb_program"], 5)
    if (small.out("low") / "rlib" / "stamp").exists():
        subprocess.run([RT, "lib"], cwd=small.out("low").parent, stdout=subprocess.DEVNULL, check=True)
        yield "rt finds the library", (small.out("low") / "rlib" / "proved").exists(), True


def try_meanwhile(small, room):
    """A file that is changed while it is proved."""
    small.write(LOW)
    *found, said = small.built(RT=kit_with(room, SLOW.format(root=small.root)))
    yield "changed while it is proved", (found, "changed meanwhile" in said), ([1, ["low"], 5], True)


def try_linked(small):
    """A program that another command linked."""
    small.write(LOW)
    shutil.rmtree(small.out("osb_program"))
    other = "mkdir -p crates/osb_program/out; printf '#!/bin/sh\\nexit 7\\n' > crates/osb_program/out/osb_program"
    other += "; chmod +x crates/osb_program/out/osb_program"
    linked = ["--linked-by", "sh", "-c"]
    yield "a command that fails", small.built(*linked, "exit 3")[:3], (3, [], 5)
    yield "one that links", small.built(*linked, other)[:3], (0, [], 7)
    yield "a library of other sources", os.path.exists(small.out("low") / "rlib"), False
    *found, said = small.built()
    yield "what it linked is taken", (found, "before, of the same sources" in said), ([0, [], 7], True)
    wrong = small.root / "wrong.rt"
    wrong.write_text(LOW_WRONG)
    change = f"cp {shlex.quote(str(wrong))} crates/low/src/lib.rt"
    yield "one that links while a file changes", small.built(*linked, f"{other}; {change}")[:3], (0, [], 7)
    yield "what it linked isn't taken", small.built()[:3], (1, ["low"], 7)


def try_refused(small):
    """What is proved, and `rt ci` refuses it."""
    small.write(LOW)
    small.write(MAIN_LISTENS, "osb_program/src/main.rt")
    *found, said = small.built()
    why = "osb_program: refused, as `rt ci` refuses it: it calls bind, getaddrinfo, listen, socket, and HANDLES"
    yield "a program that listens without a handle", (found, why in said), ([1, ["osb_program"], 7], True)
    (small.root / "HANDLES").write_text("Handles allowed: Net.\n")
    yield "with the handle", small.built()[:3], (0, ["low", "osb_program"], 4)
    small.write(LOW_REFUSED)
    *found, said = small.built()
    why = [line for line in said.splitlines() if line.startswith("low: refused, as `rt ci` refuses it: ")]
    says = [sum(it in line for line in why) for it in ("may end the process", "no call can meet a contract")]
    yield "a library that ends the process, and one that no call can use", (found, says), ([1, ["low"], 4], [1, 1])
    yield "it isn't there", os.path.exists(small.out("low") / "rlib" / "low.rlib"), False


def try_checks(small):
    """One crate by hand."""
    yield "a check of what isn't proved", small.ran("check", "low")[0], 1
    small.write(LOW)
    status, said = small.ran("check", "osb_program", "--only", "main", "--jobs", "1")
    yield "a check that lacks a library", (status, "low: 1 functions proved" in said, "\nonly=" in said), (0, True, True)
    status, said = small.ran("check", "osb_program")
    yield "a check", (status, "\nlogic=proved functions=" in said, "being proved" in said), (0, True, False)
    yield "a check of no crate", small.ran("check", "lower")[0], 2


def begun(processors, memory, left, running=()):
    return dict(build.Schedule(left, dict(running), processors, memory).begin())


def try_schedules():
    """Which crates begin, and by how many jobs."""
    much, little = 64_000_000_000, 3_000_000_000
    pair = ["osb_text", "osb_frames"]
    yield "one alone", begun(4, much, ["osb_text"]), {"osb_text": 4}
    yield "no more than four", begun(16, much, ["osb_text"]), {"osb_text": 4}
    yield "one that has nothing to share", begun(4, much, ["osb_rows"]), {"osb_rows": 1}
    yield "two share", begun(4, much, pair), {"osb_text": 3, "osb_frames": 1}
    yield "those on two processors", begun(2, much, pair), {"osb_text": 1, "osb_frames": 1}
    yield "on one processor", begun(1, much, pair), {"osb_text": 1}
    yield "beside one that runs", begun(4, much, ["osb_frames"], {"osb_text": 3}), {"osb_frames": 1}
    yield "with no processor idle", begun(4, much, ["osb_frames"], {"osb_text": 4}), {}
    yield "what it stands on runs", begun(4, much, ["osb_catalog"], {"osb_text": 1}), {}
    yield "with little memory", begun(4, little, pair), {"osb_text": 1}
    yield "with none", begun(4, 0, pair), {"osb_text": 1}
    crates = [*build.below(build.PROGRAM), build.PROGRAM]
    reckoned = {it: build.Schedule(crates, {}, it, much).minutes_left({}) for it in (1, 2, 4)}
    yield "the whole on more processors", reckoned[1] > reckoned[2] > reckoned[4] > 20, True


def tries():
    yield from try_schedules()
    with tempfile.TemporaryDirectory() as room:
        small = Small(room)
        yield from try_changes(small)
        yield from try_what_lies_there(small)
        yield from try_meanwhile(small, room)
        yield from try_linked(small)
        yield from try_checks(small)
        yield from try_refused(small)


if __name__ == "__main__":
    sys.exit(tell("building", tries()))
