#!/usr/bin/env python3
"""Tries the judge of the edits, tests/edits.py, over a small crate. It fails if an edit is missing, changes nothing,
says the same in other words, or is refused for a reason that says nothing of a contract. It names an edit that is weak,
and tries a check again that was killed.

usage: tests/judged.py
"""

import contextlib
import io
import os
import pathlib
import shlex
import shutil
import subprocess
import sys
import tempfile
from unittest import mock

sys.path.append(os.path.join(os.path.dirname(os.path.abspath(__file__)), "lib"))

import edits
from edit import text_of
from judgement import Judgement, Kind
from kits import kit_with
from serving import ROOT, tell

SOURCE = """//! A crate whose edits are judged.
#![tactic(auto)]

ghost use Rattle.std.specs.Prelude.{◌≡◌, ◌+◌, ◌≤◌, length};

/// The number after this one.
pub fn next(n: u32) -> u32
    requires { n ≤ 1000 }
    ensures { result ≡ n + 1 }
{
    n + 1
}

/// The first of the bytes.
pub fn first(bytes: &[u8]) -> u8
    requires { 1 ≤ length bytes.now }
    ensures { result ≤ 255 }
{
    bytes[0]
}

/// The smaller of two numbers.
pub fn smaller(a: u32, b: u32) -> u32
    ensures { result ≤ a }
{
    a.min(b)
}

/// Each number is itself.
pub fn itself(n: u32)
    ensures { n ≡ n }
{
}
"""

# A function that calls another one of the crate.
CALLER = """
/// The number after the next one.
pub fn after_next(n: u32) -> u32
    requires { n ≤ 900 }
    ensures { result ≡ n + 2 }
{
    next(next(n))
}
"""

# Written answers: one names the call that it speaks of, and one the lemma that says what it has to.
ANSWER = """use Rattle.std.proofs.Common.{rules}
use Rattle.small.proofs.smaller.Goals as goal

pub returns : goal.returns
returns c = let least = c.min.ensures in search rules
"""
LEMMA = """use Rattle.std.specs.Prelude.{ℕ, ◌≡◌, refl}

pub same : (n : ℕ) → n ≡ n
same n = refl
"""
BY_LEMMA = """use Rattle.small.proofs.Lemma.{same}
use Rattle.small.proofs.itself.Goals as goal

pub returns : goal.returns
returns c = same c.args.n
"""
PROOFS = {"Lib.antt": "pub mod Lemma\n", "Lemma.antt": LEMMA}
PROOFS |= {"smaller/Answers.antt": ANSWER, "itself/Answers.antt": BY_LEMMA}
SCRIPTS = ["tests/edits.py", *(f"tests/lib/{name}.py" for name in ("edit", "judgement", "places"))]
SCRIPTS += [f"tools/{name}.py" for name in ("build", "crates", "minutes", "proved", "rattle")] + ["tools/minutes.txt"]


def edit(function, old, new):
    return f"refused: {function}\nfile: src/lib.rt\nold: {old}\nnew: {new}\n"


TWO_MORE = edit("next", "    n + 1", "    n + 2")
# Only a written answer refuses it.
NOT_ITSELF = edit("itself", "n ≡ n }", "n ≡ n + 1 }")
# Wrong edits: each is proved, by the written answer or without it, or is refused for a reason that says nothing of a
# contract.
WRONG = {
    "other_way": edit("next", "    n + 1", "    1 + n"),
    "out_of_range": edit("first", "bytes[0]", "bytes[1]"),
    "same_in_other_words": edit("itself", "n ≡ n }", "n + 1 ≡ n + 1 }"),
}
# A weak one.
NAME_GONE = edit("smaller", "a.min(b)", "a")
# What a check prints of a function, by what refuses it.
NOTE = "note: src/lib.rt:1:1: what the function ensures (`returns`): {}"
OPEN = NOTE + "\nfn small::f: no proof; `search` did not prove `returns`"
ERROR = "./proofs/f/Answers.antt:1:1: error: `returns`: {}"
WRITTEN = ERROR + "\nfn small::f: not proved; it stands on others; `Rattle.small.proofs.f.Answers.returns` is refused"
LEMMA_REFUSED = "./proofs/Lemma.antt:1:1: error: `same`: {}\nfn small::f: not proved; it stands on `{}`, which antt refuses"
PRINTED = {
    Kind.MEANING: OPEN.format("the facts allow values at which this goal is false"),
    Kind.WRITTEN: WRITTEN.format("the two types differ"),
    Kind.LIMIT: OPEN.format("`search` gave up at one of its limits"),
    Kind.NAME: WRITTEN.format("record `After` has no field `min`"),
    Kind.NOTHING: "fn small::f: no holes",
}
PASS = "fn small::law: no holes\nfn small::rule: no holes\n"
# In the place of a compiler: it is killed in its first check, and then makes a file; or in each check.
KILLED = """#!/bin/sh
case "$*" in *--crate-name*) [ -e {once} ] || {{ touch {made}; kill -9 $$; }} ;; esac
exec {{rattle}} "$@"
"""
COUNT = "small edits that only a written answer refuses 1\n"
KEPT = "echo 'rt: small is kept'"


class Small:
    """A repository of one crate, with these edits, this list of them and this source."""

    def __init__(self, room, edits, listed=None, source=SOURCE):
        self.root = pathlib.Path(tempfile.mkdtemp(dir=room))
        for name in SCRIPTS:
            (self.root / name).parent.mkdir(parents=True, exist_ok=True)
            shutil.copy(os.path.join(ROOT, name), self.root / name)
        crate = self.root / "crates" / "small"
        texts = {"src/lib.rt": source, **{f"proofs/{name}": text for name, text in PROOFS.items()}}
        texts |= {f"edits/{name}.edit": text for name, text in edits.items()}
        for name, text in texts.items():
            (crate / name).parent.mkdir(parents=True, exist_ok=True)
            (crate / name).write_text(text)
        (self.root / "crates.txt").write_text("small:\n")
        names = edits if listed is None else listed
        (self.root / "tests" / "edits.txt").write_text("".join(f"small/edits/{name}\n" for name in names))

    def judged(self, *words, **environment):
        """The status of the judge, and what it says."""
        environment = {**os.environ, "XDG_CACHE_HOME": str(self.root), **environment}
        command = [sys.executable, str(self.root / "tests" / "edits.py"), *words]
        ran = subprocess.run(command, env=environment, capture_output=True, text=True)
        return ran.returncode, ran.stdout + ran.stderr


def try_files(room):
    """What is found without a proof."""
    status, said = Small(room, {}, ["two_more"]).judged()
    yield "an edit is gone", (status, "small/edits/two_more: it is in tests/edits.txt" in said), (1, True)
    yield "no edit is left", (status, "small: it has public functions, and no edit" in said), (1, True)
    status, said = Small(room, {"two_more": TWO_MORE}, []).judged()
    yield "an edit isn't listed", (status, "small/edits/two_more: it isn't in" in said), (1, True)
    status, said = Small(room, {"same": edit("next", "    n + 1", "    n + 1")}).judged()
    yield "an edit changes no text", (status, "small/edits/same: it changes nothing" in said), (1, True)
    status, said = Small(room, {"two_more": TWO_MORE}).judged("small/three_more")
    yield "no such edit", (status, "small/three_more: there is no such edit" in said), (1, True)
    status, said = Small(room, {"lost": edit("next", "n + 3", "n + 2")}).judged()
    yield "an edit can't be made", (status, "has the old text 0 times" in said), (1, True)


def try_verdicts():
    """What refuses a function, by what a check prints of it."""
    for kind, printed in PRINTED.items():
        yield f"{kind.value}", Judgement("small", printed).verdict("f").kind, kind
    for lemma, kind in [("small.proofs.Lemma.same", Kind.WRITTEN), ("std.proofs.Lemma.same", Kind.NOTHING)]:
        said = LEMMA_REFUSED.format("the two types differ", f"Rattle.{lemma}")
        yield f"a law that stands on {lemma}", Judgement("small", said).verdict("f").kind, kind
    for count in (edits.MOST_WEAK, edits.MOST_WEAK + 1):
        with contextlib.redirect_stdout(io.StringIO()) as said:
            passes = edits.report(9, edits.Found(weak=[f"weak {it}" for it in range(count)]), edits.MOST_WEAK)
        named = said.getvalue().count("weak: weak")
        yield f"{count} weak edits", (passes, named), (count <= edits.MOST_WEAK, count)


# A function with an arm that is empty.
ARMS = ["fn last(n: Option<u32>) {", "    match n {", "        None => {}", "        Some(n) => end(n),", "    }", "}"]


def try_texts():
    """Edits that can't be in one text, one that the search proves only by another's definition, and a function's lines."""
    yield "the lines of a function with an empty arm", text_of(ARMS, 0), (0, len(ARMS) - 1)
    kinds = {"one": "src/a.rt", "other": "src/b.rt", "law": "specs/A.antt", "rule": "specs/B.antt"}
    made = {name: mock.Mock(refused=name, pairs=[(file, "old", "new")]) for name, file in kinds.items()}
    for it in made.values():
        it.original = it
    found = [[it.refused for it in batch] for batch in edits.batches(list(made.values()))]
    yield "edits of definitions by themselves", found, [["one", "other"], ["law", "rule"]]
    for count, said in [(1, ["law", "rule"]), (2, [])]:
        with mock.patch.object(edits, "check", lambda *given, **_: Judgement("small", PASS * (len(given[2]) >= count))):
            found = edits.say_the_same("small", [], [made["law"], made["rule"]], None)
        yield f"what the search proves of {count}", [it.refused for it in found], said


def try_outcomes(room):
    """An edit that is refused, one that only a written answer refuses, and a weak one; and what is kept of them."""
    small = Small(room, {"two_more": TWO_MORE, "not_itself": NOT_ITSELF, "name_gone": NAME_GONE})
    good = "echo 'rt: must-fail small/x.edit: refused, as it must be'; echo 'rt: ok; must-fail edits: 1 refused'"
    status, said = small.judged("--beside", "sh", "-c", good)
    found = ["two_more: refused in next: returns: ", "not_itself: refused by a written answer only in itself: "]
    found += ["name_gone: refused for a name only in smaller: "]
    yield "each outcome", [it in said for it in found], [True] * 3
    more = f"small: {edits.COUNTED}: 1, and 0 are kept"
    yield "one more that only a written answer refuses", (status, more in said), (1, True)
    yield "the numbers are kept", small.judged("--keep")[0], 0
    yield "the number of these", (small.root / "tests" / "counts.txt").read_text(), COUNT
    status, said = small.judged("--beside", "sh", "-c", KEPT)
    yield "they pass", (status, "0 faults, 1 weak; only a written answer refuses 1" in said), (0, True)
    yield "they were tried before", "small: 3 edits, refused before" in said, True
    status, said = small.judged("--strict", "--beside", "sh", "-c", KEPT)
    yield "but not strictly", (status, "weak: small/edits/name_gone: " in said), (1, True)
    yield from try_must_fail(small)


def try_must_fail(small):
    """What the command reports of edits under must-fail/."""
    line = f"{KEPT}; echo 'rt: must-fail small/x.edit: %s'"
    status, said = small.judged("--beside", "sh", "-c", line % "BAD EDIT: it has no pair")
    yield "one under must-fail/ that can't be tried", (status, "\nrt: must-fail small/x.edit: BAD" in said), (1, True)
    status, said = small.judged("--beside", "sh", "-c", line % "refused, as it must be (only by a limit of the prover)")
    weak = "weak: rt: must-fail small/x.edit: refused" in said
    yield "one under must-fail/ that met a limit", (status, "0 faults, 2 weak" in said, weak), (0, True, True)


def try_wrong(room):
    """Edits that show nothing."""
    small = Small(room, {"two_more": TWO_MORE, **WRONG})
    status, said = small.judged("small/two_more")
    found = ("small/edits/two_more: refused" in said, "1 to be tried, 0 faults" in said)
    yield "one edit by its name", (status, *found), (0, True, True)
    status, said = small.judged("--beside", "sh", "-c", "echo 'rt: small proved'")
    found = {name for name in WRONG if f"small/edits/{name}: " in said and f"small/edits/{name}: refused" not in said}
    yield "edits that show nothing", (status, found, "4 to be tried, 3 faults" in said), (1, set(WRONG), True)
    yield "another edit of a function, one of which says the same", "two_more: refused in next: returns: " in said, True
    broken = (SOURCE + CALLER).replace("    n + 1\n", "    n + 3\n")
    both = {"two_more": edit("next", "    n + 3", "    n + 2"), "once": edit("after_next", "next(next(n))", "next(n)")}
    status, said = Small(room, both, source=broken).judged()
    at_fault = [name for name in ("next", "after_next") if f"small: {name} without an edit: " in said]
    yield "a function that doesn't pass as it is, and one that calls it", (status, at_fault), (1, ["next"])


def try_killed(room):
    """A compiler that is killed in its first check, and one that is in each."""
    for once, passes in [("made", True), ("never made", False)]:
        small = Small(room, {"two_more": TWO_MORE})
        made = small.root / "made"
        compiler = KILLED.format(once=shlex.quote(str(small.root / once)), made=shlex.quote(str(made)))
        status, said = small.judged("--beside", "sh", "-c", "true", RT=kit_with(room, compiler))
        again, nothing = "is tried once more by itself" in said, "next: nothing is said of it" in said
        yield f"killed, with a file {once}", (status, again, nothing), (0 if passes else 1, True, not passes)


def tries():
    yield from try_verdicts()
    yield from try_texts()
    with tempfile.TemporaryDirectory() as room:
        for part in (try_files, try_outcomes, try_wrong, try_killed):
            yield from part(room)


if __name__ == "__main__":
    sys.exit(tell("judged", tries()))
