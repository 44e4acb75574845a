"""Tries edits that must be refused: wrong bodies, each of which the prover has to refuse in the function
that the edit names.

    python3 tests/edits.py [--strict] [CRATE | CRATE/EDIT ..]
    python3 tests/edits.py --beside make tried
    python3 tests/edits.py --files
    python3 tests/edits.py --keep

The first tries the edits of these crates, or only these, or all, over the libraries that are there; those that lack, or
that were proved of other sources, are proved first.
The second runs a command that proves all crates, and tries each crate's edits beside it, behind its work,
as soon as it reports that the libraries below that crate are proved. The third only reads the files of the edits. The
fourth writes the list of all edits, tests/edits.txt: an edit that is in the list and has no file is a fault, and so is
one that isn't in the list. It also keeps in tests/counts.txt how many edits of each crate only a written answer
refused, as far as they were tried.

An edit is a file crates/CRATE/edits/NAME.edit: the function that must be refused, and then texts of
its files and what is put in their place.

    refused: route::route_at
    file: src/route.rt
    old: Some(Route::Provision(id))
    new: Some(Route::Update(id))

`rt ci` has proved every function just before, so here each other function of the crate is taken at its
word: its proof is a hole, and only the edited function is checked against what the others promise. That
takes seconds, where an edit under must-fail/ costs a check of the whole crate. Edits of several functions
are tried in one check. So is a further edit of one function, if it changes nothing else: it is made in a copy
of that function, and judged by the copy's goals. A check that is killed, most likely for memory, is tried once
more by itself.

An edit has one of three outcomes.

- It is refused: its own function has a goal that shows a wrong result. That is what the function ensures, what a
  function that it calls requires, an invariant, or a written answer, or a lemma of it, that now proves another
  statement. The goal is printed. That the search met its limits counts only in a function that passes as it is, past
  the same holes, within half of them.
- It is weak: each such goal met only the limits of the search, or is an answer that names what the edit took away. The
  last lines name the weak ones. More than MOST_WEAK are a fault; with --strict each is.
- It is a fault of the edit: it is proved, it wasn't tried, or each open goal is one of safety (an index, a sum).

A written answer also refuses an edit that says the same in other words. So the edits of a crate that only a written
answer refuses are counted. If they are more than tests/counts.txt has, and always with --strict, each such function is
checked without that answer, and an edit that the search then proves is a fault. So is each one too many.

That the other functions pass as they are is what the command of the second form proves beside the edits;
without such a command each is checked here.

The edits under must-fail/ are tried by `rt ci` itself. One that can't be tried is a fault here, and one that it refused
for a name or for a limit only is weak.

Some toolkits keep what they proved. Where the command reports that a crate is kept, and its edits were refused
before over the same toolkit, scripts, edits, crate and libraries, they aren't tried again. What was found is
kept in osb-broker/edits below $XDG_CACHE_HOME, or below ~/.cache."""

import concurrent.futures
import dataclasses
import hashlib
import json
import os
import pathlib
import re
import shutil
import subprocess
import sys
import tempfile
import threading
from dataclasses import dataclass, field

ROOT = pathlib.Path(__file__).resolve().parent.parent
TOOLS, LIB = ROOT / "tools", ROOT / "tests" / "lib"
sys.path += [str(TOOLS), str(LIB)]

import rattle
from build import bytes_of
from crates import LIBRARIES, RT, below, free_memory, lanes, sum_of
from edit import Edit, batches, keep_only, modules
from judgement import Judgement, Kind, Verdict
from places import ALL, Places
from proved import is_usable, prove

# Halves what the search of a check may take, where the toolkit can.
HALVED = ["--margin"] if "--margin" in rattle.help_of("check") else []
# What the largest check of a crate takes of memory.
BYTES_OF_CRATE = 6_000_000_000
# How many checks of edits run beside a command that proves crates.
MOST_BESIDE = 2
# How many weak edits pass.
MOST_WEAK = 5
# All edits, those under must-fail/ too.
LIST = ROOT / "tests" / "edits.txt"
# How many edits of a crate only a written answer refuses is kept there.
COUNTS = ROOT / "tests" / "counts.txt"
COUNTED = "edits that only a written answer refuses"
PLACES = Places(1, 0)


def command(crate, functions, kept, more=()):
    """The check of these functions of a crate, past holes."""
    only = [word for function in functions for word in ("--only", function)]
    return ["nice", "-n", "19", rattle.RATTLE, "check", *rattle.words(crate, 1, kept), "--allow-holes", *more, *only]


def run(crate, words, folder):
    """What a check of a crate prints, once there is room for it. One that is killed is tried once more by itself."""
    with PLACES.one(bytes_of(crate, 1)):
        status, text = rattle.run(words, folder)
    if status >= 0:
        return text
    print(f"{crate}: a check of its edits was killed, as for memory, and is tried once more by itself", flush=True)
    with PLACES.one(ALL):
        return rattle.run(words, folder)[1]


def check(crate, names, edits, kept, only=(), more=(), answered=True):
    """The judgement on the functions that these edits name, and only on these where there is no edit. Every function
    of these names keeps its body, and each other one is taken at its word. Those of the edits may lose the answers that
    are written for them."""
    with tempfile.TemporaryDirectory() as room:
        folder = pathlib.Path(room)
        for part in ("src", "specs", "proofs"):
            if (ROOT / "crates" / crate / part).is_dir():
                shutil.copytree(ROOT / "crates" / crate / part, folder / part)
        for edit in edits:
            edit.apply(folder)
        keep_only(folder, crate, {*names, *(edit.refused for edit in edits)})
        for edit in [] if answered else edits:
            for name in ("Answers.antt", "Proof.antt"):
                folder.joinpath("proofs", *edit.refused.split("::"), name).unlink(missing_ok=True)
        words = command(crate, sorted({*only, *(edit.refused for edit in edits)}), kept, more)
        return Judgement(crate, run(crate, words, room))


def try_batch(crate, names, batch, kept):
    """The verdict on each edit of a batch. Each function of these names keeps its body."""
    judged = check(crate, names, batch, kept)
    verdicts, again = {}, []
    for edit in batch:
        verdict, said = judged.verdict(edit.refused), judged.said_of(edit.refused)
        is_beside = any(f"`{crate}::{other.refused}`" in said for other in batch if other is not edit)
        if verdict.kind is Kind.NOTHING and is_beside:
            again.append(edit)
        else:
            verdicts[edit.original] = verdict
    for part in [again] if len(again) < len(batch) else [[edit] for edit in again]:
        verdicts |= try_batch(crate, names, part, kept) if part else {}
    return verdicts


@dataclass
class Found:
    """What was found of a crate's edits: faults, weak edits, and how many only a written answer refuses."""

    wrong: list = field(default_factory=list)
    weak: list = field(default_factory=list)
    written: int = 0


class Reports:
    """What a command that proves all crates, where there is one, has said so far: which are proved, which the toolkit
    kept, which edits under must-fail/ show nothing or are weak, and the last lines of the first crate that isn't
    proved."""

    def __init__(self, proves, is_strict):
        self.proves, self.is_strict, self.crates = proves, is_strict, {name: threading.Event() for name in LIBRARIES}
        self.kept, self.found, self.ended, self.failed = set(), Found(), threading.Event(), False
        self.of_crate, self.unproved = [], []

    def read(self, line):
        self.of_crate = [line] if line.startswith("== ") else [*self.of_crate, line][-20:]
        if re.fullmatch(r"rt: \w+(: its tests)? NOT PROVED\n", line) and not self.unproved:
            self.unproved = self.of_crate
        found = re.fullmatch(r"rt: (\w+) (proved|is kept\b.*)\n", line)
        if found and found.group(1) in self.crates:
            if found.group(2) != "proved":
                self.kept.add(found.group(1))
            self.crates[found.group(1)].set()
        if re.search(r"\bmust-fail \w+/\S+: (?!refused, as it must be)", line):
            self.found.wrong.append(line.strip())
        elif re.search(r"\bmust-fail \w+/\S+: refused, as it must be \(only ", line):
            self.found.weak.append(line.strip())

    def end(self, failed):
        self.failed = failed
        self.ended.set()
        for event in self.crates.values():
            event.set()


def passed(crate):
    """The file that is there once a crate's edits were refused: it is named by a sum of all that was read."""
    found = hashlib.sha256(sum_of(crate).encode())
    scripts = [pathlib.Path(__file__), LIB / "edit.py", LIB / "judgement.py"]
    scripts += [TOOLS / name for name in ("crates.py", "proved.py", "rattle.py")]
    for file in [*scripts, *sorted((ROOT / "crates" / crate / "edits").glob("*.edit"))]:
        found.update(repr((file.name, file.read_bytes())).encode())
    home = os.environ.get("XDG_CACHE_HOME") or pathlib.Path.home() / ".cache"
    return pathlib.Path(home) / "osb-broker" / "edits" / found.hexdigest()


def found_before(crate):
    """What was found of a crate's edits, where all were tried before, over the same as now."""
    return Found(**json.loads(passed(crate).read_text())) if passed(crate).is_file() else None


def found_and_kept(crate, reports):
    """The same where the toolkit kept the crate as it is."""
    found = found_before(crate)
    if found:
        reports.crates[crate].wait()
    return found if crate in reports.kept else None


def keep(crate, found):
    passed(crate).parent.mkdir(parents=True, exist_ok=True)
    passed(crate).write_text(json.dumps(dataclasses.asdict(found)))


def lacking(crate):
    """The libraries below a crate that can't be used, and those that stand on one of them, lowest first."""
    found = []
    for name in below(crate):
        if not is_usable(name) or set(below(name)) & set(found):
            found.append(name)
    return found


# One crate at a time builds what lacks.
BUILDING = threading.Lock()


def build_missing(crate, reports):
    """Builds the libraries below a crate that lack, where the command hasn't failed. Gives what is wrong."""
    if not lacking(crate):
        return []
    reports.ended.wait()
    with BUILDING:
        for name in lacking(crate) if not reports.failed else []:
            with PLACES.one(bytes_of(name, 1)):
                # (a toolkit that kept a library has left it out, and has it ready)
                status, said = rattle.run([RT, "lib"], rattle.folder_of(name)) if name in reports.kept else prove(name, 1)
            if status:
                return [f"{crate}: a library below it isn't proved: {said}"]
    return []


def try_crate(crate, edits, reports):
    """What is found of a crate's edits, which are tried once the libraries below it are proved."""
    for name in below(crate):
        reports.crates[name].wait()
    found = found_and_kept(crate, reports)
    if found or reports.failed:
        print(f"{crate}: {len(edits)} edits, {'refused before' if found else 'not tried'}", flush=True)
    elif wrong := build_missing(crate, reports):
        found = Found(wrong)
    else:
        found = try_proved(crate, edits, reports)
    return found or Found()


def try_side_by_side(crate, names, made, folders):
    """The verdict on each edit of these batches, which are tried at the same time as far as there are places. Each keeps
    what it checked in a folder of its own."""
    with concurrent.futures.ThreadPoolExecutor(len(made)) as pool:
        found = pool.map(lambda batch, folder: try_batch(crate, names, batch, folder), made, folders)
        return {edit: it for verdicts in found for edit, it in verdicts.items()}


def try_proved(crate, edits, reports):
    """What is found of a crate's edits over proved libraries."""
    names, made = {edit.refused for edit in edits}, batches(edits)
    with tempfile.TemporaryDirectory() as room:
        folders = [tempfile.mkdtemp(dir=room) for _ in made]
        verdicts = try_side_by_side(crate, names, made, folders)
        # (the most functions were checked with the largest batch)
        kept = max(zip(made, folders), key=lambda it: len(it[0]))[1]
        written = of_kind(verdicts, Kind.WRITTEN)
        if reports.is_strict or len(written) > counted().get(crate, 0):
            verdicts |= say_the_same(crate, names, written, kept)
        limited = {edit.refused for edit in of_kind(verdicts, Kind.LIMIT)}
        slow = unproved(crate, limited, kept, HALVED) if HALVED else dict.fromkeys(limited, "")
        at_fault = unproved(crate, names - limited | {*slow}, kept) if not reports.proves else {}
    for edit in of_kind(verdicts, Kind.LIMIT):
        if edit.refused not in slow:
            verdicts[edit] = Verdict(Kind.MEANING, verdicts[edit].said)
    wrong = [f"{crate}: {it} without an edit: {said[:300]}" for it, said in at_fault.items()]
    return found_of(crate, verdicts, wrong)


def of_kind(verdicts, kind):
    return [edit for edit, it in verdicts.items() if it.kind is kind]


def found_of(crate, verdicts, wrong):
    """Prints each verdict, and gives what is found by them beside what else is wrong. It is kept if all edits of the
    crate were tried and none is a fault."""
    for edit, it in verdicts.items():
        if it.kind is not Kind.NOTHING:
            print(f"{edit}: {it.kind.value} in {edit.refused}: {it.said}")
    found = Found(wrong + [f"{edit}: {verdicts[edit].said}" for edit in of_kind(verdicts, Kind.NOTHING)])
    weak = of_kind(verdicts, Kind.LIMIT) + of_kind(verdicts, Kind.NAME)
    found.weak = [f"{edit}: {verdicts[edit].kind.value}" for edit in weak]
    found.written = len(of_kind(verdicts, Kind.WRITTEN))
    if not found.wrong and len(verdicts) == len(in_folder(edits_in(crate))):
        keep(crate, found)
    print(f"{crate}: {len(verdicts)} edits, {len(found.wrong)} faults, {len(found.weak)} weak", flush=True)
    return found


def proves_by_itself(crate, names, edit, kept):
    """Whether the search proves an edited function without its written answer."""
    return check(crate, names, [edit], kept, more=HALVED, answered=False).passes(edit.refused)


def say_the_same(crate, names, edits, kept):
    """The verdict on those of these edits, which only a written answer refuses, that the search proves without it."""
    found = []
    for batch in batches(edits):
        judged = check(crate, names, batch, kept, more=HALVED, answered=False)
        proved = [edit.original for edit in batch if judged.passes(edit.refused)]
        # (it may do so only by another definition in the same text)
        found += [it for it in proved if len(batch) == 1 or proves_by_itself(crate, names, it, kept)]
    said = "the search proves it: only the written answer refuses what it says in other words"
    return {edit: Verdict(Kind.NOTHING, f"{edit.refused}: {said}") for edit in found}


def unproved(crate, only, kept, more=()):
    """Which of these functions don't pass as they are, with what is said of each."""
    judged = check(crate, only, [], kept, only, more) if only else None
    fail = {it: judged.said_of(it) for it in sorted(only) if not judged.passes(it)}
    calling = [it for it in fail if any(f"`{crate}::{other}`" in fail[it] for other in fail if other != it)]
    # (one that calls another of them that doesn't pass is looked at past a hole in the place of that)
    for function in calling:
        alone = check(crate, [function], [], kept, [function], more)
        fail[function] = alone.said_of(function)
        if alone.passes(function):
            del fail[function]
    return fail


def beside(words, reports, jobs):
    """Runs a command with so many checks at once, shows what it prints, and hands it on. Gives its status."""
    environment = {"RT_JOBS": str(jobs), **os.environ}
    with subprocess.Popen(words, env=environment, stdout=subprocess.PIPE, text=True, errors="replace") as command:
        for line in command.stdout:
            print(line, end="", flush=True)
            reports.read(line)
    return command.returncode


def edits_in(crate):
    """The edits of a crate, those under must-fail/ too."""
    folders = [ROOT / "crates" / crate / name for name in ("edits", "must-fail")]
    return [Edit(it) for folder in folders for it in sorted(folder.glob("*.edit"))]


def in_folder(edits):
    """Those under edits/."""
    return [it for it in edits if it.folder == "edits"]


def chosen(words, every):
    """The edits of the crates that are named, or those that are named by their crate and name; without a word all. And
    the words that name none."""
    found, unknown = {}, []
    for word in words or every:
        crate, _, name = word.partition("/")
        edits = [it for it in in_folder(every.get(crate, [])) if name in ("", it.name)]
        found[crate] = found.get(crate, []) + edits
        unknown += [f"{word}: there is no such edit"] * bool(name and not edits or crate not in every)
    return found, unknown


def has_public_functions(crate):
    folder = ROOT / "crates" / crate
    return any(re.search(r"^ *pub (const )?fn ", text, re.M) for _, text in modules(folder))


def faults_of_files(every):
    """What is wrong with the files of the edits: nothing is proved to find it."""
    found = {str(edit) for edits in every.values() for edit in edits}
    listed = set(LIST.read_text().split()) if LIST.is_file() else set()
    wrong = [f"{it}: it is in tests/edits.txt, and there is no such file" for it in sorted(listed - found)]
    wrong += [f"{it}: it isn't in tests/edits.txt" for it in sorted(found - listed)]
    wrong += [line for edits in every.values() for edit in edits for line in edit.faults()]
    bare = [it for it in every if not every[it] and not it.startswith("tests_") and has_public_functions(it)]
    return wrong + [f"{crate}: it has public functions, and no edit" for crate in bare]


def counted():
    """How many edits of each crate only a written answer refuses, as tests/counts.txt has it."""
    lines = COUNTS.read_text().splitlines() if COUNTS.is_file() else []
    found = (re.fullmatch(rf"(\w+) {COUNTED} (\d+)", line) for line in lines)
    return {it.group(1): int(it.group(2)) for it in found if it}


def keep_lists(every):
    """Writes the list of all edits, and how many only a written answer refused, where that was tried."""
    LIST.write_text("".join(f"{edit}\n" for edits in every.values() for edit in edits))
    tried = {crate: it.written for crate in every if (it := found_before(crate))}
    others = [line for line in COUNTS.read_text().splitlines() if COUNTED not in line] if COUNTS.is_file() else []
    numbers = {crate: number for crate, number in sorted((counted() | tried).items()) if number and crate in every}
    COUNTS.write_text("".join(f"{line}\n" for line in [*others, *(f"{it} {COUNTED} {n}" for it, n in numbers.items())]))


def more_than_counted(of_crates):
    """The crates of which a written answer refuses more edits by itself than tests/counts.txt has."""
    most = counted()
    more = {crate: it.written for crate, it in of_crates.items() if it.written > most.get(crate, 0)}
    return [f"{crate}: {COUNTED}: {number}, and {most.get(crate, 0)} are kept" for crate, number in more.items()]


def summed(every):
    """What was found of several crates together."""
    wrong, weak = [line for it in every for line in it.wrong], [line for it in every for line in it.weak]
    return Found(wrong, weak, sum(it.written for it in every))


def try_all(edits, words, is_strict):
    """Tries the edits of each crate, beside a command where one is given. Gives what is found, and its status."""
    reports, status = Reports(bool(words), is_strict), 0
    jobs = lanes(BYTES_OF_CRATE) if words else 0
    PLACES.set(MOST_BESIDE, free_memory() - jobs * BYTES_OF_CRATE)
    with concurrent.futures.ThreadPoolExecutor(len(LIBRARIES)) as pool:
        results = [pool.submit(try_crate, crate, found, reports) for crate, found in edits.items()]
        if words:
            status = beside(words, reports, jobs)
        reports.end(failed=status != 0)
        # (there may be more room then)
        PLACES.set(len(os.sched_getaffinity(0)), free_memory())
    of_crates = dict(zip(edits, (it.result() for it in results)))
    found = summed([reports.found, *of_crates.values()])
    found.wrong += more_than_counted(of_crates)
    found.wrong += ["not proved first:\n" + "".join(reports.unproved)] * bool(reports.unproved)
    return found, status


def report(count, found, most_weak):
    """Prints what was found of so many edits. Whether that passes."""
    for line in [*found.wrong, *(f"weak: {it}" for it in found.weak)]:
        print(line)
    many = f", and at most {most_weak} may be" if len(found.weak) > most_weak else ""
    print(f"edits: {count} to be tried, {len(found.wrong)} faults, {len(found.weak)} weak{many}", end="; ")
    print(f"only a written answer refuses {found.written}")
    return not found.wrong and not many


def main(words):
    is_strict = "--strict" in words
    words = [it for it in words if it != "--strict"]
    every = {crate: edits_in(crate) for crate in LIBRARIES}
    if words == ["--keep"]:
        keep_lists(every)
        return 0
    found, status = Found(faults_of_files(every)), 0
    is_beside, only_files = words[:1] == ["--beside"], words == ["--files"]
    edits, unknown = chosen([] if is_beside or only_files else words, every)
    found.wrong += unknown
    if not found.wrong and not only_files:
        edits = {crate: its for crate, its in edits.items() if its}
        found, status = try_all(edits, words[1:] if is_beside else [], is_strict)
    passes = report(sum(len(its) for its in edits.values()), found, 0 if is_strict else MOST_WEAK)
    return status or (0 if passes else 1)


if __name__ == "__main__":
    sys.exit(main(sys.argv[1:]))
