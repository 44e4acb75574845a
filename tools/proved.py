"""Crates that were proved, each with a sum of what it was proved of.

The toolkit builds a library or a program only of a proved crate. One that `rt ci` refuses all the same is refused here.
Beside what is built lies a record of three sums: of the sources; of what the proof read, which is the crate's files and
the libraries below it as they were built; and of what was built. So whoever asks `is_kept` needs no proof. A comment
leaves a library the same, byte for byte, so nothing above it is proved again. The record of a library lies in the
library's own folder, which `rt` takes away before it builds another."""

import contextlib
import fcntl
import functools
import hashlib
import os
import re
import shutil
import subprocess
import sys

from crates import ROOT, below, handles, has_changed, own_sum, sum_of
from rattle import KEPT, KIT, build_library, build_program, folder_of, imported, is_program, rlib

PROVED = re.compile(r"^logic=proved .*?\bfunctions=(\d+).*", re.M)
# The words that `rt ci` takes in that line, and one of libraries that keep what was checked.
WORDS = {"logic", "tests", "functions", "axioms", "target", "cpu", "threads", "main", "may-wait", "sum", "native"}
WORDS |= {"logic-built", "libraries-built", "statements", "incremental"}
# What it says of the words that it refuses, and of warnings.
REFUSED = {
    "foreign": "it declares functions of C, whose contracts nothing proves",
    "hides": "it gives out a function or a value whose contract may say nothing",
    "may-abort": "one of its functions may end the process, and meets any contract then",
    "may-serve": "one of its functions may serve without an end, and meets any contract then",
    "partial": "one of its functions may not end, and meets any contract then",
    "bugs": "the toolkit couldn't check all that it generated itself",
}
WARNED = {
    r"warning: no call of `(?![^`]*::fn::)": "no call can meet a contract that a warning names, so any body proves it",
    r"note: the search for empty contracts did not end": "whether some call can meet each contract isn't known",
    r"warning: calls of a tactic that chose a term": "a tactic chose a part of a contract",
    r"(\./)?(src|specs)/\S+ warning: this pattern binds a variable spelled like a constructor": (
        "a pattern takes every value, and most likely one constructor was meant"
    ),
}


def made(crate):
    """What is built of a crate."""
    return folder_of(crate) / "out" / crate if is_program(crate) else rlib(crate)


def record(crate):
    """The file that has the sums of a crate's proof."""
    return made(crate).parent / "proved"


def sums_in(crate):
    """The three sums of a record, empty where there is none."""
    found = record(crate).read_text().split() if record(crate).is_file() else []
    return found if len(found) == 3 else ["", "", ""]


def sum_read(crate):
    """The sum of what a crate's proof reads."""
    found = repr([own_sum(crate), *((name, sums_in(name)[2]) for name in below(crate))])
    return hashlib.sha256(found.encode()).hexdigest()


def sum_built(crate):
    """The sum of what is built of a crate, as it lies there."""
    files = [made(crate)] if is_program(crate) else sorted(it for it in made(crate).rglob("*") if it.is_file())
    found = [(str(it.relative_to(made(crate).parent)), hashlib.sha256(it.read_bytes()).hexdigest()) for it in files]
    return hashlib.sha256(repr(found).encode()).hexdigest()


def is_recorded(crate):
    """Whether what is built of a crate was proved of its files, over the libraries below it as they are recorded."""
    return made(crate).exists() and sums_in(crate)[1] == sum_read(crate)


def is_kept(crate):
    """Whether what is built of a crate, and of each one below it, was proved of its sources as they are. A program is
    kept without its libraries, too, while all sources are those that it was proved of."""
    # (the sum is asked for before a proof begins, so that a change meanwhile is seen)
    sources = sum_of(crate)
    if is_program(crate):
        if not made(crate).exists() or sums_in(crate)[2] != sum_built(crate):
            return False
        if sums_in(crate)[0] == sources:
            return True
    return all(map(is_recorded, [*below(crate), crate]))


def is_usable(crate):
    """Whether a library is there that was proved of the sources as they are; or one of which nothing is known, nor of
    those below it, as `rt ci` leaves them."""
    is_known = any(record(it).is_file() for it in [*below(crate), crate])
    return is_kept(crate) or not is_known and rlib(crate).is_dir()


@functools.cache
def stamps():
    """The stamp of each crate by which `rt` knows its library, where this toolkit's `rt` can be asked for them."""
    command = [sys.executable, "-B", str(ROOT / "tools" / "stamps.py"), str(KIT / "bin"), str(ROOT)]
    ran = subprocess.run(command, stdin=subprocess.DEVNULL, capture_output=True, text=True)
    return dict(line.split() for line in ran.stdout.splitlines()) if ran.returncode == 0 else {}


def put_stamp(crate):
    """Has `rt` find a library that is kept."""
    if crate in stamps() and not is_program(crate):
        (rlib(crate).parent / "stamp").write_text(stamps()[crate])


def keep(crate):
    """Keeps what was just built of a crate as proved, for `rt` too."""
    put_stamp(crate)
    record(crate).write_text(f"{sum_of(crate)} {sum_read(crate)} {sum_built(crate)}")


def forget(crate):
    """Takes away what was built of a crate."""
    if is_program(crate):
        record(crate).unlink(missing_ok=True)
        made(crate).unlink(missing_ok=True)
    else:
        shutil.rmtree(rlib(crate).parent, ignore_errors=True)
    made(crate).parent.mkdir(parents=True, exist_ok=True)


@contextlib.contextmanager
def held(crate):
    """Keeps others, `rt` among them, from a crate's folder, and from building the libraries below it anew. Gives the
    open files that do."""
    with contextlib.ExitStack() as stack:
        files = []
        for name in sorted([*below(crate), crate]):
            files.append(os.open(folder_of(name), os.O_RDONLY))
            stack.callback(os.close, files[-1])
            # (some file systems have no locks)
            with contextlib.suppress(OSError):
                fcntl.flock(files[-1], fcntl.LOCK_EX if name == crate else fcntl.LOCK_SH)
        yield files


def refusals(crate, said):
    """Why `rt ci` would refuse a crate that was built, by what the toolkit said."""
    lines = [it.group() for it in PROVED.finditer(said)]
    if not lines:
        return ["built, and no verdict was given"]
    words = dict(word.partition("=")[::2] for word in lines[-1].split())
    found = [REFUSED.get(it, f"the last line of its proof has the word {it}") for it in words if it not in WORDS]
    found += [why for pattern, why in WARNED.items() if re.search(f"(?m)^{pattern}", said)]
    taken = {*words.get("main", "").split("+"), *["Wait"] * ("may-wait" in words)} - {"", *handles()}
    calls = imported(made(crate)) if is_program(crate) else []
    beyond = [f"takes {', '.join(sorted(taken))}"] * bool(taken) + [f"calls {', '.join(calls)}"] * bool(calls)
    return found + [f"it {what}, and HANDLES allows {' and '.join(handles()) or 'no handle'}" for what in beyond]


def prove(crate, jobs, keeps=True):
    """Builds a crate over the libraries that are there: the status, and what the toolkit says of its proof. It is kept
    where each of those libraries is and no file was changed meanwhile. What was checked is kept for the next check if
    that is asked for, or if it was before; a library that has it is another than one of statements only, so what is
    above is proved once more then."""
    with held(crate) as files:
        if is_kept(crate):
            put_stamp(crate)
            return 0, ""
        forget(crate)
        keeps = keeps or (folder_of(crate) / KEPT).is_dir()
        status, said = (build_program if is_program(crate) else build_library)(crate, jobs, keeps, files)
        if status == 0 and (why := refusals(crate, said)):
            forget(crate)
            return 1, f"{said}\n{crate}: refused, as `rt ci` refuses it: {'; '.join(why)}"
        if status == 0 and not has_changed(crate) and all(map(is_kept, below(crate))):
            keep(crate)
        return status, said


def count_in(said):
    """How many functions the toolkit says that it proved, as words."""
    found = PROVED.search(said)
    return f"{found.group(1)} functions proved" if found else "proved before"
