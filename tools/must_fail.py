"""Gives named wrong bodies to the toolkit's own `rt must-fail`: it has to refuse each.

    python3 tools/must_fail.py [--anew] [CRATE | CRATE/EDIT ..]

`tests/edits.py` judges the edits under crates/*/edits by rules of this repository. Here the toolkit judges those that
tests/must-fail.txt names, or only these: any edit of a crate, or a crate's of the list. Their files go into must-fail/ of
their crates, in a copy of the repository, with those that are there. The libraries below are proved first, but for those
that are built here (`make`). --anew goes to `rt must-fail`, which then tries again what it tried before.

It shows what `rt` says of each edit. The last line says how many were refused and how long that took. The status is that of
`rt must-fail`, and 1 where fewer were refused."""

import os
import pathlib
import re
import shutil
import subprocess
import sys
import tempfile
import time

from crates import LIBRARIES, ROOT, RT, below, toolkit
from rattle import folder_of

LIST = ROOT / "tests" / "must-fail.txt"
PARTS = ("src", "specs", "proofs", "must-fail")
JUDGED = re.compile(r"^rt: must-fail (\w+/\S+)\.edit: (refused, as it must be)?(?: \((only))?")
# What the toolkit reads of an edit. Of a line of ours it doesn't read the function that is refused.
READ = ("file: ", "old: ", "new:")
# So many lines are shown where no edit was judged.
LINES = 20


def listed():
    """The edits of the list, each as CRATE/NAME."""
    lines = (line.partition("#")[0].strip() for line in LIST.read_text().splitlines())
    return [line for line in lines if line]


def chosen(words):
    """The edits that these words name, or those of the list."""
    of_crates = [it for it in listed() if it.partition("/")[0] in words]
    return [*of_crates, *(it for it in words if "/" in it)] if words else listed()


def file_of(edit):
    crate, _, name = edit.partition("/")
    return folder_of(crate) / "edits" / f"{name}.edit"


def converted(edit):
    """An edit as the toolkit takes it: without the function that is refused. Nothing if it has a line that is neither."""
    lines = [line for line in file_of(edit).read_text().splitlines() if not line.startswith("refused: ")]
    return "".join(f"{line}\n" for line in lines) if all(line.startswith(READ) for line in lines if line) else ""


def link(file, to):
    """A file of a library, which `rt` takes away before it builds another."""
    try:
        os.link(file, to)
    except OSError:
        # (it is another file system)
        shutil.copy(file, to)


def copy_crates(room, crates):
    """Copies these crates and all below them, with the libraries that are built. `rt` goes by their stamps."""
    names = [it for it in LIBRARIES if any(it == crate or it in below(crate) for crate in crates)]
    (room / "crates.txt").write_text("".join(f"{it}: {' '.join(LIBRARIES[it])}\n" for it in names))
    if (ROOT / "HANDLES").is_file():
        shutil.copy(ROOT / "HANDLES", room)
    for name in names:
        for part in PARTS if name in crates else PARTS[:-1]:
            if (folder_of(name) / part).is_dir():
                shutil.copytree(folder_of(name) / part, room / "crates" / name / part)
        if (folder_of(name) / "out" / "rlib").is_dir():
            shutil.copytree(folder_of(name) / "out" / "rlib", room / "crates" / name / "out" / "rlib", copy_function=link)


def put(room, edits):
    """Puts edits into must-fail/ of their crates. Gives those that can't be converted."""
    texts = {edit: converted(edit) for edit in edits}
    for edit, text in texts.items():
        crate, _, name = edit.partition("/")
        folder = room / "crates" / crate / "must-fail"
        folder.mkdir(exist_ok=True)
        (folder / f"{name}.edit").write_text(text)
    return [edit for edit, text in texts.items() if not text]


def tried(room, words):
    """Runs `rt must-fail`. Gives its status, and whether it refused each edit, and only for a limit or a name. Of proofs
    below it only what goes wrong is shown."""
    judged, behind = {}, []
    with subprocess.Popen([RT, "must-fail", *words], cwd=room, stdout=subprocess.PIPE, text=True, errors="replace") as ran:
        for line in ran.stdout:
            behind = [*behind, line][-LINES:]
            if found := JUDGED.match(line):
                judged[found.group(1)] = (bool(found.group(2)), bool(found.group(3)))
            if line.startswith("rt: ") or "error" in line:
                print(line, end="", flush=True)
    if not judged:
        print("".join(behind), end="")
    return ran.returncode, judged


def main(words):
    options, words = [it for it in words if it == "--anew"], [it for it in words if it != "--anew"]
    edits, begun = chosen(words), time.monotonic()
    lacking = [it for it in edits if not file_of(it).is_file()] + [it for it in words if "/" not in it and it not in LIBRARIES]
    if lacking or not edits:
        print(f"must-fail: there is no {', '.join(lacking) or 'such edit in tests/must-fail.txt'}")
        return 2
    crates = [it for it in LIBRARIES if any(edit.startswith(f"{it}/") for edit in edits)]
    with tempfile.TemporaryDirectory(prefix="osb-broker-must-fail-") as folder:
        room = pathlib.Path(folder)
        copy_crates(room, crates)
        strange = put(room, edits)
        count = len([it for crate in crates for it in (room / "crates" / crate / "must-fail").glob("*.edit")])
        status, judged = tried(room, [*options, *crates])
    for edit in strange:
        print(f"{edit}: the toolkit doesn't read one of its lines")
    refused, weakly = (sum(it) for it in zip(*judged.values(), (0, 0)))
    minutes = (time.monotonic() - begun) / 60
    print(f"must-fail: {refused} of {count} refused by {toolkit()}, {weakly} only for a limit or a name;", end=" ")
    print(f"crates {len(crates)}, minutes {minutes:.0f}")
    return status or (0 if refused == count and not strange else 1)


if __name__ == "__main__":
    try:
        sys.exit(main(sys.argv[1:]))
    except KeyboardInterrupt:
        sys.exit(130)
