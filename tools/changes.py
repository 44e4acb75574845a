"""What was changed since a commit, and which crates, edits and scripts that concerns."""

import pathlib
import re

from crates import LIBRARIES, ROOT, below
from green import git

FUNCTION = re.compile(r"( *)(?:pub(?:\([a-z]+\))? )?(?:const )?fn ")
STATES = re.compile(r"pub |abbrev |data |record ")


def without_comments(file, text):
    """The lines of a file that aren't comments."""
    mark = "//" if file.endswith(".rt") else "--"
    return [it for it in text.splitlines() if it.strip() and not it.lstrip().startswith(mark)]


def without_bodies(lines):
    """The lines of a source that aren't in a function's body, as `rt fmt` lays them out."""
    indent, end, found = None, None, []
    for line in lines:
        if end is not None:
            end = None if line == end else end
            continue
        found.append(line)
        if begins := FUNCTION.match(line):
            indent = begins.group(1)
        if indent is not None and line.endswith("{"):
            indent, end = None, indent + "}"
        elif line.endswith((";", "{}")):
            indent = None
    return found


def without_proofs(lines):
    """The lines of a file of proofs that state something."""
    states, found = False, []
    for line in lines:
        states = bool(STATES.match(line)) if not line.startswith(" ") else states
        found += [line] * states
    return found


def stated(file, text):
    """What a crate above may read of a file."""
    lines = without_comments(file, text)
    if file.endswith(".rt"):
        return without_bodies(lines)
    return without_proofs(lines) if "/proofs/" in file else lines


class Change:
    """What was changed since a commit."""

    def __init__(self, commit):
        files = git("diff", "--name-only", "--no-renames", "-z", commit) + git("ls-files", "-oz", "--exclude-standard")
        self.commit, self.files = commit, sorted({*files.split("\0")} - {""})
        self.crates = self.having(lambda file: True)
        self.meant = self.having(lambda file: self.differs(file, without_comments))
        stating = {*self.having(lambda file: self.differs(file, stated))}
        is_for_all = not {"crates.txt", "HANDLES"}.isdisjoint(self.files)
        self.above = [it for it in LIBRARIES if it not in self.crates and (is_for_all or stating & {*below(it)})]

    def having(self, holds):
        """The crates that have a changed file of which something holds."""
        parts = {it: re.compile(rf"crates/{it}/(src|specs|proofs)/") for it in LIBRARIES}
        return [it for it in LIBRARIES if any(parts[it].match(file) and holds(file) for file in self.files)]

    def differs(self, file, part):
        """Whether a part of a file's text is another than in that commit."""
        now = (ROOT / file).read_text() if (ROOT / file).is_file() else ""
        return part(file, git("show", f"{self.commit}:{file}")) != part(file, now)

    def edits_in(self, crate):
        """The files of a crate's edits."""
        return sorted((ROOT / "crates" / crate / "edits").glob("*.edit"))

    def changed_edits(self, crate):
        """The names of a crate's changed edits."""
        return [it.stem for it in self.edits_in(crate) if str(it.relative_to(ROOT)) in self.files]

    def is_named_in(self, script):
        """Whether a script is changed, or has the name of a changed file that is none of a crate."""
        files = [pathlib.Path(it) for it in self.files if not it.startswith("crates/")]
        words = [rf"\b(from|import) {it.stem}\b" for it in files if it.suffix == ".py"]
        words += [re.escape(it.name if it.suffix else str(it)) for it in files]
        is_one = any(ROOT / it == script or it.parent.name == script.stem for it in files)
        return script.is_file() and (is_one or any(re.search(it, script.read_text()) for it in words))
