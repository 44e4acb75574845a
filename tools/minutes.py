"""The minutes of processor time that the gate takes, as tools/minutes.txt has them.

    python3 tools/minutes.py                 prints the table of docs/GATE.md
    python3 tools/minutes.py --watch PID     measures the checks that a process makes until it ends, and writes what they took

Only checks that were made whole while it watched belong into the file: what the gate kept takes nothing."""

import collections
import pathlib
import sys
import time
from dataclasses import dataclass

from crates import LIBRARIES, ROOT

FILE = ROOT / "tools" / "minutes.txt"
PROC = pathlib.Path("/proc")
# Ticks of processor time in a minute, and seconds between two looks.
TICKS, PAUSE = 6_000, 1


def read_minutes():
    """The minutes of each kind of work: by its kind and whose it is."""
    found = collections.defaultdict(dict)
    for line in FILE.read_text(encoding="utf-8").splitlines():
        if line and not line.startswith("#"):
            kind, name, *minutes = line.split()
            found[kind][name] = tuple(map(float, minutes))
    return found


def minutes_of(kind):
    """The minutes of all work of a kind."""
    return {name: sum(minutes) for name, minutes in read_minutes()[kind].items()}


def table():
    """The lines of the table of docs/GATE.md. The last one has the sums."""
    yield from ("| crate | check | tests | edits |", "|---|---|---|---|")
    checks, tests, edits = (minutes_of(kind) for kind in ("check", "tests", "edits"))
    for crate in LIBRARIES:
        cells = [f"{each[crate]:.1f}" if crate in each else "" for each in (checks, tests, edits)]
        if any(cells):
            yield f"| `{crate}` | {' | '.join(cells)} |"
    yield f"| all | {' | '.join(f'{sum(each.values()):.0f}' for each in (checks, tests, edits))} |"


@dataclass(frozen=True)
class Process:
    """A process, with the ticks that it took and those of its children that have ended."""

    number: int
    parent: int
    words: tuple
    own: int
    children: int


def processes():
    """The processes that run now."""
    for folder in PROC.glob("[0-9]*"):
        try:
            words = (folder / "cmdline").read_bytes().decode(errors="replace").split("\0")
            # (a name may have spaces and brackets)
            _, parent, *rest = (folder / "stat").read_text().rpartition(")")[2].split()
        except (OSError, ValueError):
            continue
        own, children = (sum(map(int, rest[at : at + 2])) for at in (9, 11))
        yield Process(int(folder.name), int(parent), tuple(words), own, children)


def kind_of(words):
    """What a check of the toolkit is made for, and of which crate, or nothing."""
    if len(words) < 2 or not words[0].endswith("/rattle") or "--crate-name" not in words[:-1]:
        return None
    crate = words[words.index("--crate-name") + 1]
    if crate not in LIBRARIES:
        return None
    if "--allow-holes" in words:
        return "edits", crate
    return "tests" if "--test" in words else "check", crate


def belongs(process, parents, to):
    """Whether a process is one of those that another one started."""
    number = process.number
    while number in parents and number != to:
        number = parents[number]
    return number == to


class Watch:
    """Adds up what the checks took that a process made."""

    def __init__(self, watched):
        self.watched, self.ticks = watched, {}

    def look(self):
        """Looks once. Whether the process still runs."""
        running = list(processes())
        parents = {it.number: it.parent for it in running}
        of_checks = {it.number: kind_of(it.words) for it in running}
        for it in running:
            # (a job of a check has the words of the check)
            is_job = of_checks[it.number] and of_checks.get(it.parent) == of_checks[it.number]
            if of_checks[it.number] and not is_job and belongs(it, parents, self.watched):
                self.ticks[it.number, of_checks[it.number]] = it.own, it.children
        return self.watched in parents

    def minutes(self):
        """The minutes of each kind of check, of one process and of its jobs."""
        found = collections.defaultdict(lambda: (0, 0))
        for (_, kind), (own, children) in self.ticks.items():
            found[kind] = found[kind][0] + own / TICKS, found[kind][1] + children / TICKS
        return found


def write(found):
    """Writes these minutes in the place of those that the file has."""
    kept = read_minutes()
    for (kind, crate), (own, shared) in found.items():
        kept[kind][crate] = (own, shared) if kind == "check" else (own + shared,)
    head = [line for line in FILE.read_text(encoding="utf-8").splitlines() if line.startswith("#")]
    lines = [f"{kind} {name} {' '.join(f'{it:.1f}' for it in minutes)}" for kind, of_kind in kept.items() for name, minutes in of_kind.items()]
    FILE.write_text("\n".join([*head, *lines]) + "\n", encoding="utf-8")


def main(words):
    if words[:1] == ["--watch"] and len(words) == 2:
        watch = Watch(int(words[1]))
        while watch.look():
            time.sleep(PAUSE)
        write(watch.minutes())
    elif words:
        print(__doc__)
        return 2
    print("\n".join(table()))
    return 0


if __name__ == "__main__":
    sys.exit(main(sys.argv[1:]))
