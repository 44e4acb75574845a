"""What a check of edits printed, and what it shows of each function."""

import enum
import re
from dataclasses import dataclass

NOTE = re.compile(r"note: src/\S+: (.*) \(`([^`]+)`\)(.*)")
ERROR = re.compile(r"\./proofs/(\S+)/(?:Answers|Proof|Invariants)\.antt:\d+:\d+: error: (?:`([^`]+)`: )?(.*)")
LEMMA = re.compile(r"\./proofs/(\w+)\.antt:\d+:\d+: error: `([^`]+)`: (.*)")
# What a note says of a goal that shows a wrong result, and how the names of such goals begin where it says nothing.
SHOWS = re.compile(r"what the function ensures|invariant|requires|`search` found no proof")
NAMED = ("returns", "loop", "invariant_of")
WRITTEN = "a written answer: "
GAVE_UP = "`search` gave up at one of its limits"
# What is said of an answer that names what is gone, or that wasn't decided.
GONE = re.compile(r"nearest:|has no field|is not in scope|has no `|was not admitted|ran out of|is no name")


class Kind(enum.Enum):
    """What refuses a function, the surest first."""

    MEANING = "refused"
    WRITTEN = "refused by a written answer only"
    LIMIT = "met only the limits of the search"
    NAME = "refused for a name only"
    NOTHING = "not refused"


@dataclass
class Verdict:
    kind: Kind
    said: str


@dataclass
class Goal:
    """A goal that is open, what is said of its kind, and what more."""

    name: str
    kind: str
    more: str

    def __str__(self):
        return f"{self.name}: {self.kind or 'no proof'}{self.more}"

    def shows(self):
        """What it shows: of a goal of safety, as an index or a sum, nothing."""
        is_named = not self.kind and (self.name or "").startswith(NAMED)
        if not (is_named or self.kind == WRITTEN or SHOWS.search(self.kind)):
            return Kind.NOTHING
        if GONE.search(self.more):
            return Kind.NAME
        if GAVE_UP in self.more:
            return Kind.LIMIT
        return Kind.WRITTEN if self.kind == WRITTEN else Kind.MEANING


class Judgement:
    """What a check printed, function by function."""

    def __init__(self, crate, text):
        self.crate, self.text = crate, text
        self.said, self.goals, self.answers, self.lemmas, goals = {}, {}, {}, {}, {}
        for line in text.splitlines():
            if found := NOTE.match(line):
                goals[found.group(2)] = (found.group(1), found.group(3))
            elif found := ERROR.match(line):
                self.answers.setdefault(found.group(1).replace("/", "::"), []).append((found.group(2), found.group(3)))
            elif found := LEMMA.match(line):
                self.lemmas[f"{found.group(1)}.{found.group(2)}"] = found.group(3)
            elif found := re.match(rf"fn {crate}::(\S+): (.*)", line):
                self.said[found.group(1)], self.goals[found.group(1)], goals = found.group(2), goals, {}

    def said_of(self, function):
        return self.said.get(function) or f"nothing is said of it: {self.first_error()}"

    def first_error(self):
        """The first error that the check printed, or else its last line."""
        lines = self.text.splitlines() or ["the check printed nothing"]
        return next((it for it in lines if "error" in it), lines[-1])

    def passes(self, function):
        """Whether a function meets its contract, as far as its own text goes."""
        return self.said_of(function).startswith(("no holes", "depends on a hole"))

    def open_goals(self, function):
        """Each goal of the function itself that is open: one that search didn't prove, or an answer of its own, or a
        lemma of that, that is refused. What it calls plays no part in any."""
        said = self.said_of(function)
        if said.startswith("no proof"):
            proved = re.search(r"`search` did not prove (`[^;]*)", said)
            for goal in re.findall(r"`([^`]+)`", proved.group(1)) if proved else []:
                yield Goal(goal, *self.goals[function].get(goal, ("", "")))
        if not said.startswith("not proved; it stands on"):
            return
        of_crate = f"Rattle.{self.crate}.proofs."
        if f"{of_crate}{function.replace('::', '.')}." in said:
            for goal, error in self.answers.get(function, []):
                yield Goal(goal, WRITTEN, error)
        for name, error in self.lemmas.items():
            if f"`{of_crate}{name}`" in said:
                yield Goal(name, WRITTEN, error)

    def verdict(self, function):
        """What refuses the function most surely, or else what is said of it and of its open goals."""
        goals = list(self.open_goals(function))
        for kind in list(Kind)[:-1]:
            if found := sorted(str(it) for it in goals if it.shows() is kind):
                return Verdict(kind, found[0][:160])
        lines = [f"{function}: {self.said_of(function)[:300]}", *(f"    {it}"[:200] for it in goals)]
        return Verdict(Kind.NOTHING, "\n".join(lines))
