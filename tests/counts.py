#!/usr/bin/env python3
"""Counts what a reader of the contracts meets, by text alone, and fails where a number is greater than
the one that is kept in tests/counts.txt.

    python3 tests/counts.py
    python3 tests/counts.py --keep                                 keeps the numbers of today
    python3 tests/counts.py --behind CRATE::[TYPE::]FUNCTION [CLAUSE]  the definitions behind a contract
    python3 tests/counts.py --copies CRATE                         the clauses that a crate has more than once

A clause is a `requires` or an `ensures` of crates/*/src, a copy is one whose text stands in the crate
before, and it is wide where a line of it has more than 100 columns. A definition is one of crates/*/specs.
It is reached from a source that names it, or from a definition that is reached, through the imports of
their files. Its lines are those of its text and of the comment above it. It is of the store if its crate is
under that heading of crates.txt. What README.md and docs/ name as `function`: `clause` has to be in the
sources. `--behind` ends with the sum, and with that of the toolkit's definitions that these rest on."""

import collections
import os
import pathlib
import re
import subprocess
import sys

ROOT = pathlib.Path(__file__).resolve().parent.parent
WIDTH = 100
KEPT = ROOT / "tests" / "counts.txt"
# What these documents name goes over the wire or stands in the settings.
WIRE = {ROOT / "docs" / name for name in ("HTTP.md", "SETTINGS.md")}
THEOREM = "osb_broker::Broker::serve"
# What a connection is sent where all goes well; the other clauses say what else may happen.
WELL = "ok"
CLAUSE = re.compile(r"\s*(requires|ensures)\b *(\w*)")
TEXT = re.compile(r'"(?:\\.|[^"\\])*"')
FUNCTION = re.compile(r"\s*(?:pub(?:\(\w+\))? )?(?:const )?fn (\w+)")
OWNER = re.compile(r"(?:impl\b|(?:pub )?trait )")
IMPORT = re.compile(r"use Rattle\.([\w.]+?)(?:\.\{([^}]*)\}| as (\w+))")
HEADER = re.compile(r"( {2})?(?:abbrev |unfoldable )?(?:pub )?(?:(?:record|data) ([A-Za-z_][\w'-]*)|([A-Za-z_][\w'-]*) :)")
PUBLIC = re.compile(r"\s*pub (?:const |unsafe )*(?:fn|struct|enum|trait|type|const|static) ?(\w+)")
INDENTED = re.compile(r" {2}(?:abbrev|unfoldable|(?:pub )?record|(?:pub )?data)\b")
WORD = re.compile(r"[A-Za-z_][\w'-]*(?:\.[A-Za-z_][\w'-]*)*")
NAMES = r"`[\w:]+`(?:, `[\w:]+`)*"
NAMED = re.compile(rf"{NAMES}(?:: {NAMES})+")


def imports_of(text):
    """What a file imports: a name, or a module under another name, with the module that it is of."""
    found = {}
    for path, listed, alias in IMPORT.findall(text):
        if alias:
            found[alias] = (path, None)
        for name in listed.split(","):
            name, _, other = name.strip().partition(" as ")
            if name:
                found[other.strip() or name] = (path, name)
    return found


def type_of(line):
    """The type that an `impl` is of, or the name of a trait."""
    line = re.sub(r"<[^<>]*>", "", re.sub(r"<[^<>]*>", "", line)).partition("{")[0]
    return re.split(r"[ :]", line.rpartition(" for ")[2].replace("impl", "").replace("pub trait", "").replace("trait", "").strip())[0]


Clause = collections.namedtuple("Clause", "owner function name text file")


def clauses_in(file):
    """The clauses of a source, each up to its closing brace."""
    owner, function, open_clause, depth = "", "", None, 0
    for line in file.read_text().splitlines():
        if open_clause is None:
            if OWNER.match(line):
                owner = type_of(line)
            elif line.startswith("}"):
                owner = ""
            elif it := FUNCTION.match(line):
                function = it.group(1)
            elif it := CLAUSE.match(line):
                open_clause = Clause(owner, function, it.group(2), [], file)
        if open_clause is not None:
            open_clause.text.append(line)
            line = TEXT.sub("", line)
            depth += line.count("{") - line.count("}")
            if depth == 0:
                yield open_clause
                open_clause = None


class Module:
    """A file of definitions: the text of each, and how many lines a reader has of it."""

    def __init__(self, text):
        self.imports, self.text, self.lines = imports_of(text), {}, {}
        name, comment, mutual = None, 0, False
        for line in text.splitlines():
            it = HEADER.match(line)
            if re.match(r"\S", line) and not line.startswith("--"):
                mutual = line.endswith("mutual")
            if it and (not it.group(1) or mutual or INDENTED.match(line)):
                name = it.group(2) or it.group(3)
                self.text[name], self.lines[name] = [line], 1 + comment
                comment = 0
            elif line.startswith("-- ----") or not line.strip() or line.startswith(("use ", "pub use ")):
                comment = 0
            elif line.startswith("--"):
                comment += 1
            elif name is not None:
                self.text[name].append(line)
                self.lines[name] += 1


class Definitions:
    """All files of definitions of these crates, each of which has a folder here."""

    def __init__(self, crates, folder=ROOT / "crates"):
        self.modules = {}
        for crate in crates:
            base = folder / crate / "specs"
            for file in base.rglob("*.antt"):
                parts = file.relative_to(base).with_suffix("").parts
                self.modules[".".join([crate, "specs", *parts])] = Module(file.read_text())

    def find(self, path, name):
        """The place of a definition, which may be one that a module imports and hands on."""
        while path in self.modules and name not in self.modules[path].text:
            path, name = self.modules[path].imports.get(name, (None, None))
        return (path, name) if path in self.modules else None

    def named(self, text, imports, own=None):
        """The definitions that a text names."""
        for word in WORD.findall(text):
            first, _, later = word.partition(".")
            if own in self.modules and first in self.modules[own].text:
                yield own, first
            elif first in imports:
                path, name = imports[first]
                found = self.find(path, name or later.partition(".")[0])
                if found:
                    yield found

    def reached(self, names):
        """These definitions and all that they rest on."""
        found, waiting = {}, list(names)
        while waiting:
            place = waiting.pop()
            if place not in found:
                path, name = place
                module = self.modules[path]
                found[place] = module.lines[name]
                waiting += self.named("\n".join(module.text[name]), module.imports, path)
        return found


def behind(definitions, clauses, function, clause=None):
    """The definitions behind the contract of one function, by its crate, its type if it has one, and its name; or
    behind one clause of it."""
    crate, *owner, name = function.split("::")
    own = [it for it in clauses[crate] if it.function == name and (not owner or it.owner == owner[0])]
    own = [it for it in own if clause in (None, it.name)]
    if not own:
        sys.exit(f"counts: no contract of {function}" + (f" has {clause}" if clause else ""))
    return definitions.reached(place for it in own for place in definitions.named("\n".join(it.text), imports_of(it.file.read_text())))


def crates_under(heading):
    """The crates under a heading of crates.txt."""
    found, under = [], ""
    for line in (ROOT / "crates.txt").read_text().splitlines():
        if line.startswith("#"):
            under = line.strip("# ").partition(":")[0]
        elif line.strip() and under == heading:
            found.append(line.partition(":")[0])
    return found


def of_store(read):
    """Those of these definitions that are of the store."""
    store = crates_under("Store")
    return {place: lines for place, lines in read.items() if place[0].partition(".")[0] in store}


def of_toolkit(definitions, read):
    """The toolkit's definitions that these name, and all that they rest on."""
    said = subprocess.run([os.environ.get("RT", "rt"), "doc"], capture_output=True, text=True, check=True).stdout.strip()
    folder = pathlib.Path(said).parent / "rattle"
    both = Definitions([it.name for it in folder.iterdir() if (it / "specs").is_dir()], folder)
    both.modules |= definitions.modules
    return {place: lines for place, lines in both.reached(read).items() if place not in read}


def uncommented(crate):
    """The public things of a crate without a comment."""
    for file in sorted((ROOT / "crates" / crate / "src").rglob("*.rt")):
        commented = False
        for line in file.read_text().splitlines():
            if (it := PUBLIC.match(line)) and not commented:
                yield f"{file.relative_to(ROOT)}: {it.group(1)}"
            commented = line.strip().startswith("///") or commented and line.strip().startswith("#[")


def unreached(definitions, crates):
    """The definitions that no source names and that nothing rests on that one names."""
    texts = [file.read_text() for crate in crates for file in (ROOT / "crates" / crate / "src").rglob("*.rt")]
    found = definitions.reached(place for text in texts for place in definitions.named(text, imports_of(text)))
    return sorted((path, name) for path, module in definitions.modules.items() for name in module.text if (path, name) not in found)


def missing(clauses):
    """What documents name as a clause of a function, and the sources don't have."""
    have = collections.defaultdict(set)
    for it in (it for of_crate in clauses.values() for it in of_crate):
        have[it.function].add(it.name)
    for file in [ROOT / "README.md", *sorted(set((ROOT / "docs").glob("*.md")) - WIRE)]:
        for text in NAMED.findall(file.read_text()):
            *_, functions, named = [[it.strip("`").rpartition("::")[2] for it in part.split(", ")] for part in text.split(": ")]
            known = [have[it] for it in functions if it in have]
            if known:
                yield from (f"{file.name}: {text}: {it}" for it in named if not any(it in names for names in known))


def numbers(clauses, definitions, crates):
    """What is kept, by name."""
    found = {}
    for crate in crates:
        texts = [" ".join(line.strip() for line in it.text) for it in clauses[crate]]
        found[f"{crate} clauses"] = len(texts)
        found[f"{crate} copies"] = len(texts) - len(set(texts))
        found[f"{crate} wide"] = sum(any(len(line) > WIDTH for line in it.text) for it in clauses[crate])
    read, well = behind(definitions, clauses, THEOREM), behind(definitions, clauses, THEOREM, WELL)
    found[f"{THEOREM} definitions"], found[f"{THEOREM} lines"] = len(read), sum(read.values())
    found[f"{THEOREM}: {WELL} lines, without the store's"] = sum(well.values()) - sum(of_store(well).values())
    found[f"{THEOREM}: {WELL} lines of the store"] = sum(of_store(well).values())
    texts = (text for module in definitions.modules.values() for text in module.text.values())
    found["lines of definitions over 100 columns"] = sum(len(line) > WIDTH for text in texts for line in text)
    found["public things without a comment"] = sum(len(list(uncommented(crate))) for crate in crates)
    found["definitions that nothing reaches"] = len(unreached(definitions, crates))
    found["clauses that documents name and no contract has"] = len(list(missing(clauses)))
    return found


def compare(found, clauses, definitions, crates):
    """Prints each number, and says which are greater than those that are kept."""
    kept = dict(line.rsplit(" ", 1) for line in KEPT.read_text().splitlines())
    worse = [name for name, number in found.items() if number > int(kept.get(name, 0))]
    for name, number in found.items():
        print(f"{name} {number}" + (f", and {kept.get(name, 0)} are kept" if name in worse else ""))
    if worse:
        print("\n".join(f"no comment over {it}" for crate in crates for it in uncommented(crate)))
        print("\n".join(f"nothing reaches {path}.{name}" for path, name in unreached(definitions, crates)))
        print("\n".join(f"no contract has {text}" for text in missing(clauses)))
    print(f"counts: {len(found) - len(worse)} passed, {len(worse)} failed" + (f": {', '.join(worse)}" if worse else ""))
    return 1 if worse else 0


def is_of_tests(crate):
    return crate.startswith("tests_") or crate == "osb_conformance"


def main(words):
    crates = sorted(it for it in (file.parent.name for file in ROOT.glob("crates/*/src")) if not is_of_tests(it))
    clauses = {crate: [it for file in sorted((ROOT / "crates" / crate / "src").rglob("*.rt")) for it in clauses_in(file)] for crate in crates}
    definitions = Definitions(crates)
    if words[:1] == ["--behind"] and len(words) in (2, 3):
        read = behind(definitions, clauses, *words[1:])
        for (path, name), lines in sorted(read.items()):
            print(f"{lines:4} {path}.{name}")
        for whose, of in (("all", read), ("the store", of_store(read)), ("the toolkit beside", of_toolkit(definitions, read))):
            print(f"{sum(of.values())} lines in {len(of)} definitions: {whose}")
    elif words[:1] == ["--copies"] and len(words) == 2:
        texts = collections.Counter(" ".join(line.strip() for line in it.text) for it in clauses[words[1]])
        print("\n".join(f"{number:4} {text}" for text, number in texts.most_common() if number > 1))
    elif words == ["--keep"]:
        # (how many edits only a written answer refuses is what tests/edits.py counts)
        lines = [f"{name} {number}" for name, number in numbers(clauses, definitions, crates).items()]
        lines += [line for line in KEPT.read_text().splitlines() if " edits that " in line]
        KEPT.write_text("".join(f"{line}\n" for line in lines))
    elif not words:
        return compare(numbers(clauses, definitions, crates), clauses, definitions, crates)
    else:
        sys.exit(__doc__)
    return 0


if __name__ == "__main__":
    sys.exit(main(sys.argv[1:]))
