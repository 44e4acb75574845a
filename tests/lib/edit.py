"""An edit that must be refused, as its file says it, and the text of a crate with it.

`rt ci` proves every function, so each function that no edit names is taken at its word: its body gives nothing, and its
proof is a hole."""

import pathlib
import re
import shutil

ROOT = pathlib.Path(__file__).resolve().parent.parent.parent

FUNCTION = re.compile(r"^( *)(?:pub(?:\([a-z]+\))? )?(?:const )?fn (\w+)")
METHODS = re.compile(r"^impl(?:<.*?>)? (\w+)(?:<.*>)? \{$")
TYPE = re.compile(r"^(?:pub(?:\([a-z]+\))? )?(?:struct|enum) (\w+)", re.M)


def modules(folder):
    """The modules of a crate's source, each with its text."""
    for file in sorted((folder / "src").rglob("*.rt")):
        module = list(file.relative_to(folder / "src").with_suffix("").parts)
        yield [] if module == ["lib"] else module, file.read_text()


def functions(folder):
    """The functions and methods of a crate's source, without those of traits and those of a cycle of calls,
    which have one proof: each as a check names it, a method by the module that its type stands in, with its
    file and the place of its first line."""
    owners = {name: [*module, name] for module, text in modules(folder) for name in TYPE.findall(text)}
    for module, text in modules(folder):
        owner, of_cycle = module, False
        for place, line in enumerate(text.splitlines()):
            of_cycle = of_cycle or line.strip().startswith("#[cycle(")
            if line.startswith(("impl", "trait", "pub trait", "mod ")):
                methods = METHODS.match(line)
                owner = owners.get(methods.group(1)) if methods else None
            elif line == "}":
                owner = module
            found = FUNCTION.match(line)
            if found and not of_cycle and owner is not None and len(found.group(1)) == (0 if owner is module else 4):
                yield [*owner, found.group(2)], folder.joinpath("src", *(module or ["lib"])).with_suffix(".rt"), place
            of_cycle = of_cycle and not found


def body_of(lines, place):
    """The places of the first and the last line of a function's body, by that of its name."""
    indent = FUNCTION.match(lines[place]).group(1)
    first = next(it for it in range(place, len(lines)) if lines[it] == indent + "{" or lines[it].endswith((" {", "{}")))
    return first, first if lines[first].endswith("{}") else lines.index(indent + "}", first + 1)


def text_of(lines, place):
    """The places of the first and the last line of a function, with its attributes and comments, by that of its name."""
    first = place
    while first and lines[first - 1].strip().startswith(("#[", "///")):
        first -= 1
    return first, body_of(lines, place)[1]


def empty_body(lines, place):
    """Puts a body that gives nothing in the place of a function's, and marks its other lines."""
    first, last = body_of(lines, place)
    if first < last:
        indent = FUNCTION.match(lines[place]).group(1)
        lines[first + 1 : last] = [indent + "    loop {}"] + [None] * (last - first - 2)


def take_at_its_word(folder, crate, function):
    """Puts a hole in the place of a function's proof."""
    proofs = folder.joinpath("proofs", *function)
    proofs.mkdir(parents=True, exist_ok=True)
    for name in ("Answers.antt", "Invariants.antt"):
        (proofs / name).unlink(missing_ok=True)
    path, name = ".".join(function), function[-1]
    (proofs / "Proof.antt").write_text(
        f"use Rattle.{crate}.proofs.{path}.Statement.{{statement}}\n\n"
        f"pub {name}_spec : {{M : Type 1}} → statement M\n{name}_spec = ?\n"
    )


def keep_only(folder, crate, names):
    """Takes each other function of a crate at its word: its body gives nothing, so that nothing is asked of what
    it calls, and its proof is a hole."""
    others = [it for it in functions(folder) if "::".join(it[0]) not in names]
    for file in {it[1] for it in others}:
        lines = file.read_text().splitlines()
        for _, _, place in (it for it in others if it[1] == file):
            empty_body(lines, place)
        file.write_text("\n".join(line for line in lines if line is not None) + "\n")
    for function, _, _ in others:
        take_at_its_word(folder, crate, function)


class Edit:
    """A wrong text, and the function that must be refused with it."""

    def __init__(self, path):
        self.crate, self.folder, self.name = path.parent.parent.name, path.parent.name, path.stem
        self.refused, self.pairs, self.strange = "", [], []
        for line in path.read_text().splitlines():
            key, _, said = line.partition(":")
            said = said.removeprefix(" ")
            if key == "refused":
                self.refused = said
            elif key == "file":
                file = said
            elif key == "old":
                old = said
            elif key == "new":
                self.pairs.append((file, old, said))
            elif line:
                self.strange.append(line)

    @property
    def original(self):
        """The edit as its file says it."""
        return self

    def __str__(self):
        return f"{self.crate}/{self.folder}/{self.name}"

    def texts(self, folder):
        """The files with the new texts in the place of the old ones, and what keeps them from being put there."""
        found, wrong = {}, []
        for name, old, new in self.pairs:
            text = found.get(name) or (folder / name).read_text()
            if text.count(old) != 1:
                wrong.append(f"{self}: {name} has the old text {text.count(old)} times: {old}")
            found[name] = text.replace(old, new)
        return found, wrong

    def faults(self):
        """What is wrong with its own text."""
        texts, wrong = self.texts(ROOT / "crates" / self.crate)
        wrong += [f"{self}: a line that is none of an edit: {line}" for line in self.strange]
        if all((ROOT / "crates" / self.crate / name).read_text() == text for name, text in texts.items()):
            wrong.append(f"{self}: it changes nothing")
        if bool(self.refused) != (self.folder == "edits"):
            wrong.append(f"{self}: an edit under edits/ names the function that is refused, one under must-fail/ none")
        if self.refused and not self.is_there():
            wrong.append(f"{self}: there is no function {self.refused}")
        return wrong

    def is_there(self):
        """Whether the crate has a function of the name that is refused, and its module."""
        *owner, name = self.refused.split("::")
        folder = ROOT / "crates" / self.crate
        is_named = any(re.search(rf"\bfn {name}\b", text) for _, text in modules(folder))
        return is_named and (not owner or folder.joinpath("src", owner[0]).with_suffix(".rt").is_file())

    def apply(self, folder):
        for name, text in self.texts(folder)[0].items():
            (folder / name).write_text(text)

    def changed_function(self):
        """The text of its function with the edit; nothing where the edit changes anything else."""
        folder = ROOT / "crates" / self.crate
        place = next(((file, at) for path, file, at in functions(folder) if "::".join(path) == self.refused), None)
        if place is None or any(folder / name != place[0] for name, _, _ in self.pairs):
            return ""
        lines = place[0].read_text().splitlines()
        first, last = text_of(lines, place[1])
        text = "\n".join(lines[first : last + 1])
        for _, old, new in self.pairs:
            if text.count(old) != 1:
                return ""
            text = text.replace(old, new)
        return text


class Copy:
    """An edit that is made in a copy of its function, with another name and a copy of its proof: so it can be in one text
    with other edits of that function."""

    def __init__(self, edit, number):
        *self.owner, self.function = edit.refused.split("::")
        self.original, self.crate, self.pairs = edit, edit.crate, []
        self.name = f"{self.function}_edit_{number}"
        self.refused = "::".join([*self.owner, self.name])

    def __str__(self):
        return str(self.original)

    def apply(self, folder):
        """Puts the copy behind its function, which other edits may have changed before."""
        path = [*self.owner, self.function]
        file, place = next((file, place) for other, file, place in functions(folder) if other == path)
        lines = file.read_text().splitlines()
        text = re.sub(rf"\bfn {self.function}\b", f"fn {self.name}", self.original.changed_function(), count=1)
        end = text_of(lines, place)[1] + 1
        file.write_text("\n".join([*lines[:end], "", text, *lines[end:]]) + "\n")
        self.copy_proof(folder / "proofs")

    def copy_proof(self, proofs):
        given, made = proofs.joinpath(*self.owner, self.function), proofs.joinpath(*self.owner, self.name)
        if given.is_dir():
            shutil.copytree(given, made)
        path = "".join(f"{it}." for it in self.owner)
        for file in made.rglob("*.antt"):
            text = file.read_text().replace(f"proofs.{path}{self.function}.", f"proofs.{path}{self.name}.")
            file.write_text(re.sub(rf"\b{self.function}_spec\b", f"{self.name}_spec", text))


def is_of_definition(edit):
    return any(name.startswith("specs/") for name, _, _ in edit.pairs)


def clash(edit, other):
    """Whether two edits can't be in one text: they are of one function, or only one is of a definition, which the other's
    function may rest on, or what one looks for is put in by the other."""
    pairs = [(one, another) for one in edit.pairs for another in other.pairs if one[0] == another[0]]
    mixed = any(old in put or looked in new for (_, old, new), (_, looked, put) in pairs)
    return edit.refused == other.refused or is_of_definition(edit) != is_of_definition(other) or mixed


def place_in(batch, edit, number):
    """The edit as it can be in one text with these, or nothing: one of a function that they change, and of nothing else,
    in a copy of that function."""
    clashing = [it for it in batch if clash(edit, it)]
    if not clashing:
        return edit
    in_copy = all(edit.refused == it.refused for it in clashing) and edit.changed_function()
    return Copy(edit, number) if in_copy else None


def batches(edits):
    """The edits, in few lists of which no two clash. Those in copies of functions come behind the others."""
    made = []
    for number, edit in enumerate(edits, 1):
        for batch in made:
            if placed := place_in(batch, edit, number):
                batch.append(placed)
                break
        else:
            made.append([edit])
    return [sorted(batch, key=lambda it: isinstance(it, Copy)) for batch in made]
