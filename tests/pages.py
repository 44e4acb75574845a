#!/usr/bin/env python3
"""Reads README.md, the pages of docs/, CHANGELOG.md and SECURITY.md, and fails where one breaks the rule that begins
docs/GLOSSARY.md, or names what isn't there.

    python3 tests/pages.py
    python3 tests/pages.py --words      how many words each page has

A sentence has 30 words at most, with one 'where' at most, and a row of a table 60. What stands in backquotes is one
word, and code isn't counted. No page has a word of WORDS outside of code. README has 900 words at most, with its code.
A path of this repository is there, and a link leads to a page and to a heading of it. So does a heading or the
beginning of an item that a page names in quotes behind a link, or before 'above' or 'below'. docs/GATE.md has the table
that tools/minutes.py prints."""

import fnmatch
import os
import pathlib
import re
import sys

ROOT = pathlib.Path(__file__).resolve().parent.parent
sys.path.append(str(ROOT / "tools"))

from minutes import table

PAGES = [ROOT / "README.md", *sorted((ROOT / "docs").glob("*.md")), ROOT / "CHANGELOG.md", ROOT / "SECURITY.md"]
# Pages that weren't gone through by the rule yet. What they name is looked for all the same. This list only shrinks.
LATER = set()
LONGEST_SENTENCE, LONGEST_ROW, LONGEST_README = 30, 60, 900
WORDS = ["alone", "stands?", "stood", "tells?", "told", "want of memory", "(?:is|are) none", "such as", "whoever"]
# The lines of the rule that name these words, in the quotes of a listing.
EXCEPT = {"GLOSSARY.md": re.compile(r"^- (?:'only' and not|Nor )")}
# Paths that pages name as examples of what somebody makes, or that a build makes.
MADE = re.compile(r"PATH|CRATE|NAME|/out|^out/")

LISTED = re.compile("|".join(rf"\b{word}\b" for word in WORDS), re.IGNORECASE)
CODE = re.compile(r"(`+)(.+?)\1")
LINK = re.compile(r"\[([^\]]*)\]\(([^)\s]+)\)")
END = re.compile(r"[.?!][)'\"*]*(?=\s|$)")
FILE = re.compile(r"[\w@*.-]+(?:/[\w@*.-]+)*\.(?:md|py|sh|rt|antt|txt|c|sql)|(?:crates|docs|examples|measure|packaging|tests|tools)/[\w@*./-]*")
PLAIN = re.compile(r"(?<![\w/`.(@])(?:crates|docs|examples|measure|packaging|tests|tools)/[\w*/.-]*\w")
QUOTED = r"'([A-Z][^'\n]*)'"
OTHERS = re.compile(r"(?:\[[^\]]*\]\((?:docs/)?([A-Z]+\.md)[^)]*\)|`docs/([A-Z]+\.md)`), " + QUOTED)
OWN = re.compile(QUOTED + r" (?:above|below)")


class Page:
    """The text of a page without its code blocks, as numbered lines, and what it has to be led to."""

    def __init__(self, path):
        self.path, self.text = path, path.read_text()
        self.lines, fenced, before = [], False, ""
        for number, line in enumerate(self.text.splitlines(), 1):
            if line.startswith("```"):
                fenced = not fenced
            elif not fenced and not line.startswith("    "):
                self.lines.append((number, line))
        self.headings = [line.lstrip("# ") for _, line in self.lines if line.startswith("#")]
        self.items = [item.rstrip(".:") for item in re.findall(r"^(?:- |\d+\. |\| )?\*\*(.+?)\*\*", self.text, re.MULTILINE)]

    def anchors(self):
        """The anchor of each heading."""
        return {re.sub(r"[^\w\- ]", "", heading.lower()).replace(" ", "-") for heading in self.headings}

    def has(self, name):
        """Whether a heading or an item begins so."""
        return any(it.startswith(name) for it in self.headings + self.items)

    def parts(self):
        """Paragraphs, items and cells, each with its first line; and rows, with theirs."""
        texts, rows, open_text = [], [], None
        for number, line in self.lines:
            if line.startswith("|"):
                open_text = None
                if not re.fullmatch(r"[|\s:-]+", line):
                    cells = re.split(r"(?<!\\)\|", line.strip().strip("|"))
                    rows.append((number, " ".join(cells)))
                    texts += [(number, cell) for cell in cells]
            elif not line.strip() or line.startswith("#"):
                open_text = None
            elif open_text is None or re.match(r"\s*(?:- |\d+\. )", line):
                texts.append((number, line))
                open_text = len(texts) - 1
            else:
                texts[open_text] = (texts[open_text][0], texts[open_text][1] + " " + line)
        return texts, rows


def plain(text):
    """A text with each piece of code and each link as one word or as its words."""
    text = LINK.sub(lambda it: it.group(1), CODE.sub("`code`", text))
    return re.sub(r"^\s*(?:- |\d+\. )", "", text).replace("**", "")


def words_of(text):
    return [word for word in text.split() if re.search(r"[\w`]", word)]


def sentences(text):
    """The sentences of a text, of which '..' and the point of a number end none."""
    text, begun = plain(text).replace("..", "__"), 0
    for end in END.finditer(text):
        yield text[begun:end.end()].strip()
        begun = end.end()
    if text[begun:].strip():
        yield text[begun:].strip()


def by_the_rule(page):
    """What is too long, and which words are listed."""
    texts, rows = page.parts()
    for number, text in texts:
        for sentence in sentences(text):
            count = len(words_of(sentence))
            if count > LONGEST_SENTENCE:
                yield number, f"a sentence of {count} words: {sentence[:60]}"
            if len(re.findall(r"\bwhere\b", sentence, re.IGNORECASE)) > 1:
                yield number, f"more than one 'where': {sentence[:60]}"
    for number, row in rows:
        count = len(words_of(plain(row)))
        if count > LONGEST_ROW:
            yield number, f"a row of {count} words: {row.strip()[:60]}"
    excepted = EXCEPT.get(page.path.name)
    for number, line in page.lines:
        if not (excepted and excepted.match(line)):
            for found in LISTED.findall(CODE.sub("`code`", line)):
                yield number, f"the word '{found}'"


def names_there():
    """Each file of this repository and each folder of one, by its path from the root; nothing that a build makes."""
    for folder, folders, files in os.walk(ROOT):
        folders[:] = [name for name in folders if name not in ("out", ".git", "__pycache__")]
        for name in [*folders, *files]:
            yield pathlib.Path(folder, name).relative_to(ROOT).as_posix()


def is_there(path, names):
    """Whether a path is one of this repository: from its root, from crates/ or from a crate. A bare name is that of
    any file."""
    if "/" not in path:
        return any(name.rpartition("/")[2] == path for name in names)
    return any(fnmatch.filter(names, base + path) for base in ("", "crates/", "crates/*/"))


def leads(page, pages, names):
    """Which paths, links and headings a page names that aren't there."""
    for number, line in page.lines:
        named = [code for _, code in CODE.findall(line) if FILE.fullmatch(code)] + PLAIN.findall(CODE.sub("`code`", line))
        for path in named:
            if not MADE.search(path) and not is_there(path.rstrip("/"), names):
                yield number, f"no file {path}"
        for _, target in LINK.findall(CODE.sub("`code`", line)):
            name, _, anchor = target.partition("#")
            if "://" in target or target.startswith("mailto:"):
                continue
            path = (page.path.parent / name).resolve() if name else page.path
            if not path.exists():
                yield number, f"no page {target}"
            elif anchor and (path not in pages or anchor not in pages[path].anchors()):
                yield number, f"no heading {target}"
        for linked, named, heading in OTHERS.findall(line):
            other = pages.get(ROOT / "docs" / (linked or named))
            if other is None or not other.has(heading):
                yield number, f"no heading '{heading}' in {linked or named}"
        for heading in OWN.findall(line):
            if not page.has(heading):
                yield number, f"no heading '{heading}' here"


def main(words):
    pages = {path: Page(path) for path in PAGES}
    if words == ["--words"]:
        for path, page in pages.items():
            print(f"{len(page.text.split()):6} {path.relative_to(ROOT)}")
        return 0
    if words:
        sys.exit(__doc__)
    failed, there = 0, set(names_there())
    for path, page in pages.items():
        name = str(path.relative_to(ROOT))
        found = list(leads(page, pages, there)) + ([] if name in LATER else list(by_the_rule(page)))
        if name == "README.md" and len(page.text.split()) > LONGEST_README:
            found.append((1, f"{len(page.text.split())} words"))
        if name == "docs/GATE.md" and "\n".join(table()) not in page.text:
            found.append((1, "its table isn't that of python3 tools/minutes.py"))
        for number, fault in sorted(found):
            print(f"{name}:{number}: {fault}")
        failed += bool(found)
    print(f"pages: {len(pages) - failed} passed, {failed} failed")
    return 1 if failed else 0


if __name__ == "__main__":
    sys.exit(main(sys.argv[1:]))
