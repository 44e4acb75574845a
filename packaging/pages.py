#!/usr/bin/env python3
"""Copies the pages of this repository into the folder of a package. There a link to what the package doesn't have is only
its words.

usage: packaging/pages.py FOLDER

The folder has the examples already.
"""

import pathlib
import re
import sys

ROOT = pathlib.Path(__file__).resolve().parent.parent
PAGES = [ROOT / name for name in ("README.md", "CHANGELOG.md", "SECURITY.md")] + sorted((ROOT / "docs").glob("*.md"))
LINK = re.compile(r"\[([^\]]*)\]\(([^)\s]+)\)")


def with_links(text, folder):
    """A page that lies in a folder, with the links that lead somewhere from there."""

    def words_or_link(link):
        words, target = link.groups()
        path = target.partition("#")[0]
        return link.group() if "://" in target or (folder / path).exists() else words

    return LINK.sub(words_or_link, text)


def main():
    folder = pathlib.Path(sys.argv[1])
    places = {page: folder / page.relative_to(ROOT) for page in PAGES}
    for place in places.values():
        place.parent.mkdir(exist_ok=True)
        place.touch()
    for page, place in places.items():
        place.write_text(with_links(page.read_text(encoding="utf-8"), place.parent), encoding="utf-8")


if __name__ == "__main__":
    main()
