#!/usr/bin/env python3
"""Runs the commands that README.md and the pages for operators and backends show, as they stand.

usage: tests/trials/shown.py PROGRAM

What each command writes has to be the lines below it. Those of README and of docs/BACKEND.md run while the program
serves; those of docs/OPERATING.md once that of the backend's page has been stopped, over its database.
"""

import os
import re
import subprocess
import sys
import tempfile

sys.path.append(os.path.join(os.path.dirname(os.path.abspath(__file__)), "..", "lib"))

from serving import EXAMPLES, ROOT, SETTINGS, Serving, tell


def commands(page):
    """Each command of a page, with the lines below it."""
    with open(os.path.join(ROOT, page), encoding="utf-8") as file:
        blocks = re.findall("(?:^    .*\n)+", file.read(), re.MULTILINE)
    found = []
    for lines in (block.splitlines() for block in blocks if block.startswith("    $ ")):
        for line in lines:
            if line.startswith("    $ "):
                found.append((line[6:], []))
            else:
                found[-1][1].append(line[4:])
    return found


def shown(page, folder, there="", here=""):
    """What each command writes, and should write by the page. One address stands in the place of another."""
    expected = commands(page)
    script = "shopt -s expand_aliases\n"
    for command, _ in expected:
        script += f"{(command.replace(there, here) if there else command)}\necho '--'\n"
    ended = subprocess.run(["bash"], input=script.encode(), cwd=folder, capture_output=True, timeout=60)
    found = ended.stdout.decode().split("--\n")[:-1]
    yield f"the commands of {page}", (len(found), bool(expected)), (len(expected), True)
    for (command, lines), written in zip(expected, found):
        yield f"{page}: {command}", written.splitlines(), lines


def tries(program):
    with tempfile.TemporaryDirectory() as folder:
        os.symlink(EXAMPLES, os.path.join(folder, "examples"))
        os.symlink(program, os.path.join(folder, "osb-broker"))
        with Serving(program, "osb-broker.db", settings=SETTINGS, cwd=folder) as serving:
            yield from shown("README.md", folder, "127.0.0.1:8080", serving.address)
        settings = "examples/queues.json"
        with Serving(program, "queues.db", settings=settings, cwd=folder) as serving:
            yield from shown("docs/BACKEND.md", folder, "127.0.0.1:8090", serving.address)
        yield from shown("docs/OPERATING.md", folder)


if __name__ == "__main__":
    sys.exit(tell("shown", tries(os.path.abspath(sys.argv[1]))))
