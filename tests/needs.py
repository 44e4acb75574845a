#!/usr/bin/env python3
"""Tries what the gate does on a machine that lacks something: it ends at once, and names the package. Without the toolkit
each target of the Makefile ends so.

usage: tests/needs.py
"""

import os
import shutil
import subprocess
import sys
import tempfile

sys.path.append(os.path.join(os.path.dirname(os.path.abspath(__file__)), "lib"))

from serving import ROOT, tell

NEEDED = {"bash": "bash", "curl": "curl", "sqlite3": "sqlite3", "python3": "python3", "cc": "gcc libc6-dev"}
# It takes a fifth of a second; a machine that is busy gets more.
SECONDS = 60
# The targets that prove something, and the toolkits that can.
TARGETS = ["all", "run", "try", "package", "image", "test", "edits", "quick", "green"]
TOOLKITS = "of rattle-kit-13b or rattle-kit-13f"
# Set in a gate that this trial runs.
WITHIN = "OSB_NEEDS_TRIED"
# What the shell, make and a C compiler call besides.
BESIDE = ["sh", "make", "env", "as", "ld", "true", "pyenv", "dirname", "head", "basename", "readlink", "cut", "sed", "tr"]


def folder_without(room, lacking):
    """A folder of links to the programs of this machine, for a PATH, without one of them."""
    folder = os.path.join(room, lacking or "all")
    os.mkdir(folder)
    programs = {name: shutil.which(name) for name in [*NEEDED, *BESIDE] if name != lacking}
    programs["python3"] = sys.executable if lacking != "python3" else None
    for name, path in programs.items():
        if path:
            os.symlink(os.path.realpath(path), os.path.join(folder, name))
    return folder


def made(target, rt, **environment):
    """What `make` does with another toolkit: its status, and what it says. It ends at once."""
    words = ["make", "-C", ROOT, "-s", target, f"RT={rt}"]
    own = {**os.environ, **environment, WITHIN: "1"}
    ran = subprocess.run(words, env=own, capture_output=True, text=True, timeout=SECONDS)
    return ran.returncode, ran.stdout + ran.stderr


def tries():
    with tempfile.TemporaryDirectory() as room:
        path = folder_without(room, None)
        script = os.path.join(ROOT, "tests", "needs.sh")
        ran = subprocess.run(["sh", script], env={**os.environ, "PATH": path, "RT": "true"}, capture_output=True, text=True)
        yield "with everything", (ran.returncode, ran.stderr), (0, "")
        for name, package in NEEDED.items():
            status, said = made("test", "true", PATH=folder_without(room, name))
            yield f"without {name}", (status, f"(Debian: {package})" in said), (2, True)
        for target in TARGETS:
            status, said = made(target, "/none/rt")
            lines = [it for it in said.splitlines() if not it.startswith(("make:", "make["))]
            yield f"make {target} without the toolkit", (status, [TOOLKITS in it for it in lines]), (2, [True])


if __name__ == "__main__":
    if WITHIN in os.environ:
        sys.exit("needs: the gate went on although something is missing")
    sys.exit(tell("needs", tries()))
