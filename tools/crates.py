"""The crates of this repository, as `crates.txt` lists them, and what a machine has for proving them."""

import functools
import hashlib
import os
import pathlib
import re
import subprocess
import sys

ROOT = pathlib.Path(__file__).resolve().parent.parent
RT = os.environ.get("RT", "rt")
# The toolkits that prove this repository.
TOOLKITS = "rattle-kit-13b or rattle-kit-13f"


def libraries():
    """Each crate's name, and the libraries that it uses."""
    lines = (line.partition("#")[0] for line in (ROOT / "crates.txt").read_text().splitlines())
    return {name.strip(): used.split() for name, _, used in (line.partition(":") for line in lines if line.strip())}


LIBRARIES = libraries()


def below(crate):
    """The repository's crates below one, lowest first."""
    found = []
    for name in LIBRARIES[crate]:
        if name in LIBRARIES:
            found += [it for it in [*below(name), name] if it not in found]
    return found


def sources(crate):
    """The files that a crate's proof is made from."""
    folder = ROOT / "crates" / crate
    return [it for part in ("src", "specs", "proofs") for it in sorted((folder / part).rglob("*")) if it.is_file()]


def said_by_toolkit(word):
    """What a command of the toolkit prints. Without the toolkit nothing goes on."""
    try:
        return subprocess.run([RT, word], stdout=subprocess.PIPE, text=True, check=True).stdout.strip()
    except OSError as why:
        print(f"osb-broker: missing: the toolkit's {RT}, of {TOOLKITS} ({why.strerror})", file=sys.stderr)
        sys.exit(2)


@functools.cache
def toolkit():
    """What the toolkit calls itself."""
    return said_by_toolkit("version")


def handles():
    """The handles that the file HANDLES allows; none without it."""
    file = ROOT / "HANDLES"
    found = re.fullmatch(r"Handles allowed: (.*)\.", file.read_text().strip() if file.is_file() else "")
    return found.group(1).split(", ") if found and found.group(1) != "none" else []


@functools.cache
def own_sum(crate):
    """A sum of the toolkit, the handles, a crate's line and its files, as they were when it was first asked for."""
    found = hashlib.sha256(repr((toolkit(), handles(), crate, LIBRARIES[crate])).encode())
    for file in sources(crate):
        found.update(repr((str(file.relative_to(ROOT)), file.read_bytes())).encode())
    return found.hexdigest()


def has_changed(crate):
    """Whether a crate's files are others than when their sum was first asked for."""
    return own_sum.__wrapped__(crate) != own_sum(crate)


@functools.cache
def sum_of(crate):
    """A sum of the sources of a crate and of those below it. It is the same in each clone, also where nothing is built:
    what goes by it is asked for before the libraries are there. `is_kept` goes by the libraries as they were built."""
    found = hashlib.sha256(own_sum(crate).encode())
    for name in LIBRARIES[crate]:
        found.update(sum_of(name).encode() if name in LIBRARIES else b"")
    return found.hexdigest()


def free_memory():
    """The bytes of memory that are free, or that the process's group may still take."""
    lines = pathlib.Path("/proc/meminfo").read_text().splitlines()
    found = [1024 * int(line.split()[1]) for line in lines if line.startswith("MemAvailable:")]
    group = pathlib.Path("/sys/fs/cgroup")
    if (group / "memory.max").is_file() and (limit := (group / "memory.max").read_text().strip()) != "max":
        found.append(int(limit) - int((group / "memory.current").read_text()))
    return min(found)


def lanes(bytes_each):
    """How many checks of so many bytes each can run side by side."""
    return max(1, min(len(os.sched_getaffinity(0)), free_memory() // bytes_each))
