"""Checks one crate, as `rt check` does, over libraries that are proved; those below it that lack are proved first.

    python3 tools/check.py CRATE [--jobs N] [--only FUNCTION ..] [OPTION ..]

What was checked before and hasn't changed is not checked again. With --only it checks these functions and what they
call. Any other option goes to the compiler, as --allow-holes or --stage-times FILE."""

import argparse
import subprocess
import sys

from build import prove_all, schedule_of
from crates import LIBRARIES, below
from proved import held, is_kept
from rattle import RATTLE, folder_of, help_of, words


def read_words():
    """The crate, its jobs, and the options of the compiler."""
    usage = "tools/check.py CRATE [--jobs N] [--only FUNCTION ..] [OPTION ..]"
    parser = argparse.ArgumentParser(usage=usage, allow_abbrev=False)
    parser.add_argument("crate", choices=LIBRARIES, metavar="CRATE")
    parser.add_argument("--jobs", type=int)
    parser.add_argument("--only", nargs="+", action="extend", default=[])
    found, more = parser.parse_known_args()
    return found.crate, found.jobs, [*more, *(word for it in found.only for word in ("--only", it))]


def main():
    crate, jobs, more = read_words()
    lacks = [it for it in below(crate) if not is_kept(it)]
    if lacks and not prove_all(lacks):
        return 1
    jobs = jobs or schedule_of([crate]).jobs_for(crate, 1)
    with held(crate) as files:
        if not all(map(is_kept, below(crate))):
            print(f"{crate}: a library below it was changed meanwhile")
            return 1
        progress = ["--progress"] if "--progress" in help_of("check") else []
        command = [RATTLE, "check", *words(crate, jobs), *progress, *more]
        return subprocess.run(command, cwd=folder_of(crate), pass_fds=files).returncode


if __name__ == "__main__":
    try:
        sys.exit(main())
    except KeyboardInterrupt:
        sys.exit(130)
