"""Prints the stamp of each crate by which `rt` knows that its library is built.

usage: tools/stamps.py FOLDER ROOT    the folder of `rt`, and that of the repository

`rt` sums a crate's files anew for each path that leads to it through the libraries of others, thousands of times for
the program. Here each is summed once."""

import functools
import sys

sys.path.insert(0, sys.argv[1])

import rtlib

rtlib.Crate.stamp = functools.cache(rtlib.Crate.stamp)
for crate in rtlib.crates_below(sys.argv[2]):
    print(crate.name, crate.stamp())
