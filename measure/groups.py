#!/usr/bin/env python3
"""Measures creations by clients who wait together, on disks whose syncs are fast or slow. Prints a table of
docs/MEASUREMENTS.md.

usage: measure/groups.py [--rounds N] [--seconds S] [--folder F] NAME=PROGRAM NAME=PROGRAM

In each round both programs are measured one after the other, each over a new database in the folder. Where syncs are
slow, a library in front of the C library (tests/lib/slow.c) holds each of them for three milliseconds. A ratio is that of
the second program to the first one in the same round; of all rounds the median stands in the table, with the least
and the most.
"""

import argparse
import os
import subprocess
import tempfile

from measure import HERE, bytes_written, free_port, middle, processor_seconds, ratio, row, running, serving

CLIENTS = (1, 8, 64)


class Bench:
    def __init__(self, options, folder):
        self.options = options
        self.folder = folder
        self.programs = dict(word.split("=", 1) for word in options.programs)
        self.load, self.slow = os.path.join(folder, "load"), os.path.join(folder, "slow.so")
        subprocess.run(["cc", "-O2", "-o", self.load, os.path.join(HERE, "load.c")], check=True)
        slow = os.path.join(HERE, "..", "tests", "lib", "slow.c")
        subprocess.run(["cc", "-O2", "-shared", "-fPIC", "-o", self.slow, slow, "-ldl"], check=True)

    def cell(self, program, clients, is_slow):
        """Creations a second, within how many milliseconds 99 of 100 are answered, and what one takes of the processor in
        microseconds and writes in bytes."""
        port = free_port()
        place = tempfile.mkdtemp(dir=self.folder)
        words = serving(program, port, 1, os.path.join(place, "broker.db"))
        words = ["env", f"LD_PRELOAD={self.slow}", *words] if is_slow else words
        with running(words, port) as server:
            used, written = processor_seconds(server), bytes_written(server)
            asked = [self.load, str(port), "create", str(clients), "1", str(self.options.seconds)]
            told = subprocess.run(asked, check=True, stdout=subprocess.PIPE).stdout
            used, written = processor_seconds(server) - used, bytes_written(server) - written
        count, seconds, most = map(float, told.split())
        return count / seconds, most, used / count * 1e6, written / count

    def rounds(self, clients, is_slow):
        found = {name: [] for name in self.programs}
        for _ in range(self.options.rounds):
            for name, program in self.programs.items():
                found[name].append(self.cell(program, clients, is_slow))
        return found

    def row(self, clients, is_slow):
        found = self.rounds(clients, is_slow)
        first, last = self.programs
        parts = [[middle([it[part] for it in found[name]], places) for name in self.programs] for part, places in ((0, 0), (1, 1))]
        of_one = [middle([it[part] for it in found[last]], 0) for part in (2, 3)]
        row("3 ms" if is_slow else "as they are", str(clients), *parts[0], ratio(found, last, first, 0), *parts[1], *of_one)


def words():
    parser = argparse.ArgumentParser()
    parser.add_argument("--rounds", type=int, default=5)
    parser.add_argument("--seconds", type=float, default=2)
    parser.add_argument("--folder", default=".")
    parser.add_argument("programs", nargs=2, metavar="NAME=PROGRAM")
    return parser.parse_args()


def main():
    options = words()
    with tempfile.TemporaryDirectory(dir=options.folder) as folder:
        bench = Bench(options, folder)
        first, last = bench.programs
        of_both = [f"{first}, a second", f"{last}, a second", "ratio", f"{first}, 99 of 100 within, ms", f"{last}, ms"]
        titles = ["a sync", "clients", *of_both, f"{last}, microseconds of the processor", "bytes written"]
        row(*titles)
        row(*["---"] * len(titles))
        for is_slow in (False, True):
            for clients in CLIENTS:
                bench.row(clients, is_slow)


if __name__ == "__main__":
    main()
