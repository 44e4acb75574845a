#!/usr/bin/env python3
"""Measures how eight fast clients fare beside 64 slow ones, with no proxy. Prints a table of docs/MEASUREMENTS.md.

usage: measure/slow.py [--rounds N] [--seconds S] [--folder F] NAME=PROGRAM..

A slow client sends its request in pieces, for some three seconds, and reads its reply byte by byte; then it comes
again. The fast ones ask for the catalog, each on a connection of its own.
"""

import argparse
import os
import socket
import statistics
import subprocess
import sys
import tempfile
import threading
import time

from measure import HERE, free_port, put, row, running, serving

SLOW, FAST = 64, 8
PIECES, PAUSE = 30, 0.1


def trickle(port, name):
    """One slow client."""
    sent = put(name)
    size = len(sent) // PIECES + 1
    with socket.create_connection(("127.0.0.1", port)) as client:
        for first in range(0, len(sent), size):
            client.sendall(sent[first : first + size])
            time.sleep(PAUSE)
        while client.recv(1):
            pass


def trickle_on(port, number):
    """A slow client that comes again and again. Where the program ends one, it comes again too."""
    for again in range(10**6):
        try:
            trickle(port, f"slow-{number}-{again}")
        except OSError:
            pass


def slow_clients(port):
    for number in range(SLOW):
        threading.Thread(target=trickle_on, args=(port, number)).start()


def measured(load, program, folder, seconds, is_slow):
    """Requests a second of the fast clients, and within how many milliseconds 99 of 100 are answered."""
    port = free_port()
    with running(serving(program, port, 1, os.path.join(tempfile.mkdtemp(dir=folder), "broker.db")), port):
        slow = is_slow and subprocess.Popen([sys.executable, os.path.abspath(__file__), "--trickle", str(port)])
        time.sleep(1)
        asked = [load, str(port), "catalog", str(FAST), "1", str(seconds)]
        told = subprocess.run(asked, check=True, stdout=subprocess.PIPE).stdout
        if slow:
            slow.kill()
            slow.wait()
    count, taken, most = map(float, told.split())
    return count / taken, most


def middle(found, part, places):
    return f"{statistics.median(it[part] for it in found):,.{places}f}"


def words():
    parser = argparse.ArgumentParser()
    parser.add_argument("--rounds", type=int, default=5)
    parser.add_argument("--seconds", type=float, default=2)
    parser.add_argument("--folder", default=".")
    parser.add_argument("programs", nargs="+", metavar="NAME=PROGRAM")
    return parser.parse_args()


def main():
    options = words()
    row("program", "requests a second", "99 of 100 within, ms", "beside 64 slow ones, a second", "99 of 100 within, ms")
    row(*["---"] * 5)
    with tempfile.TemporaryDirectory(dir=options.folder) as folder:
        load = os.path.join(folder, "load")
        subprocess.run(["cc", "-O2", "-o", load, os.path.join(HERE, "load.c")], check=True)
        for name, program in (word.split("=", 1) for word in options.programs):
            rounds = [[measured(load, program, folder, options.seconds, slow) for slow in (False, True)] for _ in range(options.rounds)]
            cells = [[one[at] for one in rounds] for at in (0, 1)]
            row(name, *[middle(cell, part, 2 * part) for cell in cells for part in (0, 1)])


if __name__ == "__main__":
    if sys.argv[1:2] == ["--trickle"]:
        slow_clients(int(sys.argv[2]))
    else:
        main()
