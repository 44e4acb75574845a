#!/usr/bin/env python3
"""Measures creations behind HAProxy, with one broker and with four shards, without and with the line `nbthread 1` of the
examples. Prints a table of docs/MEASUREMENTS.md.

usage: measure/shards.py [--rounds N] [--seconds S] [--folder F] [--clients N,..] PROGRAM

In each round all are measured one after the other, each over new databases in the folder. Clients keep their connections
to HAProxy, which are plain ones here. Of all rounds the median stands in the table, with the least and the most.
"""

import argparse
import contextlib
import os
import re
import subprocess
import tempfile

from measure import HERE, free_port, middle, processor_seconds, ratio, row, running, serving

EXAMPLES = os.path.join(HERE, "..", "examples")
# How many brokers are behind HAProxy, and with which example.
BEHIND = {"one broker": (1, "haproxy.cfg", 8080), "four shards": (4, "haproxy-shards.cfg", 8100)}
ONE_THREAD = "    nbthread 1"
REQUESTS = 100


def configuration(example, given, listens, ports, with_line):
    """An example at other ports, without TLS and without a log."""
    with open(os.path.join(EXAMPLES, example), encoding="utf-8") as file:
        lines = [it for it in file.read().splitlines() if it.split() not in (["log", "global"], ["option", "httplog"])]
    text = "\n".join(it for it in lines if with_line or not it.startswith(ONE_THREAD)) + "\n"
    text = text.replace("127.0.0.1:8445 ssl crt broker.pem", f"127.0.0.1:{listens}")
    text = text.replace("127.0.0.1:8446", f"127.0.0.1:{free_port()}")
    for number, port in enumerate(ports):
        text = re.sub(rf"127\.0\.0\.1:{given + number}\b", f"127.0.0.1:{port}", text)
    return text


def measured(load, options, folder, behind, with_line, clients):
    """Creations a second, and the microseconds of the processor that HAProxy and the brokers take for one."""
    number, example, given = BEHIND[behind]
    place, listens, ports = tempfile.mkdtemp(dir=folder), free_port(), [free_port() for _ in range(number)]
    name = os.path.join(place, "haproxy.cfg")
    with open(name, "w", encoding="utf-8") as file:
        file.write(configuration(example, given, listens, ports, with_line))
    with contextlib.ExitStack() as stack:
        starts = [running(serving(options.program, port, 1, os.path.join(place, f"{port}.db")), port) for port in ports]
        brokers = [stack.enter_context(it) for it in starts]
        proxy = stack.enter_context(running(["haproxy", "-db", "-f", name], listens))
        before = [processor_seconds(proxy), sum(map(processor_seconds, brokers))]
        words = [load, str(listens), "create", str(clients), str(REQUESTS), str(options.seconds)]
        told = subprocess.run(words, check=True, stdout=subprocess.PIPE).stdout
        after = [processor_seconds(proxy), sum(map(processor_seconds, brokers))]
    count, seconds, most = map(float, told.split())
    return [count / seconds, most, *((end - begun) / count * 1e6 for begun, end in zip(before, after))]


def words():
    parser = argparse.ArgumentParser()
    parser.add_argument("--rounds", type=int, default=5)
    parser.add_argument("--seconds", type=float, default=2)
    parser.add_argument("--folder", default=".")
    parser.add_argument("--clients", type=lambda text: [int(number) for number in text.split(",")], default=[8, 32])
    parser.add_argument("program")
    return parser.parse_args()


def spread(found, part):
    values = [it[part] for it in found]
    return f"{middle(values, 0)} ({min(values):,.0f} to {max(values):,.0f})"


def most_of(found):
    return middle([it[1] for it in found], 1)


def main():
    options = words()
    titles = ["clients", "behind HAProxy", "`nbthread 1`", "creations a second", "to without"]
    row(*titles, "99 of 100 within, ms", "processor time of HAProxy for one, microseconds", "of the brokers")
    row(*["---"] * 8)
    cells = [(clients, behind, line) for clients in options.clients for behind in BEHIND for line in (False, True)]
    found = {cell: [] for cell in cells}
    with tempfile.TemporaryDirectory(dir=options.folder) as folder:
        load = os.path.join(folder, "load")
        subprocess.run(["cc", "-O2", "-o", load, os.path.join(HERE, "load.c")], check=True)
        for _ in range(options.rounds):
            for clients, behind, line in cells:
                found[clients, behind, line].append(measured(load, options, folder, behind, line, clients))
    for clients, behind, line in cells:
        own = found[clients, behind, line]
        compared = ratio(found, (clients, behind, True), (clients, behind, False), 0) if line else ""
        row(str(clients), behind, "yes" if line else "no", spread(own, 0), compared, most_of(own), *(spread(own, it) for it in (2, 3)))


if __name__ == "__main__":
    main()
