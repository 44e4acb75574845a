#!/usr/bin/env python3
"""Measures requests behind HAProxy and nginx, by the examples with a connection to the broker for each request and by those
that keep these connections. Prints a table of docs/MEASUREMENTS.md.

usage: measure/kept.py [--rounds N] [--seconds S] [--folder F] [--clients N,..] [--kinds K,..] PROGRAM

In each round all are measured one after the other, each over a new database in the folder. Clients keep their connections
to the proxy, which are plain ones here. The table has the median of all rounds, the least and the most.
"""

import argparse
import contextlib
import os
import re
import subprocess
import tempfile

from measure import HERE, KINDS, free_port, middle, processor_seconds, ratio, row, running
from measure import serving
from shards import EXAMPLES, spread

# How many requests of a connection to the proxy, and to the broker where it is kept.
REQUESTS, KEPT = 100, 1000
NGINX = """pid nginx.pid;
error_log error.log crit;
events {{ worker_connections 4096; }}
http {{
    access_log off;
    client_body_temp_path body;
    keepalive_requests 1000000;
{}
}}
"""
# Both examples of a proxy, and the words that it is started with.
PROXIES = {
    "HAProxy": (["haproxy.cfg", "haproxy-kept.cfg"], ["haproxy", "-db", "-f", "proxy.conf"]),
    "nginx": (["nginx.conf", "nginx-kept.conf"], ["nginx", "-p", ".", "-c", "proxy.conf", "-e", "error.log", "-g", "daemon off; master_process off;"]),
}


def configuration(example, listens, port):
    """An example at other ports, without TLS and without a log."""
    with open(os.path.join(EXAMPLES, example), encoding="utf-8") as file:
        text = file.read()
    text = re.sub(r"(?m)^ *(log global|option httplog|ssl_.*|access_log .*)\n", "", text)
    text = text.replace("127.0.0.1:8445 ssl crt broker.pem", f"127.0.0.1:{listens}")
    text = text.replace("127.0.0.1:8443 ssl", f"127.0.0.1:{listens}")
    for given, used in ((8080, port), (8081, free_port()), (8442, free_port())):
        text = text.replace(f"127.0.0.1:{given}", f"127.0.0.1:{used}")
    return NGINX.format(text) if example.startswith("nginx") else text


def measured(load, options, folder, proxy, keeps, kind, clients):
    """Requests a second, and the microseconds of the processor that the proxy and the broker take for one."""
    examples, words = PROXIES[proxy]
    place, listens, port = tempfile.mkdtemp(dir=folder), free_port(), free_port()
    with open(os.path.join(place, "proxy.conf"), "w", encoding="utf-8") as file:
        file.write(configuration(examples[keeps], listens, port))
    asked = [load, str(listens), kind, str(clients), str(REQUESTS), str(options.seconds)]
    with contextlib.ExitStack() as stack:
        database = os.path.join(place, "broker.db")
        broker = stack.enter_context(running(serving(options.program, port, KEPT if keeps else 1, database), port))
        stack.enter_context(contextlib.chdir(place))
        both = [stack.enter_context(running(words, listens)), broker]
        before = list(map(processor_seconds, both))
        told = subprocess.run(asked, check=True, stdout=subprocess.PIPE).stdout
        after = list(map(processor_seconds, both))
    count, seconds, _ = map(float, told.split())
    taken = [(end - begun) / count * 1e6 for begun, end in zip(before, after)]
    return [count / seconds, sum(taken), *taken]


def words():
    parser = argparse.ArgumentParser()
    parser.add_argument("--rounds", type=int, default=5)
    parser.add_argument("--seconds", type=float, default=2)
    parser.add_argument("--folder", default=".")
    parser.add_argument("--clients", type=lambda text: [int(number) for number in text.split(",")], default=[8, 64])
    parser.add_argument("--kinds", type=lambda text: text.split(","), default=["catalog", "create", "repeat"])
    parser.add_argument("program")
    options = parser.parse_args()
    options.program = os.path.abspath(options.program)
    return options


def main():
    options = words()
    row("what is asked", "clients", "behind", "kept", "a second", "processor time of both, to not kept", "of the proxy", "of the broker")
    row(*["---"] * 8)
    with tempfile.TemporaryDirectory(dir=options.folder) as folder:
        load = os.path.join(folder, "load")
        subprocess.run(["cc", "-O2", "-o", load, os.path.join(HERE, "load.c")], check=True)
        cells = [(proxy, kind, clients) for kind in options.kinds for clients in options.clients for proxy in PROXIES]
        for proxy, kind, clients in cells:
            found = {False: [], True: []}
            for _ in range(options.rounds):
                for keeps in found:
                    found[keeps].append(measured(load, options, folder, proxy, keeps, kind, clients))
            for keeps, own in found.items():
                compared = ratio(found, True, False, 1) if keeps else ""
                taken = (f"{middle([it[part] for it in own], 0)}" for part in (2, 3))
                row(KINDS[kind][0], str(clients), proxy, "yes" if keeps else "no", spread(own, 0), compared, *taken)


if __name__ == "__main__":
    main()
