#!/usr/bin/env python3
"""Tries the program with many clients at the same time and no proxy: of all kinds, silent ones, bursts of many that ask
a while after they connected, ones that are deaf to their replies, and a kill while many wait for theirs.

usage: tests/trials/together.py PROGRAM

What goes wrong while the machine stands still is tried again (`calm.py`).
"""

import contextlib
import itertools
import os
import random
import re
import resource
import selectors
import socket
import subprocess
import sys
import tempfile
import threading
import time
from collections import Counter
from concurrent.futures import ThreadPoolExecutor
from functools import partial

sys.path.append(os.path.join(os.path.dirname(os.path.abspath(__file__)), "..", "lib"))

from calm import Watch
from clients import BESIDE, KINDS, LIMITED, MANY, READ_LINE, SERVED, SOON, heard, heard_by, heard_next, new_lines
from conversations import CATALOG_REPLY, CLOSE, GET_CATALOG, I, LARGE_SYNC, SYNC, at, reply, request
from serving import Late, Serving, in_time, new_database, read_to_end, tell

# How often each kind comes, and from how many sides at the same time.
TRIES, SIDES = 40, 4
FAST = 8
SILENT = 1000
# Bursts of so many clients, each of which asks so long after it connected, beside so many silent ones. All are answered
# in time; so are those with the largest body. Those that stop inside one take so much memory at most, in kilobytes.
BURSTS, PAUSES, QUIET = (100, 200, 1000), (0, 0.05, 0.2), 64
ANSWERED, LARGE_ONES = 2, 100
MOST_MEMORY = 18_000
# So many have room for a body at the same time.
ROOMS = 32
LARGEST = request("PUT", I, SYNC.ljust(262_144), CLOSE)
# How long the fast ones ask while nobody else does.
ALONE = 2
# What a client's system takes in for it, where it reads nothing.
SMALL = 2304
KILLS = 5
IN_FLIGHT = 64
CREATED, THERE = reply(201, "{}"), reply(200, "{}")


def wait_of(serving):
    """How long a client waits for the catalog, from when it connects; without end where it gets another reply."""
    begun = time.monotonic()
    found = heard_next(serving)
    return time.monotonic() - begun if found == SERVED else float("inf")


def longest_wait(port, seconds):
    """The longest wait of a client that asks again and again, in a process of its own."""
    words = [sys.executable, os.path.abspath(__file__), "--fast", str(port), str(seconds)]
    return float(subprocess.run(words, stdout=subprocess.PIPE, check=True).stdout)


def ask_for(port, seconds):
    """Asks for the catalog so long, and prints the longest wait."""
    longest, end = 0.0, time.monotonic() + seconds
    while (begun := time.monotonic()) < end:
        with socket.create_connection(("127.0.0.1", port)) as client:
            client.sendall(GET_CATALOG)
            if read_to_end(client) != CATALOG_REPLY:
                longest = float("inf")
        longest = max(longest, time.monotonic() - begun)
    print(longest)


def waits_of_fast(serving, seconds):
    """The longest wait of eight that ask at the same time."""
    with ThreadPoolExecutor(FAST) as pool:
        return max(pool.map(lambda _: longest_wait(serving.port, seconds), range(FAST)))


def some_of_kind(serving, name):
    """What clients of a kind get, one after the other."""
    found = []
    for _ in range(TRIES // SIDES):
        with serving.connection() as client:
            answer = heard_by(client, KINDS[name].acts)
            # One that is owed nothing waits until it is ended.
            found.append(answer or heard(client)[1])
    return name, found


def as_owed(name, found, kind):
    """What clients of a kind got, and how many of their connections were reset behind a whole reply."""
    resets = found.count((kind.owed, "reset")) if kind.sends_on else 0
    right = [(kind.owed, "closed") if kind.owed else "closed"] * (len(found) - resets)
    yield name, [it for it in found if not resets or it != (kind.owed, "reset")], right
    yield f"{name}: their ends", Late(f"{resets} resets") if resets else "closed", "closed"


def all_kinds(serving):
    """Clients of all kinds at the same time, beside fast ones."""
    alone = waits_of_fast(serving, ALONE)
    sides = [name for name in KINDS for _ in range(SIDES)]
    with ThreadPoolExecutor(len(sides)) as pool:
        slow = [pool.submit(some_of_kind, serving, name) for name in sides]
        beside = waits_of_fast(serving, 4 * ALONE)
        for name, found in (it.result() for it in slow):
            yield from as_owed(f"those that {name}, beside all others", found, KINDS[name])
    quiet = sum(TRIES // SIDES * SIDES for kind in KINDS.values() if not kind.owed)
    yield "the wait of fast ones beside them", *in_time(beside, alone + BESIDE)
    yield "their lines", new_lines(serving), READ_LINE * quiet


def silent(serving):
    """A client beside many that say nothing."""
    with contextlib.ExitStack() as clients:
        for _ in range(SILENT):
            clients.enter_context(serving.connection())
        waits = [wait_of(serving) for _ in range(10)]
    yield "beside silent ones", *in_time(max(waits), BESIDE)


def beside_few_places(serving):
    """A client that waits for the place of a silent one."""
    with contextlib.ExitStack() as clients:
        for _ in range(IN_FLIGHT):
            clients.enter_context(serving.connection())
        wait = wait_of(serving)
    yield "for the place of a silent one", *in_time(wait, 1 + SOON, 1 - SOON)


def replies_to(clients):
    """What each of these clients reads to its end, at the same time."""
    read, left = {each: b"" for each in clients}, selectors.DefaultSelector()
    for each in clients:
        each.setblocking(False)
        left.register(each, selectors.EVENT_READ)
    while left.get_map():
        for key, _ in left.select():
            try:
                piece = key.fileobj.recv(65536)
            except OSError:
                piece = b""
            read[key.fileobj] += piece
            if not piece:
                left.unregister(key.fileobj)
    return list(read.values())


def burst_of(serving, number, pause, sent=GET_CATALOG):
    """What so many clients get that ask so long after they connected, and how long that takes."""
    with contextlib.ExitStack() as held:
        clients = [held.enter_context(serving.connection()) for _ in range(number)]
        time.sleep(pause)
        begun = time.monotonic()
        for each in clients:
            each.sendall(sent)
        return Counter(replies_to(clients)), time.monotonic() - begun


def bursts(serving):
    """Bursts beside silent ones."""
    with contextlib.ExitStack() as silent:
        for _ in range(QUIET):
            silent.enter_context(serving.connection())
        for number, pause in itertools.product(BURSTS, PAUSES):
            found, took = burst_of(serving, number, pause)
            yield f"{number} that ask after {pause} s", found, Counter({CATALOG_REPLY: number})
            yield f"{number} that ask after {pause} s: in time", *in_time(took, ANSWERED)


def memory_of(serving):
    """The memory of the program, in kilobytes."""
    with open(f"/proc/{serving.process.pid}/status", encoding="ascii") as file:
        return int(re.search(r"VmRSS:\s+(\d+)", file.read()).group(1))


@contextlib.contextmanager
def stopped_inside(serving, number):
    """So many clients that stop inside the largest body."""
    with contextlib.ExitStack() as held:
        for _ in range(number):
            client = held.enter_context(serving.connection())
            client.setblocking(False)
            client.send(LARGEST[:-1])
        time.sleep(BESIDE)
        yield


def large_bodies(serving):
    """Many that send the largest body, and many that stop inside one."""
    found, took = burst_of(serving, LARGE_ONES, 0, LARGEST)
    yield "the largest bodies", found, Counter({CREATED: 1, THERE: LARGE_ONES - 1})
    yield "the largest bodies: in time", *in_time(took, ANSWERED)
    before = memory_of(serving)
    with stopped_inside(serving, SILENT):
        yield "beside those that stop inside one", *in_time(wait_of(serving), BESIDE)
        more = memory_of(serving) - before
        yield "their memory", more if more >= MOST_MEMORY else "little", "little"
    with stopped_inside(serving, ROOMS):
        found, took = burst_of(serving, 1, 0, LARGEST)
        yield "the largest body beside them", found, Counter({THERE: 1})
        yield "the largest body beside them: in time", *in_time(took, 1 + SOON)


def deaf_client(serving):
    """A client that has asked for a large reply, and for which the system takes in little of it."""
    client = socket.socket()
    client.setsockopt(socket.SOL_SOCKET, socket.SO_RCVBUF, SMALL)
    client.settimeout(30)
    client.connect(("127.0.0.1", serving.port))
    client.sendall(request("GET", I))
    return client


def byte_by_byte(client):
    read = b""
    while piece := client.recv(1):
        read += piece
    return read


def large_replies(serving):
    """A reply that is taken a byte at a time, and many that aren't taken at all."""
    yield "made", heard_next(serving, partial(asks, sent=request("PUT", I, LARGE_SYNC))), (CREATED, "closed")
    whole = serving.sends(request("GET", I))
    with ThreadPoolExecutor(1) as pool, deaf_client(serving) as client:
        slow = pool.submit(byte_by_byte, client)
        waits = []
        while not slow.done():
            waits.append(wait_of(serving))
            time.sleep(0.01)
        yield "a reply byte by byte", slow.result() == whole, True
        yield "beside it", *in_time(max(waits), BESIDE)
    with contextlib.ExitStack() as clients:
        for _ in range(2 * IN_FLIGHT):
            clients.enter_context(deaf_client(serving))
        waits = [wait_of(serving) for _ in range(10)]
        yield "beside deaf ones", *in_time(max(waits), SOON)
    yield "it goes on", serving.sends(request("GET", I)) == whole, True


def asks(client, sent):
    client.sendall(sent)
    return heard(client)


def makes(serving, instance):
    """What one gets that makes an instance; nothing where the program is gone."""
    try:
        return serving.sends(request("PUT", at(instance), SYNC))
    except OSError:
        return b""


def killed(program, folder):
    """The program is killed while many wait for replies; what was answered is there, and what wasn't is made."""
    path = new_database(folder)
    chance = random.Random(55)
    for number in range(KILLS):
        names = [f"i{number}-{one}" for one in range(4 * IN_FLIGHT)]
        with Serving(program, path, *MANY) as serving, ThreadPoolExecutor(IN_FLIGHT) as pool:
            threading.Timer(chance.uniform(0.01, 0.1), serving.process.kill).start()
            answers = list(pool.map(partial(makes, serving), names))
        with Serving(program, path, *MANY) as serving:
            again = [makes(serving, name) for name in names]
        wrong = [it for it in zip(answers, again) if it[1] not in (CREATED, THERE) or it == (CREATED, CREATED)]
        yield "behind a kill", wrong, []
        yield "other answers before it", [it for it in answers if it not in (b"", CREATED)], []


def over(program, folder, words, trial):
    with Serving(program, new_database(folder), *words) as serving:
        new_lines(serving)
        yield from trial(serving)


def tries(program):
    _, hard = resource.getrlimit(resource.RLIMIT_NOFILE)
    resource.setrlimit(resource.RLIMIT_NOFILE, (min(hard, 8192), hard))
    watch = Watch()
    with tempfile.TemporaryDirectory() as folder:
        for words, trial in [
            ([*MANY, *LIMITED], all_kinds),
            (MANY, beside_few_places),
            ([], silent),
            ([], bursts),
            ([], large_bodies),
            (MANY, large_replies),
        ]:
            yield from watch.calmly(partial(over, program, folder, words, trial))
        yield from killed(program, folder)
    print(f"together: {watch.again} trials again, since the machine stood still")


if __name__ == "__main__":
    if sys.argv[1] == "--fast":
        ask_for(int(sys.argv[2]), float(sys.argv[3]))
    else:
        sys.exit(tell("together", tries(os.path.abspath(sys.argv[1]))))
