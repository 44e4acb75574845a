#!/usr/bin/env python3
"""Refuses each growth of memory in turn, and looks at what the program answers and keeps.

usage: tests/trials/refused.py PROGRAM

The program runs with `refuse.c` loaded before the C library. Each growth of each request of the worked
conversations is refused in turn, over a program that was just started, until a run meets none. The request
is answered 500 and every row of the database is as before, or it is answered as it should be; and then it,
and the rest of the conversation, goes as it should. The same over a program that goes on, with a further
request behind each one: behind a 500 that isn't answered and does nothing. What needs no memory is always answered.

All that is with clients that are taken one after the other. Two conversations are tried with many at the same time, too.
There room for the bytes of a client is lacking as memory is refused, and is waited for.

Then each growth of `replay` is refused, from its start on: a request that is sent again acts once, and one
that is only answered 500 doesn't act. The trials run side by side, one for each processor.
"""

import contextlib
import itertools
import mmap
import os
import shutil
import sqlite3
import struct
import subprocess
import sys
import tempfile
from concurrent.futures import ThreadPoolExecutor
from functools import partial

sys.path.append(os.path.join(os.path.dirname(os.path.abspath(__file__)), "..", "lib"))

from conversations import ASYNC, BUSY, CATALOG_REPLY, CLOSE, CONVERSATIONS, FETCHED_LARGE, GET_CATALOG, I, LARGE
from conversations import LARGE_SYNC, LATER, PUT_TWICE, REFUSED_REPLY, REPORT, SUCCEEDED, SYNC, UNAUTHORIZED_REPLY
from conversations import UPDATE, at, listed, operation, replies, reply, request, with_context
from serving import Serving, environment_with, new_database, side_by_side, tell

# The growth that is refused, how many there were, how many before the first reply, whether from the start.
CONTROL = struct.Struct("4q")

NO_ROWS = {"format": [(2,)], "orders": [], "instances": [], "bindings": [], "contexts": []}
ROWS_OF_I = {
    "format": [(2,)],
    "orders": [("i", 1, 1, "", "svc", "p-sync", "o", "s", "{}", "", 1, "", "{}")],
    "instances": [("i", 2, 0, 1, "svc", "p-sync", "o", "s", "{}", "")],
    "bindings": [],
    "contexts": [("i", 0, "{}"), ("i", 1, "{}")],
}


# One client after the other, and many at the same time.
ONE = ("--together", "1")
MANY = ("--together", "64")


class Machine:
    """Where the program runs with one of its growths refused or none."""

    def __init__(self, program, folder):
        self.program = program
        self.folder = folder
        control = os.path.join(folder, "control")
        with open(control, "wb") as file:
            file.write(bytes(CONTROL.size))
        with open(control, "r+b") as file:
            self.control = mmap.mmap(file.fileno(), CONTROL.size)
        self.environment = environment_with(folder, "refuse", REFUSE=control)

    def refuses(self, growth, from_start=False):
        self.control[:] = CONTROL.pack(growth, 0, -1, from_start)

    def growths(self):
        """How many there were, and how many of them before the first reply."""
        return CONTROL.unpack(self.control[:])[1:3]

    def serving(self, *more):
        self.refuses(0)
        return Served(self, *(more or ONE))

    def replays(self, names, growth):
        """How `replay` of these files ends, and whether there was such a growth."""
        self.refuses(growth, from_start=True)
        words = [self.program, "replay", *names]
        ended = subprocess.run(words, env=self.environment, capture_output=True, timeout=60)
        return ended, 0 < growth <= self.growths()[0]


class Served(Serving):
    """The program, serving until it is stopped, with one growth of a connection refused or none."""

    def __init__(self, machine, *more):
        self.machine = machine
        self.database = new_database(machine.folder)
        super().__init__(machine.program, self.database, *more, env=machine.environment)

    def __exit__(self, *_):
        self.kill()
        shutil.rmtree(os.path.dirname(self.database))

    def refusing(self, sent, growth):
        """The reply, with that growth refused; and whether there was such a growth."""
        self.machine.refuses(growth)
        return self.sends(sent), 0 < growth <= self.machine.growths()[0]

    def files(self):
        """The bytes of the database. No request is in flight, so they are all of it."""
        found = []
        for ending in ("", "-wal"):
            with open(self.database + ending, "rb") as file:
                found.append(file.read())
        return found


def rows_of(files):
    """All rows of a database, by its bytes."""
    with tempfile.TemporaryDirectory() as folder:
        path = os.path.join(folder, "broker.db")
        for ending, content in zip(("", "-wal"), files):
            with open(path + ending, "wb") as file:
                file.write(content)
        with contextlib.closing(sqlite3.connect(f"file:{path}?mode=ro", uri=True)) as connection:
            rows = {name: connection.execute(f"SELECT * FROM {name}") for name in NO_ROWS}
            return {name: sorted(found) for name, found in rows.items()}


class Wrong(Exception):
    """What isn't as it should be."""


def stays(served, before):
    """Sees that all rows are those of the files before. The same bytes have the same rows."""
    after = served.files()
    if after == before:
        return
    found, right = rows_of(after), rows_of(before)
    if found != right:
        raise Wrong(f"behind a 500 the rows are {found!r:.1000}, and were {right!r:.1000}")


def exchange(served, asked, growth=0, lines="", echo=""):
    """Whether the reply is the one that it should be, and not the 500; and whether a growth was refused."""
    method, target, body, status, text = asked
    found, refused = served.refusing(request(method, target, body, lines), growth)
    if found == reply(status, text, lines=echo):
        return True, refused
    if refused and found == REFUSED_REPLY:
        return False, refused
    raise Wrong(f"{method} {target} {body:.100}: {found!r:.300}, growth {growth}")


def go(served, conversation, lines=""):
    for asked in conversation:
        exchange(served, asked, lines=lines)


def told(growths, failed):
    if not failed:
        raise Wrong(f"{growths} growths refused, and none of them failed a request")
    return f"{growths} growths refused, {failed} of them failed a request"


def each_refused(machine, conversation, first_alone=False, lines="", echo="", way=ONE):
    """Refuses each growth of each request, or of the first alone, over a program that was just started."""
    count = failed = 0
    for place, asked in enumerate(conversation[:1] if first_alone else conversation):
        growth, refused = 0, True
        while refused:
            growth += 1
            with machine.serving(*way) as served:
                go(served, conversation[:place])
                before = served.files()
                kept, refused = exchange(served, asked, growth, lines, echo)
                if not kept:
                    stays(served, before)
                    failed += 1
                go(served, conversation[place + kept :])
        count += growth - 1
    return told(count, failed)


MANY_REQUESTS = ("--per-connection", "1000")


def both(served, first, second, growth=0):
    """How many of the two requests of a kept connection were answered before a 500; and whether a growth was
    refused."""
    sent = request(*first[:3]) + request(*second[:3], CLOSE)
    found, refused = served.refusing(sent, growth)
    opened = reply(*first[3:], closes=False)
    possible = [REFUSED_REPLY, opened + REFUSED_REPLY, opened + reply(*second[3:])]
    if found not in possible or found != possible[2] and not refused:
        raise Wrong(f"{first!r:.100} and {second!r:.100}: {found!r:.300}, growth {growth}")
    return possible.index(found), refused


def twice_refused(machine):
    """Refuses each growth of put_twice, one connection of two requests."""
    first, second = PUT_TWICE
    growth = failed = 0
    refused = True
    while refused:
        growth += 1
        with machine.serving(*MANY_REQUESTS) as served:
            answered, refused = both(served, first, second, growth)
            rows = rows_of(served.files())
            if rows != (ROWS_OF_I if answered else NO_ROWS):
                raise Wrong(f"{answered} requests of put_twice left {rows}, growth {growth}")
            failed += answered < 2
            if both(served, second if answered else first, second)[0] != 2:
                raise Wrong(f"put_twice again, growth {growth}")
    return told(growth - 1, failed)


FURTHER = ("PUT", at("z"), SYNC, 201, "{}")
FURTHER_AGAIN = (*FURTHER[:3], 200, "{}")


def refused_before(served, asked, growth):
    """Refuses that growth and the ones after it of a request with a further one behind, until a reply isn't
    500. The growth of that reply, how often it was 500, and whether the request had such a growth."""
    before = served.files()
    failed = 0
    while not (answered := both(served, asked, FURTHER, growth)[0]):
        stays(served, before)
        growth += 1
        failed += 1
    _, of_the_first = served.machine.growths()
    go(served, [FURTHER if answered == 1 else FURTHER_AGAIN], CLOSE)
    return growth, failed, growth <= of_the_first


def each_before_another(machine, conversation):
    """Refuses each growth of each request, with a further request behind it, over a program that goes on."""
    count = failed = 0
    for place, asked in enumerate(conversation):
        growth, refused = 0, True
        while refused:
            with machine.serving(*MANY_REQUESTS) as served:
                go(served, conversation[:place], CLOSE)
                growth, more, refused = refused_before(served, asked, growth + 1)
                failed += more
                go(served, conversation[place + 1 :], CLOSE)
        count += growth - 1
    return told(count, failed)


OTHER_VERSION = GET_CATALOG.replace(b"2.17", b"3.0")
NO_VERSION = GET_CATALOG.replace(b"X-Broker-API-Version: 2.17\r\n", b"")
NOT_THE_PLATFORM = GET_CATALOG.replace(b"cGxhdGZvcm06c2VjcmV0", b"cGxhdGZvcm06b3RoZXI=")
NO_LOGIN = GET_CATALOG.replace(b"Authorization", b"Authorisation")
NOT_THE_BACKEND = request("GET", "/backend/v1/orders").replace(b"YmFja2VuZDp3b3JrZXI=", b"YmFja2VuZDpvdGhlcg==")
NOT_FOUND = reply(404, "{}")
VERSION_REPLY = reply(412, '{"description":"This broker speaks version 2 of the API."}')

# What needs no memory.
PLAIN = [
    (request("GET", "/v1/catalog"), NOT_FOUND),
    (request("GET", "v2/catalog"), NOT_FOUND),
    (request("PUT", "/backends/v1/orders/i/1", SUCCEEDED), NOT_FOUND),
    (NOT_THE_PLATFORM, UNAUTHORIZED_REPLY),
    (NO_LOGIN, UNAUTHORIZED_REPLY),
    (NOT_THE_BACKEND, UNAUTHORIZED_REPLY),
    (OTHER_VERSION, VERSION_REPLY),
    (NO_VERSION, VERSION_REPLY),
    (request("GET", "/v2/catalog/"), NOT_FOUND),
    (request("PUT", "/v2/catalog", SYNC), NOT_FOUND),
    (request("GET", "/v2/service_instances/"), NOT_FOUND),
    (request("GET", "/backend/v1/orders/"), NOT_FOUND),
    (GET_CATALOG, CATALOG_REPLY),
    (request("GET", "/v2/catalog", "b" * 262_144), CATALOG_REPLY),
]


def needs_none(machine):
    """Refuses each growth of connections whose requests need no memory, as that of the room of their bytes. Each is
    answered."""
    count = 0
    with machine.serving() as served:
        for sent, expected in PLAIN:
            growth, refused = 0, True
            while refused:
                growth += 1
                found, refused = served.refusing(sent, growth)
                if found != expected:
                    raise Wrong(f"{sent!r:.100}: {found!r:.300}, growth {growth}")
            count += growth - 1
    return f"{len(PLAIN)} connections, {count} growths refused, and each was answered"


CREATED = request("PUT", I + LATER, ASYNC)
REPORTED = request("PUT", REPORT + "1", SUCCEEDED)
UPDATED = request("PATCH", I + LATER, UPDATE)
THREE = [CREATED, REPORTED, UPDATED]
SEVEN = [CREATED] * 3 + [REPORTED] * 2 + [UPDATED] * 2
# They show the lives: the polls of both orders and of one that there isn't, and the listing.
SHOWING = [
    request("GET", I + "/last_operation?operation=create-1"),
    request("GET", I + "/last_operation?operation=update-2"),
    request("GET", I + "/last_operation?operation=create-3"),
    request("GET", "/backend/v1/orders"),
]
OTHER = request("PUT", at("j") + LATER, ASYNC)
NOT_KNOWN = (400, '{"description":"The operation is not known for this resource."}')
UPDATE_RUNS = listed(2, "update", "").replace('"parameters":{}', '"parameters":{"n":1}')


def without_repeats(connections, marks):
    """Of equal neighbours one is left, where one of them has no mark."""
    groups = itertools.groupby(zip(connections, marks), key=lambda one: one[0])
    return [sent for sent, group in groups if not all(mark for _, mark in group)]


def left_by(connections):
    """The state of the creation and that of the update, which these connections leave; None where there is
    no such order."""
    creation = update = None
    for sent in connections:
        if sent == CREATED:
            creation = "in progress"
        elif sent == REPORTED and creation:
            creation = "succeeded"
        elif sent == UPDATED and creation == "succeeded":
            update = "in progress"
    return creation, update


def answer(sent, creation):
    """What one of the three is answered, where the creation is in that state."""
    if sent == CREATED:
        return 202, operation("create-1")
    if creation is None:
        return 404, "{}"
    if sent == REPORTED:
        return 200, "{}"
    return (202, operation("update-2")) if creation == "succeeded" else (422, BUSY)


def shown(creation, update):
    """What the connections at the end are answered."""
    if creation is None:
        return [(404, "{}"), (404, "{}"), (404, "{}"), (200, '{"orders":[]}')]
    polled = [(200, f'{{"state":"{state}"}}') if state else NOT_KNOWN for state in (creation, update)]
    if update:
        return [*polled, NOT_KNOWN, (200, UPDATE_RUNS)]
    runs = listed(1, "create", "") if creation == "in progress" else '{"orders":[]}'
    return [*polled, NOT_KNOWN, (200, runs)]


def expected_by(connections, marks):
    """The answers to these connections and to those at the end, by the marks of those that met a refusal."""
    answers = []
    for place, sent in enumerate(connections):
        creation, _ = left_by(without_repeats(connections[:place], marks))
        answers.append(answer(sent, creation))
    answers += shown(*left_by(without_repeats(connections, marks)))
    return [(500, "{}") if mark else right for mark, right in zip(marks, answers)]


def written(machine, connections):
    """The names of files with these connections, and those at the end."""
    folder = tempfile.mkdtemp(dir=machine.folder)
    names = []
    for place, sent in enumerate([*connections, *SHOWING]):
        names.append(os.path.join(folder, f"{place}.http"))
        with open(names[-1], "wb") as file:
            file.write(sent)
    return names


NOTHING_SERVED = [(1, b"", b"osb-broker: out of memory\n"), (1, b"", b"database: 1 Refused\n")]


def acts_once(machine, connections):
    """Refuses each growth of `replay`, which serves these connections."""
    names = written(machine, connections)
    growth = failed = unserved = 0
    refused = True
    while refused:
        growth += 1
        ended, refused = machine.replays(names, growth)
        found = (ended.returncode, ended.stdout, ended.stderr)
        if refused and found in NOTHING_SERVED:
            unserved += 1
            continue
        marks = [status == 500 for status, _ in replies(ended.stdout)]
        # One growth is refused, so one request meets that at most.
        if len(marks) != len(names) or sum(marks) > refused:
            raise Wrong(f"the replies {replies(ended.stdout)}, growth {growth}")
        right = b"".join(reply(*one) for one in expected_by(connections, marks))
        if found != (0, right, b""):
            raise Wrong(f"{found!r:.2000}, growth {growth}")
        failed += any(marks)
    return told(growth - 1, failed) + f", and at {unserved} nothing was served"


def once_beside_another(machine):
    """The seven, with a request of another instance between each two."""
    connections = [sent for one in SEVEN for sent in (one, OTHER)][:-1]
    ended, _ = machine.replays(written(machine, connections), 0)
    answers = expected_by(SEVEN, [False] * (len(SEVEN) + len(SHOWING)))
    right = [one for found in answers[: len(SEVEN)] for one in (found, (202, operation("create-1")))][:-1]
    other = listed(1, "create", "").replace('"instance_id":"i"', '"instance_id":"j"')
    both_run = UPDATE_RUNS.replace("]}", "," + other.removeprefix('{"orders":['))
    right += [*answers[len(SEVEN) : -1], (200, both_run)]
    if (ended.returncode, replies(ended.stdout)) != (0, right):
        raise Wrong(f"{ended}")
    return f"{len(connections)} connections"


IDENTITY = "X-Broker-API-Request-Identity: r1\r\n"
WORKED = ["poll_and_report", "failed_create", "update_failed", "async_binding", "sync_binding"]
ONE_ORDER = [
    ("GET", I + "/last_operation?operation=create-1", "", 200, SUCCEEDED),
    ("PUT", REPORT + "2", SUCCEEDED, 404, "{}"),
]
LARGE_PUT = [
    ("PUT", I, LARGE_SYNC, 201, "{}"),
    *ONE_ORDER,
    ("GET", I, "", 200, FETCHED_LARGE.replace("p-async", "p-sync")),
]
LARGE_CONTEXT_PUT = [
    ("PUT", I + LATER, with_context(ASYNC, LARGE), 202, operation("create-1")),
    ("GET", "/backend/v1/orders", "", 200, listed(1, "create", f'"context":{LARGE},')),
]


def trials():
    """The trials by their names."""
    yield "put_twice", twice_refused
    for name in WORKED:
        yield name, partial(each_refused, conversation=CONVERSATIONS[name])
    yield "put_twice, among many", partial(each_refused, conversation=PUT_TWICE, way=MANY)
    for name, conversation in [("large parameters", LARGE_PUT), ("a large context", LARGE_CONTEXT_PUT)]:
        yield name, partial(each_refused, conversation=conversation, first_alone=True)
        yield f"{name}, among many", partial(each_refused, conversation=conversation, first_alone=True, way=MANY)
    yield "an identity", partial(each_refused, conversation=PUT_TWICE[:1], lines=IDENTITY, echo=IDENTITY)
    for name, conversation in CONVERSATIONS.items():
        yield f"{name}, before another", partial(each_before_another, conversation=conversation)
    yield "no memory", needs_none
    yield "seven requests", partial(acts_once, connections=SEVEN)
    yield "three requests", partial(acts_once, connections=THREE)
    yield "seven requests beside another instance", once_beside_another


def tried(program, name, trial):
    """What is wrong in a trial, over a machine of its own, or nothing."""
    with tempfile.TemporaryDirectory() as folder:
        try:
            said, wrong = trial(Machine(program, folder)), ""
        except Wrong as found:
            said = wrong = str(found)
    print(f"refused: {name}: {said}", flush=True)
    yield name, wrong, ""


def tries(program):
    with ThreadPoolExecutor(len(os.sched_getaffinity(0))) as pool:
        yield from side_by_side(pool, [partial(tried, program, *trial) for trial in trials()])


if __name__ == "__main__":
    sys.exit(tell("refused", tries(os.path.abspath(sys.argv[1]))))
