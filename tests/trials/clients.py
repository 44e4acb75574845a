#!/usr/bin/env python3
"""Tries what clients get that send too much, too slowly or nothing, and how long the next one waits.

usage: tests/trials/clients.py PROGRAM

Each kind of client comes forty times to a program that takes one client after the other, and forty times to one
that takes many at the same time. One that is owed a reply has it whole, and the next client is served within half a
second of that reply or, where none is owed, of the time of a connection; where many are taken at the same time it
doesn't wait at all, and the line of one that isn't done comes when its time is over. The kinds are tried side by side,
over programs of their own, since most of it is waiting. What goes wrong while the machine stands still is tried again
(`calm.py`). A reset behind a whole reply is one of a client that was too late with what it still sent.
"""

import contextlib
import itertools
import os
import resource
import sys
import tempfile
import threading
import time
from concurrent.futures import ThreadPoolExecutor
from dataclasses import dataclass
from functools import partial
from typing import Callable, Optional

sys.path.append(os.path.join(os.path.dirname(os.path.abspath(__file__)), "..", "lib"))

from calm import Watch
from conversations import ASYNC, CATALOG_REPLY, CLOSE, GET_CATALOG, I, LARGE_SYNC, LATER, NO_HEAD_REPLY, TOO_LARGE_REPLY
from conversations import LARGE as LARGE_PARAMETERS
from conversations import at, head_of, operation, reply, request, with_parameters
from serving import BEGUN_LINE, Late, Serving, in_time, new_database, side_by_side, tell

TRIES = 40
PROGRAMS = 4
SIDE_BY_SIDE = 8
SOON = 0.5
# Where the client isn't read from after its reply, which would take 0.3.
AT_ONCE = 0.2
TIME_LIMIT = 1
PAUSE = 0.05
# More than there are descriptors for, where that is tried.
FEW = 10
# So many orders make a listing that the system doesn't hold.
LISTED = 60
# For how long the line of a client is waited for.
PATIENCE = 20
# How much longer somebody waits beside others, where many are taken at the same time.
BESIDE = 0.1

ONE = ["--together", "1"]
MANY = ["--together", "64"]

READ_LINE = b"connection: read\n"

LARGE = b"PUT / HTTP/1.1\r\nHost: b\r\nContent-Length: 900000\r\n\r\n"

SERVED = (CATALOG_REPLY, "closed")


def heard(client):
    """What a client reads, and whether the connection then ended without a reset."""
    read = b""
    try:
        while piece := client.recv(65536):
            read += piece
    except ConnectionError:
        return read, "reset"
    return read, "closed"


def goes_on(client, piece, pause=PAUSE):
    """Goes on sending a piece from time to time, beside what is tried, until it can't or for two seconds."""

    def send():
        try:
            for _ in range(int(2 / max(pause, 0.001))):
                client.sendall(piece)
                time.sleep(pause)
        except OSError:
            pass

    threading.Thread(target=send, daemon=True).start()


def asks_once(client, sent=GET_CATALOG):
    client.sendall(sent)
    return heard(client)


def pipelines(client):
    return asks_once(client, GET_CATALOG * 200)


def pipelines_much(client):
    """More than the broker reads at once."""
    return asks_once(client, GET_CATALOG * 3000)


def large_at_once(client):
    return asks_once(client, LARGE + b"b" * 900_000)


def large_slowly(client):
    client.sendall(LARGE)
    for _ in range(10):
        client.sendall(b"b" * 30_000)
        time.sleep(0.01)
    return heard(client)


def goes_on_after_a_reply(client):
    found = asks_once(client)
    goes_on(client, b"b")
    return found


def goes_on_after_a_fault(client):
    client.sendall(LARGE)
    goes_on(client, b"b")
    return heard(client)


def floods_after_a_fault(client):
    client.sendall(LARGE)
    goes_on(client, b"b" * 65_536, 0)
    return heard(client)[0], "closed"


def asks_in_pieces(client):
    for place in range(0, len(GET_CATALOG), 10):
        client.sendall(GET_CATALOG[place : place + 10])
        time.sleep(0.4 * TIME_LIMIT * 10 / len(GET_CATALOG))
    return heard(client)


def says_nothing(client):
    return None


def drips_a_request(client):
    goes_on(client, b"A")


def too_many_lines(client):
    return asks_once(client, head_of(129))


@dataclass
class Kind:
    """What a client does, the reply that it is owed, if one is, and how long the next client may wait: behind
    that reply, or from when a client came that is owed none."""

    acts: Callable
    owed: Optional[bytes] = None
    most: float = SOON
    # Whether it may still send when its reply is there. The program waits for that, but not without end.
    sends_on: bool = False


KINDS = {
    "never closes": Kind(asks_once, CATALOG_REPLY, AT_ONCE),
    "pipelines": Kind(pipelines, CATALOG_REPLY),
    "pipelines more than is read": Kind(pipelines_much, CATALOG_REPLY, sends_on=True),
    "sends too large a body at once": Kind(large_at_once, TOO_LARGE_REPLY, sends_on=True),
    "sends too large a body slowly": Kind(large_slowly, TOO_LARGE_REPLY, sends_on=True),
    "goes on after its reply": Kind(goes_on_after_a_reply, CATALOG_REPLY, sends_on=True),
    "goes on after a fault": Kind(goes_on_after_a_fault, TOO_LARGE_REPLY, sends_on=True),
    "floods after a fault": Kind(floods_after_a_fault, TOO_LARGE_REPLY),
    "asks in pieces, within its time": Kind(asks_in_pieces, CATALOG_REPLY, AT_ONCE),
    "sends too many lines and waits": Kind(too_many_lines, NO_HEAD_REPLY),
    "says nothing": Kind(says_nothing, most=TIME_LIMIT + SOON),
    "drips a request": Kind(drips_a_request, most=TIME_LIMIT + SOON),
}


def heard_by(client, acts=asks_once):
    """What a client hears that acts so. One that can't send any more still reads."""
    try:
        return acts(client)
    except ConnectionError:
        return heard(client)[0], "reset"


def heard_next(serving, acts=asks_once):
    """The same of a new client."""
    with serving.connection() as client:
        return heard_by(client, acts)


def new_lines(serving):
    """What the program has written on standard error since they were last looked at."""
    os.set_blocking(serving.process.stderr.fileno(), False)
    return serving.process.stderr.read() or b""


def lines_behind(serving, begun):
    """The lines of a client that came then, and how long they took."""
    lines = b""
    while not lines and time.monotonic() - begun < PATIENCE:
        time.sleep(PAUSE / 10)
        lines = new_lines(serving)
    return lines, time.monotonic() - begun


def as_owed(name, answer, kind):
    """What a client of a kind heard, and how its connection ended."""
    if not kind.owed:
        yield name, answer, None
        return
    read, end = answer
    yield name, read, kind.owed
    yield f"{name}: its end", Late(end) if kind.sends_on and end == "reset" else end, "closed"


def one_try(serving, name):
    """A client of a kind, and the next one while the first stays."""
    kind = KINDS[name]
    begun = time.monotonic()
    with serving.connection() as client:
        answer = heard_by(client, kind.acts)
        if kind.owed:
            begun = time.monotonic()
        next_answer = heard_next(serving)
        waited = time.monotonic() - begun
    yield from as_owed(f"one that {name}", answer, kind)
    yield f"the next behind one that {name}", next_answer, SERVED
    yield f"the wait behind one that {name}", *in_time(waited, kind.most)
    yield f"the lines of one that {name}", new_lines(serving), b"" if kind.owed else READ_LINE


def one_try_beside(serving, name):
    """The same where many are taken at the same time: the next one doesn't wait for the first."""
    kind = KINDS[name]
    begun = time.monotonic()
    with serving.connection() as client:
        answer = heard_by(client, kind.acts)
        asked = time.monotonic()
        next_answer = heard_next(serving)
        waited = time.monotonic() - asked
        lines, took = (new_lines(serving), None) if kind.owed else lines_behind(serving, begun)
    yield from as_owed(f"one that {name}, among many", answer, kind)
    yield f"the next beside one that {name}", next_answer, SERVED
    yield f"the wait beside one that {name}", *in_time(waited, BESIDE)
    yield f"the lines of one that {name}, among many", lines, b"" if kind.owed else READ_LINE
    if not kind.owed:
        yield f"the time of these lines, of one that {name}", *in_time(took, TIME_LIMIT + SOON, TIME_LIMIT)


def some_tries(serving, name, trial, watch):
    """So many tries of one kind as each program has of them."""
    for _ in range(TRIES // PROGRAMS):
        yield from watch.calmly(partial(trial, serving, name))


def unread_replies(serving):
    """One that asks for more than the system holds and reads nothing is let go when its time is over: it can read the first
    of its replies, and nothing behind a cut one."""
    makes = request("PUT", I, LARGE_SYNC, CLOSE)
    asks = request("GET", "/v2/catalog", lines=CLOSE)
    yield "made", heard_next(serving, partial(asks_once, sent=makes)), (reply(201, "{}"), "closed")
    with serving.connection() as client:
        client.sendall(request("GET", I, lines="") * 1000)
        begun = time.monotonic()
        yield "beside one that doesn't read", heard_next(serving, partial(asks_once, sent=asks)), SERVED
        yield "the wait beside it", *in_time(time.monotonic() - begun, SOON)
        time.sleep(2 * TIME_LIMIT + SOON)
        read, _ = heard(client)
    fetched = f'{{"parameters":{LARGE_PARAMETERS},"plan_id":"p-sync","service_id":"svc"}}'
    all_of_it = reply(200, fetched, closes=False) * 1000
    yield "what it can read", (all_of_it.startswith(read), 0 < len(read) < len(all_of_it)), (True, True)
    yield "its lines", new_lines(serving), b""


def unread_listing(serving):
    """The same of one reply that the system doesn't hold, where the next client waits for its place: it has no line."""
    for number in range(LISTED):
        makes = request("PUT", at(f"i{number}") + LATER, with_parameters(ASYNC, LARGE_PARAMETERS), CLOSE)
        yield "opened", heard_next(serving, partial(asks_once, sent=makes)), (reply(202, operation("create-1")), "closed")
    with serving.connection() as client:
        client.sendall(request("GET", "/backend/v1/orders"))
        begun = time.monotonic()
        yield "behind one that doesn't read", heard_next(serving), SERVED
        yield "the wait behind it", *in_time(time.monotonic() - begun, TIME_LIMIT + SOON)
    yield "its lines", new_lines(serving), b""


def default_limit(serving):
    """Without `--time-limit` a connection has ten seconds."""
    begun = time.monotonic()
    with serving.connection() as client:
        yield "one that says nothing", heard(client), (b"", "closed")
    yield "the default time", *in_time(time.monotonic() - begun, 10 + SOON, 9.5)
    yield "its line", lines_behind(serving, begun)[0], READ_LINE


def limit_descriptors(serving, most):
    """Lets the program have so many descriptors. The limit that it had."""
    _, hard = resource.prlimit(serving.process.pid, resource.RLIMIT_NOFILE)
    return resource.prlimit(serving.process.pid, resource.RLIMIT_NOFILE, (most, hard))


def lacking_descriptors(serving):
    """Where descriptors lack, connections are taken again once there are some; or else the program ends."""
    used = len(os.listdir(f"/proc/{serving.process.pid}/fd"))
    for _ in range(3):
        before = limit_descriptors(serving, used)
        # An accept that waits already has its descriptor, and takes the first of the two.
        with serving.connection() as first, serving.connection() as second:
            for client in (first, second):
                client.sendall(GET_CATALOG)
            time.sleep(0.3)
            resource.prlimit(serving.process.pid, resource.RLIMIT_NOFILE, before)
            for client in (first, second):
                yield "with descriptors again", heard(client), SERVED
    limit_descriptors(serving, used)
    with serving.connection(), serving.connection():
        status, _, errors = serving.ended()
    yield "without descriptors", (status, errors[-26:]), (1, b"osb-broker: cannot accept\n")


def few_descriptors(serving, descriptors, number):
    """So many silent clients that have all of so many descriptors are ended for those who come behind them, once each has
    had its own for a second."""
    used = len(os.listdir(f"/proc/{serving.process.pid}/fd"))
    limit_descriptors(serving, used + descriptors)
    with contextlib.ExitStack() as clients:
        for _ in range(number):
            clients.enter_context(serving.connection())
        begun = time.monotonic()
        yield f"behind {number} silent ones with {descriptors} descriptors", heard_next(serving), SERVED
        waited = time.monotonic() - begun
    yield "the wait behind them", *in_time(waited, number // descriptors + SOON)


LIMITED = ["--time-limit", str(TIME_LIMIT)]
WAYS = [(ONE, one_try), (MANY, one_try_beside)]
MANY_REQUESTS = ["--per-connection", "1000"]
OTHERS = [
    (default_limit, []),
    (lacking_descriptors, []),
    (partial(few_descriptors, descriptors=2, number=FEW), MANY),
    (partial(few_descriptors, descriptors=119, number=300), []),
    (unread_replies, LIMITED + MANY_REQUESTS),
    (unread_listing, LIMITED + ONE),
]


def over_its_own(program, folder, words, trial):
    """What a trial finds over a program of its own, which begins a database."""
    with Serving(program, new_database(folder), *words) as serving:
        yield "the line of a start", new_lines(serving), BEGUN_LINE
        yield from trial(serving)


def tries(program):
    watch = Watch()
    with tempfile.TemporaryDirectory() as folder, ThreadPoolExecutor(SIDE_BY_SIDE) as pool:
        over = partial(over_its_own, program, folder)
        trials = [partial(watch.calmly, partial(over, words, trial)) for trial, words in OTHERS]
        for (name, kind), (way, each) in itertools.product(KINDS.items(), WAYS):
            trial = partial(some_tries, name=name, trial=each, watch=watch)
            trials += [partial(over, [*way, *([] if kind.owed else LIMITED)], trial)] * PROGRAMS
        yield from side_by_side(pool, trials)
    print(f"clients: {watch.again} trials again, since the machine stood still")


if __name__ == "__main__":
    sys.exit(tell("clients", tries(os.path.abspath(sys.argv[1]))))
