#!/usr/bin/env python3
"""Tries connections that are kept: clients that stay for their next request, at the same time.

usage: tests/trials/kept.py PROGRAM

Each reply is the one to its request, however the requests of a connection come: one by one, several at once, in pieces,
with the end or a fault behind them. The last one closes. Many clients at the same time have the replies of their own
instances, and several at one instance those of some order. An idle client is ended after its time, or as soon as its
place is needed. Over kills, a creation that is sent again on other connections acts once. What hangs on time is tried
again if the machine stood still (`calm.py`).
"""

import contextlib
import itertools
import os
import random
import socket
import struct
import sys
import tempfile
import time
from concurrent.futures import ThreadPoolExecutor
from functools import partial

sys.path.append(os.path.join(os.path.dirname(os.path.abspath(__file__)), "..", "lib"))

from calm import Watch
from clients import READ_LINE, heard, lines_behind, new_lines
from conversations import ASYNC, CATALOG, CATALOG_REPLY, CLOSE, GET_CATALOG, I, LATER, NO_HEAD_REPLY, SYNC, SYNC_LEAVE
from conversations import at, operation, reply, request, with_parameters
from database import tables
from serving import Serving, in_time, new_database, tell

MOST = 5
IDLE, TIME_LIMIT, SOON = 3, 1, 0.5
LIMITED = ["--per-connection", str(MOST), "--idle-limit", str(IDLE), "--time-limit", str(TIME_LIMIT)]
OPEN = reply(200, CATALOG, closes=False)
CLOSES = request("GET", "/v2/catalog", lines=CLOSE)
OLD = GET_CATALOG.replace(b"HTTP/1.1", b"HTTP/1.0")
LONG = '{"text":"' + "x" * 1500 + '"}'
LONG_SYNC = with_parameters(SYNC, LONG)
# A system that holds back bytes does it for 0.04 seconds each time.
HELD_BACK = 0.1
CUT_REPLY = reply(400, '{"description":"The input ended inside the body."}')
LARGEST = request("PUT", I, SYNC.ljust(262_144))
# How many clients come at the same time, how many requests each makes, and how many of these at once at most.
CLIENTS, REQUESTS, AT_ONCE = 24, 120, 6
EACH = (1, 2, 3, 1000)
PLACES = 16
MAKERS, INSTANCES = 12, 60
# How often clients ask about one instance at the same time, and how many requests each of them makes.
ROUNDS, ASKED = 60, (3, 3, 2)
FETCHED = '{"parameters":{},"plan_id":"p-sync","service_id":"svc"}'
# In seconds: between two kills, and between two tries.
BETWEEN_KILLS, PAUSE = 0.05, 0.02


def heard_of(serving, *pieces, shuts=False, pause=0.02):
    """What a client hears that sends these pieces, one after the other, and how its connection ended."""
    with serving.connection() as client:
        for piece in pieces:
            client.sendall(piece)
            time.sleep(pause)
        if shuts:
            client.shutdown(socket.SHUT_WR)
        return heard(client)


def read_so_many(client, number):
    """So many bytes of what a client reads, or fewer where it ends before."""
    read = b""
    while len(read) < number and (piece := client.recv(number - len(read))):
        read += piece
    return read


def one_by_one(serving):
    """Each request is sent behind the reply before it; behind the last one that may come the connection ends."""
    with serving.connection() as client:
        for _ in range(MOST - 1):
            client.sendall(GET_CATALOG)
            yield "one by one", read_so_many(client, len(OPEN)), OPEN
        client.sendall(GET_CATALOG)
        yield "the last of them", heard(client), (CATALOG_REPLY, "closed")


def large_replies(serving):
    """A reply of more than one write is there at once: the system holds back none of it until the client has the rest."""
    yield "made", heard_of(serving, request("PUT", I, LONG_SYNC, CLOSE)), (reply(201, "{}"), "closed")
    fetched = reply(200, FETCHED.replace("{}", LONG), closes=False)
    with serving.connection() as client:
        begun = time.monotonic()
        for _ in range(MOST - 1):
            client.sendall(request("GET", I))
            yield "a large reply", read_so_many(client, len(fetched)), fetched
        yield "the time of large replies", *in_time(time.monotonic() - begun, HELD_BACK)


def own_times(serving):
    """Each request of a connection has a time of its own."""
    with serving.connection() as client:
        for _ in range(MOST - 1):
            client.sendall(GET_CATALOG[:20])
            time.sleep(0.6 * TIME_LIMIT)
            client.sendall(GET_CATALOG[20:])
            yield "a slow request", read_so_many(client, len(OPEN)), OPEN


def edges(serving):
    """The requests of a connection come in all ways."""
    all_but_one = OPEN * (MOST - 1)
    yield "some at once", heard_of(serving, GET_CATALOG * MOST), (all_but_one + CATALOG_REPLY, "closed")
    yield "more than may come", heard_of(serving, GET_CATALOG * (MOST + 2)), (all_but_one + CATALOG_REPLY, "closed")
    both = GET_CATALOG + CLOSES
    bytes_of_both = [both[it : it + 1] for it in range(len(both))]
    yield "byte by byte", heard_of(serving, *bytes_of_both, pause=0), (OPEN + CATALOG_REPLY, "closed")
    yield "two and a close", heard_of(serving, GET_CATALOG + CLOSES + GET_CATALOG), (OPEN + CATALOG_REPLY, "closed")
    yield "HTTP/1.0 behind one", heard_of(serving, GET_CATALOG + OLD), (OPEN + CATALOG_REPLY, "closed")
    yield "a fault behind one", heard_of(serving, GET_CATALOG, b"\0"), (OPEN + NO_HEAD_REPLY, "closed")
    yield "the end behind one", heard_of(serving, GET_CATALOG, shuts=True), (OPEN, "closed")
    cut = request("PUT", I, SYNC)[:-1]
    yield "a cut body behind one", heard_of(serving, GET_CATALOG + cut, shuts=True), (OPEN + CUT_REPLY, "closed")
    made = reply(201, "{}", closes=False) + reply(200, "{}", closes=False) + CATALOG_REPLY
    yield "two largest bodies", heard_of(serving, LARGEST * 2 + CLOSES), (made, "closed")


def idle(serving):
    """An idle client is ended without a line; one that has sent a part of a request has that of any other."""
    new_lines(serving)
    with serving.connection() as client:
        client.sendall(GET_CATALOG)
        begun = time.monotonic()
        yield "before it is idle", heard(client), (OPEN, "closed")
        yield "the time of an idle client", *in_time(time.monotonic() - begun, IDLE + SOON, IDLE)
    yield "the lines of an idle client", new_lines(serving), b""
    with serving.connection() as client:
        client.sendall(GET_CATALOG)
        yield "before it is reset", read_so_many(client, len(OPEN)), OPEN
        client.setsockopt(socket.SOL_SOCKET, socket.SO_LINGER, struct.pack("ii", 1, 0))
    yield "behind one that was reset", heard_of(serving, CLOSES), (CATALOG_REPLY, "closed")
    yield "the lines of one that was reset", new_lines(serving), b""
    with serving.connection() as client:
        client.sendall(GET_CATALOG)
        yield "before a part of a request", read_so_many(client, len(OPEN)), OPEN
        time.sleep(TIME_LIMIT)
        begun = time.monotonic()
        client.sendall(GET_CATALOG[:20])
        yield "a part of a request", heard(client), (b"", "closed")
        yield "the time of a part of a request", *in_time(time.monotonic() - begun, TIME_LIMIT + SOON, TIME_LIMIT)
        yield "the line of a part of a request", lines_behind(serving, begun)[0], READ_LINE


def places(serving):
    """A client that comes while idle ones have all places has one at once."""
    with contextlib.ExitStack() as clients:
        for _ in range(PLACES):
            client = clients.enter_context(serving.connection())
            client.sendall(GET_CATALOG)
            yield "one of many", read_so_many(client, len(OPEN)), OPEN
        begun = time.monotonic()
        yield "behind idle ones", heard_of(serving, CLOSES), (CATALOG_REPLY, "closed")
        yield "the wait behind idle ones", *in_time(time.monotonic() - begun, SOON)


def asks(kind, instance, lines=""):
    """A request of a kind about an instance."""
    if kind == "make":
        return request("PUT", at(instance), SYNC, lines)
    if kind == "delete":
        return request("DELETE", at(instance) + SYNC_LEAVE, lines=lines)
    return request("GET", at(instance), lines=lines)


def answer_to(kind, was_there):
    """What such a request is answered, and whether the instance is there then."""
    if kind == "make":
        return (200 if was_there else 201, "{}"), True
    if kind == "delete":
        return (200 if was_there else 410, "{}"), False
    return ((200, FETCHED) if was_there else (404, "{}")), was_there


class Model:
    """What a client's own instances are answered."""

    def __init__(self, name):
        self.name, self.there = name, set()

    def asked(self, chance, lines):
        """A request, and the status and body that it is answered by."""
        instance = f"{self.name}-{chance.randrange(4)}"
        kind = chance.choice(["catalog", "make", "make", "delete", "fetch"])
        if kind == "catalog":
            return request("GET", "/v2/catalog", lines=lines), (200, CATALOG)
        answer, is_there = answer_to(kind, instance in self.there)
        (self.there.add if is_there else self.there.discard)(instance)
        return asks(kind, instance, lines), answer


def some_requests(model, chance, most):
    """The bytes of some requests, the statuses and bodies that have to come, and whether the last of them closes: since no
    other may come, or since it says so, by chance."""
    sent, wanted = b"", []
    for left in range(most, max(0, most - chance.randint(1, AT_ONCE)), -1):
        says_close = chance.random() < 0.1
        asked, answer = model.asked(chance, CLOSE if says_close else "")
        sent, wanted = sent + asked, [*wanted, answer]
        if says_close or left == 1:
            return sent, wanted, True
    return sent, wanted, False


def sends_in_pieces(client, sent, chance):
    while sent:
        size = chance.choice([1, 7, 100, 5000])
        client.sendall(sent[:size])
        sent = sent[size:]


def whole_replies(read):
    """The statuses and bodies of the replies that have come whole."""
    found = []
    while b"\r\n\r\n" in read:
        head, _, rest = read.partition(b"\r\n\r\n")
        length = int(head.lower().partition(b"content-length: ")[2].split(b"\r\n")[0])
        if len(rest) < length:
            break
        found.append((int(head[9:12]), rest[:length].decode()))
        read = rest[length:]
    return found


def heard_replies(client, number):
    """The statuses and bodies of so many replies, or of those that came before the end."""
    read = b""
    while len(found := whole_replies(read)) < number and (piece := client.recv(65_536)):
        read += piece
    return found


def one_connection(client, model, chance, most):
    """What a client hears on one connection, and what it has to hear. Its end is the last thing."""
    found, wanted, closes = [], [], False
    while not closes:
        sent, answers, closes = some_requests(model, chance, most - len(wanted))
        sends_in_pieces(client, sent, chance)
        found += heard_replies(client, len(answers))
        wanted += answers
        if len(wanted) > REQUESTS:
            return found, wanted
    return [*found, client.recv(1)], [*wanted, b""]


def interleaved(serving, most, name):
    """The same over one connection after the other."""
    chance, model, found, wanted = random.Random(f"{name} {most}"), Model(name), [], []
    while len(wanted) < REQUESTS:
        with serving.connection() as client:
            heard_here, wanted_here = one_connection(client, model, chance, most)
        found, wanted = found + heard_here, wanted + wanted_here
    return found, wanted


def many(program, folder, most):
    """Clients at the same time, each of whose replies is its model's."""
    with Serving(program, new_database(folder), "--per-connection", str(most)) as serving:
        with ThreadPoolExecutor(CLIENTS) as pool:
            for found, wanted in pool.map(partial(interleaved, serving, most), map("c{}".format, range(CLIENTS))):
                yield f"of {most} requests each", found, wanted


def is_explained(heard, is_there, is_left):
    """Whether some order of the clients' requests, in which each client's own are in their order, explains all answers, and
    whether the instance is there behind the last."""
    for number, each in enumerate(heard):
        if each:
            (kind, found), *later = each
            answer, then = answer_to(kind, is_there)
            if answer == found and is_explained([*heard[:number], later, *heard[number + 1 :]], then, is_left):
                return True
    return not any(heard) and is_there == is_left


def asks_all(serving, instance, kinds):
    """What a client hears that asks all this about an instance at once."""
    with serving.connection() as client:
        client.sendall(b"".join(asks(kind, instance) for kind in kinds))
        return list(zip(kinds, heard_replies(client, len(kinds))))


def one_instance(program, folder):
    """Clients that ask about one instance at the same time have the answers of one order."""
    chance = random.Random("one instance")
    with Serving(program, new_database(folder), "--per-connection", "1000") as serving, ThreadPoolExecutor(len(ASKED)) as pool:
        for instance in map("one-{}".format, range(ROUNDS)):
            kinds = [chance.choices(["make", "delete", "fetch"], k=number) for number in ASKED]
            heard_of_each = list(pool.map(partial(asks_all, serving, instance), kinds))
            [last] = [answer for _, answer in asks_all(serving, instance, ["fetch"])]
            counts = [len(each) for each in heard_of_each]
            found = counts, is_explained(heard_of_each, False, last == (200, FETCHED))
            yield f"all about {instance}, {heard_of_each}", found, (list(ASKED), True)


class Maker:
    """Makes instances over a connection that is kept until it breaks, each until it is answered."""

    def __init__(self, serving, number):
        self.serving, self.instances = serving, [f"m{number}-{it}" for it in range(INSTANCES)]
        self.client, self.tries = None, 0

    def answer(self, instance):
        """The answer to one try, or none."""
        self.tries += 1
        try:
            self.client = self.client or self.serving.connection()
            self.client.sendall(request("PUT", at(instance) + LATER, ASYNC))
            [found] = heard_replies(self.client, 1)
            return found
        except (OSError, ValueError):
            if self.client:
                self.client.close()
            self.client = None
            time.sleep(PAUSE)

    def makes(self):
        return [next(filter(None, map(self.answer, itertools.repeat(it)))) for it in self.instances]


def kills(program, folder):
    """What is made again and again, over kills and other connections, is made once."""
    database = new_database(folder)
    with Serving(program, database, "--per-connection", "1000") as serving, ThreadPoolExecutor(MAKERS) as pool:
        makers = [Maker(serving, number) for number in range(MAKERS)]
        answers = [pool.submit(it.makes) for it in makers]
        while not all(it.done() for it in answers):
            time.sleep(BETWEEN_KILLS)
            serving.kill()
            serving.start(serving.address)
            yield "it starts again", serving.listens(), True
        for each in answers:
            yield "what was made", each.result(), [(202, operation("create-1"))] * INSTANCES
    made = sorted(it for maker in makers for it in maker.instances)
    yield "made again", sum(it.tries for it in makers) > len(made), True
    yield "the orders", [row[:2] for row in tables(database)["orders"]], [(it, 1) for it in made]


def timed(program, folder, watch):
    """What hangs on time."""
    for trial, more in ((one_by_one, []), (large_replies, []), (own_times, []), (edges, []), (idle, []), (places, ["--together", str(PLACES)])):
        with Serving(program, new_database(folder), *LIMITED, *more) as serving:
            yield from watch.calmly(partial(trial, serving))


def tries(program):
    with tempfile.TemporaryDirectory() as folder:
        for most in EACH:
            yield from many(program, folder, most)
        yield from one_instance(program, folder)
        yield from kills(program, folder)
        yield from timed(program, folder, Watch())


if __name__ == "__main__":
    sys.exit(tell("kept", tries(os.path.abspath(sys.argv[1]))))
