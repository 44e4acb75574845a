#!/usr/bin/env python3
"""Kills the built program at twenty and more moments of one history and at some of a start, and looks at what
its database then has.

usage: tests/trials/killed.py PROGRAM

The program is killed (SIGKILL) after an answer, while a request is in flight, while one is being
sent, while it starts, or while it brings a file of version 1 to version 2. After each kill what was
answered is there, once, and what was in flight is there whole or not at all: sent again, it acts
once. It is killed in flight until some requests had acted and some had not, and `slow.c` holds each sync of
that history for a while, so that both come about. A file of version 1 is that still, or is of version 2 with
the same orders. The system goes on, so these trials say nothing of a power failure.
"""

import contextlib
import json
import os
import sqlite3
import sys
import tempfile
import time
from collections import Counter
from dataclasses import dataclass

sys.path.append(os.path.join(os.path.dirname(os.path.abspath(__file__)), "..", "lib"))

from conversations import ASYNC, BIND, LATER, LEAVE, SUCCEEDED, SYNC, SYNC_BIND, SYNC_LEAVE, UPDATE, X, Y
from conversations import FAILED, MEMORY_1, at, operation, reply, request, with_context
from database import copied, integrity, made_before, migrated, run, tables
from serving import Serving, environment_with, new_database, read_to_end, settings_with_contexts, tell

CREATE, UPDATING, DELETE, BINDING, UNBINDING = range(1, 6)
RUNS, DONE, BROKEN = range(3)
KINDS = dict(enumerate(["create", "update", "delete", "bind", "unbind"], start=1))
BACK = with_context('{"service_id":"svc"}', X)


@dataclass
class Step:
    """A request: what it is answered, what it is answered again, and the order that it leaves."""

    instance: str
    sent: bytes
    answer: tuple
    again: tuple
    number: int
    kind: int
    state: int
    context: str

    def expected(self):
        return reply(*self.answer), reply(*self.again)


def at_once(instance):
    """The life of an instance whose orders are done as they are asked for."""
    place = at(instance)
    bound = place + "/service_bindings/b"
    made, empty, gone = (201, "{}"), (200, "{}"), (410, "{}")
    create, bind, update = with_context(SYNC, X), with_context(SYNC_BIND, X), with_context(UPDATE, Y)
    for number, kind, method, target, body, answer, again, context in [
        (1, CREATE, "PUT", place, create, made, empty, X),
        (2, BINDING, "PUT", bound, bind, (201, MEMORY_1), (200, MEMORY_1), X),
        (3, UPDATING, "PATCH", place, update, empty, empty, Y),
        (4, UNBINDING, "DELETE", bound + SYNC_LEAVE, "", empty, gone, "{}"),
        (5, DELETE, "DELETE", place + SYNC_LEAVE, "", empty, gone, Y),
    ]:
        sent = request(method, target, body)
        yield Step(instance, sent, answer, again, number, kind, DONE, context)


def later(instance):
    """The life of an instance whose orders a backend reports. Its last order goes on running."""
    place = at(instance)
    bound = place + "/service_bindings/b"
    bind_done = '{"state":"succeeded","credentials":{"k":"v"}}'
    create, update = with_context(ASYNC, X), with_context(UPDATE, Y)
    for number, kind, method, target, body, name, report, state, context in [
        (1, CREATE, "PUT", place + LATER, create, "create-1", SUCCEEDED, DONE, X),
        (2, BINDING, "PUT", bound + LATER, BIND, "bind-2", bind_done, DONE, "{}"),
        (3, UPDATING, "PATCH", place + LATER, update, "update-3", FAILED, BROKEN, Y),
        (4, UNBINDING, "DELETE", bound + LEAVE, "", "unbind-4", SUCCEEDED, DONE, "{}"),
        (5, UPDATING, "PATCH", place + LATER, update, "update-5", SUCCEEDED, DONE, Y),
        (6, UPDATING, "PATCH", place + LATER, BACK, "update-6", None, RUNS, X),
    ]:
        opened = (202, operation(name))
        sent = request(method, target, body)
        yield Step(instance, sent, opened, opened, number, kind, RUNS, context)
        if report:
            told = request("PUT", f"/backend/v1/orders/{instance}/{number}", report)
            yield Step(instance, told, (200, "{}"), (200, "{}"), number, kind, state, context)


def history():
    """Steps without an end, of one instance after the other."""
    number = 0
    while True:
        number += 1
        yield from (at_once, later)[number % 2](f"i{number:03}")


class Noted:
    """What was answered: the orders that there have to be with their contexts, the contexts that stand, and
    each instance's last step."""

    def __init__(self):
        self.orders = {}
        self.standing = {}
        self.last = {}

    def take(self, step):
        self.orders[step.instance, step.number] = (step.kind, step.state, step.context)
        self.last[step.instance] = step
        if step.kind == CREATE or (step.kind, step.state) == (UPDATING, DONE):
            self.standing[step.instance] = step.context
        elif (step.kind, step.state) == (DELETE, DONE):
            self.standing[step.instance] = ""

    def rows(self):
        orders = sorted((*key, *order) for key, order in self.orders.items())
        return orders, sorted(self.standing.items())

    def running(self):
        """The listing of the backend: each instance with a running order once."""
        return [
            (instance, number, KINDS[kind], context)
            for instance, number, kind, state, context in self.rows()[0]
            if state == RUNS
        ]


# The orders with their contexts, and a context that has no order.
ORDERS = """
    SELECT instance_id, seq, kind, state, context FROM orders LEFT JOIN contexts USING (instance_id, seq)
    UNION ALL
    SELECT instance_id, seq, NULL, NULL, context FROM contexts
    WHERE seq > 0 AND (instance_id, seq) NOT IN (SELECT instance_id, seq FROM orders)
    ORDER BY 1, 2
"""


def rows_in(path, folder):
    """The orders and the contexts that stand in a database whose program was killed, read from a copy."""
    copy = copied(path, folder)
    with contextlib.closing(sqlite3.connect(copy)) as connection:
        orders = connection.execute(ORDERS).fetchall()
        standing = connection.execute("SELECT instance_id, context FROM contexts WHERE seq = 0")
        return orders, sorted(standing.fetchall())


def listed(serving):
    """What the backend's listing has."""
    body = serving.sends(request("GET", "/backend/v1/orders", "")).partition(b"\r\n\r\n")[2]
    orders = json.loads(body)["orders"]
    return [
        (order["instance_id"], order["seq"], order["kind"], compact(order.get("context", {})))
        for order in orders
    ]


def compact(value):
    return json.dumps(value, separators=(",", ":"), sort_keys=True)


def killed_in_flight(serving, sent, pause):
    """What came of a reply, where the program is killed so many seconds after the request."""
    with serving.connection() as client:
        client.sendall(sent)
        time.sleep(pause)
        serving.kill()
        try:
            return read_to_end(client)
        except ConnectionError:
            return b""


# After an answer, or while a request is in flight: after so many of the usual times of a request;
# or when half of a request is sent.
ANSWERED, HALF = "answered", "half"
MOMENTS = [ANSWERED, 0, HALF, 0.1, 0.2, ANSWERED, 0.3, 0.4, HALF, 0.5]
MOMENTS += [0.6, ANSWERED, 0.7, 0.8, HALF, 0.9, ANSWERED, 1.0, 1.2, 1.5]
# How many more may be needed where by chance every request in flight had acted, or none had.
MOST_MORE = 200


class Trial:
    """One history over one file, through all kills."""

    def __init__(self, program, folder):
        self.program = program
        self.folder = folder
        self.settings = settings_with_contexts(folder)
        self.environment = environment_with(folder, "slow")
        self.path = new_database(folder)
        self.steps = history()
        self.noted = Noted()
        self.times = []
        # How many in flight had no answer and had acted, and how many had not.
        self.flights = Counter()

    def serving(self):
        return Serving(self.program, self.path, settings=self.settings, env=self.environment)

    def answered(self, serving, count):
        """Takes so many steps to their answers."""
        for _ in range(count):
            step = next(self.steps)
            began = time.monotonic()
            found = serving.sends(step.sent)
            self.times.append(time.monotonic() - began)
            yield "a step", found, step.expected()[0]
            self.noted.take(step)

    def killed(self, serving, moment):
        """Kills the program: the step that was in flight, if there is one, and what came of its reply."""
        if moment == ANSWERED:
            serving.kill()
            return None, b""
        step = next(self.steps)
        usual = sorted(self.times)[len(self.times) // 2]
        if moment == HALF:
            return step, killed_in_flight(serving, step.sent[: len(step.sent) // 2], usual)
        return step, killed_in_flight(serving, step.sent, usual * moment)

    def flown(self, serving, moment):
        """Kills the program; the step that has no answer, if there is one."""
        step, found = self.killed(serving, moment)
        if step is None:
            return None
        whole = step.expected()[0]
        yield f"a reply, {moment}", found, whole[: 0 if moment == HALF else len(found)]
        if found != whole:
            return step
        self.noted.take(step)
        return None

    def kept(self, moment, step):
        """What the file has: what was answered, and the step without an answer or not. Whether it has that."""
        yield f"integrity, {moment}", integrity(copied(self.path, self.folder)), {"ok"}
        rows = rows_in(self.path, self.folder)
        acted = step is not None and rows != self.noted.rows()
        if acted:
            self.noted.take(step)
        if step is not None and moment != HALF:
            self.flights[acted] += 1
        yield f"the orders, {moment}", rows, self.noted.rows()
        yield f"half a request, {moment}", acted and moment == HALF, False
        return acted

    def sent_again(self, serving, step, acted):
        """The step without an answer acts once, and none that was answered acts again."""
        if step is not None:
            yield "sent again", serving.sends(step.sent), step.expected()[acted]
            self.noted.take(step)
        for last in self.noted.last.values():
            yield f"again {last.instance}", serving.sends(last.sent), last.expected()[1]
        yield "the listing", listed(serving), self.noted.running()

    def round(self, moment, count):
        with self.serving() as serving:
            yield from self.answered(serving, count)
            step = yield from self.flown(serving, moment)
        acted = yield from self.kept(moment, step)
        with self.serving() as serving:
            yield from self.sent_again(serving, step, acted)
        yield f"the orders in the end, {moment}", rows_in(self.path, self.folder), self.noted.rows()


def moments(flights):
    """When it is killed: those moments, and more in flight until some of these had acted and some had not."""
    yield from MOMENTS
    for number in range(MOST_MORE):
        if not flights[False]:
            yield 0
        elif not flights[True]:
            yield number % 20 / 20


def try_history(program, folder):
    trial = Trial(program, folder)
    kills = 0
    for kills, moment in enumerate(moments(trial.flights), start=1):
        yield from trial.round(moment, 3 + kills % 4)
    acted, not_acted = trial.flights[True], trial.flights[False]
    yield "some in flight had acted", acted > 0, True
    yield "some in flight had not acted", not_acted > 0, True
    print(f"killed: {kills} kills; of what was in flight without an answer {acted} had acted, {not_acted} had not")


def try_starts(program, folder):
    """Killed while it makes its tables, or opens the file again."""
    usual = time.monotonic()
    with Serving(program, new_database(folder)):
        usual = time.monotonic() - usual
    for share in [0.2, 0.4, 0.6, 0.8, 0.9, 1.0]:
        path = new_database(folder)
        created = next(at_once("i"))
        for expected in created.expected():
            killed = Serving(program, path)
            time.sleep(usual * share)
            killed.kill()
            with Serving(program, path) as serving:
                yield f"after a start, {share}", serving.sends(created.sent), expected
        yield f"its integrity, {share}", integrity(copied(path, folder)), {"ok"}


# Two thousand instances of version 1 that were made at once.
MANY = [
    "WITH RECURSIVE n(i) AS (SELECT 1 UNION ALL SELECT i + 1 FROM n WHERE i < 2000) INSERT INTO orders "
    "SELECT 'many' || i, 1, 1, '', 'svc', 'p-sync', 'o', 's', '{}', '', 1, '', '{}' FROM n",
    "INSERT INTO instances SELECT instance_id, 2, 0, 1, service_id, plan_id, place, spot, params, maint "
    "FROM orders WHERE instance_id LIKE 'many%'",
]
FIRST = ["format", "orders", "instances", "bindings"]


def shares(left):
    """When a start over version 1 is killed, in its usual times: later too, until one has left version 2."""
    yield from [0, 0.3, 0.5, 0.7, 0.8, 0.9, 0.95, 1.0, 1.05, 1.1, 1.2, 1.5]
    for share in [2, 4, 8, 16, 32]:
        if not left[2]:
            yield share


def try_migrations(program, folder):
    """Killed while it brings a file of version 1 to version 2."""
    first = made_before(folder, 2)
    run(first, *MANY)
    expected = migrated(tables(first, FIRST))
    usual = time.monotonic()
    with Serving(program, copied(first, folder)):
        usual = time.monotonic() - usual
    left = Counter()
    for share in shares(left):
        path = copied(first, folder)
        killed = Serving(program, path)
        time.sleep(usual * share)
        killed.kill()
        yield f"its integrity, {share}", integrity(copied(path, folder)), {"ok"}
        version = tables(copied(path, folder), ["format"])["format"][0][0]
        left[version] += 1
        whole = tables(first, FIRST) if version == 1 else expected
        yield f"what is left, {share}", tables(copied(path, folder), whole), whole
        with Serving(program, path):
            yield f"after a start, {share}", tables(copied(path, folder)), expected
    yield "some left version 1 and some version 2", left[1] > 0 and left[2] > 0, True
    print(f"killed: {left[1]} starts over version 1 left it so, and {left[2]} left version 2")


def tries(program):
    with tempfile.TemporaryDirectory() as folder:
        yield from try_history(program, folder)
        yield from try_starts(program, folder)
        yield from try_migrations(program, folder)


if __name__ == "__main__":
    sys.exit(tell("killed", tries(os.path.abspath(sys.argv[1]))))
