#!/usr/bin/env python3
"""A backend to copy: asks the broker for the orders that run, carries each out, and reports how it ended.

usage: examples/backend.py [--login FILE] [--most N] [--once] URL

The login of the door /backend is a line USER:PASSWORD in the file, or else in the environment
variable BACKEND_LOGIN. Put your own work into `Service`. Each order is carried out in a thread of
its own, at most one for each instance and N in all. With --once what is listed now is carried out,
one after the other. SIGTERM ends the backend after the orders at hand.

statuses: 0, it was asked to end, or with --once all is reported; 1, with --once something is left or
the broker is away; 2, the words or the login aren't usable; 3, the broker refuses the login or door.
"""

import argparse
import base64
import contextlib
import http.client
import json
import logging
import os
import signal
import sys
import threading
import time
import unicodedata
import urllib.error
import urllib.parse
import urllib.request

# In seconds: between two listings; for a reply; until an order that was left is begun again; and how
# long a call is repeated while the broker is away.
PAUSE, REPLY, REST, PATIENCE = 1, 30, 10, 60
LONGEST_DESCRIPTION = 1000  # bytes

log = logging.getLogger("backend")


class Failed(Exception):
    """The order can't be carried out. It is reported as failed, and the platform is shown this text."""


class Later(Exception):
    """The order can't be carried out now. It is left, and begun again later, as after any other exception."""


class Away(Exception):
    """The broker gave no usable answer. Every call of its door may be made again."""


class Refused(Exception):
    """The broker answered what no repetition changes."""


class Broker:
    """The backend's door of a broker."""

    def __init__(self, url, login):
        self.place = url.rstrip("/") + "/backend/v1/orders"
        self.fields = {"Authorization": f"Basic {base64.b64encode(login.encode()).decode()}"}

    def call(self, method, rest, body=None):
        """The status of a reply, and the object of its body."""
        data = None if body is None else json.dumps(body).encode()
        request = urllib.request.Request(self.place + rest, data, self.fields, method=method)
        try:
            with urllib.request.urlopen(request, timeout=REPLY) as reply:
                return reply.status, json.load(reply)
        except urllib.error.HTTPError as error:
            if error.code < 500:
                return error.code, {}
            raise Away(f"it answers {error.code}") from error
        except (OSError, http.client.HTTPException, ValueError) as error:
            raise Away(str(error) or repr(error)) from error

    def orders(self, after=""):
        """The orders that run, of the instances behind one: the broker lists a hundred at a time."""
        while True:
            status, page = self.call("GET", "?" + urllib.parse.urlencode({"after": after}))
            if status != 200:
                raise Refused(f"it answers {status} to the listing")
            yield from page["orders"]
            if len(page["orders"]) < 100:
                return
            after = page["orders"][-1]["instance_id"]

    def runs(self, order):
        """Whether an order still runs. A text without its last character precedes it in the listing."""
        wanted = order["instance_id"]
        for listed in self.orders(after=wanted[:-1]):
            if listed["instance_id"] >= wanted:
                return (listed["instance_id"], listed["seq"]) == (wanted, order["seq"])
        return False

    def report(self, order, outcome):
        """The status that a report is answered with."""
        instance = urllib.parse.quote(order["instance_id"], safe="")
        return self.call("PUT", f"/{instance}/{order['seq']}", outcome)[0]


class Service:
    """What carries out the orders. Put your own work in the place of this."""

    def lock(self, order):
        """Keeps other workers from the instance while it is held. Raises Later if another one holds it.
        What it gives is handed to `carry_out`. One worker under systemd needs none."""
        return contextlib.nullcontext()

    def carry_out(self, order, held):
        """Does the work of an order, which may have been done before, wholly or in part. Gives the
        credentials of a binding. Raises Failed if the platform's user has to change something."""
        if order["kind"] == "bind":
            return {"uri": f"example://{order['instance_id']}/{order['binding_id']}"}
        return None


def patiently(call, *given):
    """What a call of the broker gives. While the broker is away the call is made again, for a minute."""
    until = time.monotonic() + PATIENCE
    while True:
        try:
            return call(*given)
        except Away:
            if time.monotonic() > until:
                raise
        time.sleep(PAUSE)


def description(text):
    """A text as the broker takes it: no control characters, and 1,000 bytes at most."""
    plain = "".join(" " if unicodedata.category(it) == "Cc" else it for it in text)
    return plain.encode("utf-8", "replace")[:LONGEST_DESCRIPTION].decode("utf-8", "ignore")


class Backend:
    """Carries out the orders of a broker, so that one that hangs doesn't stop the others."""

    def __init__(self, broker, service, most):
        self.broker, self.service, self.most = broker, service, most
        self.ending = threading.Event()
        self.at_hand = set()  # the instances whose orders are carried out
        self.resting = {}  # the instances whose orders were left, and until when

    def outcome(self, order, held):
        try:
            credentials = self.service.carry_out(order, held)
        except Failed as why:
            return {"state": "failed", "description": description(str(why))}
        return {"state": "succeeded"} | ({} if credentials is None else {"credentials": credentials})

    def report(self, order, outcome):
        """Reports how an order ended, and says what was reported."""
        status = patiently(self.broker.report, order, outcome)
        if status == 400:
            outcome = {"state": "failed", "description": "The outcome can't be reported."}
            status = patiently(self.broker.report, order, outcome)
        if status == 409:
            return "had ended otherwise"
        if status != 200:
            raise Refused(f"the broker answers {status} to the report")
        return outcome["state"]

    def handle(self, order):
        """Locks, looks whether the order still runs, works, reports, and only then lets go. Whether
        nothing is left to do."""
        name = f"{order['instance_id']} {order['kind']} {order['seq']}"
        try:
            with self.service.lock(order) as held:
                if patiently(self.broker.runs, order):
                    ended = self.report(order, self.outcome(order, held))
                else:
                    ended = "had ended"
                log.info("%s %s", name, ended)
            return True
        except Exception as why:  # whatever it is, no other order has to suffer from it
            log.warning("%s is left for later: %s: %s", name, type(why).__name__, description(str(why)))
            return False

    def work(self, order):
        """What a thread does."""
        if not self.handle(order):
            self.resting[order["instance_id"]] = time.monotonic() + REST
        self.at_hand.discard(order["instance_id"])

    def take(self):
        """Begins the orders that are listed, as many as may be at hand."""
        for order in self.broker.orders():
            instance = order["instance_id"]
            if self.ending.is_set() or len(self.at_hand) >= self.most:
                return
            if instance in self.at_hand or self.resting.get(instance, 0) > time.monotonic():
                continue
            self.resting.pop(instance, None)
            self.at_hand.add(instance)
            threading.Thread(target=self.work, args=(order,)).start()

    def serve(self):
        """Takes orders until it is asked to end. The program ends once the threads have."""
        away = False
        while not self.ending.wait(PAUSE):
            try:
                self.take()
                away = False
            except Away as why:
                if not away:
                    log.warning("the broker is away: %s", why)
                away = True
        return 0

    def once(self):
        """Carries out what is listed now."""
        done = [not self.ending.is_set() and self.handle(order) for order in list(self.broker.orders())]
        return 0 if all(done) else 1


def words_of_calls(purpose):
    """The words of a command that calls a broker."""
    words = argparse.ArgumentParser(description=purpose)
    words.add_argument("--login", metavar="FILE", type=argparse.FileType(), help="has the line USER:PASSWORD")
    words.add_argument("url", help="where the broker listens, as http://127.0.0.1:8080")
    return words


def broker_of(words):
    """What the words say, and the broker that they name."""
    given = words.parse_args()
    login = given.login.readline().strip() if given.login else os.environ.get("BACKEND_LOGIN", "")
    if ":" not in login:
        words.error("no login: --login or BACKEND_LOGIN has to give USER:PASSWORD")
    return given, Broker(given.url, login)


def main(service_type):
    words = words_of_calls("Carries out the orders of a broker.")
    words.add_argument("--most", metavar="N", type=int, default=8, help="how many orders are at hand at once")
    words.add_argument("--once", action="store_true", help="carry out what is listed now, and end")
    given, broker = broker_of(words)
    logging.basicConfig(format="%(message)s", level=logging.INFO, stream=sys.stdout)
    backend = Backend(broker, service_type(), given.most)
    for each in (signal.SIGTERM, signal.SIGINT):
        signal.signal(each, lambda *_: backend.ending.set())
    try:
        return backend.once() if given.once else backend.serve()
    except (Away, Refused) as why:
        log.error("the broker: %s", why)
        return 1 if isinstance(why, Away) else 3


if __name__ == "__main__":
    sys.exit(main(Service))
