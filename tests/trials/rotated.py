#!/usr/bin/env python3
"""Tries a change of both passwords under load, over three starts of the program: with the old logins, with the new ones
as `also` beside them, and with the new ones.

usage: tests/trials/rotated.py PROGRAM

Platforms make instances and wait for them, and backends report their orders, all without a pause. Nobody is answered 401
who uses the old login before it goes, or the new one once it is there. A client that finds no program asks again.
"""

import base64
import http.client
import json
import os
import sys
import tempfile
import threading
import time
from functools import partial

sys.path.append(os.path.join(os.path.dirname(os.path.abspath(__file__)), "..", "lib"))

from conversations import ASYNC, LATER, SUCCEEDED, at
from serving import SETTINGS, Serving, new_database, taken, tell, wait_until

PLATFORMS, BACKENDS = 6, 2
# So many more replies each client gets before it goes on.
REPLIES = 20
# At most so long, and so long the program is at least away at each restart.
MOST_SECONDS, AWAY = 120, 0.2

CATALOG, ORDERS = "/v2/catalog", "/backend/v1/orders"
OLD = {"platform": "platform:secret", "backend": "backend:worker"}
NEW = {"platform": "platform:new secret", "backend": "other:new worker"}
# What each is answered that has the login of its door. A reply may be lost, so an order may be reported twice.
ALLOWED = {"platform": {200, 202}, "backend": {200}}


def login_of(text):
    user, _, password = text.partition(":")
    return {"user": user, "password": password}


def write(path, own, also=None):
    """Writes the settings of the example with these logins."""
    with open(SETTINGS, encoding="utf-8") as file:
        settings = json.load(file)
    for door in OLD:
        settings[door] = login_of(own[door])
        if also:
            settings[door]["also"] = login_of(also[door])
    with open(path, "w", encoding="utf-8") as file:
        json.dump(settings, file)


def call(port, login, method, target, body=None):
    """The status and the body of a reply."""
    fields = {"Authorization": "Basic " + base64.b64encode(login.encode()).decode(), "X-Broker-API-Version": "2.17"}
    client = http.client.HTTPConnection("127.0.0.1", port, timeout=30)
    try:
        client.request(method, target, body=body, headers=fields)
        response = client.getresponse()
        return response.status, response.read()
    finally:
        client.close()


class Client(threading.Thread):
    """A platform or a backend that asks until it is stopped."""

    def __init__(self, serving, door, number):
        super().__init__(daemon=True)
        self.serving, self.door, self.number = serving, door, number
        self.login = OLD[door]
        self.stopped = False
        self.statuses = []
        self.away = self.made = 0

    def ask(self, *words):
        """Asks until it is answered. The body, or none once it is stopped."""
        while not self.stopped:
            try:
                status, body = call(self.serving.port, self.login, *words)
            except (OSError, http.client.HTTPException):
                self.away += 1
                time.sleep(0.005)
                continue
            self.statuses.append(status)
            return body
        return None

    def make(self):
        """Makes an instance, and waits until its order has succeeded."""
        instance = at(f"i{self.number}-{self.made}")
        self.ask("PUT", instance + LATER, ASYNC)
        while body := self.ask("GET", f"{instance}/last_operation"):
            if json.loads(body).get("state") == "succeeded":
                self.made += 1
                break

    def report(self):
        """Reports the orders that run."""
        for order in json.loads(self.ask("GET", ORDERS) or "{}").get("orders", []):
            self.ask("PUT", f"{ORDERS}/{order['instance_id']}/{order['seq']}", SUCCEEDED)

    def run(self):
        while not self.stopped:
            if self.door == "platform":
                self.make()
            else:
                self.report()


def go_on(clients):
    """Waits until each client has some more replies."""
    wanted = [len(it.statuses) + REPLIES for it in clients]
    have_more = lambda: all(len(it.statuses) >= count for it, count in zip(clients, wanted))
    wait_until("more replies", have_more, MOST_SECONDS)


def let_in(serving, logins):
    """The statuses of these logins, each at its door."""
    return [call(serving.port, logins[door], "GET", target)[0] for door, target in (("platform", CATALOG), ("backend", ORDERS))]


def restart(serving, clients):
    """Stops it, and starts it again once each client has asked meanwhile. Whether it listens then."""
    serving.process.terminate()
    serving.process.communicate()
    before = [it.away for it in clients]
    time.sleep(AWAY)
    wait_until("all ask", lambda: all(it.away > count for it, count in zip(clients, before)), MOST_SECONDS)
    serving.start(serving.address)
    return serving.listens()


def change(clients):
    """Each client changes to its new login, one after the other."""
    for client in clients:
        client.login = NEW[client.door]
        go_on(clients)


def rotation(serving, path, clients):
    """The three starts, and who is let in."""
    go_on(clients)
    yield "the old ones at first", let_in(serving, OLD), [200, 200]
    yield "the new ones at first", let_in(serving, NEW), [401, 401]
    write(path, OLD, also=NEW)
    yield "it starts with both", restart(serving, clients), True
    yield "the old ones beside the new", let_in(serving, OLD), [200, 200]
    yield "the new ones beside the old", let_in(serving, NEW), [200, 200]
    crossed = {"platform": NEW["backend"], "backend": NEW["platform"]}
    yield "the new ones at the other door", let_in(serving, crossed), [401, 401]
    go_on(clients)
    change(clients)
    write(path, NEW)
    yield "it starts with the new ones", restart(serving, clients), True
    yield "the old ones at last", let_in(serving, OLD), [401, 401]
    yield "the new ones at last", let_in(serving, NEW), [200, 200]
    go_on(clients)


def tries(program):
    with tempfile.TemporaryDirectory() as folder:
        path = os.path.join(folder, "settings.json")
        write(path, OLD)
        with Serving(program, new_database(folder), settings=path) as serving:
            doors = ["platform"] * PLATFORMS + ["backend"] * BACKENDS
            clients = [Client(serving, door, number) for number, door in enumerate(doors)]
            for client in clients:
                client.start()
            found, error = taken(partial(rotation, serving, path, clients))
            yield from found
            yield "it runs", serving.process.poll(), None
            for client in clients:
                client.stopped = True
            for client in clients:
                client.join()
    for client in clients:
        name = f"the {client.door} {client.number}"
        yield f"{name}: other answers", set(client.statuses) - ALLOWED[client.door], set()
        if not error:
            yield f"{name}: asked while it was away", client.away > 0, True
    if error:
        raise error
    yield "instances of each platform", min(it.made for it in clients if it.door == "platform") > 0, True


if __name__ == "__main__":
    sys.exit(tell("rotated", tries(os.path.abspath(sys.argv[1]))))
