"""Two kinds of platform that ask for an instance and its bindings, over connections that break."""

import itertools
import json
import random
import time
from collections import Counter
from urllib.parse import urlencode

from conversations import CLOSE, replies, request
from serving import read_to_end

SERVICE = "postgresql"
SMALL, LARGE = "postgresql-small", "postgresql-large"
# What becomes of a connection, in how many of a hundred: it is whole; it is cut behind the request, or inside it; or the
# reply is read late, or too late.
WHOLE, CUT, HALF, LATE = "whole", "cut", "half", "late"
FATES = {WHOLE: 86, CUT: 5, HALF: 4, LATE: 5}
# In seconds: between two requests, for how long a reply may be late, and how long a platform waits for one.
PAUSE, LATEST, PATIENCE = 0.4, 4, 3
# So long after it lost a reply a platform deletes what it asked for. Until then HAProxy may still pass the request on.
BEFORE_MITIGATION = 5


class Platform:
    """A platform with one instance and some bindings. It asks one thing after the other. Its connections break until
    the moment `calm`, and at the moment `until` it gives up."""

    calm = until = 0

    def __init__(self, proxy, name, connections):
        self.proxy, self.name, self.connections = proxy, name, connections
        self.chance = random.Random(name)
        self.numbers, self.requests = itertools.count(1), itertools.count(1)
        self.fates = Counter()
        self.plan = self.instance = None
        self.bindings = []

    def asks(self, method, target, body=None):
        """The status and the object of a reply; none where no usable one was heard. Each request has an identity of its
        own, and each body its members in another order."""
        if time.monotonic() > self.until:
            raise TimeoutError(f"not in time: {method} {target}")
        time.sleep(PAUSE)
        identity = f"X-Broker-API-Request-Identity: {self.name}-{next(self.requests)}\r\n"
        sent = request(method, target, json.dumps(self.in_any_order(body)) if body else "", identity + CLOSE)
        [fate] = self.chance.choices(list(FATES), FATES.values()) if time.monotonic() < self.calm else [WHOLE]
        self.fates[fate] += 1
        try:
            [(status, text)] = replies(self.hears(sent, fate))
            return (status, json.loads(text)) if status < 500 else None
        except (OSError, ValueError):
            return None

    def in_any_order(self, value):
        """The same value, with the members of its objects in another order."""
        if not isinstance(value, dict):
            return value
        names = self.chance.sample(list(value), len(value))
        return {name: self.in_any_order(value[name]) for name in names}

    def hears(self, sent, fate):
        with self.proxy.connection() as client:
            client.settimeout(PATIENCE)
            client.sendall(sent[: len(sent) // 2] if fate == HALF else sent)
            if fate in (CUT, HALF):
                return b""
            if fate == LATE:
                late = self.chance.uniform(0, LATEST)
                time.sleep(min(late, PATIENCE))
                if late > PATIENCE:
                    return b""
            return read_to_end(client)

    def ends(self, target, answer):
        """How an operation ended: its state, or `gone`."""
        while True:
            reply = self.asks("GET", f"{target}/last_operation?{urlencode(answer)}")
            if reply and reply[0] == 410:
                return "gone"
            if reply and reply[1]["state"] != "in progress":
                return reply[1]["state"]

    def makes(self, collection, body):
        """Makes an instance or a binding, and gives its target."""
        target = None
        while True:
            target = target or f"{collection}/{self.name}-{next(self.numbers)}"
            reply = self.asks("PUT", target + "?accepts_incomplete=true", {"service_id": SERVICE, "plan_id": self.plan, **body})
            if reply is None:
                target = self.lost(target)
            elif reply[0] in (200, 201) or reply[0] == 202 and self.ends(target, reply[1]) == "succeeded":
                return target
            elif reply[0] != 422:
                raise RuntimeError(f"{target}: {reply}")

    def may_repeat(self, target, reply):
        """An update or a deletion is asked for again behind no reply, an order that failed, or one that runs."""
        if reply and reply[0] not in (202, 422):
            raise RuntimeError(f"{target}: {reply}")

    def lost(self, target):
        """What is asked for after no reply to a creation was heard; none is another one."""
        raise NotImplementedError

    def updates(self, plan, body):
        while True:
            asked = {"service_id": SERVICE, "plan_id": plan, **body}
            reply = self.asks("PATCH", self.instance + "?accepts_incomplete=true", asked)
            if reply and (reply[0] == 200 or reply[0] == 202 and self.ends(self.instance, reply[1]) == "succeeded"):
                self.plan = plan
                return
            self.may_repeat(self.instance, reply)

    def removes(self, target):
        """Deletes an instance or a binding until it is gone."""
        asked = urlencode({"service_id": SERVICE, "plan_id": self.plan, "accepts_incomplete": "true"})
        while True:
            reply = self.asks("DELETE", f"{target}?{asked}")
            if reply and (reply[0] in (200, 410) or reply[0] == 202 and self.ends(target, reply[1]) == "gone"):
                return
            self.may_repeat(target, reply)

    def makes_all(self, bindings):
        self.plan = SMALL
        body = {"organization_guid": "org", "space_guid": "space"}
        self.instance = self.makes("/v2/service_instances", body)
        self.updates(LARGE, {"parameters": {"connections": self.connections}})
        for number in range(bindings):
            self.bindings.append(self.makes(f"{self.instance}/service_bindings", {"app_guid": f"app-{number}"}))

    def removes_some(self, whole):
        """Removes a binding; or all of them, and then the instance."""
        while self.bindings:
            self.removes(self.bindings.pop())
            if not whole:
                return
        self.removes(self.instance)
        self.instance = None


class Mitigates(Platform):
    """One as Cloud Foundry's: what it got no reply to is deleted, and asked for anew under another id."""

    def lost(self, target):
        time.sleep(BEFORE_MITIGATION)
        self.removes(target)


class Repeats(Platform):
    """One as Kubernetes service-catalog: what it got no reply to is asked for again."""

    def lost(self, target):
        return target
