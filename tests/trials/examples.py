#!/usr/bin/env python3
"""Tries the frame of examples/backend.py, with a service that has trouble, and examples/watch.py.

usage: tests/trials/examples.py PROGRAM
"""

import json
import os
import subprocess
import sys
import tempfile
import time

sys.path.append(os.path.join(os.path.dirname(os.path.abspath(__file__)), "..", "lib"))

from conversations import ASYNC, BIND, LATER, at, replies, request
from serving import EXAMPLES, ROOT, Serving, in_time, new_database, tell, wait_until

sys.path.insert(0, EXAMPLES)

import backend

TROUBLE = os.path.join(ROOT, "tests", "trials", "trouble.py")
WATCH = os.path.join(EXAMPLES, "watch.py")
LOGIN = "backend:worker"
# For how long something is waited for that comes at once.
SECONDS = 30
MOST = 3
RUNS, SUCCEEDED = {"state": "in progress"}, {"state": "succeeded"}


def environment(**more):
    return {**os.environ, "BACKEND_LOGIN": LOGIN, **more}


def ran_whole(*words, **more):
    """The status of a command, what it prints, and its lines on standard error."""
    ended = subprocess.run([sys.executable, *words], env=environment(**more), capture_output=True, text=True, timeout=60)
    return ended.returncode, ended.stdout, ended.stderr


def ran(*words, **more):
    """The status of a command, and what it prints."""
    return ran_whole(*words, **more)[:2]


def asks(serving, method, target, body=""):
    [(status, text)] = replies(serving.sends(request(method, target, body)))
    return status, json.loads(text)


def creates(serving, *instances):
    for each in instances:
        asks(serving, "PUT", at(each) + LATER, ASYNC)


def last_of(serving, instance, rest=""):
    """How the last order is."""
    return asks(serving, "GET", at(instance) + rest + "/last_operation")[1]


def ended(serving, instance, rest=""):
    """How the last order is once it has ended."""
    wait_until(f"the end of the order of {instance}{rest}", lambda: last_of(serving, instance, rest) != RUNS, SECONDS)
    return last_of(serving, instance, rest)


def have_succeeded(serving, *instances):
    """Whether the last orders of these succeed."""
    return [ended(serving, it) for it in instances] == [SUCCEEDED] * len(instances)


class Working:
    """The backend, until it is left. What it prints is in a file."""

    def __init__(self, serving, folder):
        self.said = os.path.join(tempfile.mkdtemp(dir=folder), "said")
        self.go = self.said + ".go"
        with open(self.said, "w") as said:
            words = [sys.executable, TROUBLE, "--most", str(MOST), f"http://{serving.address}"]
            self.process = subprocess.Popen(words, env=environment(GO=self.go), stdout=said, stderr=said)

    def __enter__(self):
        return self

    def __exit__(self, *_):
        self.process.kill()
        self.process.wait()

    def lines(self):
        with open(self.said, encoding="utf-8") as said:
            return said.read().splitlines()


def try_broker_away(serving, working):
    """The broker isn't there as the backend begins, and goes away later."""
    away = "the broker is away: <urlopen error [Errno 111] Connection refused>"
    for times, name in enumerate(("a", "b"), start=1):
        serving.kill()
        wait_until("the line of a broker that is away", lambda: working.lines().count(away) >= times, SECONDS)
        yield f"the broker is away, {name}", working.lines().count(away), times
        serving.start(serving.address)
        yield f"the broker starts, {name}", serving.listens(), True
        creates(serving, name)
        yield f"an order behind that, {name}", have_succeeded(serving, name), True


def try_trouble(serving, working):
    """Orders that fail, that can't be reported, that raise, and that hang, beside others."""
    creates(serving, "hangs-1", "hangs-2", "raises", "fails", "half", *(f"well-{it}" for it in range(5)))
    yield "beside orders that hang", have_succeeded(serving, "half", *(f"well-{it}" for it in range(5))), True
    yield "an order that raises", have_succeeded(serving, "raises"), True
    left = "raises create 1 is left for later: OSError: the service is away"
    yield "what is said of it", working.lines().count(left), 2
    no_room = {"state": "failed", "description": "no host has room " + "ü" * 491}
    yield "an order that fails", ended(serving, "fails"), no_room
    place = "/service_bindings/b"
    asks(serving, "PUT", at("half") + place + LATER, BIND)
    unreported = {"state": "failed", "description": "The outcome can't be reported."}
    yield "credentials that aren't taken", ended(serving, "half", place), unreported
    yield "orders that hang", [last_of(serving, it) for it in ("hangs-1", "hangs-2")], [RUNS] * 2


def try_its_end(serving, working):
    """It is asked to end while all that may be at hand hangs."""
    creates(serving, "hangs-3")
    time.sleep(1)
    creates(serving, "well-more")
    working.process.terminate()
    time.sleep(1)
    yield "it waits for what is at hand", working.process.poll(), None
    open(working.go, "x").close()
    yield "it ends", working.process.wait(SECONDS), 0
    yield "what was at hand", have_succeeded(serving, "hangs-1", "hangs-2", "hangs-3"), True
    yield "what wasn't", last_of(serving, "well-more"), RUNS


def try_statuses(serving, folder):
    """Of the backend that carries out what is listed, and ends."""
    url = f"http://{serving.address}"
    once = [TROUBLE, "--once"]
    yield "once", ran(*once, url), (0, "well-more create 1 succeeded\n")
    yield "once, and nothing is listed", ran(*once, url), (0, "")
    creates(serving, "raises-2")
    left = "raises-2 create 1 is left for later: OSError: the service is away\n"
    yield "once, and something is left", ran(*once, url), (1, left)
    yield "no login", ran(*once, url, BACKEND_LOGIN=""), (2, "")
    yield "no such file", ran(*once, "--login", os.path.join(folder, "none"), url), (2, "")
    yield "another login", ran(*once, url, BACKEND_LOGIN="backend:other"), (3, "the broker: it answers 401 to the listing\n")
    login = os.path.join(folder, "login")
    with open(login, "w") as file:
        file.write("backend:other\n")
    yield "that of a file", ran(TROUBLE, "--login", login, url)[0], 3
    yield "another door", ran(*once, url + "/v2")[0], 3


def try_reports(serving):
    """The second report of an order that has ended, and a report of another one."""
    broker = backend.Broker(f"http://{serving.address}", LOGIN)
    order = {"instance_id": "a", "seq": 1}
    yield "an order that has ended", broker.runs(order), False
    frame = backend.Backend(broker, backend.Service(), MOST)
    yield "the same report", frame.report(order, {"state": "succeeded"}), "succeeded"
    yield "another one", frame.report(order, {"state": "failed"}), "had ended otherwise"


def try_pages(serving):
    """An order is found in a listing of several pages, whose ids differ by their last character."""
    instances = [f"z{chr(0x4E00 + number)}" for number in range(120)]
    broker = backend.Broker(f"http://{serving.address}", LOGIN)
    creates(serving, "z", "y", *map(backend.urllib.parse.quote, instances))
    yield "the listing", [it["instance_id"] for it in broker.orders(after="yz")], ["z", *instances]
    for each in ("y", "z", instances[0], instances[-1]):
        found = [broker.runs({"instance_id": each, "seq": number}) for number in (1, 2)]
        yield f"an order of {each} runs", found, [True, False]
    yield "an instance that isn't there", broker.runs({"instance_id": "z~", "seq": 1}), False


def metrics(running, oldest):
    lines = ["# HELP osb_broker_up Whether the broker answered.", "# TYPE osb_broker_up gauge", "osb_broker_up 1"]
    lines += ["# HELP osb_orders_running Orders that run.", "# TYPE osb_orders_running gauge", *running]
    lines += ["# HELP osb_order_oldest_seconds The age of the oldest of them."]
    return "".join(it + "\n" for it in [*lines, "# TYPE osb_order_oldest_seconds gauge", *oldest])


def try_watch(program, folder):
    seen = os.path.join(folder, "seen")
    labels = '{plan="p-async",kind="create"}'
    with Serving(program, new_database(folder)) as serving:
        words = [WATCH, "--seen", seen, f"http://{serving.address}"]
        yield "no order", ran(*words), (0, metrics([], []))
        creates(serving, "a", "b")
        status, text = ran(*words)
        yield "two orders", (status, f"osb_orders_running{labels} 2\n" in text), (0, True)
        with open(seen, encoding="utf-8") as file:
            first = json.load(file)
        with open(seen, "w", encoding="utf-8") as file:
            json.dump({it: at - (600 if it == "1 b" else 0) for it, at in first.items()}, file)
        status, text = ran(*words, "--longest", "500")
        age = int(text.rpartition(" ")[2])
        yield "one is old", status, 1
        yield "its age", *in_time(age, 700, 600)
        yield "the others' lines", text, metrics([f"osb_orders_running{labels} 2"], [f"osb_order_oldest_seconds{labels} {age}"])
        yield "it isn't too old", ran(*words, "--longest", "3600")[0], 0
        asks(serving, "PUT", "/backend/v1/orders/b/1", '{"state":"succeeded"}')
        yield "it has ended", ran(*words, "--longest", "500")[0], 0
        with open(seen, encoding="utf-8") as file:
            yield "what is kept", json.load(file), {"1 a": first["1 a"]}
        with open(seen, "w", encoding="utf-8") as file:
            file.write('["1 a"]')
        yield "a file of something else", ran(*words)[0], 0
        for name in (os.path.join(folder, "none", "seen"), folder):
            status, text, errors = ran_whole(WATCH, "--seen", name, words[-1])
            running = metrics([f"osb_orders_running{labels} 1"], []).partition("# HELP osb_order_oldest")[0]
            yield f"no file can be made: {os.path.basename(name)}", (status, text), (2, running)
            yield "its line", (errors.count("\n"), errors.startswith("watch: the file of --seen: ")), (1, True)
    up = "# HELP osb_broker_up Whether the broker answered.\n# TYPE osb_broker_up gauge\nosb_broker_up 0\n"
    yield "the broker is away", ran(*words), (3, up)


def tries(program):
    with tempfile.TemporaryDirectory() as folder:
        with Serving(program, new_database(folder)) as serving:
            with Working(serving, folder) as working:
                yield from try_broker_away(serving, working)
                yield from try_trouble(serving, working)
                yield from try_its_end(serving, working)
            yield from try_statuses(serving, folder)
            yield from try_reports(serving)
            yield from try_pages(serving)
        yield from try_watch(program, folder)


if __name__ == "__main__":
    sys.exit(tell("examples", tries(os.path.abspath(sys.argv[1]))))
