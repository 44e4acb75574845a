#!/usr/bin/env python3
"""Tries the built program's `serve` over loopback: with sockets, Python's http.client, curl and the
example backend.

usage: tests/trials/served.py PROGRAM
"""

import base64
import http.client
import json
import os
import subprocess
import sys
import tempfile
from resource import RLIMIT_AS, RLIMIT_NOFILE, RLIMIT_STACK, getrlimit, setrlimit

sys.path.append(os.path.join(os.path.dirname(os.path.abspath(__file__)), "..", "lib"))

from conversations import ASYNC, B, BIND, CATALOG_REPLY, CONTEXT_UPDATED, CONVERSATIONS, GET_CATALOG, I, LATER, LEAVE
from conversations import REFUSED_REPLY, SYNC, reply, request, with_parameters
from serving import BEGUN_LINE, EXAMPLES, SETTINGS, Serving, new_database, settings_with_contexts, tell

PLATFORM = {
    "X-Broker-API-Version": "2.17",
    "Authorization": "Basic " + base64.b64encode(b"platform:secret").decode(),
}


class Served(Serving):
    """The program, serving a number of connections over a new database."""

    def __init__(self, program, folder, connections, *more, settings=SETTINGS):
        database = new_database(folder)
        super().__init__(program, database, "--connections", str(connections), *more, settings=settings)

    def is_done(self):
        """Whether it ended by itself, silent but for the lines of a start that begins a database."""
        return self.ended() == (0, f"listening on {self.address}\n".encode(), BEGUN_LINE)

    def call(self, method, target, body=None):
        """The status and the object of a reply, by http.client."""
        client = http.client.HTTPConnection("127.0.0.1", self.port, timeout=30)
        client.request(method, target, body=body, headers=PLATFORM)
        reply = client.getresponse()
        text = reply.read()
        client.close()
        return reply.status, json.loads(text)

    def curl(self, method, target, body):
        """The same by curl."""
        fields = [part for name, value in PLATFORM.items() for part in ("-H", f"{name}: {value}")]
        ended = subprocess.run(
            ["curl", "-s", "-X", method, "-d", body, "-w", "\n%{http_code}", *fields]
            + [f"http://{self.address}{target}"],
            capture_output=True,
            timeout=60,
        )
        text, _, status = ended.stdout.rpartition(b"\n")
        return int(status or 0), json.loads(text or b"null")

    def backend(self):
        """What the example backend says that it did."""
        ended = subprocess.run(
            [sys.executable, os.path.join(EXAMPLES, "backend.py"), "--once", f"http://{self.address}"],
            env={**os.environ, "BACKEND_LOGIN": "backend:worker"},
            capture_output=True,
            timeout=60,
        )
        return ended.stdout.decode().strip()


def whole_life(served):
    """The calls of a life of an instance and a binding, with what each gives and should give."""
    yield served.call("GET", "/v2/catalog")[0], 200
    yield served.curl("PUT", I + LATER, ASYNC), (202, {"operation": "create-1"})
    yield served.call("GET", I + "/last_operation"), (200, {"state": "in progress"})
    yield served.backend(), "i create 1 succeeded"
    yield served.call("GET", I + "/last_operation"), (200, {"state": "succeeded"})
    yield served.call("PUT", B + LATER, BIND), (202, {"operation": "bind-2"})
    yield served.backend(), "i bind 2 succeeded"
    found = {"credentials": {"uri": "example://i/b"}, "parameters": {}}
    yield served.call("GET", B), (200, found)
    yield served.call("DELETE", B + LEAVE), (202, {"operation": "unbind-3"})
    yield served.backend(), "i unbind 3 succeeded"
    yield served.call("DELETE", I + LEAVE), (202, {"operation": "delete-4"})
    yield served.backend(), "i delete 4 succeeded"
    yield served.call("GET", I + "/last_operation"), (410, {})


# Nine calls of its own, and four backends that list, look whether their order runs, and report.
CONNECTIONS_OF_A_LIFE = 9 + 4 * 3


def try_life(program, folder):
    with Served(program, folder, CONNECTIONS_OF_A_LIFE) as served:
        for found, expected in whole_life(served):
            yield "a life", found, expected
        yield "a life ends", served.is_done(), True


BACKEND = {"Authorization": "Basic " + base64.b64encode(b"backend:worker").decode()}

# The statuses that the API has for each call (OSB API 2.17), and what any call may be answered that
# isn't one: 400, 401, 404, 412.
FAULTS = {400, 401, 404, 412}
ALLOWED = {
    ("GET", "instance"): {200, 404, 422},
    ("PUT", "instance"): {200, 201, 202, 400, 409, 422},
    ("PATCH", "instance"): {200, 202, 400, 422},
    ("DELETE", "instance"): {200, 202, 400, 410, 422},
    ("GET", "instance operation"): {200, 400, 404, 410},
    ("GET", "binding"): {200, 404},
    ("PUT", "binding"): {200, 201, 202, 400, 409, 422},
    ("DELETE", "binding"): {200, 202, 400, 410, 422},
    ("GET", "binding operation"): {200, 400, 404, 410},
    ("GET", "catalog"): {200},
}

# What a body has to have, by its status and its call.
MEMBERS = {
    (202, "instance"): {"operation"},
    (202, "binding"): {"operation"},
    (200, "instance operation"): {"state"},
    (200, "binding operation"): {"state"},
    (201, "binding"): {"credentials"},
    (200, "catalog"): {"services"},
}

STATES = {"in progress", "succeeded", "failed"}


def resource(target):
    """What a target of the platform is about."""
    path = target.partition("?")[0]
    parts = path.split("/")[2:]
    if path.startswith("/backend/"):
        return "backend"
    if parts == ["catalog"]:
        return "catalog"
    kind = "binding" if "service_bindings" in parts else "instance"
    return kind + (" operation" if parts[-1] == "last_operation" else "")


def against_the_api(method, target, response, text):
    """What is wrong with a reply by the rules of the API and of HTTP."""
    wrong = []
    about = resource(target)
    body = json.loads(text)
    if not isinstance(body, dict):
        wrong.append("the body is no object")
    if response.getheader("Content-Length") != str(len(text)):
        wrong.append("the length is another")
    if response.getheader("Content-Type") != "application/json":
        wrong.append("the body isn't told as JSON")
    if about != "backend" and response.status not in ALLOWED[method, about] | FAULTS:
        wrong.append(f"the status {response.status}")
    if missing := MEMBERS.get((response.status, about), set()) - body.keys():
        wrong.append(f"no {missing}")
    if body.get("state", "failed") not in STATES:
        wrong.append("another state")
    if response.status == 422 and not isinstance(body.get("description"), str):
        wrong.append("no description")
    return wrong


def converse(served, conversation):
    """A conversation over one connection, by http.client."""
    client = http.client.HTTPConnection("127.0.0.1", served.port, timeout=30)
    for method, target, body, status, text in conversation:
        fields = BACKEND if target.startswith("/backend/") else PLATFORM
        client.request(method, target, body=body or None, headers=fields)
        response = client.getresponse()
        found = response.read()
        yield target, (response.status, found.decode()), (status, text)
        yield target, against_the_api(method, target, response, found), []
    client.close()


def try_conversations(program, folder):
    for name, conversation in CONVERSATIONS.items():
        asked = [("GET", "/v2/catalog"), ("GET", I + "/last_operation?operation=none")]
        with Served(program, folder, 1 + len(asked), "--per-connection", "1000") as served:
            for target, found, expected in converse(served, conversation):
                yield f"{name}: {target}", found, expected
            for method, target in asked:
                client = http.client.HTTPConnection("127.0.0.1", served.port, timeout=30)
                client.request(method, target, headers=PLATFORM)
                response = client.getresponse()
                yield target, against_the_api(method, target, response, response.read()), []
                client.close()
            yield f"{name} ends", served.is_done(), True


def try_contexts(program, folder):
    """Over settings that allow contexts to be updated."""
    settings = settings_with_contexts(folder)
    with Served(program, folder, 1, "--per-connection", "1000", settings=settings) as served:
        for target, found, expected in converse(served, CONTEXT_UPDATED):
            yield f"context updated: {target}", found, expected
        yield "context updated ends", served.is_done(), True


def try_sockets(program, folder):
    with Served(program, folder, 2, "--per-connection", "2") as served:
        both = reply(201, "{}", closes=False) + reply(200, "{}")
        yield "put twice", served.sends(request("PUT", I, SYNC) * 2), both
        # No order is gone with a connection.
        yield "put again", served.call("PUT", I, SYNC)[0], 200
        yield "sockets end", served.is_done(), True


def try_words(program, folder):
    def ended(*words):
        run = subprocess.run([program, "serve", *words], capture_output=True, timeout=60)
        return run.returncode, run.stdout, run.stderr

    yield "no words", ended()[0], 2
    files = ["--settings", SETTINGS, "--database", new_database(folder)]
    listen = ["--listen", "127.0.0.1:0"]
    begun = ended(*files, "--listen", "nowhere")
    yield "a database is begun", begun, (1, b"", BEGUN_LINE + b"osb-broker: cannot listen on nowhere\n")
    for address in ["nowhere", "127.0.0.1", "localhost:80", "192.0.2.1:80"]:
        line = f"osb-broker: cannot listen on {address}\n".encode()
        yield "an address", ended(*files, "--listen", address), (1, b"", line)
    for number in ["0", "1000001", "x"]:
        yield "connections", ended(*files, *listen, "--connections", number)[0], 2
    for seconds in ["0", "86401", "-1", "1.5", "x", ""]:
        yield f"a time limit of {seconds}", ended(*files, *listen, "--time-limit", seconds)[0], 2
    for seconds in ["1", "86400"]:
        limited = ended(*files, "--listen", "nowhere", "--time-limit", seconds)
        yield f"a time limit of {seconds}", limited, (1, b"", b"osb-broker: cannot listen on nowhere\n")
    for number in ["0", "1025", "-1", "x", ""]:
        yield f"{number} together", ended(*files, *listen, "--together", number)[0], 2
    for words in [["--together", "64"], ["--together", "1024", "--per-connection", "1000", "--idle-limit", "86400"]]:
        found = ended(*files, "--listen", "nowhere", *words)
        yield f"{words}", found, (1, b"", b"osb-broker: cannot listen on nowhere\n")
    yield "no database", ended("--settings", SETTINGS, *listen)[0], 2
    yield "no settings", ended("--database", new_database(folder), *listen)[0], 2
    missing = ended("--settings", "no/such/file", *files[2:], *listen)
    yield "settings", missing, (1, b"", b"osb-broker: cannot read no/such/file\n")


# The deepest body that is read.
DEEPEST = with_parameters(SYNC, '{"a":' * 125 + "{}" + "}" * 125)


def size_of(serving, name):
    """A number of kilobytes that the system has of the process."""
    with open(f"/proc/{serving.process.pid}/status", encoding="utf-8") as status:
        return next(int(line.split()[1]) for line in status if line.startswith(f"{name}:"))


def limited(program, folder, limit, kilobytes):
    """The program with a limit of the system."""
    bytes_each = (kilobytes * 1024,) * 2
    return Serving(program, new_database(folder), preexec_fn=lambda: setrlimit(limit, bytes_each))


def try_stack(program, folder):
    """The deepest request takes no more of the stack than the start. Where the system hasn't that much, it is the start
    that is refused."""
    with Serving(program, new_database(folder)) as serving:
        stack, size = size_of(serving, "VmStk"), size_of(serving, "VmPeak")
        yield "the deepest request", serving.sends(request("PUT", I, DEEPEST)), reply(201, "{}")
        yield "its stack", size_of(serving, "VmStk"), stack
    for kilobytes in (128, 256, 384, 511):
        serving = limited(program, folder, RLIMIT_STACK, kilobytes)
        ended = False if serving.listens() else serving.ended()
        serving.kill()
        yield f"a stack of {kilobytes} kB", ended, (1, b"", b"osb-broker: out of memory\n")
    with limited(program, folder, RLIMIT_STACK, 512) as serving:
        yield "a stack of 512 kB", serving.sends(request("PUT", I, DEEPEST)), reply(201, "{}")
    for kilobytes in range(size - 800, size + 400, 40):
        serving = limited(program, folder, RLIMIT_AS, kilobytes)
        if serving.listens():
            found = serving.sends(request("PUT", I, DEEPEST))
            yield f"{kilobytes} kB in all", found in (reply(201, "{}"), REFUSED_REPLY, b""), True
            yield f"{kilobytes} kB in all: it goes on", serving.process.poll(), None
        serving.kill()


def try_descriptors(program, folder):
    """Who asks for more clients than there are descriptors for is told so, before anything is opened."""
    _, hard = getrlimit(RLIMIT_NOFILE)
    for number, most in [("1024", 128), ("1024", 1032), ("64", 72), ("1", 9)]:
        path = new_database(folder)
        serving = Serving(program, path, "--together", number, preexec_fn=lambda most=most: setrlimit(RLIMIT_NOFILE, (most, hard)))
        line = f"osb-broker: too few descriptors: {int(number) + 9} needed, {most} allowed\n".encode()
        yield f"{number} clients with {most} descriptors", serving.ended(), (1, b"", line)
        yield f"{number} clients with {most} descriptors: the database", os.path.exists(path), False
    for words, most in [(["--together", "1024"], 1033), (["--together", "64"], 73), ([], 64)]:
        with Serving(program, new_database(folder), *words, preexec_fn=lambda most=most: setrlimit(RLIMIT_NOFILE, (most, hard))) as serving:
            yield f"{words} with {most} descriptors", serving.sends(GET_CATALOG), CATALOG_REPLY


def tries(program):
    with tempfile.TemporaryDirectory() as folder:
        for trial in (try_life, try_conversations, try_contexts, try_sockets, try_words, try_stack, try_descriptors):
            yield from trial(program, folder)


if __name__ == "__main__":
    sys.exit(tell("served", tries(os.path.abspath(sys.argv[1]))))
