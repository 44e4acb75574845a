#!/usr/bin/env python3
"""Makes a conversation with the program by clients that nobody here wrote: curl, Python's http.client, Go's net/http
and node's fetch. Each is answered alike.

usage: tests/trials/foreign.py PROGRAM

Where there is no Go or no node it says that it passed that over.
"""

import http.client
import json
import os
import shutil
import subprocess
import sys
import tempfile

sys.path.append(os.path.join(os.path.dirname(os.path.abspath(__file__)), "..", "lib"))

from conversations import ASYNC_BINDING, FAILED_CREATE, POLL_AND_REPORT, PUT_TWICE, request
from serving import ROOT, Serving, new_database, passed_over, tell

# For how long a client is waited for, on a machine that is busy.
SECONDS = 300

CONVERSATIONS = {"put_twice": PUT_TWICE, "poll_and_report": POLL_AND_REPORT, "failed_create": FAILED_CREATE, "async_binding": ASYNC_BINDING}


def fields_of(method, target, body):
    """The field lines that a request of the conversation has, but those that a client writes itself."""
    lines = request(method, target, body).decode().partition("\r\n\r\n")[0].split("\r\n")[1:]
    fields = dict(line.split(": ", 1) for line in lines)
    return {name: value for name, value in fields.items() if name not in ("Host", "Content-Length")}


def by_curl(address, asked):
    found = []
    for it in asked:
        fields = [word for name, value in it["fields"].items() for word in ("-H", f"{name}: {value}")]
        body = ["--data-binary", it["body"]] if it["body"] else []
        words = ["curl", "-s", "-X", it["method"], *fields, *body, "-w", "\n%{http_code}", f"http://{address}{it['target']}"]
        text, _, status = subprocess.run(words, capture_output=True, text=True, timeout=SECONDS).stdout.rpartition("\n")
        found.append(f"{status} {text}")
    return found


def by_python(address, asked):
    found = []
    for it in asked:
        client = http.client.HTTPConnection(address, timeout=SECONDS)
        client.request(it["method"], it["target"], it["body"] or None, it["fields"])
        reply = client.getresponse()
        found.append(f"{reply.status} {reply.read().decode()}")
    return found


def by_words(words):
    """A client that is a program: it has the requests on standard input, and writes a line for each reply."""

    def client(address, asked):
        lines = "".join(json.dumps(it) + "\n" for it in asked)
        ran = subprocess.run([*words, f"http://{address}"], input=lines, capture_output=True, text=True, timeout=SECONDS)
        return ran.stdout.splitlines() or ran.stderr

    return client


def clients(folder):
    """Each client that is there."""
    yield "curl", by_curl
    yield "http.client", by_python
    if shutil.which("node"):
        yield "node", by_words(["node", os.path.join(ROOT, "tests", "trials", "foreign.mjs")])
    if shutil.which("go"):
        built = os.path.join(folder, "foreign")
        own = {"GOCACHE": os.path.join(folder, "cache"), "GOPATH": os.path.join(folder, "go"), "GO111MODULE": "off"}
        subprocess.run(["go", "build", "-o", built, os.path.join(ROOT, "tests", "trials", "foreign.go")], env={**os.environ, **own}, check=True)
        yield "go", by_words([built])


def tries(program, folder):
    for client, answers in clients(folder):
        for name, conversation in CONVERSATIONS.items():
            asked = [{"method": m, "target": t, "body": b, "fields": fields_of(m, t, b)} for m, t, b, _, _ in conversation]
            with Serving(program, new_database(folder)) as serving:
                yield f"{name} by {client}", answers(serving.address, asked), [f"{it[3]} {it[4]}" for it in conversation]


def main():
    for name in ("node", "go"):
        if not shutil.which(name):
            passed_over("foreign", f"a client of {name}", name)
    with tempfile.TemporaryDirectory() as folder:
        return tell("foreign", tries(os.path.abspath(sys.argv[1]), folder))


if __name__ == "__main__":
    sys.exit(main())
