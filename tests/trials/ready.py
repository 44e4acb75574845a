#!/usr/bin/env python3
"""Tries `ready` of the built program: who answers as the program does, who doesn't, and a process that is gone.

usage: tests/trials/ready.py PROGRAM
"""

import contextlib
import os
import socket
import subprocess
import sys
import tempfile
import threading
import time

sys.path.append(os.path.join(os.path.dirname(os.path.abspath(__file__)), "..", "lib"))

from conversations import CATALOG_REPLY, CLOSE, reply, request
from serving import BEGUN_LINE, Serving, free_address, in_time, new_database, tell

# What the program answers to `GET /`.
ANSWER = reply(404, "{}")
ASKS = request("GET", "/v2/catalog", lines=CLOSE)
# Who takes so long for an answer has waited for another try.
SOON = 5


def begun(program, *words):
    return subprocess.Popen([program, "ready", *words], stdout=subprocess.PIPE, stderr=subprocess.PIPE)


def ended(process):
    """The status that it ends with, and what it wrote."""
    output, errors = process.communicate(timeout=60)
    return process.returncode, output, errors


def asked(program, *words):
    """How it ends, and after how many seconds."""
    start = time.monotonic()
    return ended(begun(program, *words)), time.monotonic() - start


def not_ready(address):
    return 1, b"", f"osb-broker: not ready {address}\n".encode()


READY = (0, b"", b"")


def try_serving(program, folder):
    """It ends at once over each way to serve, and leaves no line."""
    for more in ([], ["--together", "1"], ["--per-connection", "2"]):
        with Serving(program, new_database(folder), *more) as serving:
            for words in ([], ["--within", "1"], ["--pid", str(serving.process.pid)]):
                found, seconds = asked(program, serving.address, *words)
                yield f"serving {more} {words}", found, READY
                yield f"serving {more} {words}: the time", *in_time(seconds, SOON)
            yield f"serving {more}: any address", ended(begun(program, f"0.0.0.0:{serving.port}")), READY
            yield f"serving {more}: another answer", serving.sends(ASKS), CATALOG_REPLY
        yield f"serving {more}: its lines", serving.errors, BEGUN_LINE


def try_waiting(program, folder):
    """It waits for a start."""
    serving = Serving(program, new_database(folder))
    serving.kill()
    waiting = begun(program, serving.address, "--within", "60")
    time.sleep(0.5)
    yield "it waits", waiting.poll(), None
    serving.start(serving.address)
    yield "once it is started", ended(waiting), READY
    serving.kill()


class Listener:
    """Another program that listens, and sends each client these pieces, a tenth of a second apart."""

    def __init__(self, *pieces, closes=True):
        self.pieces, self.closes = pieces, closes
        self.socket = socket.create_server(("127.0.0.1", 0))
        self.address = f"127.0.0.1:{self.socket.getsockname()[1]}"
        self.asked, self.kept = [], []
        threading.Thread(target=self.serve, daemon=True).start()

    def serve(self):
        with contextlib.suppress(OSError):
            while True:
                client, _ = self.socket.accept()
                threading.Thread(target=self.answer, args=(client,), daemon=True).start()

    def answer(self, client):
        with contextlib.suppress(OSError):
            self.asked.append(client.recv(1000))
            for piece in self.pieces:
                client.sendall(piece)
                time.sleep(0.1)
        self.kept.append(client)
        if self.closes:
            client.close()

    def __enter__(self):
        return self

    def __exit__(self, *_):
        self.socket.close()


OTHERS = [
    ("an end at once", []),
    ("another status", [ANSWER.replace(b"404 Not Found", b"200 OK")]),
    ("another body", [ANSWER[:-2] + b"[]"]),
    ("a byte less", [ANSWER[:-1]]),
    ("a byte more", [ANSWER + b"\n"]),
    ("another kept open", [ANSWER.replace(b"Connection: close\r\n", b"")]),
    ("many bytes", [ANSWER * 100]),
]


def try_others(program):
    """Nobody else is taken for it, and none can hold it."""
    free = free_address()
    found, seconds = asked(program, free, "--within", "1")
    yield "nobody listens", found, not_ready(free)
    yield "nobody listens: the time", *in_time(seconds, 1 + SOON, 1)
    for name, pieces in OTHERS:
        with Listener(*pieces) as other:
            found, _ = asked(program, other.address, "--within", "1")
            yield name, found, not_ready(other.address)
    for name, pieces in [("silent", []), ("slow", [b"H"] * 600)]:
        with Listener(*pieces, closes=False) as other:
            found, seconds = asked(program, other.address, "--within", "3")
            yield name, found, not_ready(other.address)
            yield f"{name}: the time", *in_time(seconds, 3 + SOON, 3)
            yield f"{name}: it was tried again", len(other.asked) > 1, True
    with Listener(*(bytes([byte]) for byte in ANSWER[:8]), ANSWER[8:]) as other:
        yield "the answer in pieces", asked(program, other.address)[0], READY
        yield "what was asked", other.asked, [b"GET / HTTP/1.1\r\nHost: osb-broker\r\nConnection: close\r\n\r\n"]


def try_processes(program):
    """A process that is gone ends it, also where somebody answers."""
    free = free_address()
    with subprocess.Popen(["true"]) as gone:
        gone.wait()
    found, seconds = asked(program, free, "--within", "600", "--pid", str(gone.pid))
    yield "a process that is gone", found, not_ready(free)
    yield "a process that is gone: the time", *in_time(seconds, SOON)
    with Listener(ANSWER) as other:
        found, _ = asked(program, other.address, "--within", "600", "--pid", str(gone.pid))
        yield "a process that is gone, and another answers", found, not_ready(other.address)
        found, _ = asked(program, other.address, "--pid", str(os.getpid()))
        yield "a process that is there", found, READY
    start = time.monotonic()
    with subprocess.Popen(["sleep", "2"]) as ends:
        waiting = begun(program, free, "--within", "600", "--pid", str(ends.pid))
        ends.wait()
        yield "a process that ends", ended(waiting), not_ready(free)
    yield "a process that ends: the time", *in_time(time.monotonic() - start, 2 + SOON, 2)


def try_failed_start(program, folder):
    """A start that fails, as the package's unit asks for it."""
    with Listener(closes=False) as other:
        serving = Serving(program, new_database(folder))
        serving.kill()
        serving.start(other.address)
        waiting = begun(program, other.address, "--within", "600", "--pid", str(serving.process.pid))
        yield "its address is taken", serving.ended()[0], 1
        yield "it isn't ready", ended(waiting), not_ready(other.address)


def try_words(program):
    for words in [
        [],
        ["127.0.0.1:1", "127.0.0.1:2"],
        ["127.0.0.1:1", "--within", "0"],
        ["127.0.0.1:1", "--within", "86401"],
        ["127.0.0.1:1", "--within"],
        ["127.0.0.1:1", "--pid", "0"],
        ["127.0.0.1:1", "--pid", "4194305"],
        ["127.0.0.1:1", "--pid", "self"],
        ["127.0.0.1:1", "--pid"],
        ["127.0.0.1:1", "--listen", "127.0.0.1:2"],
    ]:
        status, output, errors = ended(begun(program, *words))
        yield f"words {words}", (status, output, errors[:7]), (2, b"", b"error: ")
    for text in ["", "localhost:8080", "127.0.0.1", "8080", ":8080", "127.0.0.1:65536", "http://127.0.0.1:8080"]:
        found = ended(begun(program, text))
        yield f"no address {text!r}", found, (1, b"", f"osb-broker: no address {text}\n".encode())


def tries(program):
    with tempfile.TemporaryDirectory() as folder:
        yield from try_serving(program, folder)
        yield from try_waiting(program, folder)
        yield from try_others(program)
        yield from try_processes(program)
        yield from try_failed_start(program, folder)
        yield from try_words(program)


if __name__ == "__main__":
    sys.exit(tell("ready", tries(os.path.abspath(sys.argv[1]))))
