#!/usr/bin/env python3
"""Tries what clients of one address do to those of others behind the proxies of the examples: they hold connections,
they guess passwords, and a user of theirs is in many groups. What goes wrong while the machine pauses is tried again.

usage: tests/trials/crowds.py PROGRAM

Needs openssl, nginx and HAProxy; of what isn't there it says that it passed this over.
"""

import os
import resource
import select
import shutil
import signal
import sys
import tempfile
import time
from base64 import b64encode
from collections import Counter, namedtuple
from concurrent.futures import ThreadPoolExecutor
from contextlib import ExitStack
from functools import partial

sys.path.append(os.path.join(os.path.dirname(os.path.abspath(__file__)), "..", "lib"))

from calm import Watch
from conversations import CATALOG, CLOSE, I, SYNC, replies, request
from proxies import HAProxy, Nginx
from serving import Serving, in_time, new_database, passed_over, tell, wait_until
from shards import Shards

# The addresses of those that say nothing, that stay behind a reply, that stop inside a body, and that guess. All others
# are at 127.0.0.1.
SILENT, KEPT, HALF, GUESSING = "127.0.0.2", "127.0.0.3", "127.0.0.4", "127.0.0.5"
SILENT_ONES, KEPT_ONES, HALF_ONES, GUESSES = 1000, 300, 220, 60
# In seconds: how long another waits for its reply, for how long a proxy waits for the rest of a request, and for how
# long all guesses may take, since they are counted by the minute.
SOON, PATIENCE, QUICKLY = 1, 10, 20
GROUPS = 200

LOOK = request("GET", "/v2/catalog", lines=CLOSE)
GUESS = LOOK.replace(b"cGxhdGZvcm06c2VjcmV0", b"cGxhdGZvcm06Z3Vlc3M=")
STAYS = b"GET / HTTP/1.1\r\nHost: b\r\n\r\n"
STOPS = request("PUT", I, SYNC, CLOSE)[:-1]
SEEN, UNAUTHORIZED = (200, CATALOG), (401, "{}")
TOO_MANY = 429, '{"description":"Too many requests at the same time."}'
TOO_MANY_LOGINS = 429, '{"description":"Too many logins were refused."}'
REFUSED = "refused"


class InShards(Shards):
    """HAProxy with the example for shards, in front of one broker that is all four."""

    def __init__(self, folder, broker):
        super().__init__(folder, [broker] * 4)


# How many stay of those that say nothing and of those behind a reply, what those get that stop inside a body, how many
# guesses are looked at, and what the right login gets behind them.
Found = namedtuple("Found", "silent kept half guesses right")
OF_NGINX = Found(SILENT_ONES, KEPT_ONES, {str(Nginx.no_body): 200, str(TOO_MANY): 20}, GUESSES, SEEN)
OF_HAPROXY = Found(200, 200, {str(HAProxy.no_body): 200, REFUSED: 20}, 31, TOO_MANY_LOGINS)
PROXIES = {Nginx: OF_NGINX, HAProxy: OF_HAPROXY, InShards: OF_HAPROXY}


def asks_soon(proxy, what):
    """Whether another is answered, and soon."""
    begun = time.monotonic()
    yield f"another, {what}", proxy.answers(LOOK), SEEN
    yield f"another, {what}: soon", *in_time(time.monotonic() - begun, SOON)


def staying(clients):
    """How many of these connections the proxy hasn't ended."""
    ended = select.poll()
    for each in clients:
        ended.register(each, select.POLLRDHUP)
    return len(clients) - len(ended.poll(0))


def stays(proxy):
    """A connection that stays behind a reply."""
    client = proxy.connection(KEPT)
    client.sendall(STAYS)
    client.recv(4096)
    return client


def held_of(held, opens, number):
    """Those of so many connections that aren't refused, which are held."""
    clients = []
    for _ in range(number):
        try:
            clients.append(held.enter_context(opens()))
        except OSError:
            pass
    return clients


def stops(proxy):
    """What a client gets that stops inside its body."""
    found = proxy.answers(STOPS, HALF)
    return REFUSED if isinstance(found, str) else str(found)


def crowded(proxy, expected):
    """Three addresses hold as many connections as they get."""
    with ExitStack() as held, ThreadPoolExecutor(HALF_ONES) as pool:
        silent = held_of(held, partial(proxy.silent_connection, SILENT), SILENT_ONES)
        yield from asks_soon(proxy, "beside those that say nothing")
        kept = held_of(held, partial(stays, proxy), KEPT_ONES)
        half = [pool.submit(stops, proxy) for _ in range(HALF_ONES)]
        yield from asks_soon(proxy, "beside all of them")
        yield "those that stay of all that say nothing", staying(silent), expected.silent
        yield "those that stay behind a reply", staying(kept), expected.kept
        yield "those that stop inside a body", Counter(it.result() for it in half), Counter(expected.half)
        wait_until("the end of those that say nothing", lambda: not staying(silent), PATIENCE)
        yield "one of their address", proxy.answers(LOOK, SILENT), SEEN


def guesses(proxy, expected):
    """Guesses of one address, its right login behind them, and that of another address."""
    begun = time.monotonic()
    found = Counter(proxy.answers(GUESS, GUESSING) for _ in range(GUESSES))
    yield "guesses: quickly", *in_time(time.monotonic() - begun, QUICKLY)
    refused = Counter([UNAUTHORIZED] * expected.guesses + [TOO_MANY_LOGINS] * (GUESSES - expected.guesses))
    yield "guesses", found, refused
    yield "the right login behind them", proxy.answers(LOOK, GUESSING), expected.right
    yield "that of another address", proxy.answers(LOOK), SEEN


def groups(proxy, serving):
    """A user in many groups, whose line is longer than the broker takes. The log has its beginning."""
    user = "cloudfoundry " + b64encode(b",".join(b'"%040d"' % number for number in range(GROUPS))).decode()
    lines = f"{CLOSE}X-Broker-API-Request-Identity: groups\r\nX-Broker-API-Originating-Identity: {user}\r\n"
    sent = request("GET", "/v2/catalog", lines=lines)
    yield "many groups, bare", replies(serving.sends(sent))[0][0], 400
    yield "many groups, through it", proxy.answers(sent), SEEN
    wait_until("its line in the log", lambda: "groups" in proxy.log(), PATIENCE)
    [line] = [it for it in proxy.log().splitlines() if "groups" in it]
    yield "its line in the log", (user[:256] in line, user[:257] in line, "127.0.0.1" in line), (True, False, True)


def slow_reply(proxy, serving):
    """The program is stopped for longer than a proxy waits for its client."""
    with ThreadPoolExecutor(1) as pool:
        serving.process.send_signal(signal.SIGSTOP)
        asked = pool.submit(proxy.answers, LOOK)
        time.sleep(PATIENCE + 2)
        serving.process.send_signal(signal.SIGCONT)
        yield f"a reply behind {PATIENCE + 2} s", asked.result(), SEEN


def behind(program, folder, kind, expected):
    """All that is tried behind one proxy."""
    with Serving(program, new_database(folder)) as serving, kind(folder, serving.address) as proxy:
        yield from groups(proxy, serving)
        yield from guesses(proxy, expected)
        yield from crowded(proxy, expected)
        yield from slow_reply(proxy, serving)


def tries(program, kinds):
    _, hard = resource.getrlimit(resource.RLIMIT_NOFILE)
    resource.setrlimit(resource.RLIMIT_NOFILE, (min(hard, 8192), hard))
    watch = Watch()
    with tempfile.TemporaryDirectory() as folder:
        os.chmod(folder, 0o755)
        for kind in kinds:
            for name, found, expected in watch.calmly(partial(behind, program, folder, kind, PROXIES[kind])):
                yield f"{kind.example}: {name}", found, expected
    print(f"crowds: {watch.again} trials again, since the machine stood still")


def main():
    missing = {it for it in ("openssl", *(kind.program for kind in PROXIES)) if not shutil.which(it)}
    there = [kind for kind in PROXIES if not {"openssl", kind.program} & missing]
    if missing:
        which = " and ".join(kind.example for kind in PROXIES if kind not in there)
        passed_over("crowds", f"what is behind {which}", *sorted(missing))
    return tell("crowds", tries(os.path.abspath(sys.argv[1]), there)) if there else 0


if __name__ == "__main__":
    sys.exit(main())
