#!/usr/bin/env python3
"""Tries the program behind nginx and behind HAProxy, with the configurations of the examples: TLS, slow clients,
requests by which a proxy and a broker might disagree, a copy and restarts. What goes wrong while the machine stands
still is tried again.

usage: tests/trials/proxied.py PROGRAM

Needs openssl, nginx and HAProxy; of what isn't there it says that it passed this over.
"""

import itertools
import os
import shutil
import signal
import socket
import sys
import tempfile
import threading
import time
from concurrent.futures import ThreadPoolExecutor

sys.path.append(os.path.join(os.path.dirname(os.path.abspath(__file__)), "..", "lib"))

from calm import Watch
from conversations import ASYNC, CATALOG, CLOSE, I, LATER, NO_HEAD_REPLY, SYNC
from conversations import at, operation, replies, request
from proxies import CODINGS, HAProxy, HAProxyKept, Nginx, NginxKept, first_of
from serving import Serving, in_time, new_database, passed_over, read_to_end, tell

PROXIES = [Nginx, HAProxy, NginxKept, HAProxyKept]
SLOW, FAST = 64, 8
# A slow client sends a piece so often, and is done after some three seconds.
PAUSE, PIECES = 0.1, 30
# No fast client waits longer for a reply; and for how long somebody may hold the program who gets through to it.
SOON, HELD = 1, 10
# How often the program is killed, for how long it is away each time, and how long it is there in between.
KILLS, AWAY_FOR, BETWEEN = 10, 1, 0.5
LARGEST_BODY = SYNC.ljust(262_144)
LARGE = '{"description":"The body is too large."}'
LENGTH = 400, '{"description":"The Content-Length is not usable."}'
IDENTIFIER = 400, '{"description":"An identifier is not usable."}'
MADE = 201, "{}"
GET = (200, CATALOG)


def closing(method, target, body="", lines=""):
    return request(method, target, body, CLOSE + lines)


def trickles(proxy, instance):
    """A slow client: its request comes in pieces, and it reads byte by byte."""
    sent = closing("PUT", at(instance), SYNC, "X-Slow: " + "s" * 2000 + "\r\n")
    size = len(sent) // PIECES + 1
    with proxy.connection() as client:
        for first in range(0, len(sent), size):
            client.sendall(sent[first : first + size])
            time.sleep(PAUSE)
        read = b""
        while piece := client.recv(1):
            read += piece
    return first_of(read)


def asks_on(proxy, ended, next_request, expected):
    """A fast client: sends one request after the other. What it got besides, and its longest wait."""
    others, longest = [], 0
    while not ended.is_set():
        begun = time.monotonic()
        found = proxy.answers(next_request())
        longest = max(longest, time.monotonic() - begun)
        if found not in expected:
            others.append(found)
    return others, longest


def slow_and_fast(proxy, numbers):
    """Whether slow clients are answered while fast ones wait for no one. Each slow one makes an instance of the next
    of these numbers."""
    ended = threading.Event()
    with ThreadPoolExecutor(SLOW + FAST) as pool:
        catalog = closing("GET", "/v2/catalog")
        fast = [pool.submit(asks_on, proxy, ended, lambda: catalog, [GET]) for _ in range(FAST)]
        slow = list(pool.map(lambda _: trickles(proxy, f"slow-{next(numbers)}"), range(SLOW)))
        ended.set()
        waits = [it.result() for it in fast]
    yield "slow clients", slow, [MADE] * SLOW
    yield "fast clients", [others for others, _ in waits], [[]] * FAST
    longest = max(wait for _, wait in waits)
    yield "the longest wait of a fast client", *in_time(longest, SOON)


def at_once(doors, most):
    begun = time.monotonic()
    yield "the catalog", replies(doors.sends(closing("GET", "/v2/catalog"))), [GET]
    yield "the catalog: at once", *in_time(time.monotonic() - begun, most)


def conversation(proxy):
    yield "a create", proxy.answers(closing("PUT", I + LATER, ASYNC)), (202, operation("create-1"))
    yield "the same again", proxy.answers(closing("PUT", I + LATER, ASYNC)), (202, operation("create-1"))
    yield "its health", proxy.answers(b"GET /healthz HTTP/1.1\r\nHost: b\r\nConnection: close\r\n\r\n"), (200, "{}")
    yield "no login", proxy.answers(b"GET /v2/catalog HTTP/1.1\r\nHost: b\r\nConnection: close\r\n\r\n"), (401, "{}")
    targets = ["/backend/v1/orders", "/", "/v2", "//v2/catalog", "/backend/v1/orders?/v2/", "/v2/../backend/v1/orders"]
    for target in [*targets, "http://b/backend/v1/orders", "http://b/v2/../backend/v1/orders"]:
        yield f"what isn't let out: {target}", proxy.answers(closing("GET", target)), (404, "{}")
    climbing = closing("PUT", "/backend/v1/orders/..%2f..%2f..%2fv2/1", "{}")
    yield "what isn't let out: a target that climbs", proxy.answers(climbing), (404, "{}")
    identity = "i" * 7000
    found = proxy.sends(closing("PUT", at("long"), SYNC, f"X-Broker-API-Request-Identity: {identity}\r\n"))
    yield "a long identity", (found[9:12], identity.encode() in found), (b"201", True)


def bodies(proxy):
    yield "the largest body", proxy.answers(closing("PUT", at("large"), LARGEST_BODY)), MADE
    yield "a byte more", proxy.answers(closing("PUT", at("larger"), LARGEST_BODY + " ")), (413, LARGE)
    head = closing("PUT", at("chunks"), lines="Transfer-Encoding: chunked\r\n")
    chunks = b"%x\r\n%s\r\n0\r\n\r\n" % (len(SYNC), SYNC.encode())
    yield "a body in chunks", proxy.answers(head + chunks), proxy.chunks


def two_ways(refused, new):
    """What a proxy and a broker might read in two ways: what is sent, and the one reply to it, bare, behind nginx and
    behind HAProxy. `refused` is that of the proxy itself, and `new` an instance that isn't there."""
    no_head, nothing = replies(NO_HEAD_REPLY)[0], (404, "{}")
    without_login = b"GET /v2/ HTTP/1.1\r\nHost: b\r\nConnection: close\r\n"
    many = "".join(f"A{number}:\r\n" for number in range(200))
    smuggled = closing("PUT", at("smuggled"), SYNC)
    both, other = "Content-Length: 2\r\nTransfer-Encoding: chunked\r\n", "Transfer-Encoding: xchunked\r\n"
    length = f"Content-Length: {len(SYNC)}\r\n"
    return [
        ("200 field lines", closing("GET", "/v2/catalog", lines=many), no_head, GET, refused),
        ("200 field lines and no login", without_login + many.encode() + b"\r\n", no_head, (401, "{}"), refused),
        ("two lengths", closing("PUT", I, "{}", "Content-Length: 3\r\n"), LENGTH, refused, refused),
        ("two equal lengths", closing("PUT", at(new), SYNC, length), LENGTH, refused, MADE),
        ("a length and chunks", closing("PUT", I, lines=both) + smuggled, CODINGS, refused, refused),
        ("a coding that isn't one", closing("PUT", I, lines=other) + smuggled, CODINGS, refused, refused),
        ("a length of +2", closing("PUT", I, lines="Content-Length: +2\r\n") + b"{}", LENGTH, refused, refused),
        ("a body without a length", closing("GET", "/v2/catalog") + smuggled, GET, GET, GET),
        ("a version of 1.2", closing("GET", "/v2/catalog").replace(b"/1.1", b"/1.2"), no_head, GET, GET),
        ("a target with %00", closing("GET", at("%00")), IDENTIFIER, refused, IDENTIFIER),
        ("an absolute target", closing("GET", "http://b/v2/catalog"), nothing, GET, nothing),
        ("a line that ends in a line feed", closing("GET", "/v2/catalog", lines="X: y\nZ: 2\r\n"), GET, GET, GET),
        ("a folded line", closing("GET", "/v2/catalog", lines="X: y\r\n Content-Length: 2\r\n"), no_head, refused, GET),
    ]


def disagreements(proxy, serving, numbers):
    """Whether such a request is one, bare and through the proxy, and another client is answered behind it, all at
    once."""
    for name, sent, bare, *through in two_ways(proxy.refused, f"equal-{next(numbers)}"):
        for where, doors, expected in [("bare", serving, bare), ("through", proxy, through[isinstance(proxy, HAProxy)])]:
            begun = time.monotonic()
            yield f"{name}, {where}", replies(doors.sends(sent)), [expected]
            yield f"{name}, {where}: at once", *in_time(time.monotonic() - begun, SOON)
        for what, found, expected in at_once(proxy, SOON):
            yield f"behind {name}: {what}", found, expected
    yield "nothing was smuggled", proxy.answers(closing("GET", at("smuggled"))), (404, "{}")


def connections_to(port):
    """How many clients are connected to a port, taken or not."""
    with open("/proc/net/tcp", encoding="ascii") as file:
        rows = [line.split() for line in file]
    return sum(row[1].endswith(f":{port:04X}") and row[3] == "01" for row in rows)


def held_back(proxy, serving):
    """Whether those are answered who ask while the program is stopped for a copy, and that they wait at it, for one commit."""
    with ThreadPoolExecutor(FAST) as pool:
        serving.process.send_signal(signal.SIGSTOP)
        asked = [pool.submit(proxy.answers, closing("GET", "/v2/catalog")) for _ in range(FAST)]
        time.sleep(SOON)
        connected = connections_to(serving.port)
        serving.process.send_signal(signal.SIGCONT)
        found = [it.result() for it in asked]
    yield "while it is stopped for a copy", found, [GET] * FAST
    # Of those that are kept some may be idle.
    yield "connections to it meanwhile", min(connected, FAST) if proxy.keeps else connected, FAST


def restarts(serving):
    """Kills the program and starts it again after a while. Its port is held meanwhile, so that no client gets it."""
    serving.kill()
    with socket.socket() as held:
        held.setsockopt(socket.SOL_SOCKET, socket.SO_REUSEADDR, 1)
        held.bind(("127.0.0.1", serving.port))
        time.sleep(AWAY_FOR)
        serving.start(serving.address)
        return serving.listens()


def bridged(proxy, serving, numbers):
    """Whether nobody sees that the program is killed and starts again, as systemd starts it: fast clients make instances
    all the while."""
    ended, there = threading.Event(), []
    with ThreadPoolExecutor(FAST) as pool:
        makes = lambda: closing("PUT", at(f"kept-{next(numbers)}"), SYNC)
        fast = [pool.submit(asks_on, proxy, ended, makes, [MADE, (200, "{}")]) for _ in range(FAST)]
        for _ in range(KILLS):
            time.sleep(BETWEEN)
            there.append(restarts(serving))
        time.sleep(BETWEEN)
        ended.set()
        waits = [it.result() for it in fast]
    yield "it starts again", there, [True] * KILLS
    yield "while it starts again", [others for others, _ in waits], [[]] * FAST
    longest = max(wait for _, wait in waits)
    yield f"who waited for it, {longest:.2f} s", longest > AWAY_FOR, True


def behind(proxy, serving, watch):
    """All that is tried behind one proxy. Meanwhile two clients wait that stop inside a request."""
    numbers = itertools.count()
    with ThreadPoolExecutor(2) as pool:
        sent = closing("PUT", at("late"), LARGEST_BODY)
        late = [pool.submit(proxy.answers, sent[:end]) for end in (-len(LARGEST_BODY) - 2, -1)]
        time.sleep(SOON)
        for where, doors in [("through it", proxy), ("and then bare", serving)]:
            for what, found, expected in at_once(doors, HELD / 2):
                yield f"beside clients that stop, {where}: {what}", found, expected
        yield from conversation(proxy)
        yield from bodies(proxy)
        yield from watch.calmly(lambda: disagreements(proxy, serving, numbers))
        yield from watch.calmly(lambda: slow_and_fast(proxy, numbers))
        yield from watch.calmly(lambda: held_back(proxy, serving))
        yield from bridged(proxy, serving, numbers)
        for name, found, expected in zip(["head", "body"], late, [proxy.no_head, proxy.no_body]):
            yield f"a client that stops inside its {name}", found.result(), expected
    serving.kill()
    yield "a broker that isn't there", proxy.answers(closing("GET", "/v2/catalog")), proxy.away
    begun = time.monotonic()
    yield "its health", proxy.answers(closing("GET", "/healthz")), proxy.away
    yield "its health: at once", *in_time(time.monotonic() - begun, SOON)


def tries(program, proxies):
    watch = Watch()
    with tempfile.TemporaryDirectory() as folder:
        os.chmod(folder, 0o755)
        for kind in proxies:
            # That no connection is kept is up to the proxy.
            with Serving(program, new_database(folder), "--per-connection", "1000") as serving:
                proxy = kind(folder, serving.address)
                yield f"{kind.example}: its configuration", proxy.is_valid(), (0, kind.valid)
                with proxy:
                    for name, found, expected in behind(proxy, serving, watch):
                        yield f"{kind.example}: {name}", found, expected


def main():
    missing = [it for it in ("openssl", *(kind.program for kind in PROXIES)) if not shutil.which(it)]
    there = [kind for kind in PROXIES if not {"openssl", kind.program} & set(missing)]
    if missing:
        which = " and ".join(kind.program for kind in PROXIES if kind not in there)
        passed_over("proxied", f"what is behind {which}", *missing)
    return tell("proxied", tries(os.path.abspath(sys.argv[1]), there)) if there else 0


if __name__ == "__main__":
    sys.exit(main())
