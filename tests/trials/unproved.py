#!/usr/bin/env python3
"""Tries `make try` in a clean copy of the sources: what it says, what it serves, and that nothing is left of it.

usage: tests/trials/unproved.py
"""

import contextlib
import os
import random
import shutil
import signal
import socket
import subprocess
import sys
import tempfile
import threading

sys.path.append(os.path.join(os.path.dirname(os.path.abspath(__file__)), "..", "lib"))

from conversations import CATALOG_REPLY, GET_CATALOG, I, SYNC, reply, request
from serving import ROOT, newest_version, read_to_end, tell

VERSION = f"osb-broker {newest_version()} unproved\n".encode()
# Who waits longer than this for a program waits for none.
SECONDS = 1800


def lasting_address():
    """An address of loopback at which nobody listens, and nobody will for minutes: its port is below those that the
    system gives to other trials."""
    for port in random.sample(range(20_000, 30_000), 100):
        with contextlib.suppress(OSError), socket.socket() as free:
            free.bind(("127.0.0.1", port))
            return f"127.0.0.1:{port}"
    raise RuntimeError("no port is free")


def files_in(folder):
    return {os.path.join(at, name) for at, _, names in os.walk(folder) for name in names}


def programs_below(room):
    """The programs in a folder that run, by the words of all processes."""
    found = set()
    for process in (it for it in os.listdir("/proc") if it.isdigit()):
        try:
            with open(f"/proc/{process}/cmdline", encoding="utf-8", errors="replace") as file:
                words = file.read().split("\0")
        except OSError:
            continue
        found |= {it for it in words if it.startswith(room) and os.path.isfile(it) and os.access(it, os.X_OK)}
    return found


def asked(address, given):
    """What the server answers on one connection."""
    host, _, port = address.rpartition(":")
    with socket.create_connection((host, int(port)), timeout=60) as client:
        client.sendall(given)
        return read_to_end(client)


def end_late(process, late):
    """Ends what takes too long, and says so."""
    try:
        process.wait(SECONDS)
    except subprocess.TimeoutExpired:
        late.set()
        os.killpg(process.pid, signal.SIGINT)


def line_of(process, late):
    """The next line of the output, unless it took too long."""
    line = process.stdout.readline()
    if late.is_set():
        raise TimeoutError(f"no program within {SECONDS} s")
    return line


def try_serving(room, address, first):
    """What is said once it serves, and what is answered."""
    yield "it says that nothing is proved", (address in first, "NOTHING OF IT IS PROVED" in first), (True, True)
    yield "the catalog", asked(address, GET_CATALOG), CATALOG_REPLY
    yield "a creation", asked(address, request("PUT", I, SYNC)), reply(201, "{}")
    versions = [subprocess.run([it, "--version"], capture_output=True).stdout for it in programs_below(room)]
    yield "its version", versions, [VERSION]


def tries():
    with tempfile.TemporaryDirectory() as folder:
        copy, room = os.path.join(folder, "copy"), os.path.join(folder, "room")
        os.mkdir(room)
        shutil.copytree(ROOT, copy, ignore=shutil.ignore_patterns(".git", "out", "osb-broker*", "__pycache__"))
        files, address = files_in(copy), lasting_address()
        how = {"stdout": subprocess.PIPE, "stderr": subprocess.STDOUT, "text": True, "start_new_session": True}
        command = ["make", "-C", copy, "--no-print-directory", "try", f"ADDRESS={address}"]
        with subprocess.Popen(command, env={**os.environ, "TMPDIR": room}, **how) as trying:
            late = threading.Event()
            threading.Thread(target=end_late, args=(trying, late), daemon=True).start()
            yield "it says so before it begins", "compiles without a proof" in line_of(trying, late), True
            yield "it shows that it goes on", "being compiled, 15 s" in (line := line_of(trying, late)), True
            while "being compiled" in line:
                line = line_of(trying, late)
            yield from try_serving(room, address, line)
            os.killpg(trying.pid, signal.SIGINT)
            rest = trying.stdout.read()
        yield "what it says as it ends", "Nothing was proved, and its records are gone" in rest, True
        yield "programs that are left", programs_below(room), set()
        yield "files that are left", (os.listdir(room), files_in(copy) - files), ([], set())


if __name__ == "__main__":
    sys.exit(tell("unproved", tries()))
