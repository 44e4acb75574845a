"""Serves without a proof, for a first look.

    python3 tools/try.py [ADDRESS]

It serves examples/settings.json at an address, 127.0.0.1:8080 without another, by the toolkit's `rt try`: the sources
are compiled as they are, with checks that end the program at an index out of bounds, a sum that overflows or a bad
access. Nothing is proved. Its version says so, its records go with it, and it shares no file with what `make` builds.
Ctrl-C ends it."""

import os
import pathlib
import re
import shutil
import signal
import socket
import subprocess
import sys
import tempfile
import time

from crates import LIBRARIES, ROOT, RT, below, toolkit

PROGRAM = "osb_program"
# The file that has the version, and its line.
GRAMMAR = pathlib.Path("crates", "osb_cli", "src", "grammar.rt")
VERSION = re.compile(r'(?m)^(const VERSION: &str = "(.*))";$')
NAME = f"osb-broker {VERSION.search((ROOT / GRAMMAR).read_text()).group(2)} unproved"
# It ends by itself after a day.
SECONDS = 86_400
# How often it is said that it is still being compiled, in seconds.
BETWEEN_LINES = 15


def say(text):
    print(text, flush=True)


def copy_sources(room):
    """Copies what the program is compiled from, with another version."""
    crates = [*below(PROGRAM), PROGRAM]
    (room / "crates.txt").write_text("".join(f"{it}: {' '.join(LIBRARIES[it])}\n" for it in crates))
    shutil.copy(ROOT / "HANDLES", room)
    for crate in crates:
        for part in ("src", "specs"):
            if (ROOT / "crates" / crate / part).is_dir():
                shutil.copytree(ROOT / "crates" / crate / part, room / "crates" / crate / part)
    (room / GRAMMAR).write_text(VERSION.sub(r'\1 unproved";', (ROOT / GRAMMAR).read_text()))


def is_taken(address):
    """Whether somebody listens at an address."""
    host, _, port = address.rpartition(":")
    with socket.socket() as one:
        return one.connect_ex((host, int(port))) == 0


def begin(room, address):
    """Compiles the program and runs it, in a session of its own; all that is said goes to a file."""
    settings = f"settings.json={ROOT / 'examples' / 'settings.json'}"
    served = ["serve", "--settings", "settings.json", "--database", "osb-broker.db", "--listen", address]
    command = [RT, "try", PROGRAM, "--steps", "1", "--seconds", str(SECONDS), "--data", settings, "--", *served]
    how = {"stdin": subprocess.DEVNULL, "stderr": subprocess.STDOUT, "start_new_session": True}
    with open(room / "said", "wb") as said:
        environment = {**os.environ, "TMPDIR": str(room)}
        return subprocess.Popen(command, cwd=room / "crates" / PROGRAM, stdout=said, env=environment, **how)


def wait_for(running, address, begun):
    """Waits until the program serves or has ended, and says meanwhile that it goes on."""
    lines = 1
    while running.poll() is None and not is_taken(address):
        time.sleep(0.5)
        if time.monotonic() - begun >= lines * BETWEEN_LINES:
            say(f"{NAME}: being compiled, {lines * BETWEEN_LINES} s")
            lines += 1


def serve(room, address):
    """Serves until it is ended. Where it ends by itself, it is shown what was said."""
    begun, running = time.monotonic(), begin(room, address)
    try:
        wait_for(running, address, begun)
        if running.poll() is None:
            say(f"{NAME}: serves {address}, after {time.monotonic() - begun:.0f} s. NOTHING OF IT IS PROVED.")
            say("It checks itself as it runs, so it is slow: some 30 creations a second. Ctrl-C ends it.")
            running.wait()
        say((room / "said").read_text(errors="replace"))
    finally:
        # (another Ctrl-C doesn't keep it from taking all away)
        signal.signal(signal.SIGINT, signal.SIG_IGN)
        running.terminate()
        running.wait()


def main():
    address = sys.argv[1] if sys.argv[1:] else "127.0.0.1:8080"
    toolkit()
    if is_taken(address):
        sys.exit(f"{NAME}: somebody listens at {address}")
    # What tells it to end from outside ends it as Ctrl-C does.
    signal.signal(signal.SIGTERM, signal.default_int_handler)
    say(f"{NAME}: compiles without a proof, which takes some three minutes; Ctrl-C ends it")
    status = 1
    try:
        with tempfile.TemporaryDirectory(prefix="osb-broker-unproved-") as room:
            copy_sources(pathlib.Path(room))
            serve(pathlib.Path(room), address)
    except KeyboardInterrupt:
        status = 0
    say(f"{NAME}: ended. Nothing was proved, and its records are gone. For what is proved: make")
    return status


if __name__ == "__main__":
    sys.exit(main())
