"""The built program as a server on loopback, and how a trial says what it found."""

import fcntl
import json
import os
import re
import socket
import subprocess
import sys
import tempfile
import time
import traceback
from concurrent.futures import as_completed

ROOT = os.path.join(os.path.dirname(os.path.abspath(__file__)), "..", "..")
EXAMPLES = os.path.join(ROOT, "examples")
SETTINGS = os.path.join(EXAMPLES, "settings.json")


def newest_version():
    """The first version that CHANGELOG.md has, which is that of the program."""
    with open(os.path.join(ROOT, "CHANGELOG.md"), encoding="utf-8") as file:
        return re.search(r"^## ([\d.]+)", file.read(), re.MULTILINE).group(1)


# The ports that are given to servers here: the system gives them to nobody who connects or asks for any port, and
# `lasting_address` of tests/trials/unproved.py has those behind them. The file has the last one, for all trials.
PORTS = range(10_000, 20_000)
LAST_PORT = os.path.join(tempfile.gettempdir(), f"osb-broker-{os.getuid()}-port")


def is_free(port):
    """Whether nobody listens at a port of loopback. Connections that have ended there keep it from nobody."""
    try:
        with socket.socket() as free:
            free.setsockopt(socket.SOL_SOCKET, socket.SO_REUSEADDR, 1)
            free.bind(("127.0.0.1", port))
    except OSError:
        return False
    return True


def free_address():
    """An address of loopback at which nobody listens, and which no other trial was given lately."""
    with open(LAST_PORT, "a+", encoding="utf-8") as file:
        fcntl.flock(file, fcntl.LOCK_EX)
        file.seek(0)
        last = int(file.read() or PORTS[-1])
        behind = (PORTS[(last - PORTS.start + it) % len(PORTS)] for it in range(1, len(PORTS)))
        port = next(filter(is_free, behind))
        file.truncate(0)
        file.write(str(port))
    return f"127.0.0.1:{port}"


def new_database(folder):
    """The name of a database file that isn't there yet, in a folder of its own."""
    return os.path.join(tempfile.mkdtemp(dir=folder), "broker.db")


def environment_with(folder, name, **more):
    """The environment of a program that has a library before the C library, made of tests/NAME.c."""
    library = os.path.join(folder, f"{name}.so")
    source = os.path.join(ROOT, "tests", "lib", f"{name}.c")
    subprocess.run(["cc", "-O2", "-shared", "-fPIC", "-o", library, source, "-ldl"], check=True)
    return {**os.environ, "LD_PRELOAD": library, **more}


def settings_with_contexts(folder):
    """A settings file with a service whose instances may change their context."""
    with open(SETTINGS, encoding="utf-8") as file:
        settings = json.load(file)
    settings["catalog"]["services"][0]["allow_context_updates"] = True
    path = os.path.join(tempfile.mkdtemp(dir=folder), "settings.json")
    with open(path, "w", encoding="utf-8") as file:
        json.dump(settings, file)
    return path


# How many clients are connected at the same time, and how many requests each may make, where a trial doesn't say it; as
# the program has it without that.
TOGETHER, PER_CONNECTION = os.environ.get("TOGETHER"), os.environ.get("PER_CONNECTION")

# What a start says on standard error that begins a database.
BEGUN_LINE = b"database: new\n"

# How often it is started anew where another has taken its address.
MOST_STARTS = 10


class Serving:
    """The program, serving over a database file until it ends or is killed."""

    def __init__(self, program, database, *more, settings=SETTINGS, **process):
        self.words = [program, "serve", "--settings", settings, "--database", database, *more]
        if TOGETHER and "--together" not in more:
            self.words += ["--together", TOGETHER]
        if PER_CONNECTION and "--per-connection" not in more:
            self.words += ["--per-connection", PER_CONNECTION]
        self.more = process
        self.start()

    def start(self, address=None):
        self.address = address or free_address()
        self.port = int(self.address.rpartition(":")[2])
        words = [*self.words, "--listen", self.address]
        self.process = subprocess.Popen(words, stdout=subprocess.PIPE, stderr=subprocess.PIPE, **self.more)
        self.first = b""

    def listens(self):
        """Waits for its first line; whether it says that connections are taken. If another has taken its address
        meanwhile, it is started anew at another one. What says anything else is ended."""
        for again in range(MOST_STARTS):
            if again:
                self.start()
            self.first = self.process.stdout.readline()
            if self.first or not self.is_address_taken():
                break
        is_right = self.first == f"listening on {self.address}\n".encode()
        if self.first and not is_right:
            self.process.kill()
        return is_right

    def is_address_taken(self):
        """Whether it ended since another listens at its address."""
        status, _, errors = self.ended()
        return status == 1 and errors.endswith(f"osb-broker: cannot listen on {self.address}\n".encode())

    def kill(self):
        self.process.kill()
        _, self.errors = self.process.communicate()

    def ended(self, seconds=60):
        """The status that it ends with by itself, and the lines that it wrote."""
        output, errors = self.process.communicate(timeout=seconds)
        return self.process.returncode, self.first + output, errors

    def __enter__(self):
        if not self.listens():
            raise RuntimeError(f"it doesn't serve: {self.ended()}")
        return self

    def __exit__(self, *_):
        self.kill()

    def connection(self):
        return socket.create_connection(("127.0.0.1", self.port), timeout=30)

    def sends(self, bytes_sent):
        """What a client reads that sends these bytes and keeps its sending side open."""
        with self.connection() as client:
            client.sendall(bytes_sent)
            return read_to_end(client)


REFUSED_LINE = re.compile(rb"request: 500 (no memory|database: (?:disk full|disk failed|shut|refused))(?:, (\d+) times)?\n")


def refused_lines(errors):
    """The lines of requests that were answered 500: the cause and the number of each."""
    return [(cause.decode(), int(count or 1)) for cause, count in REFUSED_LINE.findall(errors)]


def read_to_end(client):
    read = b""
    while piece := client.recv(65536):
        read += piece
    return read


# The status of a script that found nothing wrong except that something took too long.
ONLY_LATE = 3
# How much of two texts that differ is shown, and how much of that is before the first difference.
SHOWN, BEFORE = 300, 60


class Late:
    """What is found if something only took too long. It equals nothing that is expected."""

    def __init__(self, found):
        self.found = found

    def __repr__(self):
        return self.found


def in_time(seconds, most, least=0):
    """What is found of a time, and what is expected of it. Only too long a time is `Late`. One that is too short isn't,
    nor is one without end, which is that of a wrong reply."""
    expected = f"{least:g} to {most:g} s"
    if least <= seconds <= most:
        return expected, expected
    found = f"{seconds:.2f} s"
    return Late(found) if most < seconds < float("inf") else found, expected


def wait_until(what, is_so, seconds):
    """Waits until something is so. If that takes longer, it ends the trial."""
    until = time.monotonic() + seconds
    while not is_so():
        if time.monotonic() > until:
            raise TimeoutError(f"{what}: not within {seconds:g} s")
        time.sleep(0.05)


# What is raised if a wait takes too long.
WAITS = (subprocess.TimeoutExpired, TimeoutError)


def taken(part):
    """What a part finds until an error ends it, and that error, or none."""
    found = []
    try:
        for each in part():
            found.append(each)
    except Exception as error:
        return found, error
    return found, None


def side_by_side(pool, parts):
    """What parts find that are tried at the same time. If errors ended some, one is raised behind all findings: a wait only
    if all are waits."""
    errors = []
    for part in as_completed([pool.submit(taken, it) for it in parts]):
        found, error = part.result()
        yield from found
        errors += [error] if error else []
    for error in sorted(errors, key=lambda it: isinstance(it, WAITS)):
        raise error


# What is lacking if something isn't tried since it would take too long here.
TIME = "time"


def passed_over(name, what, *lacking, why=""):
    """Says what a trial passes over, and for lack of which tools, or of time. tests/outside.py reads this line."""
    because = f": {' '.join(why.split())}" if why else ""
    print(f"{name}: passed over {what}, for lack of {' and '.join(lacking)}{because}", flush=True)


def apart(found, expected):
    """Two texts, from a little before the first place where they differ."""
    first = len(os.path.commonprefix([found, expected]))
    begin = max(0, first - BEFORE) if max(len(found), len(expected)) > SHOWN else 0
    place = f"from character {begin} on: " if begin else ""
    return f"{place}{found[begin : begin + SHOWN]}, expected {expected[begin : begin + SHOWN]}"


def tell(name, tries):
    """Prints what wasn't found as expected, and gives the status to end with: 1 if anything is wrong, ONLY_LATE if
    something only took too long. An error that ends the trial is wrong, too, and a wait that does is late."""
    passed = wrong = late = 0
    trial = "the beginning"
    try:
        for trial, found, expected in tries:
            if found == expected:
                passed += 1
                continue
            is_late = isinstance(found, Late)
            late, wrong = late + is_late, wrong + (not is_late)
            how = "late" if is_late else "wrong"
            print(f"{name}: {how}: {trial}: {apart(repr(found), repr(expected))}", flush=True)
    except Exception as error:
        is_late = isinstance(error, WAITS)
        late, wrong = late + is_late, wrong + (not is_late)
        traceback.print_exc(limit=-3, file=sys.stdout)
        how, said = ("late", str(error)) if is_late else ("wrong", repr(error))
        print(f"{name}: {how}: behind {trial}: {said:.{SHOWN}}", flush=True)
    print(f"{name}: {passed} passed, {wrong + late} failed{f', {late} of them late' if late else ''}", flush=True)
    if wrong or not (passed or late):
        return 1
    return ONLY_LATE if late else 0
