#!/usr/bin/env python3
"""Tries groups of clients: those whose requests wait at the same time are answered together, with one transaction for
the changes of several.

usage: tests/trials/groups.py PROGRAM

The program is stopped (SIGSTOP) while clients connect and send. Then it goes on, and finds all of them ready. Groups of
creations have one sync before the first reply. Groups of all kinds of requests, many of them for the same instances,
are answered as the same requests one after the other. A kill or a power failure leaves the changes of a group all made
or none, and those of one that was answered all made. Where a growth of memory is refused, each request is answered as
it should be, or by the 500, and then it changed nothing. Where a call of the disk fails, nothing is lost that was
answered.
"""

import contextlib
import errno
import itertools
import mmap
import os
import random
import signal
import struct
import sys
import tempfile
import time

sys.path.append(os.path.join(os.path.dirname(os.path.abspath(__file__)), "..", "lib"))

from conversations import ASYNC, BIND, GET_CATALOG, LATER, LEAVE, REFUSED_REPLY, SUCCEEDED, SYNC, SYNC_BIND, SYNC_LEAVE
from conversations import at, replies, reply, request
from database import tables
from power import CHOICES, SEND, SYNCED, TAKE, WRITE, Disk, Replay
from power import Machine as Recorded
from refused import MANY
from refused import Machine as Refusing
from serving import Serving, environment_with, new_database, refused_lines, tell

SIZES = (2, 3, 8)
CREATED, THERE = reply(201, "{}"), reply(200, "{}")
ROUNDS, OF_A_ROUND = 40, 24
KILLS, KILLED_TOGETHER = 40, 8
# How long a kill waits at most: a sync takes three milliseconds, and a group has more than one.
LONGEST = 0.02


def comes_to(process, state):
    """Waits until a process is in a state of the system."""
    for _ in range(10_000):
        with open(f"/proc/{process.pid}/stat", encoding="ascii") as file:
            found = file.read().rpartition(")")[2].split()[0]
        if found == state:
            return
        if found == "Z":
            raise RuntimeError("it has ended")
        time.sleep(0.001)
    raise TimeoutError(f"it doesn't come to {state}")


def stop(process):
    """Stops a process that waits for clients."""
    comes_to(process, "S")
    process.send_signal(signal.SIGSTOP)
    comes_to(process, "T")


def reads(client):
    """What a client reads; of one whose connection is lost, what came before."""
    read = b""
    with contextlib.suppress(ConnectionError):
        while piece := client.recv(65536):
            read += piece
    return read


def together(serving, asked, meanwhile=lambda: None):
    """What clients get whose requests come while the program is stopped."""
    with contextlib.ExitStack() as stack:
        stop(serving.process)
        clients = [stack.enter_context(serving.connection()) for _ in asked]
        for client, sent in zip(clients, asked):
            client.sendall(sent)
        serving.process.send_signal(signal.SIGCONT)
        meanwhile()
        return [reads(client) for client in clients]


def creations(names):
    return [request("PUT", at(name), SYNC) for name in names]


def are_there(serving, names):
    """How many of these instances are there."""
    return sum(serving.sends(request("GET", at(name))).startswith(b"HTTP/1.1 200") for name in names)


def syncs_of(program, folder, size):
    """The calls that a group of creations makes, from the last client that is taken on."""
    machine = Recorded(program, folder)
    with machine.serving() as serving:
        serving.sends(GET_CATALOG)
        found = together(serving, creations(f"i{number}" for number in range(size)))
    kinds = [call.kind for call in machine.calls()]
    taken = len(kinds) - kinds[::-1].index(TAKE)
    return found, kinds[taken:]


def one_sync(program, folder):
    """A group has the syncs of one creation, all of them before its first reply."""
    _, alone = syncs_of(program, tempfile.mkdtemp(dir=folder), 1)
    for size in (*SIZES, 64):
        found, kinds = syncs_of(program, tempfile.mkdtemp(dir=folder), size)
        yield f"{size} creations", found, [CREATED] * size
        yield f"the syncs of {size}", kinds.count(SYNCED), alone.count(SYNCED)
        behind = kinds[kinds.index(SEND) :]
        yield f"behind the first reply of {size}", {WRITE, SYNCED} & set(behind), set()


def requests_of(chance):
    """Requests of all kinds, for few instances."""
    instance = at(chance.choice("abcd"))
    binding = instance + "/service_bindings/" + chance.choice("xy")
    number = chance.randrange(1, 5)
    parameters = f'{{"service_id":"svc","parameters":{{"n":{chance.randrange(3)}}}}}'
    return chance.choice(
        [
            request("PUT", instance, SYNC),
            request("PUT", instance + LATER, ASYNC),
            request("PATCH", instance + LATER, parameters),
            request("PUT", binding, SYNC_BIND),
            request("PUT", binding + LATER, BIND),
            request("DELETE", binding + SYNC_LEAVE),
            request("DELETE", binding + LEAVE),
            request("DELETE", instance + SYNC_LEAVE),
            request("DELETE", instance + LEAVE),
            request("GET", instance),
            request("GET", instance + "/last_operation"),
            request("GET", binding),
            request("GET", "/backend/v1/orders"),
            request("PUT", f"/backend/v1/orders/{chance.choice('abcd')}/{number}", SUCCEEDED),
            request("PUT", instance, "[]"),
            request("GET", instance, lines="Host: other\r\n"),
            GET_CATALOG,
        ]
    )


def as_one_by_one(program, folder):
    """Groups are answered, and leave the rows, as the same requests one after the other."""
    chance = random.Random(56)
    paths = [new_database(folder) for _ in range(2)]
    with Serving(program, paths[0], *MANY) as many, Serving(program, paths[1], "--together", "1") as one:
        for number in range(ROUNDS):
            asked = [requests_of(chance) for _ in range(chance.randrange(2, OF_A_ROUND))]
            found = together(many, asked)
            yield f"round {number}", list(map(replies, found)), [replies(one.sends(sent)) for sent in asked]
    yield "their rows", tables(paths[0]), tables(paths[1])


def killed(program, folder):
    """Behind a kill the changes of a group are all there or none, and those that were answered are."""
    environment = environment_with(folder, "slow")
    chance = random.Random(57)
    path = new_database(folder)
    found = set()
    for number in range(KILLS):
        names = [f"i{number}-{one}" for one in range(KILLED_TOGETHER)]
        with Serving(program, path, *MANY, env=environment) as serving:

            def kill():
                time.sleep(chance.uniform(0, LONGEST))
                serving.process.kill()

            answers = together(serving, creations(names), kill)
        with Serving(program, path, *MANY) as serving:
            there = are_there(serving, names)
        found.add(there)
        yield f"kill {number}", there in (0, KILLED_TOGETHER) and (there > 0 or set(answers) == {b""}), True
        yield f"answers before kill {number}", set(answers) <= {b"", CREATED}, True
    yield "kills before and behind a change", found, {0, KILLED_TOGETHER}


def power_fails(program, folder):
    """Behind a power failure at any moment the changes of a group are all there or none."""
    machine = Recorded(program, folder)
    names = [f"i{number}" for number in range(KILLED_TOGETHER)]
    machine.puts(machine.begun)
    with machine.serving() as serving:
        yield "a group", together(serving, creations(names)), [CREATED] * len(names)
    replay = Replay(machine.calls(), machine.path, Disk(machine.begun))
    chance = random.Random(58)
    found = set()
    for _ in replay.moments():
        for choice in CHOICES:
            machine.puts(replay.disk.image(choice, chance))
            with machine.serving() as serving:
                there = are_there(serving, names)
            found.add((there, replay.answered > 0))
    yield "power failures", found, {(0, False), (len(names), False), (len(names), True)}


def refused(program, folder):
    """Where a growth is refused, each request is answered as it should be, or 500 and it changed nothing."""
    machine = Refusing(program, folder)
    for size in SIZES:
        with machine.serving(*MANY) as serving:
            growth = 0
            was_refused = True
            while was_refused:
                growth += 1
                names = [f"i{size}-{growth}-{one}" for one in range(size)]
                machine.refuses(growth)
                answers = together(serving, creations(names))
                was_refused = growth <= machine.growths()[0]
                machine.refuses(0)
                again = together(serving, creations(names))
                right = [(CREATED, THERE), (REFUSED_REPLY, CREATED)]
                wrong = [it for it in zip(answers, again) if it not in right]
                yield f"growth {growth} of {size}", wrong, []
            # (the last one wasn't asked for)
            yield f"growths of {size} that are refused", growth > 1, True


class Failing:
    """A disk of which one call fails, and the program over it."""

    # The call that fails, how many there were, and the error.
    CONTROL = struct.Struct("3q")

    def __init__(self, program, folder):
        self.program = program
        path = os.path.join(folder, "control")
        with open(path, "wb") as file:
            file.write(bytes(self.CONTROL.size))
        with open(path, "r+b") as file:
            self.control = mmap.mmap(file.fileno(), self.CONTROL.size)
        self.environment = environment_with(folder, "fails", FAIL=path)

    def fails(self, call, error=0):
        self.control[:] = self.CONTROL.pack(call, 0, error)

    def calls(self):
        return self.CONTROL.unpack(self.control[:])[1]

    def serving(self, path):
        self.fails(0)
        return Serving(self.program, path, *MANY, env=self.environment)


def disk_fails(program, folder):
    """Where a call of the disk fails, none that was answered is lost, and of the others all or none are there."""
    machine = Failing(program, folder)
    causes = {errno.EIO: ["database: disk failed"], errno.ENOSPC: ["database: disk full"]}
    for size in SIZES:
        names = [f"i{one}" for one in range(size)]
        found = set()
        for error in (errno.EIO, errno.ENOSPC):
            for call in itertools.count(1):
                path = new_database(folder)
                with machine.serving(path) as serving:
                    machine.fails(call, error)
                    answers = together(serving, creations(names))
                    has_failed = call <= machine.calls()
                    # Lines are written before the next client is taken.
                    serving.sends(GET_CATALOG)
                refused, lines = answers.count(REFUSED_REPLY), refused_lines(serving.errors)
                yield f"call {call} of {size}: lines", sum(count for _, count in lines), refused
                yield f"call {call} of {size}: causes", [cause for cause, _ in lines[:1]], causes[error][: min(refused, 1)]
                with Serving(program, path, *MANY) as serving:
                    there = [are_there(serving, [name]) for name in names]
                lost = [one for one, is_there in zip(answers, there) if one == CREATED and not is_there]
                yield f"call {call} of {size}: lost", lost, []
                yield f"call {call} of {size}: answers", set(answers) <= {b"", REFUSED_REPLY, CREATED}, True
                if CREATED not in answers:
                    yield f"call {call} of {size}: a part", sum(there) in (0, size), True
                found.add(answers == [CREATED] * size)
                if not has_failed:
                    break
        yield f"groups of {size} with and without an answer", found, {True, False}


def tries(program):
    with tempfile.TemporaryDirectory() as folder:
        for trial in (one_sync, as_one_by_one, killed, power_fails, refused, disk_fails):
            yield from trial(program, tempfile.mkdtemp(dir=folder))


if __name__ == "__main__":
    sys.exit(tell("groups", tries(os.path.abspath(sys.argv[1]))))
