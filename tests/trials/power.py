#!/usr/bin/env python3
"""Lets the power fail at the moments of one history of the built program, and looks at what a start then has.

usage: tests/trials/power.py PROGRAM [--more] [--without-syncs]

`power.c`, loaded before the C library, records what the program does to its two files, from an empty database
on, and when it takes a request and answers. From the record the files are made as a failure may leave them: what was synced is
there, and of the rest nothing, all, the first part, some of the writes or some of their sectors. The program
starts on each, and its lives are those after the requests that were answered, or with the one in flight as
well. Some of these starts take a request more and fail in turn. Where the syncs of the log, of the database
file or of the folder are left out of the record, lives have to be lost. `--more` makes more choices of
writes and sectors; `--without-syncs` leaves out all syncs from the first, and fails.
"""

import contextlib
import os
import random
import sqlite3
import struct
import sys
import tempfile
from collections import namedtuple

sys.path.append(os.path.join(os.path.dirname(os.path.abspath(__file__)), "..", "lib"))

from conversations import ASYNC, B, BIND, BUSY, FAILED, I, LATER, LEAVE, MEMORY_1, REPORT, SUCCEEDED, SYNC, SYNC_BIND
from conversations import SYNC_LEAVE, X, Y, at, listed, operation, reply, request, with_context, with_parameters
from database import CREDENTIALS, IN_PROGRESS
from serving import Serving, environment_with, new_database, settings_with_contexts, tell

DATABASE, LOG, FOLDER = SYNCABLE = "database", "log", "folder"
OPEN, WRITE, CUT, SYNCED, TAKE, SEND = b"owcsar"
HEAD = struct.Struct("4q")
SECTOR = 512

S, FURTHER = at("s"), at("z")
S_BOUND = S + "/service_bindings/b"
LAST = "/last_operation"
ORDERS = "/backend/v1/orders"
READ = [S, S + LAST, S_BOUND, I, I + LAST, B, B + LAST, ORDERS, FURTHER]

MADE, FINE, NOT_THERE, GONE = (201, "{}"), (200, "{}"), (404, "{}"), (410, "{}")
RUNS, DONE, BROKEN, IS_BUSY = (200, IN_PROGRESS), (200, SUCCEEDED), (200, FAILED), (422, BUSY)
NO_ORDERS = (200, '{"orders":[]}')
FEW = '{"n":1}'
EMPTY = {**dict.fromkeys(READ, NOT_THERE), ORDERS: NO_ORDERS}


def many(letter):
    """Parameters of some length. Fourteen requests with them fill the log."""
    return '{"text":"' + letter * 199_989 + '"}'


def opened(name):
    return 202, operation(name)


def fetched(plan, parameters):
    return 200, f'{{"parameters":{parameters},"plan_id":"{plan}","service_id":"svc"}}'


def runs(number, kind, context, parameters):
    text = listed(number, kind, f'"context":{context},')
    return 200, text.replace('"parameters":{}', f'"parameters":{parameters}')


def bound(credentials):
    return 200, f'{{"credentials":{credentials},"parameters":{{}}}}'


def binding_runs(number, kind):
    return 200, (
        f'{{"orders":[{{"app_guid":"","bind_resource":{{}},"binding_id":"b","instance_id":"i","kind":"{kind}",'
        f'"parameters":{{}},"plan_id":"p-async","seq":{number},"service_id":"svc"}}]}}'
    )


CREATE_S = with_context(with_parameters(SYNC, FEW), X)
CREATE_I = with_context(with_parameters(ASYNC, FEW), X)
UPDATE_I = with_context(with_parameters('{"service_id":"svc"}', many("i")), Y)

# A request, what it is answered, and the reads that are answered otherwise from then on.
BEGIN = [
    ("PUT", S, CREATE_S, MADE, {S: fetched("p-sync", FEW), S + LAST: DONE}),
    ("PUT", S_BOUND, SYNC_BIND, (201, MEMORY_1), {S_BOUND: bound('{"uri":"mem:1"}')}),
    ("PUT", I + LATER, CREATE_I, opened("create-1"), {I + LAST: RUNS, ORDERS: runs(1, "create", X, FEW)}),
    ("PUT", REPORT + "1", SUCCEEDED, FINE, {I: fetched("p-async", FEW), I + LAST: DONE, ORDERS: NO_ORDERS}),
    (
        "PATCH",
        I + LATER,
        UPDATE_I,
        opened("update-2"),
        {I: IS_BUSY, I + LAST: RUNS, ORDERS: runs(2, "update", Y, many("i"))},
    ),
    ("PUT", REPORT + "2", FAILED, FINE, {I: fetched("p-async", FEW), I + LAST: BROKEN, ORDERS: NO_ORDERS}),
]

GROW = [
    (
        "PATCH",
        S,
        with_parameters('{"service_id":"svc"}', many(letter)),
        FINE,
        {S: fetched("p-sync", many(letter))},
    )
    for letter in "abcdefghijklmn"
]

END = [
    ("PUT", B + LATER, BIND, opened("bind-3"), {B + LAST: RUNS, ORDERS: binding_runs(3, "bind")}),
    ("PUT", REPORT + "3", CREDENTIALS, FINE, {B: bound('{"k":"v"}'), B + LAST: DONE, ORDERS: NO_ORDERS}),
    ("DELETE", S_BOUND + SYNC_LEAVE, "", FINE, {S_BOUND: NOT_THERE}),
    ("DELETE", S + SYNC_LEAVE, "", FINE, {S: NOT_THERE, S + LAST: GONE}),
    ("DELETE", B + LEAVE, "", opened("unbind-4"), {B: NOT_THERE, B + LAST: RUNS, ORDERS: binding_runs(4, "unbind")}),
    ("PUT", REPORT + "4", SUCCEEDED, FINE, {B + LAST: GONE, ORDERS: NO_ORDERS}),
    ("DELETE", I + LEAVE, "", opened("delete-5"), {I: IS_BUSY, I + LAST: RUNS, ORDERS: runs(5, "delete", X, FEW)}),
]
HISTORY = [*BEGIN, *GROW, *END]
FURTHER_STEP = ("PUT", FURTHER, SYNC, MADE, {FURTHER: fetched("p-sync", "{}")})


def changed(lives, step):
    """The reads and their answers after a step."""
    return {**lives, **step[-1]}


Change = namedtuple("Change", "offset data")  # A write, or without data a new length.
Call = namedtuple("Call", "kind descriptor number data")


def calls_in(path):
    """The calls of a record in their order."""
    with open(path, "rb") as file:
        read = file.read()
    place = 0
    while place < len(read):
        kind, descriptor, number, length = HEAD.unpack_from(read, place)
        place += HEAD.size + length
        yield Call(kind, descriptor, number, read[place - length : place])


def after(content, changes):
    made = bytearray(content)
    for offset, data in changes:
        made.extend(bytes(max(0, offset - len(made))))
        if data is None:
            del made[offset:]
        else:
            made[offset : offset + len(data)] = data
    return bytes(made)


class Disk:
    """The files of a folder: what a sync kept of each, what was done to it since, and whose names are kept."""

    def __init__(self, files):
        self.kept = dict(files)
        self.since = {name: [] for name in files}
        self.named = set(files)

    def copy(self):
        disk = Disk(self.kept)
        disk.since = {name: list(changes) for name, changes in self.since.items()}
        disk.named = set(self.named)
        return disk

    def opens(self, name):
        if name not in (None, FOLDER) and name not in self.kept:
            self.kept[name] = b""
            self.since[name] = []

    def syncs(self, name):
        if name == FOLDER:
            self.named = set(self.kept)
        else:
            self.kept[name] = after(self.kept[name], self.since[name])
            self.since[name] = []

    def image(self, choice, chance):
        """The files as a failure may leave them, where what is kept of each is chosen so."""
        files = {}
        for name, keep in zip((DATABASE, LOG), choice):
            by_luck = keep is everything or keep is not nothing and chance.random() < 0.5
            if name in self.named or name in self.kept and by_luck:
                files[name] = after(self.kept[name], keep(self.since[name], chance))
        return files


def nothing(_, __):
    return []


def everything(changes, _):
    return changes


def first_part(changes, chance):
    return changes[: chance.randrange(len(changes) + 1)]


def some(changes, chance):
    return [change for change in changes if chance.random() < 0.5]


def but_one(changes, chance):
    missing = chance.randrange(len(changes) + 1)
    return changes[:missing] + changes[missing + 1 :]


def sectors(change):
    """The parts of a write that lie in one sector each."""
    if not change.data:
        return [change]
    end = change.offset + len(change.data)
    cuts = [change.offset, *range(change.offset // SECTOR * SECTOR + SECTOR, end, SECTOR), end]
    return [Change(a, change.data[a - change.offset : b - change.offset]) for a, b in zip(cuts, cuts[1:])]


def one_torn(changes, chance):
    """All, but of one write only its first sectors or its last ones."""
    if not changes:
        return changes
    torn = chance.randrange(len(changes))
    parts = sectors(changes[torn])
    cut = chance.randrange(len(parts) + 1)
    left = parts[:cut] if chance.random() < 0.5 else parts[cut:]
    return [*changes[:torn], *left, *changes[torn + 1 :]]


def some_sectors(changes, chance):
    """Few or many sectors of all writes."""
    share = chance.random()
    return [part for change in changes for part in sectors(change) if chance.random() < share]


def length_alone(changes, _):
    """The length that the writes gave the file, and zeros where it grew."""
    return [Change(change.offset + len(change.data), b"") for change in changes if change.data]


# What is kept of the database file, and what of the log.
CHANCES = [(keep, keep) for keep in (first_part, some, but_one, one_torn, some_sectors)]
CHOICES = [(everything, everything), (nothing, nothing), (everything, nothing), (nothing, everything)]
CHOICES += [(length_alone, length_alone), *CHANCES]


def told(choice):
    return " and ".join(f"{keep.__name__} of the {name}" for keep, name in zip(choice, SYNCABLE))


class Replay:
    """A record, done again on a disk up to any of its moments."""

    def __init__(self, calls, database, disk, without=()):
        self.calls = calls
        self.names = {database: DATABASE, database + "-wal": LOG, os.path.dirname(database): FOLDER}
        self.disk = disk
        self.without = without
        self.descriptors = {}
        self.taken = self.answered = 0

    def does(self, call):
        name = self.descriptors.get(call.descriptor)
        if call.kind == OPEN:
            name = self.names.get(call.data.decode())
            self.descriptors[call.descriptor] = name
            self.disk.opens(name)
        elif call.kind == TAKE:
            self.taken += 1
        elif call.kind == SEND:
            self.answered = self.taken
        elif call.kind == SYNCED and name not in self.without:
            self.disk.syncs(name)
        elif call.kind in (WRITE, CUT):
            data = call.data if call.kind == WRITE else None
            self.disk.since[name].append(Change(call.number, data))

    def moments(self):
        """Stops before each sync, after each answer and at the end."""
        for call in self.calls:
            if call.kind == SYNCED:
                yield
            self.does(call)
            if call.kind == SEND:
                yield
        yield

    def allowed(self, lives):
        """The lives that may be found, by those that each number of answered requests leaves."""
        return lives[self.answered] + (lives[self.taken] if self.taken > self.answered else [])


def first_page(folder):
    """What a new database file begins with, made by sqlite3."""
    path = os.path.join(folder, "first")
    with contextlib.closing(sqlite3.connect(path)) as database:
        database.execute("PRAGMA page_size = 1024")
        database.execute("VACUUM")
    with open(path, "rb") as file:
        return file.read()


class Machine:
    """Where the program is started, with its calls recorded."""

    def __init__(self, program, folder):
        self.program = program
        self.settings = settings_with_contexts(folder)
        self.path = new_database(folder)
        self.record = os.path.join(folder, "record")
        self.environment = environment_with(folder, "power", POWER=self.record)
        self.begun = {DATABASE: first_page(folder)}

    def paths(self):
        return {DATABASE: self.path, LOG: self.path + "-wal"}.items()

    def puts(self, files):
        for name, path in [*self.paths(), (None, self.record)]:
            if os.path.exists(path):
                os.remove(path)
            if name in files:
                with open(path, "wb") as file:
                    file.write(files[name])

    def files(self):
        found = {}
        for name, path in self.paths():
            with open(path, "rb") as file:
                found[name] = file.read()
        return found

    def serving(self):
        return Serving(self.program, self.path, settings=self.settings, env=self.environment)

    def calls(self):
        return list(calls_in(self.record))

    def found(self, files, further=()):
        """The reads over these files, or why there are none; and the answers to further requests, each beside
        the one that is right."""
        self.puts(files)
        try:
            with self.serving() as serving:
                read = [serving.sends(request("GET", target, "")) for target in READ]
                return read, [asked(serving, step) for step in further]
        except (RuntimeError, OSError) as error:
            return str(error), []


def asked(serving, step):
    """What a step is answered, and should be."""
    method, target, body, answer, _ = step
    return serving.sends(request(method, target, body)), reply(*answer)


def replies(lives):
    return [reply(*lives[target]) for target in READ]


def wrong(found, allowed):
    """What is wrong with the reads, or nothing."""
    if found in [replies(lives) for lives in allowed]:
        return ""
    if isinstance(found, str):
        return found
    expected = replies(allowed[0])
    return "; ".join(f"{target}: {one!r:.120}" for target, one, right in zip(READ, found, expected) if one != right)


class Trial:
    """The images of the records of one history, each looked at once."""

    def __init__(self, machine):
        self.machine = machine
        self.chance = random.Random(31)
        self.calls = []
        self.lives = [[EMPTY]]
        self.tried = set()
        self.second = 0

    def history(self):
        """Records the history, and gives its answers beside the right ones."""
        self.machine.puts(self.machine.begun)
        with self.machine.serving() as serving:
            for step in HISTORY:
                yield f"{step[0]} {step[1]}", *asked(serving, step)
                self.lives.append([changed(self.lives[-1][0], step)])
        self.calls = self.machine.calls()
        replay = self.replay()
        for _ in replay.moments():
            pass
        whole = replay.disk.image(CHOICES[0], self.chance)
        yield "the record is whole", whole == self.machine.files(), True
        yield "the log was copied", len(whole[DATABASE]) > 2**20, True

    def replay(self, without=()):
        return Replay(self.calls, self.machine.path, Disk(self.machine.begun), without)

    def is_new(self, files, lives):
        """Whether no such image was looked at."""
        key = hash((frozenset(files.items()), *(tuple(answers.items()) for answers in lives)))
        known = key in self.tried
        self.tried.add(key)
        return not known

    def images(self, replay, lives, choices):
        """Each image of a record once: the lives that it may have, and the disk of a failure that follows."""
        for _ in replay.moments():
            allowed = replay.allowed(lives)
            for choice in choices:
                files = replay.disk.image(choice, self.chance)
                if self.is_new(files, allowed):
                    # With all writes it is also what a kill leaves, and its writes may be lost later.
                    then = replay.disk.copy() if choice == CHOICES[0] else Disk(files)
                    yield f"{replay.answered} answered, {told(choice)}", files, allowed, then

    def looks(self, replay, choices, twice):
        """What is wrong with each image; with one of so many also after a failure of the next start."""
        for number, (name, files, allowed, then) in enumerate(self.images(replay, self.lives, choices)):
            if number % twice == 0:
                yield from self.looks_twice(name, files, allowed, then)
            else:
                yield name, wrong(self.machine.found(files)[0], allowed), ""

    def looks_twice(self, name, files, allowed, then):
        """The start on an image takes a further request, and the power fails at each moment of that."""
        found, answers = self.machine.found(files, [FURTHER_STEP])
        said = wrong(found, allowed)
        yield name, said, ""
        for answer, right in [] if said else answers:
            yield f"{name}, a further request", answer, right
            shown = next(lives for lives in allowed if replies(lives) == found)
            lives = [allowed, *[[shown]] * len(READ), [changed(shown, FURTHER_STEP)]]
            replay = Replay(self.machine.calls(), self.machine.path, then)
            choices = self.chance.sample(CHOICES, 3)
            for again, image, possible, _ in self.images(replay, lives, choices):
                yield f"{name}; then {again}", wrong(self.machine.found(image)[0], possible), ""
                self.second += 1

    def loses(self, name):
        """Whether answered lives are lost without the syncs of that file."""
        replay = self.replay({name})
        for _ in replay.moments():
            files = replay.disk.image(CHOICES[1], self.chance)
            allowed = replay.allowed(self.lives)
            if self.is_new(files, allowed) and wrong(self.machine.found(files)[0], allowed):
                return True
        return False


def tries(program, more, without_syncs):
    with tempfile.TemporaryDirectory() as folder:
        trial = Trial(Machine(program, os.path.realpath(folder)))
        yield from trial.history()
        replay = trial.replay(SYNCABLE if without_syncs else ())
        yield from trial.looks(replay, CHOICES + CHANCES * (16 if more else 1), 4 if more else 12)
        print(f"power: {len(trial.tried)} images, {trial.second} of them after a second failure")
        for name in () if without_syncs else SYNCABLE:
            yield f"lives are lost without the syncs of the {name}", trial.loses(name), True


if __name__ == "__main__":
    words = sys.argv[2:]
    sys.exit(tell("power", tries(os.path.abspath(sys.argv[1]), "--more" in words, "--without-syncs" in words)))
