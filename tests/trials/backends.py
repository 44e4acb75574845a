#!/usr/bin/env python3
"""Tries the backend of examples/postgresql.py over a PostgreSQL of its own, behind HAProxy.

usage: tests/trials/backends.py PROGRAM

Two kinds of platform ask for instances and bindings over connections that break, while the broker is killed every few
seconds, and each of two workers kills itself at some of its steps. PostgreSQL then has what the platforms have, and
nothing else. After a while only the workers go on so, that a slow machine comes to an end too. A worker that hangs before
its lock, until what it was to make was made and deleted, makes nothing; one that doesn't look under its lock does, and is
found out. A worker that loses its lock makes nothing either. Where something that this needs isn't there, it says what it
passed over. The workers' deaths come from one seed, SEED or a new one, which is printed.
"""

import hashlib
import json
import os
import random
import shutil
import signal
import subprocess
import sys
import tempfile
import threading
import time
from collections import Counter
from concurrent.futures import ThreadPoolExecutor

sys.path.append(os.path.join(os.path.dirname(os.path.abspath(__file__)), "..", "lib"))

import cluster as postgresql
from conversations import CLOSE, LATER, at, replies, request
from platforms import SERVICE, SMALL, WHOLE, Mitigates, Repeats
from proxied import restarts
from proxies import HAProxy
from serving import EXAMPLES, ROOT, Serving, new_database, passed_over, tell

# (also the file that passwords are derived from)
SETTINGS = os.path.join(EXAMPLES, "postgresql.json")
WORKER = os.path.join(ROOT, "tests", "trials", "worker.py")
OF_EACH_KIND, BINDINGS = 10, 2
# In seconds: how long the broker is there between two kills; for how long it is killed, and connections break, while all is
# made and while half is removed; and how long both may take.
BETWEEN, ROUGH, ROUGH_AGAIN, SECONDS = 4, 50, 25, 500
# The chance with which a worker kills itself, before each of its steps and behind it; and at which of these moments, at
# the latest, it does so for certain once.
DIES, DIES_AT = 0.01, 20
# Databases and roles that a cluster doesn't have from the beginning.
DATABASES = "SELECT datname, datconnlimit FROM pg_database WHERE datname !~ '^(postgres|template.)$' ORDER BY 1"
ROLES = "SELECT rolname, rolcanlogin FROM pg_roles WHERE rolname !~ '^(postgres|pg_.*)$' ORDER BY 1"


def worker(cluster, serving, *words, **more):
    """The process of a worker."""
    environment = {**cluster.environment(), "BACKEND_LOGIN": "backend:worker", "BINDING_SECRET": SETTINGS, **more}
    command = [postgresql.python_with_psycopg2(), WORKER, *words, f"http://{serving.address}"]
    return subprocess.Popen(command, env=environment, stdout=subprocess.PIPE, stderr=subprocess.STDOUT, text=True)


class Repeated:
    """What a thread does again and again, until it is left."""

    def __init__(self):
        self.ending = threading.Event()
        self.thread = threading.Thread(target=self.goes_on)

    def goes_on(self):
        while not self.ending.is_set():
            self.turn()

    def __enter__(self):
        self.thread.start()
        return self

    def __exit__(self, *_):
        self.ending.set()
        self.thread.join()


class Kills(Repeated):
    """Until a moment the broker is killed, and started again."""

    def __init__(self, serving, until):
        super().__init__()
        self.serving, self.until, self.there = serving, until, []

    def turn(self):
        if not self.ending.wait(BETWEEN) and time.monotonic() < self.until:
            self.there.append(restarts(self.serving))


class Worker(Repeated):
    """A worker that kills itself, by a seed, and is started again."""

    def __init__(self, cluster, serving, seed):
        super().__init__()
        self.cluster, self.serving = cluster, serving
        self.statuses, self.process = Counter(), None
        self.chance = random.Random(seed)
        self.certain = self.chance.randint(1, DIES_AT)

    def turn(self):
        more = {} if self.statuses[-signal.SIGKILL] else {"DIES_AT": str(self.certain)}
        self.process = worker(self.cluster, self.serving, DIES=str(DIES), SEED=str(self.chance.random()), **more)
        if self.ending.is_set():
            self.process.terminate()
        self.process.communicate()
        self.statuses[self.process.returncode] += 1

    def __exit__(self, *_):
        self.ending.set()
        self.process.terminate()
        super().__exit__()


def database_of(instance):
    """The name of its database."""
    return "db_" + hashlib.sha256(instance.rpartition("/")[2].encode()).hexdigest()[:40]


def credentials_of(serving, binding):
    status, text = replies(serving.sends(request("GET", binding, "", CLOSE)))[0]
    return json.loads(text)["credentials"] if status == 200 else {"username": status, "uri": ""}


def compared(program, cluster, serving, platforms):
    """What PostgreSQL has, beside what the platforms have; and what the broker's database has."""
    there = [it for it in platforms if it.instance]
    bindings = [credentials_of(serving, binding) for it in there for binding in it.bindings]
    yield "the databases", cluster.psql(DATABASES), sorted(f"{database_of(it.instance)}|{it.connections}" for it in there)
    roles = [f"{database_of(it.instance)}|f" for it in there] + [f"{it['username']}|t" for it in bindings]
    yield "the roles", cluster.psql(ROLES), sorted(roles)
    yield "the logins", logins(cluster, bindings), [[it["username"]] for it in bindings]
    ran = subprocess.run([program, "check", "--database", serving.database], capture_output=True, text=True, timeout=60)
    yield "the broker's database", ran.stdout, f"instances {len(there)}, bindings {len(bindings)}, running 0\n"


def logins(cluster, bindings):
    """Who each binding is that logs in with its credentials and makes a table, or why it can't."""
    makes = "CREATE TABLE IF NOT EXISTS {} (n INTEGER); SELECT session_user"
    with ThreadPoolExecutor(4) as pool:
        return list(pool.map(lambda it: cluster.psql(makes.format(it["username"]), it["uri"]), bindings))


def roughly(serving, platforms, seconds, step):
    """Has each platform take a step, side by side, while the broker is killed and connections break for so long. What kept
    any of them from its step, and whether the broker was there after each kill. If these are only waits, one is raised."""
    for it in platforms:
        it.calm = time.monotonic() + seconds
    with Kills(serving, platforms[0].calm) as kills, ThreadPoolExecutor(len(platforms)) as pool:
        taken = [pool.submit(step, it) for it in platforms]
        faults = {it.name: each.exception() for it, each in zip(platforms, taken) if each.exception()}
    waits = [it for it in faults.values() if isinstance(it, TimeoutError)]
    if waits and len(waits) == len(faults):
        raise waits[0]
    return {name: repr(fault) for name, fault in faults.items()}, kills.there


def try_phases(program, cluster, serving, platforms):
    """All is made, and half of it removed. Gives whether the broker was there after each kill."""
    kept, there = roughly(serving, platforms, ROUGH, lambda it: it.makes_all(BINDINGS))
    yield "all is made", kept, {}
    yield from compared(program, cluster, serving, platforms)
    removed = [credentials_of(serving, it.bindings[-1]) for it in platforms if it.bindings]
    kept, more = roughly(serving, platforms, ROUGH_AGAIN, lambda it: it.removes_some(it.connections % 2))
    yield "half is removed", kept, {}
    yield from compared(program, cluster, serving, platforms)
    refused = [isinstance(it, str) for it in logins(cluster, removed)]
    yield "logins that were removed", refused, [True] * len(platforms)
    return there + more


def try_platforms(program, folder, cluster, seed):
    begun = time.monotonic()
    database = new_database(folder)
    with Serving(program, database, settings=SETTINGS) as serving, HAProxy(folder, serving.address) as proxy:
        serving.database = database
        kinds = [Mitigates, Repeats] * OF_EACH_KIND
        platforms = [kind(proxy, f"{kind.__name__}-{number}", 20 + number) for number, kind in enumerate(kinds)]
        for it in platforms:
            it.until = begun + SECONDS
        with Worker(cluster, serving, f"{seed} one") as one, Worker(cluster, serving, f"{seed} other") as other:
            there = yield from try_phases(program, cluster, serving, platforms)
    yield "the broker was killed, and starts again", (set(there), len(there) > 1), ({True}, True)
    deaths = [it.statuses.pop(-signal.SIGKILL, 0) for it in (one, other)]
    yield "the workers killed themselves", [count > 0 for count in deaths], [True] * 2
    # (that signal may come before it is waited for)
    yield "the workers end when they are asked to", one.statuses.keys() | other.statuses.keys() <= {0, -signal.SIGTERM}, True
    fates = sum((it.fates for it in platforms), Counter())
    broken = ", ".join(f"{count} {fate}" for fate, count in fates.items() if fate != WHOLE)
    said = f"backends: {len(there)} kills of the broker, {sum(deaths)} of workers; of {sum(fates.values())} requests {broken}"
    print(f"{said}; {time.monotonic() - begun:.0f} s")


CREATE = {"service_id": SERVICE, "plan_id": SMALL, "organization_guid": "o", "space_guid": "s"}
DELETE = LATER + f"&service_id={SERVICE}&plan_id={SMALL}"
OTHER = "another worker has the instance"
# What is left in a cluster of one instance that was created and not deleted.
LEFT = [f"{database_of('i')}|10"], [f"{database_of('i')}|f"]
# The sessions of workers.
END_SESSIONS = """
    SELECT pg_terminate_backend(pid) FROM pg_stat_activity
    WHERE backend_type = 'client backend' AND pid <> pg_backend_pid()
"""


class Bench:
    """A broker, and workers that carry out what is listed and end."""

    def __init__(self, folder, cluster, serving):
        self.folder, self.cluster, self.serving = folder, cluster, serving

    def asks(self, method, query, body=None):
        sent = request(method, at("i") + query, json.dumps(body) if body else "")
        return replies(self.serving.sends(sent))

    def worker(self, **more):
        return worker(self.cluster, self.serving, "--once", **more)

    def works(self, **more):
        """What a worker prints."""
        return said_by(self.worker(**more))

    def hanging(self, where, **more):
        """A worker that hangs at that point, and the file that is to be removed."""
        hangs = os.path.join(tempfile.mkdtemp(dir=self.folder), "hangs")
        process = self.worker(**{where: hangs}, **more)
        while process.poll() is None and not os.path.exists(hangs):
            time.sleep(0.05)
        return process, hangs

    def left(self):
        return self.cluster.psql(DATABASES), self.cluster.psql(ROLES)


def said_by(process):
    return process.communicate(timeout=60)[0].splitlines()


def late_worker(bench, **more):
    """A worker lists a creation and hangs before its lock. Another one creates the database, and deletes it. What both
    report, and what is left in PostgreSQL once the late one has gone on."""
    bench.asks("PUT", LATER, CREATE)
    late, hangs = bench.hanging("LATE", **more)
    other = bench.works()
    bench.asks("DELETE", DELETE)
    other += bench.works()
    os.remove(hangs)
    return other, said_by(late), bench.left()


def try_late_worker(bench):
    other = ["i create 1 succeeded", "i delete 2 succeeded"]
    yield "a late worker", late_worker(bench), (other, ["i create 1 had ended"], ([], []))


def try_blind_worker(bench):
    other = ["i create 1 succeeded", "i delete 2 succeeded"]
    found = late_worker(bench, BLIND="1")
    yield "a late worker that doesn't look", found, (other, ["i create 1 succeeded"], LEFT)


def try_lost_lock(bench):
    """A worker hangs behind its lock, and loses it."""
    bench.asks("PUT", LATER, CREATE)
    held, hangs = bench.hanging("HELD")
    yield "while it has the lock", bench.works(), [f"i create 1 is left for later: Later: {OTHER}"]
    bench.cluster.psql(END_SESSIONS)
    yield "once it has lost it", bench.works(), ["i create 1 succeeded"]
    bench.asks("DELETE", DELETE)
    yield "the deletion", bench.works(), ["i delete 2 succeeded"]
    os.remove(hangs)
    [said] = said_by(held)
    yield "without its lock", (said.startswith("i create 1 is left for later: "), OTHER in said), (True, False)
    yield "what is left of it", bench.left(), ([], [])


def try_refusals(bench):
    """PostgreSQL is away, and a parameter can't be used."""
    bench.asks("PUT", LATER, {**CREATE, "parameters": {"connections": 0}})
    yield "no secret", bench.works(BINDING_SECRET="none"), ["postgresql: BINDING_SECRET: [Errno 2] No such file or directory: 'none'"]
    [said] = bench.works(PGPORT="1")
    yield "PostgreSQL is away", said.startswith("i create 1 is left for later: OperationalError: "), True
    yield "a parameter that can't be used", bench.works(), ["i create 1 failed"]
    why = '{"description":"connections has to be a whole number from 1 to 100","state":"failed"}'
    yield "what the platform is shown", bench.asks("GET", "/last_operation"), [(200, why)]
    yield "what is left of it", bench.left(), ([], [])


def try_passwords(bench):
    """A binding is removed and made again, over what the first one left; and then there is another secret."""
    place = "/service_bindings/b"
    bound = {"service_id": SERVICE, "plan_id": SMALL}
    bench.asks("PUT", LATER, CREATE)
    bench.works()
    found = []
    for _ in range(2):
        bench.asks("PUT", place + LATER, bound)
        bench.works()
        found.append(credentials_of(bench.serving, at("i") + place))
        made = "CREATE TABLE IF NOT EXISTS kept (n INTEGER); INSERT INTO kept VALUES (1); SELECT count(*) FROM kept"
        yield "what bindings make", bench.cluster.psql(made, found[-1]["uri"]), [str(len(found))]
        of_its_own = bench.cluster.psql("SET role TO NONE; SELECT count(lo_create(0))", found[-1]["uri"])
        yield "what belongs to the binding itself", of_its_own, ["1"]
        if len(found) == 1:
            bench.asks("DELETE", place + DELETE)
            yield "it is removed", bench.works(), ["i unbind 3 succeeded"]
    first, second = found
    yield "the role is the same", first["username"], second["username"]
    yield "the password is another one", first["password"] == second["password"], False
    yield "the first one", isinstance(bench.cluster.psql("SELECT 1", first["uri"]), str), True
    bench.asks("PATCH", LATER, {**bound, "parameters": {"connections": 20}})
    yield "with another secret", bench.works(BINDING_SECRET=WORKER), ["i update 5 succeeded"]
    yield "the second one", bench.cluster.psql("SELECT 1", second["uri"]), ["1"]
    bench.asks("DELETE", place + DELETE)
    bench.works()
    bench.asks("DELETE", DELETE)
    yield "all is removed", (bench.works(), bench.left()), (["i delete 7 succeeded"], ([], []))


def tries(program, seed):
    with tempfile.TemporaryDirectory() as folder:
        os.chmod(folder, 0o755)
        with postgresql.Cluster(folder) as cluster:
            yield from try_platforms(program, folder, cluster, seed)
        shutil.rmtree(cluster.folder)
        with postgresql.Cluster(folder) as cluster:
            for trial in (try_refusals, try_passwords, try_late_worker, try_lost_lock, try_blind_worker):
                with Serving(program, new_database(folder), settings=SETTINGS) as serving:
                    yield from trial(Bench(folder, cluster, serving))


def main():
    missing = postgresql.missing() + [it for it in ("haproxy", "openssl") if not shutil.which(it)]
    if missing:
        passed_over("backends", "everything", *missing)
        return 0
    seed = os.environ.get("SEED") or str(random.randrange(1_000_000))
    print(f"backends: SEED={seed}", flush=True)
    status = tell("backends", tries(os.path.abspath(sys.argv[1]), seed))
    if status:
        print(f"backends: with SEED={seed} in its environment it takes the same deaths", flush=True)
    return status


if __name__ == "__main__":
    sys.exit(main())
