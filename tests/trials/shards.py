#!/usr/bin/env python3
"""Tries brokers that each have some of the instances, behind HAProxy with examples/haproxy-shards.cfg.

usage: tests/trials/shards.py PROGRAM

Targets of all spellings go where Python's own reading of them says, and faults that are planted in the configuration are
found. Several clients at the same time get from four brokers what a broker of their own gives each of them, also once
examples/reshard.py has put all instances into six. While one broker is away, the others are asked as ever. Needs openssl
and HAProxy; where one isn't there, it says that it passed this over.
"""

import json
import os
import random
import re
import shutil
import socket
import subprocess
import sys
import tempfile
import time
import zlib
from collections import Counter
from concurrent.futures import ThreadPoolExecutor
from contextlib import ExitStack
from functools import partial
from pathlib import Path
from urllib.parse import quote, unquote_to_bytes

sys.path.append(os.path.join(os.path.dirname(os.path.abspath(__file__)), "..", "lib"))

from conversations import ASYNC, BIND, CATALOG, CLOSE, FAILED, LATER, LEAVE, SUCCEEDED, SYNC, SYNC_BIND, SYNC_LEAVE, UPDATE
from conversations import at, replies, request, with_parameters
from proxied import restarts
from proxies import AWAY, HAProxy, first_of, replaced
from serving import EXAMPLES, Serving, free_address, in_time, new_database, passed_over, read_to_end
from serving import side_by_side, tell, wait_until

RESHARD = os.path.join(EXAMPLES, "reshard.py")
BACKEND = os.path.join(EXAMPLES, "backend.py")
SHARDS, MORE = 4, 6
# So many targets, sent so many at a time; so many where a fault is planted; and so many spellings of one id.
TARGETS, AT_A_TIME, FEW, SPELLINGS = 20_000, 200, 3_000, 4_000
# With so many `%` a target is larger than HAProxy's buffer, once each is written as %25.
LONG = 100_000
# Clients at the same time, the requests of each, and those of each once there are more shards.
CLIENTS, REQUESTS, REQUESTS_LATER = 8, 250, 60
# In seconds: how long a request waits for a broker that is away, at most, and how long any other does.
PATIENCE, SOON = 30, 5
CREATED, THERE, NOTHING = (201, "{}"), (200, "{}"), (404, "{}")

# What HAProxy and the broker take in a target as it stands, beside letters and digits.
PLAIN = b"-_.~!$&'()*+,;=:@"
AN_ID = "a/%c3%?+ö#&=%zz ..;世".encode()
PIECES = [b"%", b"%%", b"%zz", b"%4", b"%g4", b"%%41", b"%4%31", b"%2541", b"%u0041", b"%0x", b"+", b"%2B", b"%20", b"%25"]
PIECES += [b"%2F", b"%2f", b"%252F", b"%3F", b"%23", b"%00", b"%7F", b"%C3%A4", b"%c3%a4", b"%FF", b".", b"..", b"%2e", b";", b"="]
PLACES = [b"/v2//service_instances/", b"//v2/service_instances/", b"/v2/service_instances//", b"/V2/service_instances/"]
PLACES += [b"/v2/service%5Finstances/", b"/v2/./service_instances/", b"/v2%2Fservice_instances/", b"/v2/catalog/", b"/v2/x/"]
REST = [b"/last_operation", b"/service_bindings/b", b"/service_bindings/%zz/last_operation", b"/", b"//", b"/%2F"]
QUERIES = [b"?accepts_incomplete=true", b"?a=/v2/service_instances/x", b"?", b"?service_id=%zz", b"??a"]

READS = 'path,field(4,/),\'regsub("%(?![0-9A-Fa-f][0-9A-Fa-f])","%25",g)\',url_dec if has_id'
# What is wrong, and how an id is read then.
FAULTS = {
    "a % that stands for itself isn't written anew": "path,field(4,/),url_dec if has_id",
    "it is decoded before it is cut out": READS.replace("field(4,/),", "").replace("url_dec", "url_dec,field(4,/)"),
    "a plus sign is a blank": READS.replace("url_dec", "url_dec(1)"),
    "it isn't decoded": READS.replace(",url_dec", ""),
    "it is decoded twice": READS.replace("url_dec", "url_dec,url_dec"),
    "empty segments are passed over": READS.replace("field(4,/)", "word(3,/)"),
    "all of the path is read": "path if has_id",
}


def shard_of(name, number=SHARDS):
    """The shard of an id, by Python's reading."""
    return zlib.crc32(name) % number


def with_shards(configuration, number):
    """The example with another number of shards."""
    configuration = replaced(configuration, f"mod({SHARDS})", f"mod({number})")
    configuration = replaced(configuration, f"[0-{SHARDS - 1}]", f"[0-{number - 1}]", 2)
    for last in (r"backend shard-3\n.*:8103\n", r" *server shard-3 .*:8103 .*\n"):
        [lines] = re.findall(last, configuration)
        added = [lines.replace("shard-3", f"shard-{it}").replace("8103", str(8100 + it)) for it in range(SHARDS, number)]
        configuration = replaced(configuration, lines, lines + "".join(added))
    return configuration


class Shards(HAProxy):
    """HAProxy in front of as many brokers as there are addresses. The backend's door is at `door`."""

    example = "haproxy-shards.cfg"

    def placed(self, configuration, broker):
        self.door, self.number = free_address(), len(broker)
        given = [(self.listens, self.address, 1), ("bind 127.0.0.1:8446", f"bind {self.door}", 1)]
        given += [(f"127.0.0.1:{8100 + number}", address, 2) for number, address in enumerate(broker)]
        configuration = with_shards(configuration, self.number)
        for each in given:
            configuration = replaced(configuration, *each)
        return configuration

    def at_door(self, shard, method, path, body=""):
        """What the backend's door of a shard answers."""
        host, _, port = self.door.rpartition(":")
        sent = request(method, path, body, CLOSE).replace(path.encode(), f"/shards/{shard}{path}".encode(), 1)
        with socket.create_connection((host, int(port)), timeout=PATIENCE) as client:
            client.sendall(sent)
            return first_of(read_to_end(client))


class StandIns(Shards):
    """The same with stand-ins for the brokers, which answer where a request is and with what path. An id may be read in
    another way."""

    def __init__(self, folder, reads=READS):
        self.reads = reads
        super().__init__(folder, [free_address() for _ in range(SHARDS)])

    def placed(self, configuration, broker):
        head = super().placed(configuration, broker).partition("\nbackend shard-0\n")[0]
        for name in ["any", *(f"shard-{it}" for it in range(SHARDS))]:
            answer = f"http-request return status 200 content-type text/plain lf-string {name}\\ %[path,hex]"
            head += f"\nbackend {name}\n    {answer}\n"
        return replaced(head, READS, self.reads)

    def where(self, targets):
        """Where each of these targets goes, and the path that it has there."""
        lines = [b"Host: b\r\n\r\n"] * (len(targets) - 1) + [b"Host: b\r\n%s\r\n" % CLOSE.encode()]
        found = replies(self.sends(b"".join(b"GET %s HTTP/1.1\r\n%s" % it for it in zip(targets, lines))))
        return [tuple(text.split(" ")) if status == 200 else status for status, text in found]

    def strays(self, targets):
        """The targets that go elsewhere, or with another path."""
        found = []
        for first in range(0, len(targets), AT_A_TIME):
            sent = targets[first : first + AT_A_TIME]
            found += [it for it, went in zip(sent, self.where(sent), strict=True) if went != belongs(it)]
        return found


def belongs(target):
    """Where a target has to go, and with what path, by Python's reading."""
    path = target.partition(b"?")[0]
    if not path.startswith(b"/v2/"):
        return 404
    segments = path.split(b"/")
    is_named = segments[2] == b"service_instances" and len(segments) > 3
    return f"shard-{shard_of(unquote_to_bytes(segments[3]))}" if is_named else "any", path.hex().upper()


def spelled(chance, name):
    """A spelling of an id as a segment of a path. It is made from its end: a `%` may stand for itself where no two
    hexadecimal digits follow."""
    text = b""
    for byte in reversed(name):
        one = bytes([byte])
        is_plain = one.isalnum() or one in PLAIN or (one == b"%" and not re.match(rb"[0-9A-Fa-f]{2}", text))
        coded = b"%%%02x" % byte if chance.random() < 0.5 else b"%%%02X" % byte
        text = (one if is_plain and chance.random() < 0.5 else coded) + text
    return text


def some_target(chance):
    """A target that names an id, or nearly so."""
    pieces = [chance.choice([chance.choice(PIECES), b"%c" % chance.choice(b"abcXYZ019-_")]) for _ in range(8)]
    name = b"".join(pieces[: chance.choice([0, 1, 2, 4, 8])])
    place = at("").encode() if chance.random() < 0.9 else chance.choice(PLACES)
    rest = chance.choice(REST) if chance.random() < 0.3 else b""
    return place + name + rest + (chance.choice(QUERIES) if chance.random() < 0.3 else b"")


def try_routes(folder):
    """Where targets go, and where they go with a fault."""
    chance = random.Random(60)
    targets = [some_target(chance) for _ in range(TARGETS)]
    spellings = {at("").encode() + spelled(chance, AN_ID) for _ in range(SPELLINGS)}
    with StandIns(folder) as proxy:
        yield "targets that go elsewhere", proxy.strays(targets), []
        yield "spellings of one id that go elsewhere", proxy.strays(list(spellings)), []
        yield "an id that can't be read", proxy.answers(get(at("%" * LONG))), (503, AWAY)
    yield "where they belong", len({it if it == 404 else it[0] for it in map(belongs, targets)}), SHARDS + 2
    yield "where one id belongs", (len(spellings) > SPELLINGS // 2, len({belongs(it)[0] for it in spellings})), (True, 1)
    for name, reads in FAULTS.items():
        with StandIns(folder, reads) as proxy:
            yield f"a fault is found: {name}", bool(proxy.strays(targets[:FEW])), True


class Client:
    """Asks the same of its instances at the shards and at a broker of its own."""

    NAMES = ["a", "%", "%zz", "%41", "a+b", "a b", "a/b", "a?b", "a#b", "ä", "世", "%2F", "..", ";x=1&y"]

    def __init__(self, number, own):
        self.own, self.chance = own, random.Random(number)
        self.names = [f"{number}{it}".encode() for it in self.chance.sample(self.NAMES, 6)]

    def request_about(self, name):
        """A request of the platform about an instance."""
        instance = at(spelled(self.chance, name).decode())
        binding = f"{instance}/service_bindings/{spelled(self.chance, self.chance.choice([b'b', b'%/'])).decode()}"
        asks = [("PUT", instance, SYNC), ("DELETE", instance + SYNC_LEAVE, ""), ("DELETE", instance + LEAVE, "")]
        asks += [("PUT", instance + LATER, it) for it in (ASYNC, ASYNC, with_parameters(ASYNC, '{"n":1}'))]
        asks += [("PATCH", instance + LATER, UPDATE), ("PUT", binding, SYNC_BIND), ("PUT", binding + LATER, BIND)]
        asks += [("DELETE", binding + LEAVE, ""), ("DELETE", binding + SYNC_LEAVE, "")]
        asks += [("GET", subject + rest, "") for subject in (instance, binding) for rest in ("", "/last_operation")]
        return self.chance.choice(asks)

    def report_of(self, name):
        """A report of one of the first orders of an instance."""
        path = f"/backend/v1/orders/{spelled(self.chance, name).decode()}/{self.chance.randrange(1, 7)}"
        return "PUT", path, self.chance.choice([SUCCEEDED] * 4 + [FAILED])

    def differs(self, proxy):
        """Makes a request; what was asked and answered, where the answers differ."""
        name = self.chance.choice(self.names)
        if self.chance.random() < 0.3:
            asked = self.report_of(name)
            got = proxy.at_door(shard_of(name, proxy.number), *asked)
        else:
            asked = self.request_about(name)
            got = proxy.answers(request(*asked, CLOSE))
        right = first_of(self.own.sends(request(*asked)))
        return [] if got == right else [(asked, got, right)]

    def looks(self):
        """The targets of all that is shown of its instances."""
        for name in self.names:
            instance = at(quote(name, safe=""))
            for subject in (instance, instance + "/service_bindings/b", instance + "/service_bindings/%25%2F"):
                yield from (subject, subject + "/last_operation")


class Together:
    """Brokers over these database files, behind HAProxy, until they are left."""

    def __init__(self, program, folder, databases):
        self.program, self.folder, self.databases = program, folder, databases

    def __enter__(self):
        with ExitStack() as stack:
            self.brokers = [stack.enter_context(Serving(self.program, it)) for it in self.databases]
            self.proxy = stack.enter_context(Shards(self.folder, [it.address for it in self.brokers]))
            self.stack = stack.pop_all()
        return self

    def __exit__(self, *_):
        self.stack.close()


def get(target):
    return request("GET", target, lines=CLOSE)


def differences(proxy, clients, requests):
    """What the clients were answered otherwise than by their own brokers, all at the same time."""
    with ThreadPoolExecutor(len(clients)) as pool:
        found = pool.map(lambda client: [it for _ in range(requests) for it in client.differs(proxy)], clients)
        return [it for each in found for it in each]


def listing(lists):
    """The orders that a broker lists, which aren't a hundred."""
    status, text = lists("GET", "/backend/v1/orders")
    return json.loads(text)["orders"] if status == 200 else [{"instance_id": str(status)}]


def listed(lists):
    """The orders that several brokers list together."""
    return sorted((order for each in lists for order in listing(each)), key=lambda it: it["instance_id"])


def shown(proxy, clients):
    """All that is shown of the instances of the clients, and the orders that are listed."""
    doors = [lambda *asked, shard=shard: proxy.at_door(shard, *asked) for shard in range(proxy.number)]
    return [proxy.answers(get(it)) for client in clients for it in client.looks()], listed(doors)


def shown_by_own(clients):
    """The same of the brokers of their own."""
    doors = [lambda *asked, own=it.own: first_of(own.sends(request(*asked))) for it in clients]
    return [first_of(client.own.sends(get(it))) for client in clients for it in client.looks()], listed(doors)


def try_doors(proxy):
    for target in ["/backend/v1/orders", "/shards/0/backend/v1/orders", "/", "/v2"]:
        yield f"the platform's door: {target}", proxy.answers(get(target)), NOTHING
    orders = "/backend/v1/orders"
    for shard, path in [(proxy.number, orders), (0, "/v2/catalog"), (0, orders + "x"), ("0/..", orders)]:
        yield f"the backend's door: {shard}{path}", proxy.at_door(shard, "GET", path), NOTHING
    catalogs = [proxy.answers(get("/v2/catalog")) for _ in range(2 * proxy.number)]
    yield "the catalog", catalogs, [(200, CATALOG)] * len(catalogs)


def resharded(program, old, new, number):
    """What examples/reshard.py does: its status, and what it prints."""
    with tempfile.TemporaryDirectory() as folder:
        os.symlink(program, os.path.join(folder, "osb-broker"))
        environment = {**os.environ, "PATH": f"{folder}:{os.environ['PATH']}"}
        words = [sys.executable, RESHARD, old, new, str(number)]
        ran = subprocess.run(words, env=environment, capture_output=True, text=True)
    return ran.returncode, ran.stdout, ran.stderr


def contents(folder):
    return {path.name: path.read_bytes() for path in Path(folder).iterdir()}


def copied(databases, old):
    """Copies these databases and their logs into a folder, and gives what its files have."""
    os.mkdir(old)
    for number, database in enumerate(databases):
        for ending in ("", "-wal"):
            shutil.copy(database + ending, os.path.join(old, f"{number:02}.db{ending}"))
    return contents(old)


def twice(old):
    for path in list(old.glob("00.*")):
        shutil.copy(path, old / path.name.replace("00", "99"))


def spoiled(old):
    for path in old.glob("01.*"):
        path.write_bytes(b"x" * 4096)


def try_refusals(program, folder, old):
    """What isn't put into other shards."""
    spoilt = {
        "an instance that two have": (twice, "UNIQUE constraint failed: "),
        "a log without its file": (lambda it: (it / "01.db").unlink(), "a log without its file"),
        "no database": (spoiled, "01.db: "),
        "nothing": (lambda it: [path.unlink() for path in it.iterdir()], "has no database"),
    }
    for number, (name, (spoil, said)) in enumerate(spoilt.items()):
        place = os.path.join(folder, f"spoilt-{number}")
        shutil.copytree(old, place)
        spoil(Path(place))
        status, printed, errors = resharded(program, place, place + "-new", MORE)
        yield f"not resharded: {name}", (status, printed, said in errors), (1, "", True)
    status, printed, errors = resharded(program, old, folder, MORE)
    yield "not resharded: into a folder that is there", (status, printed, "File exists" in errors), (1, "", True)


def try_backends(proxy):
    """The backend of the examples, at the door of each shard, carries out what is listed."""
    before, lines = len(shown(proxy, [])[1]), []
    for shard in range(proxy.number):
        words = [sys.executable, BACKEND, "--once", f"http://{proxy.door}/shards/{shard}"]
        ran = subprocess.run(words, env={**os.environ, "BACKEND_LOGIN": "backend:worker"}, capture_output=True, text=True)
        lines += [it.rpartition(" ")[2] for it in ran.stdout.splitlines()]
    yield "backends", (Counter(lines), shown(proxy, [])[1]), (Counter(succeeded=before), [])


def try_clients(program, folder):
    """Clients of four brokers and of six, each beside a broker of its own."""
    old, new = os.path.join(folder, "old"), os.path.join(folder, "new")
    databases = [new_database(folder) for _ in range(SHARDS)]
    with ExitStack() as stack:
        clients = [Client(number, stack.enter_context(Serving(program, new_database(folder)))) for number in range(CLIENTS)]
        with Together(program, folder, databases) as four:
            yield "the configuration", four.proxy.is_valid(), (0, four.proxy.valid)
            yield from try_doors(four.proxy)
            yield "answers that differ", differences(four.proxy, clients, REQUESTS), []
            right = shown_by_own(clients)
            yield "what four show", shown(four.proxy, clients), right
        before = copied(databases, old)
        status, printed, errors = resharded(program, old, new, MORE)
        yield "resharded", (status, errors, f", running {len(right[1])}\n" in printed), (0, "", True)
        yield "orders that run meanwhile", len(right[1]) > CLIENTS, True
        yield "the old ones", contents(old) == before, True
        yield from try_refusals(program, folder, old)
        names = [f"{number:02}.db" for number in range(MORE)]
        yield "the new ones", sorted(contents(new)), names
        with Together(program, folder, [os.path.join(new, it) for it in names]) as six:
            yield "what six show", shown(six.proxy, clients), right
            yield "answers of six that differ", differences(six.proxy, clients, REQUESTS_LATER), []
            yield from try_backends(six.proxy)


def put(name):
    return request("PUT", at(name), SYNC, CLOSE)


def name_of(shard):
    """A new id of a shard."""
    return next(it for it in iter(lambda: os.urandom(8).hex(), "") if shard_of(it.encode()) == shard)


def makes(proxy, shard):
    """How an instance of a shard is made, and after how many seconds that is answered."""
    begun = time.monotonic()
    return proxy.answers(put(name_of(shard))), time.monotonic() - begun


def made_in_time(proxy, name):
    """How an instance is made, asked for until it isn't answered 503."""
    answers = []

    def is_back():
        answers.append(proxy.answers(put(name)))
        return answers[-1][0] != 503

    wait_until("a shard that is back", is_back, PATIENCE)
    return answers[-1]


def try_others(proxy, away, when):
    """What all but one shard answer, and the catalog; and that nobody waits long."""
    made = [makes(proxy, shard) for shard in range(SHARDS) if shard != away]
    catalogs = [proxy.answers(get("/v2/catalog")) for _ in range(2 * SHARDS)]
    yield f"the others {when}", [answer for answer, _ in made], [CREATED] * (SHARDS - 1)
    yield f"the catalog {when}", catalogs, [(200, CATALOG)] * 2 * SHARDS
    yield f"the wait for the others {when}", *in_time(max(seconds for _, seconds in made), SOON)


def held(address):
    """The port of an address, so that nobody else gets it. Nobody listens there."""
    port = socket.socket()
    port.setsockopt(socket.SOL_SOCKET, socket.SO_REUSEADDR, 1)
    port.bind(("127.0.0.1", int(address.rpartition(":")[2])))
    return port


def try_away(program, folder):
    """One of four brokers is away for longer than HAProxy tries."""
    away, name = 2, name_of(2)
    with Together(program, folder, [new_database(folder) for _ in range(SHARDS)]) as four, ThreadPoolExecutor(1) as pool:
        broker = four.brokers[away]
        yield "each shard makes one", [makes(four.proxy, it)[0] for it in range(SHARDS)], [CREATED] * SHARDS
        broker.kill()
        with held(broker.address):
            first = pool.submit(four.proxy.answers, put(name))
            yield from try_others(four.proxy, away, "while HAProxy tries")
            yield "who asks the one that is away", first.result(), (503, AWAY)
            time.sleep(SOON)
            yield from try_others(four.proxy, away, "once that is known")
            answer, seconds = makes(four.proxy, away)
            yield "who asks the one that is away then", answer, (503, AWAY)
            yield "how long that takes", *in_time(seconds, SOON)
        broker.start(broker.address)
        yield "it starts again", broker.listens(), True
        yield "the same request", [made_in_time(four.proxy, name) for _ in range(2)], [CREATED, THERE]
        found = [first_of(it.sends(get(at(name))))[0] for it in four.brokers]
        yield "where it is", found, [200 if shard == away else 404 for shard in range(SHARDS)]
        yield from try_restarts(four, pool)


def try_restarts(four, pool):
    """Each broker is killed and starts again; nobody sees it."""
    for shard, broker in enumerate(four.brokers):
        again = pool.submit(restarts, broker)
        found = [makes(four.proxy, it)[0] for _ in range(10) for it in range(SHARDS)]
        yield f"shard {shard} starts again", again.result(), True
        yield f"meanwhile, of shard {shard}", [it for it in found if it not in (CREATED, THERE)], []


def tries(program):
    with tempfile.TemporaryDirectory() as folder, ThreadPoolExecutor(3) as pool:
        parts = [partial(each, program, folder) for each in (try_away, try_clients)] + [partial(try_routes, folder)]
        yield from side_by_side(pool, parts)


def main():
    missing = [it for it in ("openssl", "haproxy") if not shutil.which(it)]
    if missing:
        passed_over("shards", "everything", *missing)
        return 0
    return tell("shards", tries(os.path.abspath(sys.argv[1])))


if __name__ == "__main__":
    sys.exit(main())
