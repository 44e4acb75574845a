#!/usr/bin/env python3
"""Tries the built program from outside: its words, files, statuses and lines.

usage: tests/trials/program.py PROGRAM

The expected replies and lines stand written out here; none comes from the program.
"""

import contextlib
import json
import os
import pty
import subprocess
import sys
import tempfile
import threading
import tty
from functools import partial

sys.path.append(os.path.join(os.path.dirname(os.path.abspath(__file__)), "..", "lib"))

from conversations import ASYNC, CATALOG, CATALOG_REPLY, GET_CATALOG, I, LATER, NO_HEAD_REPLY, REPORT, SUCCEEDED, SYNC
from conversations import TOO_LARGE_REPLY, UNAUTHORIZED_REPLY, UPDATE, at, head_of, operation, replies, reply, request
from serving import EXAMPLES, newest_version, tell

LIMIT = 16_777_216

EXAMPLE_SETTINGS = os.path.join(EXAMPLES, "settings.json")

SETTINGS = {
    "platform": {"user": "platform", "password": "secret"},
    "backend": {"user": "backend", "password": "worker"},
    "catalog": {
        "services": [
            {
                "name": "store",
                "id": "svc",
                "description": "Key store",
                "bindable": True,
                "bindings_retrievable": True,
                "plan_updateable": True,
                "plans": [
                    {"name": "small", "id": "p-sync", "description": "At once"},
                    {
                        "name": "large",
                        "id": "p-async",
                        "description": "Later",
                        "maintenance_info": {"version": "1.2.0"},
                    },
                ],
            }
        ]
    },
    "modes": {
        "p-sync": {"credentials": {"uri": "mem:1"}},
        "p-async": {"instances": "asynchronous", "bindings": "asynchronous"},
    },
}


def changed(change):
    """The settings, after a change of a copy."""
    settings = json.loads(json.dumps(SETTINGS))
    change(settings)
    return json.dumps(settings).encode()


def service(settings):
    return settings["catalog"]["services"][0]


def plan(settings, place):
    return service(settings)["plans"][place]


SETTINGS_FAULTS = [
    (b"[]", "1 Text"),
    (b"{", "1 Text"),
    (b"{}", "2 Missing platform"),
    (changed(lambda s: plan(s, 1).update(id="p-sync")), "3 DoubleId"),
    (changed(lambda s: plan(s, 0).update(schemas={})), "4 LeftOut schemas"),
    (changed(lambda s: plan(s, 1)["maintenance_info"].update(version="1.2")), "5 Version"),
    (changed(lambda s: service(s).pop("bindings_retrievable")), "6 Mode"),
    (changed(lambda s: s["platform"].update(user="a:b")), "7 Credential"),
]


class Tries:
    def __init__(self, program):
        self.program = os.path.abspath(program)
        self.found = []

    def run(self, words, given=b"", **more):
        return subprocess.run(
            [self.program, *words], input=given, capture_output=True, timeout=60, **more
        )

    def expect(self, name, ended, status, output, errors):
        for what, found, wanted in [
            ("status", ended.returncode, status),
            ("output", ended.stdout, output),
            ("errors", ended.stderr, errors),
        ]:
            self.found.append((f"{name}: {what}", found, wanted))

    def tell(self, name, wrong):
        self.found.append((name, wrong, []))


def try_replay(tries):
    for words in [[], ["replay"]]:
        ended = tries.run(words, GET_CATALOG)
        tries.expect(f"catalog {words}", ended, 0, CATALOG_REPLY, b"")
    tries.expect("empty", tries.run([]), 0, b"", b"")
    tries.expect("blank", tries.run([], b"\r\n"), 0, NO_HEAD_REPLY, b"")
    # Nothing after the one request of a connection is answered.
    twice = tries.run([], GET_CATALOG + GET_CATALOG)
    tries.expect("two requests", twice, 0, CATALOG_REPLY, b"")
    tries.expect("largest input", tries.run([], b" " * LIMIT), 0, NO_HEAD_REPLY, b"")
    tries.expect(
        "larger input",
        tries.run([], b" " * (LIMIT + 1)),
        1,
        b"",
        b"osb-broker: too large standard input\n",
    )


def try_limits(tries):
    """The most field lines and the largest body, and one more of each."""
    tries.expect("128 lines", tries.run([], head_of(128)), 0, CATALOG_REPLY, b"")
    tries.expect("129 lines", tries.run([], head_of(129)), 0, NO_HEAD_REPLY, b"")
    for length, expected in [(262_144, CATALOG_REPLY), (262_145, TOO_LARGE_REPLY)]:
        ended = tries.run([], request("GET", "/v2/catalog", "b" * length))
        tries.expect(f"a body of {length} bytes", ended, 0, expected, b"")


def try_several_requests(tries):
    """What is known stays so for as long as the connection lasts."""
    both = reply(201, "{}", closes=False) + reply(200, "{}")
    ended = tries.run(["replay", "--per-connection", "2"], request("PUT", I, SYNC) * 2)
    tries.expect("a PUT twice", ended, 0, both, b"")
    encoded = request("PUT", at("a"), SYNC) + request("PUT", at("%61"), SYNC)
    ended = tries.run(["replay", "--per-connection=2"], encoded)
    tries.expect("an id and the same encoded", ended, 0, both, b"")
    ended = tries.run(["replay"], request("PUT", I, "{}"))
    refused = reply(400, '{"description":"The body is not usable."}')
    tries.expect("a body that lacks members", ended, 0, refused, b"")
    still_open = reply(200, CATALOG, closes=False)
    for words, expected in [
        ([], CATALOG_REPLY),
        (["--per-connection", "1"], CATALOG_REPLY),
        (["--per-connection", "2"], still_open + CATALOG_REPLY),
        (["--per-connection=1000"], still_open * 3),
    ]:
        ended = tries.run(["replay", *words], GET_CATALOG * 3)
        tries.expect(f"three requests {words}", ended, 0, expected, b"")


def created_later(instance):
    return request("PUT", at(instance) + LATER, ASYNC)


def try_resent_requests(tries):
    """A request sent again acts once, with and without requests of another instance between."""
    report = request("PUT", REPORT + "1", SUCCEEDED)
    update = request("PATCH", I + LATER, UPDATE)
    sent = [created_later("i")] * 3 + [report] * 2 + [update] * 2
    expected = [202, 202, 202, 200, 200, 202, 202]
    orders = request("GET", "/backend/v1/orders")
    running = b'"instance_id":"i","kind":"update","maintenance_version":"1.2.0"'
    for name, between in [("alone", b""), ("with another instance between", created_later("j"))]:
        given = between.join([*sent, orders])
        ended = tries.run(["replay", "--per-connection", "1000"], given)
        seen = [status for status, _ in replies(ended.stdout)]
        seen = seen[::2] if between else seen
        wrong = [] if seen == [*expected, 200] else [f"statuses {seen}"]
        if ended.stdout.count(b'{"operation":"update-2"}') != 2:
            wrong.append("not update-2 twice")
        if ended.stdout.count(running) != 1:
            wrong.append("not one update runs")
        tries.tell(f"requests sent again, {name}", wrong)


def try_example(tries):
    """The conversation of examples/resent.http."""
    with open(os.path.join(EXAMPLES, "resent.http"), "rb") as file:
        ended = tries.run(["replay", "--per-connection", "5"], file.read())
    seen = [(status, body.partition('"kind"')[0]) for status, body in replies(ended.stdout)]
    expected = [
        (202, operation("create-1")),
        (202, operation("create-1")),
        (200, '{"orders":[{"instance_id":"i",'),
        (200, "{}"),
        (200, SUCCEEDED),
    ]
    tries.tell("the example's conversation", [] if seen == expected else [repr(seen)])


def try_listing(tries):
    """Running orders are listed by their ids, a hundred at a time."""
    names = [f"i{n:03}" for n in range(101)]
    given = b"".join(created_later(name) for name in reversed(names))
    given += request("GET", "/backend/v1/orders")
    given += request("GET", "/backend/v1/orders?after=i099")
    ended = tries.run(["replay", "--per-connection", "103"], given)
    pages = [json.loads(body)["orders"] for _, body in replies(ended.stdout)[101:]]
    listed = [[order["instance_id"] for order in page] for page in pages]
    wrong = [] if listed == [names[:100], names[100:]] else [f"listed {listed}"]
    tries.tell("a hundred orders and one", wrong)


def try_settings(tries, folder):
    """Another catalog and another password."""
    def other(settings):
        settings["platform"]["password"] = "other"
        plan(settings, 0)["description"] = "Now"

    path = os.path.join(folder, "other.json")
    with open(path, "wb") as file:
        file.write(changed(other))
    words = ["replay", "--settings", path]
    tries.expect("another password", tries.run(words, GET_CATALOG), 0, UNAUTHORIZED_REPLY, b"")
    known = GET_CATALOG.replace(b"cGxhdGZvcm06c2VjcmV0", b"cGxhdGZvcm06b3RoZXI=")
    catalog = reply(200, CATALOG.replace("At once", "Now"))
    tries.expect("another catalog", tries.run(words, known), 0, catalog, b"")
    with open(path, "wb") as file:
        file.write(b"{}")
    tries.expect(
        "settings that lack a field", tries.run(words), 3, b"", b"settings: 2 Missing platform\n"
    )
    missing = os.path.join(folder, "missing.json")
    tries.expect(
        "settings that are missing",
        tries.run(["replay", "--settings", missing]),
        1,
        b"",
        f"osb-broker: cannot read {missing}\n".encode(),
    )
    ended = tries.run(["replay", "--settings", EXAMPLE_SETTINGS], GET_CATALOG)
    tries.expect("the example's catalog", ended, 0, CATALOG_REPLY, b"")


def try_files(tries, folder):
    """Connections from files, one after the other over one database."""
    def written(name, content):
        path = os.path.join(folder, name)
        with open(path, "wb") as file:
            file.write(content)
        return path

    one = written("one.http", request("PUT", I, SYNC))
    both = written("both.http", request("PUT", I, SYNC) + GET_CATALOG)
    empty = written("empty.http", b"")
    ended = tries.run(["replay", one, empty, one], GET_CATALOG)
    tries.expect("files are connections", ended, 0, reply(201, "{}") + reply(200, "{}"), b"")
    ended = tries.run(["replay", "--per-connection", "2", both, one])
    replies_open = [reply(status, "{}", closes=False) for status in (201, 200)]
    tries.expect("requests of files", ended, 0, CATALOG_REPLY.join(replies_open), b"")
    missing = os.path.join(folder, "missing.http")
    larger = written("larger.http", b" " * (LIMIT + 1))
    largest = written("largest.http", b" " * LIMIT)
    tries.expect("largest file", tries.run(["replay", largest]), 0, NO_HEAD_REPLY, b"")
    # All files are read before the first request.
    for path, what in [(missing, "cannot read"), (larger, "too large"), (folder, "cannot read")]:
        line = f"osb-broker: {what} {path}\n".encode()
        tries.expect(f"{what} a file", tries.run(["replay", one, path]), 1, b"", line)
    # Settings come before files.
    faulty = written("faulty.json", b"{}")
    ended = tries.run(["replay", "--settings", faulty, missing])
    tries.expect("settings first", ended, 3, b"", b"settings: 2 Missing platform\n")


def try_closed_output(tries):
    """Standard output is closed, or takes nothing."""
    for words, given in [([], GET_CATALOG), (["check", EXAMPLE_SETTINGS], b"")]:
        for name, stream in [("closed", ">&-"), ("full", ">/dev/full")]:
            command = ["sh", "-c", f'"$0" "$@" {stream}', tries.program, *words]
            ended = subprocess.run(command, input=given, stderr=subprocess.PIPE, timeout=60)
            found = (ended.returncode, ended.stderr)
            wrong = [] if found == (1, b"osb-broker: cannot write\n") else [repr(found)]
            tries.tell(f"output is {name} {words}", wrong)


def fill(end, count):
    """Gives so many spaces to a terminal's other side, which then is told of a failure."""
    with contextlib.suppress(OSError), open(end, "wb", buffering=0) as terminal:
        while count:
            count -= terminal.write(b" " * min(count, 65_536))


def on_failing_input(tries, words, count):
    """How the program ends on an input that fails behind so many spaces."""
    given, end = pty.openpty()
    tty.setraw(end)
    threading.Thread(target=fill, args=(end, count), daemon=True).start()
    ended = subprocess.run([tries.program, *words], stdin=given, capture_output=True, timeout=60)
    os.close(given)
    return ended


def try_broken_streams(tries, folder):
    unread = b"osb-broker: cannot read standard input\n"
    given = os.open(folder, os.O_RDONLY)
    ended = subprocess.run([tries.program], stdin=given, capture_output=True, timeout=60)
    os.close(given)
    tries.expect("input is a folder", ended, 1, b"", unread)
    tries.expect("input fails", on_failing_input(tries, ["replay"], 5000), 1, b"", unread)
    # Nothing behind the first byte too many is read.
    too_large = b"osb-broker: too large standard input\n"
    tries.expect("larger input fails", on_failing_input(tries, [], LIMIT + 1), 1, b"", too_large)
    # A line that nobody takes changes nothing.
    command = ["sh", "-c", '"$0" > /dev/full 2>&1', tries.program]
    tries.expect("nothing is taken", subprocess.run(command, input=GET_CATALOG, capture_output=True), 1, b"", b"")


# Words of `serve`, of which each has to be there.
SERVED = ["--settings", "FILE", "--database", "FILE", "--listen", "127.0.0.1:0"]


def try_words(tries):
    for words in [["--help"], ["check", "--help"], ["ready", "--help"], ["replay", "--help"], ["replay", "-h"], ["serve", "--help"]]:
        ended = tries.run(words)
        is_help = b"osb-broker" in ended.stdout and len(ended.stdout) > 100
        helps = ended.returncode == 0 and is_help and not ended.stderr
        tries.tell(f"help {words}", [] if helps else [repr(ended)])
    for words in [
        ["bogus"],
        ["check"],
        ["check", "--explain"],
        ["check", "a", "b"],
        ["check", "--database"],
        ["check", "--explain=a", "b"],
        ["--bogus"],
        ["check", "--settings", "a"],
        ["replay", "--settings"],
        ["replay", "--connections", "1"],
        ["replay", "--per-connection"],
        ["replay", "--per-connection", "-1"],
        ["replay", "--per-connection", "0"],
        ["replay", "--per-connection", "1001"],
        ["replay", "--per-connection", "x"],
        ["serve"],
        ["serve", *SERVED[:2], *SERVED[4:]],
        ["serve", *SERVED[:4]],
        ["serve", *SERVED, "--connections", "0"],
        ["serve", *SERVED, "--per-connection", "0"],
        ["serve", *SERVED, "--together", "0"],
        ["serve", *SERVED, "--together", "1025"],
        ["serve", *SERVED, "--idle-limit", "0"],
        ["serve", *SERVED, "--idle-limit", "86401"],
    ]:
        ended = tries.run(words)
        told = ended.returncode == 2 and ended.stderr and not ended.stdout
        tries.tell(f"words {words}", [] if told else [repr(ended)])


def try_version(tries):
    for word in ["--version", "-V"]:
        tries.expect(f"version {word}", tries.run([word]), 0, f"osb-broker {newest_version()}\n".encode(), b"")


def try_words_of_bytes(tries):
    """Words that are no UTF-8 are wrong words, wherever they stand."""
    line = b"osb-broker: the words are not all UTF-8\n"
    for words in [[b"\xff"], [b"check", b"\xff"], [b"serve", b"--settings", b"a\xc3"], [b"replay", b"\xed\xa0\x80"]]:
        tries.expect(f"words {words}", tries.run(words), 2, b"", line)


def try_check(tries, folder):
    def check(name, content, status, output, errors):
        path = os.path.join(folder, "settings.json")
        with open(path, "wb") as file:
            file.write(content)
        ended = tries.run(["check", path])
        errors = errors.replace(b"FILE", path.encode())
        tries.expect(f"check {name}", ended, status, output, errors)

    counted = b"services 1, plans 2\n"
    good = json.dumps(SETTINGS).encode()
    check("good settings", good, 0, counted, b"")
    check("indented settings", json.dumps(SETTINGS, indent=2).encode(), 0, counted, b"")
    padded = good + b" " * (LIMIT - len(good))
    check("largest settings", padded, 0, counted, b"")
    check("larger settings", padded + b" ", 1, b"", b"osb-broker: too large FILE\n")
    for content, fault in SETTINGS_FAULTS:
        check(fault, content, 3, b"", f"settings: {fault}\n".encode())
    missing = os.path.join(folder, "missing.json")
    tries.expect(
        "check a missing file",
        tries.run(["check", missing]),
        1,
        b"",
        f"osb-broker: cannot read {missing}\n".encode(),
    )
    tries.expect(
        "check a folder",
        tries.run(["check", folder]),
        1,
        b"",
        f"osb-broker: cannot read {folder}\n".encode(),
    )


def another_service(settings):
    """One that is whole, before the other."""
    plans = [{"name": "n", "id": "p", "description": "d"}]
    made = {"name": "n", "id": "first", "description": "d", "bindable": False, "plans": plans}
    settings["catalog"]["services"].insert(0, made)


def behind(change):
    """The change of a service that isn't the first."""
    def both(settings):
        change(settings)
        another_service(settings)

    return both


# A change of the settings, the fault, and where it is.
PLACES = [
    (lambda it: it.pop("backend"), "2 Missing backend", "the top"),
    (lambda it: it["catalog"].pop("services"), "2 Missing services", "catalog"),
    (lambda it: service(it).pop("bindable"), "2 Missing bindable", "catalog.services[0]"),
    (behind(lambda it: service(it).pop("bindable")), "2 Missing bindable", "catalog.services[1]"),
    (lambda it: plan(it, 1).pop("description"), "2 Missing description", "catalog.services[0].plans[1]"),
    (behind(lambda it: plan(it, 1).pop("name")), "2 Missing name", "catalog.services[1].plans[1]"),
    (lambda it: it["modes"]["p-async"].update(bindings="later"), "2 Missing bindings", "modes.p-async"),
    (lambda it: plan(it, 1).update(id="p-sync"), "3 DoubleId", "catalog.services[0].plans[0]"),
    (lambda it: plan(it, 0).update(schemas={}), "4 LeftOut schemas", "catalog.services[0].plans[0]"),
    (lambda it: plan(it, 1).update(maintenance_info={"version": "1"}), "5 Version", "catalog.services[0].plans[1]"),
    (lambda it: it["modes"].update(other={}), "6 Mode", "modes.other"),
    (lambda it: service(it).pop("bindings_retrievable"), "6 Mode", "catalog.services[0].plans[1]"),
    (lambda it: it["platform"].update(user="a:b"), "7 Credential", "platform"),
    (lambda it: it["backend"].update(password=""), "7 Credential", "backend"),
    (lambda it: it["platform"].update(also={"user": "u"}), "2 Missing platform", "the top"),
    (lambda it: it["platform"].update(also={"user": "a:b", "password": "p"}), "7 Credential", "platform"),
    (lambda it: it["backend"].update(also={"user": "u", "password": ""}), "7 Credential", "backend"),
]


# What is wanted, by the beginning of a fault and of its place.
WANTED = [
    ("2 Missing platform", "", "an object with the texts user and password, and with such an object if it has also"),
    ("2 Missing backend", "", "an object with the texts user and password, and with such an object if it has also"),
    ("2 Missing services", "", "a list of objects"),
    ("2 Missing bindable", "", "true or false"),
    ("2 Missing bindings", "", "synchronous or asynchronous"),
    ("2 Missing", "", "a text that isn't empty"),
    ("3", "", "an id that no other one has"),
    ("4", "", "nothing, this broker leaves it out"),
    ("5", "", "a semantic version, as 1.0.0"),
    ("6", "modes", "the id of a plan, and no plan has this one"),
    ("6", "", "bindings_retrievable in its service, for asynchronous bindings"),
    ("7", "", "a user without a colon, and both texts of 1 to 256 bytes without control characters"),
]


def wanted(fault, place):
    """The line that says what is wanted there."""
    return "wanted: " + next(text for begins, at, text in WANTED if fault.startswith(begins) and place.startswith(at))


def try_explain(tries, folder):
    """Where in the settings a fault is, and what is wanted there."""
    path = os.path.join(folder, "settings.json")

    def explain(name, content, status, output, errors):
        with open(path, "wb") as file:
            file.write(content)
        os.chmod(path, 0o600)
        tries.expect(f"explain {name}", tries.run(["check", "--explain", path]), status, output, errors)

    for change, fault, place in PLACES:
        explain(place, changed(change), 3, b"", f"settings: {fault}\nat {place}\n{wanted(fault, place)}\n".encode())
    login = wanted("2 Missing platform", "the top").encode()
    explain("an empty object", b"{}", 3, b"", b"settings: 2 Missing platform\nat the top\n" + login + b"\n")
    explain("no object", b"[]", 3, b"", b"settings: 1 Text\nnot an object\n")
    modes = b"plan p-sync: instances synchronous, bindings synchronous\n"
    modes += b"plan p-async: instances asynchronous, bindings asynchronous\n"
    passwords = b"a password that is easily guessed: platform\na password that is easily guessed: backend\n"
    explain("good settings", json.dumps(SETTINGS).encode(), 0, b"services 1, plans 2\n" + modes + passwords, b"")
    os.remove(path)
    line = f"osb-broker: cannot read {path}\n".encode()
    tries.expect("explain a missing file", tries.run(["check", path, "--explain"]), 1, b"", line)


OVER_PROGRAM = [try_replay, try_limits, try_several_requests, try_resent_requests, try_example, try_listing]
OVER_PROGRAM += [try_closed_output, try_words, try_version, try_words_of_bytes]
OVER_FILES = [try_settings, try_broken_streams, try_files, try_check, try_explain]


def found_by(program):
    """What each part finds."""
    tries = Tries(program)
    with tempfile.TemporaryDirectory() as folder:
        for part in [*OVER_PROGRAM, *(partial(it, folder=folder) for it in OVER_FILES)]:
            try:
                part(tries)
            finally:
                yield from tries.found
                tries.found.clear()


if __name__ == "__main__":
    sys.exit(tell("program", found_by(sys.argv[1])))
