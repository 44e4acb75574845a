#!/usr/bin/env python3
"""Sends the worked conversations of crates/osb_conformance/conversations to the built program, over loopback.

usage: tests/trials/worked.py PROGRAM [NAME]

Each conversation has a database of its own, and each reply is compared whole. An ask that opens or ends an order goes to
a broker over a copy of the database. States and lives are left to the crate's own program. With a NAME only the
conversation of that name is sent (`instances/failed_create`), or those of that file (`rules`).
"""

import os
import shutil
import sys
import tempfile
from concurrent.futures import ThreadPoolExecutor
from functools import partial

sys.path.append(os.path.join(os.path.dirname(os.path.abspath(__file__)), "..", "lib"))

from conversations import CHALLENGE, reply_of, request
from serving import Serving, new_database, side_by_side, tell
from vectors import conversations

# How many conversations are sent at the same time.
AT_ONCE = 8


def settings_file(folder, text):
    path = os.path.join(tempfile.mkdtemp(dir=folder), "settings.json")
    with open(path, "w", encoding="utf-8") as file:
        file.write(text)
    return path


def copy_of(database, folder):
    """A copy of a database that no broker has open."""
    copied = new_database(folder)
    for end in ("", "-wal"):
        if os.path.exists(database + end):
            shutil.copy(database + end, copied + end)
    return copied


class Broker:
    """The program over a database, started when it is needed, and anew if the settings are others."""

    def __init__(self, program, folder, database):
        self.program, self.folder, self.database, self.serving, self.settings = program, folder, database, None, None

    def over(self, settings):
        if not self.serving or settings != self.settings:
            self.stop()
            path = settings_file(self.folder, settings)
            self.serving, self.settings = Serving(self.program, self.database, settings=path).__enter__(), settings
        return self.serving

    def answers(self, exchange):
        asked = request(exchange.method, exchange.target, exchange.body, exchange.identity, exchange.fields)
        return self.over(exchange.settings).sends(asked)

    def stop(self):
        if self.serving:
            self.serving.kill()
        self.serving = None

    def __enter__(self):
        return self

    def __exit__(self, *_):
        self.stop()


def expected_of(exchange):
    challenge = CHALLENGE if exchange.status.startswith("401 ") else ""
    return reply_of(exchange.status, exchange.reply, lines=exchange.identity + challenge)


def answered(program, folder, broker, exchange):
    """What an exchange is answered: by the broker, or if it is an ask with an order by another one, over a copy."""
    if exchange.order is None:
        return broker.answers(exchange)
    broker.stop()
    with Broker(program, folder, copy_of(broker.database, folder)) as own:
        return own.answers(exchange)


def try_conversation(program, folder, conversation):
    with Broker(program, folder, new_database(folder)) as broker:
        for number, exchange in enumerate(conversation.exchanges, 1):
            found = answered(program, folder, broker, exchange)
            yield f"{conversation.name} {number}: {exchange.method} {exchange.target}", found, expected_of(exchange)


def is_named(conversation, name):
    return name in ("", conversation.name, conversation.name.partition("/")[0])


def tries(program, name):
    found = [it for it in conversations() if is_named(it, name)]
    with tempfile.TemporaryDirectory() as folder, ThreadPoolExecutor(AT_ONCE) as pool:
        yield from side_by_side(pool, [partial(try_conversation, program, folder, it) for it in found])


if __name__ == "__main__":
    sys.exit(tell("worked", tries(os.path.abspath(sys.argv[1]), *(sys.argv[2:] or [""]))))
