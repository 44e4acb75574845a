"""The worked conversations of crates/osb_conformance/conversations, whose lines docs/VECTORS.md explains."""

import os
import re
from dataclasses import dataclass, field

CRATES = os.path.join(os.path.dirname(os.path.abspath(__file__)), "..", "..", "crates")
GROUPS = os.path.join(CRATES, "osb_conformance", "conversations")


def built_in():
    """The text of the built-in settings."""
    with open(os.path.join(CRATES, "osb_catalog", "src", "built_in.rt"), encoding="utf-8") as file:
        return re.search(r'BUILT_IN: &str = "(.*?)";', file.read(), re.DOTALL).group(1).replace('\\"', '"')


@dataclass
class Exchange:
    """A request and its reply. `fields` is None if the request has the usual field lines of its door, and `identity` is the
    line that its reply repeats. An ask has a broker of its own; `order` is the order that it opens or ends there, or None."""

    settings: str
    is_ask: bool
    method: str
    target: str
    fields: list | None = None
    identity: str = ""
    body: str = ""
    status: str = ""
    reply: str = ""
    order: str | None = None

    def row(self):
        """Method, target and body, status and body."""
        return self.method, self.target, self.body, int(self.status[:3]), self.reply


@dataclass
class Conversation:
    name: str
    exchanges: list = field(default_factory=list)


class Reader:
    """Reads the lines of a group, one after the other."""

    def __init__(self, name):
        self.file, self.built_in, self.conversations, self.before = name, built_in(), [], ""
        with open(os.path.join(GROUPS, f"{name}.txt"), encoding="utf-8", newline="\n") as file:
            for line in file.read().split("\n"):
                self.take(line)

    def take(self, line):
        kind, _, rest = line.partition(" ")
        if kind == "==":
            self.settings = self.built_in
            self.conversations.append(Conversation(f"{self.file}/{rest}"))
        elif kind == "--":
            self.settings = self.with_text(*rest.split(" => "))
        elif kind in (">", "?"):
            self.exchanges.append(Exchange(self.settings, kind == "?", *rest.split(" ", 1)))
        elif kind in (":", "~", "|", "<", "*"):
            self.add(self.exchanges[-1], kind, rest)
        elif kind not in ("", "#", "@", "=") and line != f"=== {self.file}":
            raise ValueError(f"{self.file}: {line}")
        self.before = kind

    @property
    def exchanges(self):
        return self.conversations[-1].exchanges

    def with_text(self, old, new):
        """The built-in settings with one text in the place of another."""
        if old not in self.built_in:
            raise ValueError(f"{self.file}: not in the settings: {old}")
        return self.built_in.replace(old, new, 1)

    def add(self, exchange, kind, rest):
        """Adds a field line, a body, the reply or an order to an exchange. Orders elsewhere are a whole life."""
        if kind == ":":
            exchange.fields = [*(exchange.fields or []), rest]
        elif kind == "~":
            exchange.identity = f"X-Broker-API-Request-Identity: {rest}\r\n"
        elif kind == "|":
            exchange.body = rest
        elif kind == "<":
            status, brace, reply = rest.partition("{")
            exchange.status, exchange.reply = status.rstrip(" "), brace + reply
        elif exchange.is_ask and self.before == "<":
            exchange.order = rest


def files():
    return sorted(name.removesuffix(".txt") for name in os.listdir(GROUPS))


def conversations():
    """All of them, each named by its file and its name, as `instances/failed_create`."""
    return [it for name in files() for it in Reader(name).conversations]


def worked(name):
    """The exchanges of the conversation of that name, each as its row."""
    (found,) = [it for it in Reader(name.partition("/")[0]).conversations if it.name == name]
    return [exchange.row() for exchange in found.exchanges]
