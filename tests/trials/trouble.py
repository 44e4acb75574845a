#!/usr/bin/env python3
"""The frame of examples/backend.py with a service that has trouble, by the first word of an instance's id.

usage: tests/trials/trouble.py [--login FILE] [--most N] [--once] URL

Beside its words it takes the variable GO: an order that hangs goes on once that file is there.
"""

import os
import sys
import time

sys.path.insert(0, os.path.join(os.path.dirname(os.path.abspath(__file__)), "..", "..", "examples"))

import backend

# How often an order that raises has raised.
raised = 0


class Trouble(backend.Service):
    def carry_out(self, order, held):
        named = order["instance_id"].partition("-")[0]
        return getattr(self, named, super().carry_out)(order, held)

    def fails(self, order, held):
        raise backend.Failed("no host\nhas room\x7f" + "ü" * 1000)

    def hangs(self, order, held):
        while not os.path.exists(os.environ["GO"]):
            time.sleep(0.05)

    def raises(self, order, held):
        global raised
        raised += 1
        if raised < 3:
            raise OSError("the service is away")

    def half(self, order, held):
        return {"weight": 0.5} if order["kind"] == "bind" else None


if __name__ == "__main__":
    backend.PAUSE = backend.REST = 0.2
    sys.exit(backend.main(Trouble))
