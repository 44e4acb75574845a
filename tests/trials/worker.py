#!/usr/bin/env python3
"""The backend of examples/postgresql.py, with what the trials put in its way.

usage: tests/trials/worker.py [--login FILE] [--most N] [--once] URL

By variables of the environment: DIES is the chance with which it kills itself before each of its steps, and behind it,
drawn from the seed SEED. DIES_AT is the number of such a moment, counted from 1, at which it kills itself for certain.
With LATE it hangs before the lock of an order, or with HELD behind it: it makes the file that this names, and goes on once
that is gone. With BLIND it doesn't look whether an order still runs.
"""

import itertools
import os
import random
import signal
import sys
import time

sys.path.insert(0, os.path.join(os.path.dirname(os.path.abspath(__file__)), "..", "..", "examples"))

import backend
import postgresql

DIES = float(os.environ.get("DIES", 0))
DIES_AT = int(os.environ.get("DIES_AT", 0))
CHANCE = random.Random(os.environ.get("SEED"))
MOMENTS = itertools.count(1)


def may_die():
    if CHANCE.random() < DIES or next(MOMENTS) == DIES_AT:
        os.kill(os.getpid(), signal.SIGKILL)


def dying(step):
    """A step, before and behind which the worker may kill itself."""

    def taken(*given, **more):
        may_die()
        result = step(*given, **more)
        may_die()
        return result

    return taken


def may_hang(name):
    if name in os.environ:
        open(os.environ[name], "x").close()
        while os.path.exists(os.environ[name]):
            time.sleep(0.05)


class Databases(postgresql.Databases):
    def lock(self, order):
        may_hang("LATE")
        return super().lock(order)

    def carry_out(self, order, session):
        may_hang("HELD")
        return super().carry_out(order, session)


if __name__ == "__main__":
    # An order that another worker has, or that a step failed of, is begun again soon.
    backend.REST = 1
    postgresql.Session.run = dying(postgresql.Session.run)
    backend.Broker.report = dying(backend.Broker.report)
    if "BLIND" in os.environ:
        backend.Broker.runs = lambda *_: True
    sys.exit(backend.main(Databases))
