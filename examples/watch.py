#!/usr/bin/env python3
"""Watches the orders of a broker, and prints how many run, and for how long, as Prometheus reads it.

usage: examples/watch.py [--login FILE] [--seen FILE] [--longest SECONDS] URL

The listing has no times. So the file of --seen, watch.json without it, keeps when each order was
first seen: ages are right to the time between two looks. It needs backend.py beside it, which says
how the login is given.

For the textfile collector of Prometheus' node exporter, each minute:

    watch.py --login LOGIN --seen SEEN URL > osb.prom.new; mv osb.prom.new osb.prom

As a probe, with --longest: status 1 says that an order has run for longer.

statuses: 0, all is well; 1, an order has run for longer; 2, the words, the login or the file of --seen
are not usable; 3, the broker is away or refuses the login.
"""

import json
import os
import sys
import time
from collections import Counter

from backend import Away, Refused, broker_of, words_of_calls

UP = "# HELP osb_broker_up Whether the broker answered.\n# TYPE osb_broker_up gauge\nosb_broker_up {}"
RUNNING = "# HELP osb_orders_running Orders that run.\n# TYPE osb_orders_running gauge"
OLDEST = "# HELP osb_order_oldest_seconds The age of the oldest of them.\n# TYPE osb_order_oldest_seconds gauge"


def name_of(order):
    return f"{order['seq']} {order['instance_id']}"


def kept_in(path):
    """What the file has of earlier looks: nothing if it isn't there, or isn't as this program wrote it."""
    try:
        with open(path, encoding="utf-8") as file:
            return {name: float(at) for name, at in json.load(file).items()}
    except (FileNotFoundError, ValueError, TypeError, AttributeError):
        return {}


def first_seen(path, orders, now):
    """When each order was first seen, by the file, which is then brought up to date."""
    before = kept_in(path)
    seen = {name_of(order): before.get(name_of(order), now) for order in orders}
    with open(path + ".new", "w", encoding="utf-8") as file:
        json.dump(seen, file)
    os.replace(path + ".new", path)
    return seen


def labels(order):
    plan = order["plan_id"].replace("\\", "\\\\").replace('"', '\\"')
    return f'{{plan="{plan}",kind="{order["kind"]}"}}'


def show(heading, metric, values):
    print(heading)
    for each in sorted(values):
        print(f"{metric}{each} {values[each]:.0f}")


def main():
    words = words_of_calls("Prints how many orders run, and for how long.")
    words.add_argument("--seen", metavar="FILE", default="watch.json", help="keeps when each order was first seen")
    words.add_argument("--longest", metavar="SECONDS", type=float, default=float("inf"), help="how long an order may run")
    given, broker = broker_of(words)
    try:
        orders = list(broker.orders())
    except (Away, Refused) as why:
        print(UP.format(0))
        print(f"watch: the broker: {why}", file=sys.stderr)
        return 3
    print(UP.format(1))
    show(RUNNING, "osb_orders_running", Counter(map(labels, orders)))
    now = time.time()
    try:
        seen = first_seen(given.seen, orders, now)
    except OSError as why:
        print(f"watch: the file of --seen: {why}", file=sys.stderr)
        return 2
    oldest = {}
    for order in orders:
        age = max(now - seen[name_of(order)], 0)
        oldest[labels(order)] = max(age, oldest.get(labels(order), 0))
    show(OLDEST, "osb_order_oldest_seconds", oldest)
    return 1 if any(age > given.longest for age in oldest.values()) else 0


if __name__ == "__main__":
    sys.exit(main())
