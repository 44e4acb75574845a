#!/usr/bin/env python3
"""Tries what `check` says of settings: each fault, the first of two, where it is, what is wanted there, and remarks.

usage: tests/trials/settings.py PROGRAM

Each case is the built-in settings with one text in the place of another. What has to be said is written out here, by
docs/SETTINGS.md and docs/OPERATING.md. Nothing of it comes from the program.
"""

import itertools
import json
import os
import pathlib
import subprocess
import sys
import tempfile

sys.path.append(os.path.join(os.path.dirname(os.path.abspath(__file__)), "..", "lib"))

from serving import tell
from vectors import built_in

BUILT_IN = built_in()

# The files that have no object, or a number that isn't whole, and what `--explain` says of some.
NO_TEXTS = ["", "{", "[]", "null", '{"a":1.5}', '{"a":[-0]}', "{} {}"]
REASONS = [
    ("", "not JSON: line 1, column 0"),
    ('{\n "catalog": {\n  }\n', "not JSON: line 4, column 0"),
    ('{\n "a": 1,\n}', "not JSON: line 3, column 1"),
    ('{"a": 1} {}', "not JSON: line 1, column 10"),
    ("// none\n{}", "not JSON: line 1, column 1"),
    (b'{"a": "\xff"}', "not JSON: line 1, column 8"),
    ("[]", "not an object"),
    ("[1.5]", "not an object"),
    ('"{}"', "not an object"),
    ('{"cost": 99.5, "more": 1.5}', "a number isn't whole, or out of range, at cost"),
    ('{"a": [1, {"b": 18446744073709551616}], "c": 0.5}', "a number isn't whole, or out of range, at a[1].b"),
    (r'{"a": {"b": [], "c": {"\u0001": [[0, -0]]}}}', "a number isn't whole, or out of range, at a.c.?[0][1]"),
    (
        '{"catalog": {"services": [{"plans": [{}, {"metadata": {"cost": 1e2}}]}]}}',
        "a number isn't whole, or out of range, at catalog.services[0].plans[1].metadata.cost",
    ),
]

# Values in the place of a login: those that aren't one, and one that is; and the second login of a door.
NO_LOGINS = ["null", "[]", '"u"', "{}", '{"user":"u"}', '{"password":"p"}', '{"user":1,"password":"p"}', '{"user":"u","password":null}']
NO_SECOND_LOGINS = ["1", "true", '{"user":"u","password":["p"]}', *NO_LOGINS[1:]]
WITH_MORE = '{"user":"u","password":"p","unread":1}'
SECOND = ["null", WITH_MORE, '{"user":"u","password":"p","also":1}']
PASSWORDS = {"platform": "secret", "backend": "worker"}


def login_of(door):
    return f'{{"user":"{door}","password":"{PASSWORDS[door]}"}}'


def with_also(door, also):
    password = f'"password":"{PASSWORDS[door]}"'
    return password, f'{password},"also":{also}'


LOGINS = [(login_of(door), value, f"2 Missing {door}") for door in PASSWORDS for value in NO_LOGINS]
LOGINS += [(f'"{door}":', '"other":', f"2 Missing {door}") for door in PASSWORDS]
LOGINS += [(login_of("platform"), WITH_MORE, "")]
SECOND_LOGINS = [(*with_also(door, also), f"2 Missing {door}") for door in PASSWORDS for also in NO_SECOND_LOGINS]
SECOND_LOGINS += [(*with_also(door, also), "") for door in PASSWORDS for also in SECOND]

# The texts that a service and a plan must have, and values that aren't such a text.
TEXTS = [("id", "svc"), ("id", "p-async"), ("name", "store"), ("name", "large"), ("description", "Key store"), ("description", "Later")]
NO_VALUES = ["null", '""', "1", "[]", "{}", "true"]
REQUIRED_TEXTS = [(f'"{name}":"{text}"', f'"{name}":{value}', f"2 Missing {name}") for name, text in TEXTS for value in NO_VALUES]
REQUIRED_TEXTS += [(f'"{name}":"{text}"', '"unread":1', f"2 Missing {name}") for name, text in TEXTS]
REQUIRED_TEXTS += [
    ('"id":"svc"', r'"id":"a\u0007"', "2 Missing id"),
    ('"id":"p-sync"', r'"id":"\u0080"', "2 Missing id"),
    ('"name":"store"', r'"name":"\u0007"', ""),
    ('"id":"svc"', '"id":"' + "a" * 256 + '"', ""),
    ('"id":"svc"', '"id":"' + "a" * 257 + '"', "2 Missing id"),
]


def plan(identity, name="n"):
    return f'{{"id":{json.dumps(identity)},"name":"{name}","description":"d"}}'


def service(identity, *plans, bindable="false", name="n"):
    return f'{{"id":"{identity}","name":"{name}","description":"d","bindable":{bindable},"plans":[{",".join(plans)}]}}'


def before(identity, *plans, **more):
    """A service that is whole, before the other one."""
    return '"services":[', f'"services":[{service(identity, *plans, **more)},'


# A text of the built-in settings, what is put in its place, and the fault of the file then; none where it has none.
FAULTS = {
    "logins": LOGINS,
    "second logins": SECOND_LOGINS,
    "required texts": REQUIRED_TEXTS,
    "fields of the file": [
        ('"catalog":', '"other":', "2 Missing catalog"),
        ('"catalog":', '"catalog":null,"unread":', "2 Missing catalog"),
        ('"catalog":', '"catalog":[],"unread":', "2 Missing catalog"),
        ('"catalog":', '"catalog":1,"unread":', "2 Missing catalog"),
        ('"catalog":', '"catalog":"c","unread":', "2 Missing catalog"),
        ('"catalog":', '"catalog":true,"unread":', "2 Missing catalog"),
        ('"modes":', '"modes":1,"unread":', "2 Missing modes"),
        ('"modes":', '"modes":[],"unread":', "2 Missing modes"),
        ('"modes":', '"modes":{"p-sync":1},"unread":', "2 Missing modes"),
        ('"modes":', '"modes":{"p-sync":[]},"unread":', "2 Missing modes"),
        ('"modes":', '"modes":null,"unread":', ""),
        ('"modes":', '"modes":{},"unread":', ""),
        ('"modes":', '"modes":{"p-sync":null},"unread":', ""),
        ('"modes":', '"modes":{"other":null},"unread":', ""),
        ('"catalog":', '"orders_per_instance":0,"catalog":', "2 Missing orders_per_instance"),
        ('"catalog":', '"orders_per_instance":1000001,"catalog":', "2 Missing orders_per_instance"),
        ('"catalog":', '"orders_per_instance":-1,"catalog":', "2 Missing orders_per_instance"),
        ('"catalog":', '"orders_per_instance":"1","catalog":', "2 Missing orders_per_instance"),
        ('"catalog":', '"orders_per_instance":[],"catalog":', "2 Missing orders_per_instance"),
        ('"catalog":', '"orders_per_instance":18446744073709551615,"catalog":', "2 Missing orders_per_instance"),
        ('"catalog":', '"orders_per_instance":1,"catalog":', ""),
        ('"catalog":', '"orders_per_instance":1000000,"catalog":', ""),
        ('"catalog":', '"orders_per_instance":null,"catalog":', ""),
    ],
    "lists of objects": [
        ('"services":', '"other":', "2 Missing services"),
        ('"services":', '"services":null,"unread":', "2 Missing services"),
        ('"services":', '"services":{},"unread":', "2 Missing services"),
        ('"services":', '"services":[1],"unread":', "2 Missing services"),
        ('"services":', '"services":[null],"unread":', "2 Missing services"),
        ('"services":', '"services":[[]],"unread":', "2 Missing services"),
        ('"plans":', '"other":', "2 Missing plans"),
        ('"plans":', '"plans":null,"unread":', "2 Missing plans"),
        ('"plans":', '"plans":{},"unread":', "2 Missing plans"),
        ('"plans":', '"plans":[],"unread":', "2 Missing plans"),
        ('"plans":', '"plans":[1],"unread":', "2 Missing plans"),
        ('"plans":', '"plans":[null],"unread":', "2 Missing plans"),
    ],
    "flags": [
        ('"bindable":true,', "", "2 Missing bindable"),
        ('"bindable":true', '"bindable":null', "2 Missing bindable"),
        ('"bindable":true', '"bindable":1', "2 Missing bindable"),
        ('"bindings_retrievable":true', '"bindings_retrievable":"true"', "2 Missing bindings_retrievable"),
        ('"plan_updateable":true', '"plan_updateable":[]', "2 Missing plan_updateable"),
        ('"plans":', '"instances_retrievable":null,"plans":', ""),
        ('"plans":', '"instances_retrievable":true,"plans":', ""),
        ('"plans":', '"instances_retrievable":false,"plans":', ""),
        ('"plans":', '"instances_retrievable":0,"plans":', "2 Missing instances_retrievable"),
        ('"plans":', '"instances_retrievable":{},"plans":', "2 Missing instances_retrievable"),
        ('"plans":', '"allow_context_updates":null,"plans":', ""),
        ('"plans":', '"allow_context_updates":true,"plans":', ""),
        ('"plans":', '"allow_context_updates":false,"plans":', ""),
        ('"plans":', '"allow_context_updates":0,"plans":', "2 Missing allow_context_updates"),
        ('"plans":', '"allow_context_updates":{},"plans":', "2 Missing allow_context_updates"),
        ('"id":"p-async"', '"free":null,"id":"p-async"', ""),
        ('"id":"p-async"', '"free":true,"id":"p-async"', ""),
        ('"id":"p-async"', '"free":false,"id":"p-async"', ""),
        ('"id":"p-async"', '"free":0,"id":"p-async"', "2 Missing free"),
        ('"id":"p-async"', '"free":"","id":"p-async"', "2 Missing free"),
        ('"id":"p-async"', '"bindable":null,"id":"p-async"', ""),
        ('"id":"p-async"', '"bindable":true,"id":"p-async"', ""),
        ('"id":"p-async"', '"bindable":false,"id":"p-async"', ""),
        ('"id":"p-async"', '"bindable":0,"id":"p-async"', "2 Missing bindable"),
        ('"id":"p-async"', '"bindable":"","id":"p-async"', "2 Missing bindable"),
        ('"id":"p-async"', '"plan_updateable":null,"id":"p-async"', ""),
        ('"id":"p-async"', '"plan_updateable":true,"id":"p-async"', ""),
        ('"id":"p-async"', '"plan_updateable":false,"id":"p-async"', ""),
        ('"id":"p-async"', '"plan_updateable":0,"id":"p-async"', "2 Missing plan_updateable"),
        ('"id":"p-async"', '"plan_updateable":"","id":"p-async"', "2 Missing plan_updateable"),
    ],
    "optional fields": [
        ('"plans":', '"tags":"a","plans":', "2 Missing tags"),
        ('"plans":', '"tags":[1],"plans":', "2 Missing tags"),
        ('"plans":', '"tags":[null],"plans":', "2 Missing tags"),
        ('"plans":', '"metadata":[],"plans":', "2 Missing metadata"),
        ('"plans":', '"tags":[],"metadata":{"a":[null]},"plans":', ""),
        ('"plans":', '"tags":["","a"],"metadata":null,"plans":', ""),
        ('"maintenance_info":{"version":"1.2.0"}', '"metadata":1', "2 Missing metadata"),
        ('"maintenance_info":{"version":"1.2.0"}', '"maximum_polling_duration":-1', "2 Missing maximum_polling_duration"),
        ('"maintenance_info":{"version":"1.2.0"}', '"maximum_polling_duration":"1"', "2 Missing maximum_polling_duration"),
        ('"maintenance_info":{"version":"1.2.0"}', '"maintenance_info":[]', "2 Missing maintenance_info"),
        ('"maintenance_info":{"version":"1.2.0"}', '"maintenance_info":{}', "2 Missing maintenance_info"),
        ('"maintenance_info":{"version":"1.2.0"}', '"maintenance_info":{"version":null}', "2 Missing maintenance_info"),
        ('"maintenance_info":{"version":"1.2.0"}', '"maintenance_info":{"version":1}', "2 Missing maintenance_info"),
        ('"maintenance_info":{"version":"1.2.0"}', '"maintenance_info":{"version":"1.0.0","description":1}', "2 Missing maintenance_info"),
        ('"maintenance_info":{"version":"1.2.0"}', '"maintenance_info":null', ""),
        ('"maintenance_info":{"version":"1.2.0"}', '"maximum_polling_duration":0', ""),
        ('"maintenance_info":{"version":"1.2.0"}', '"maintenance_info":{"version":"1.0.0","description":null}', ""),
        ('"maintenance_info":{"version":"1.2.0"}', r'"maintenance_info":{"version":"1.0.0","description":"\u0000"}', ""),
    ],
    "fields of modes": [
        ('"instances":"asynchronous"', '"instances":"later"', "2 Missing instances"),
        ('"instances":"asynchronous"', '"instances":true', "2 Missing instances"),
        ('"bindings":"asynchronous"', '"bindings":""', "2 Missing bindings"),
        ('"bindings":"asynchronous"', '"bindings":"Synchronous"', "2 Missing bindings"),
        ('{"uri":"mem:1"}', "[]", "2 Missing credentials"),
        ('{"uri":"mem:1"}', '"{}"', "2 Missing credentials"),
        ('"instances":"asynchronous"', '"instances":null', ""),
        ('{"uri":"mem:1"}', "null", ""),
    ],
    "one of each": [
        ('"name":"store",', "", "2 Missing name"),
        ('"id":"p-async"', '"id":"p-sync"', "3 DoubleId"),
        ('"description":"At once"', '"description":"At once","schemas":{}', "4 LeftOut schemas"),
        ("1.2.0", "1.2", "5 Version"),
        ('"modes":{', '"modes":{"p-other":{},', "6 Mode"),
        ('"user":"platform"', '"user":"a:b"', "7 Credential"),
    ],
    "double ids": [
        (*before("svc", plan("p")), "3 DoubleId"),
        (*before("other", plan("p-async")), "3 DoubleId"),
        ('"id":"p-async"', '"id":"p-sync"', "3 DoubleId"),
        (*before("p-sync", plan("svc")), ""),
    ],
    "left out": [
        ('"plans":[', '"binding_rotatable":true,"plans":[', "4 LeftOut binding_rotatable"),
        ('"plans":[', '"binding_rotatable":0,"plans":[', "4 LeftOut binding_rotatable"),
        ('"plans":[', '"dashboard_client":{},"plans":[', "4 LeftOut dashboard_client"),
        ('"plans":[', '"requires":["route_forwarding"],"plans":[', "4 LeftOut requires"),
        ('"plans":[', '"requires":{},"plans":[', "4 LeftOut requires"),
        ('"plans":[', '"requires":1,"dashboard_client":1,"plans":[', "4 LeftOut dashboard_client"),
        ('"plans":[', '"requires":[],"binding_rotatable":false,"dashboard_client":null,"schemas":1,"plans":[', ""),
        ('"plans":[', '"requires":null,"binding_rotatable":null,"plans":[', ""),
        ('"id":"p-async"', '"binding_rotatable":true,"id":"p-async"', "4 LeftOut binding_rotatable"),
        ('"id":"p-async"', '"schemas":false,"id":"p-async"', "4 LeftOut schemas"),
        ('"id":"p-async"', '"schemas":null,"binding_rotatable":false,"requires":1,"id":"p-async"', ""),
    ],
    "versions": [
        ('"version":"1.2.0"', '"version":"1.2"', "5 Version"),
        ('"version":"1.2.0"', '"version":""', "5 Version"),
        ('"version":"1.2.0"', '"version":"01.2.3"', "5 Version"),
        ('"version":"1.2.0"', '"version":"v1.2.3"', "5 Version"),
        ('"version":"1.2.0"', '"version":"1.2.3-a.b+c"', ""),
        ('"version":"1.2.0"', '"version":"0.0.0"', ""),
    ],
    "modes": [
        ('"bindings_retrievable":true,', "", "6 Mode"),
        ('"bindings_retrievable":true', '"bindings_retrievable":false', "6 Mode"),
        ('"bindings_retrievable":true', '"instances_retrievable":true', "6 Mode"),
        (*before("other", plan("p"), bindable="true"), ""),
        # (the plan's own service has to allow it)
        ('"plans":[', f'"plans":[{plan("p")}]}},{{"id":"other","name":"n","description":"d","bindable":true,"plans":[', "6 Mode"),
        ('"modes":{', '"modes":{"svc":{},', "6 Mode"),
        ('"modes":{', '"modes":{"svc":null,', ""),
        ('"bindings":"asynchronous"', '"bindings":"synchronous"', ""),
    ],
    "credentials": [
        ('"user":"platform"', '"user":"a:b"', "7 Credential"),
        ('"user":"platform"', '"user":""', "7 Credential"),
        ('"user":"backend"', '"user":":"', "7 Credential"),
        ('"user":"backend"', r'"user":"a\u0000"', "7 Credential"),
        ('"user":"backend"', r'"user":"\u009f"', "7 Credential"),
        ('"password":"secret"', '"password":""', "7 Credential"),
        ('"password":"worker"', r'"password":"\u007f"', "7 Credential"),
        ('"password":"worker"', r'"password":":a:\u00a0"', ""),
        ('"user":"platform"', '"user":"' + "a" * 256 + '"', ""),
        ('"user":"platform"', '"user":"' + "a" * 257 + '"', "7 Credential"),
        ('"user":"backend"', '"user":"' + "é" * 128 + '"', ""),
        ('"user":"backend"', '"user":"' + "é" * 128 + 'a"', "7 Credential"),
        ('"password":"secret"', '"password":"' + "a" * 256 + '"', ""),
        ('"password":"secret"', '"password":"' + "a" * 257 + '"', "7 Credential"),
    ],
    "second credentials": [
        ('"password":"secret"', '"password":"secret","also":{"user":"a:b","password":"p"}', "7 Credential"),
        ('"password":"secret"', '"password":"secret","also":{"user":"","password":"p"}', "7 Credential"),
        ('"password":"secret"', '"password":"secret","also":{"user":"u","password":""}', "7 Credential"),
        ('"password":"secret"', '"password":"secret","also":{"user":"u","password":"' + "a" * 257 + '"}', "7 Credential"),
        ('"password":"secret"', '"password":"secret","also":{"user":"' + "a" * 256 + '","password":"' + "a" * 256 + '"}', ""),
        ('"password":"worker"', '"password":"worker","also":{"user":":","password":"p"}', "7 Credential"),
        ('"password":"worker"', r'"password":"worker","also":{"user":"u\u0000","password":"p"}', "7 Credential"),
        ('"password":"worker"', '"password":"worker","also":{"user":"u","password":""}', "7 Credential"),
        ('"password":"worker"', r'"password":"worker","also":{"user":"u","password":"\u009f"}', "7 Credential"),
        ('"password":"worker"', '"password":"worker","also":{"user":"backend","password":":"}', ""),
        ('"password":"worker"', '"password":"worker","also":{"user":"u","password":"p","also":{"user":"","password":""}}', ""),
    ],
}

# The same in an order: of any two together the fault of the earlier one is said.
FIRST = {
    "lower of two": FAULTS["one of each"],
    "first of all tables": [
        ('"password":"secret"', '"password":1', "2 Missing platform"),
        ('"password":"worker"', '"password":1', "2 Missing backend"),
        ('"modes":{', '"modes":{"x":1,', "2 Missing modes"),
        ('"catalog"', '"orders_per_instance":0,"catalog"', "2 Missing orders_per_instance"),
        ('"id":"svc",', "", "2 Missing id"),
        ('"name":"store",', "", "2 Missing name"),
        ('"description":"Key store"', '"description":1', "2 Missing description"),
        ('"plan_updateable":true', '"plan_updateable":1', "2 Missing plan_updateable"),
        ('"id":"p-sync",', "", "2 Missing id"),
        ('"name":"small"', '"name":1', "2 Missing name"),
        ('"description":"Later"', '"description":1', "2 Missing description"),
        ('"version":"1.2.0"', '"version":1', "2 Missing maintenance_info"),
        ('"bindings":"asynchronous"', '"bindings":1', "2 Missing bindings"),
        ('{"uri":"mem:1"}', "1", "2 Missing credentials"),
    ],
    "first of a file": [
        ('"catalog":', '"catalog":1,"unread":', "2 Missing catalog"),
        ('"modes":', '"modes":1,"unread":', "2 Missing modes"),
        ('"backend"', '"orders_per_instance":0,"backend"', "2 Missing orders_per_instance"),
        ('"services":', '"services":1,"unread":', "2 Missing services"),
        ('"id":"p-async"', '"id":1', "2 Missing id"),
    ],
    "first of a service": [
        ('"description":"Key store"', '"description":1', "2 Missing description"),
        ('"bindable":true', '"bindable":1', "2 Missing bindable"),
        ('"plans":', '"plans":1,"unread":', "2 Missing plans"),
        ('"name":"store"', '"tags":1,"name":"store"', "2 Missing tags"),
        ('"id":"svc"', '"metadata":1,"id":"svc"', "2 Missing metadata"),
        ('"store",', '"store","instances_retrievable":1,', "2 Missing instances_retrievable"),
        ('"bindings_retrievable":true', '"bindings_retrievable":1', "2 Missing bindings_retrievable"),
        ('"plan_updateable":true', '"plan_updateable":1', "2 Missing plan_updateable"),
        ('"services":[{', '"services":[{"allow_context_updates":1,', "2 Missing allow_context_updates"),
    ],
    "first of a plan": [
        ('"description":"Later"', '"description":1', "2 Missing description"),
        ('"name":"large"', '"metadata":1,"name":"large"', "2 Missing metadata"),
        ('"large",', '"large","free":1,', "2 Missing free"),
        ('"id":"p-async"', '"bindable":1,"id":"p-async"', "2 Missing bindable"),
        ('"p-async",', '"p-async","plan_updateable":1,', "2 Missing plan_updateable"),
        ('"maintenance_info"', '"maximum_polling_duration":-1,"maintenance_info"', "2 Missing maximum_polling_duration"),
        ('"version":"1.2.0"', '"version":1', "2 Missing maintenance_info"),
        ('"instances":"asynchronous"', '"instances":1', "2 Missing instances"),
        ('"bindings":"asynchronous"', '"bindings":1', "2 Missing bindings"),
        ('"p-async":{', '"p-async":{"credentials":1,', "2 Missing credentials"),
    ],
    "first of two plans": [
        ('"description":"At once"', '"description":1', "2 Missing description"),
        ('"name":"large"', '"name":1', "2 Missing name"),
    ],
    "first of two services": [
        ('"bindings_retrievable":true', '"bindings_retrievable":1', "2 Missing bindings_retrievable"),
        (*before("other", plan(1), bindable="true"), "2 Missing id"),
    ],
    "left out of a service": [
        ('"plans":[', '"binding_rotatable":true,"plans":[', "4 LeftOut binding_rotatable"),
        ('"bindable":true', '"dashboard_client":{},"bindable":true', "4 LeftOut dashboard_client"),
        ('"name":"store"', '"requires":["route_forwarding"],"name":"store"', "4 LeftOut requires"),
        ('"id":"p-sync"', '"binding_rotatable":true,"id":"p-sync"', "4 LeftOut binding_rotatable"),
        ('"name":"small"', '"schemas":{},"name":"small"', "4 LeftOut schemas"),
    ],
    "left out of two": [
        ('"id":"p-sync"', '"schemas":{},"id":"p-sync"', "4 LeftOut schemas"),
        ('"id":"p-async"', '"binding_rotatable":true,"id":"p-async"', "4 LeftOut binding_rotatable"),
        ("}]}]},", f'}}]}},{{"dashboard_client":{{}},{service("other", plan("p"), bindable="true")[1:]}]}},', "4 LeftOut dashboard_client"),
    ],
}

# The same, and where in the file the fault is.
PLACES = [
    ('"backend":', '"other":', "the top"),
    ('"services":', '"other":', "catalog"),
    ('"bindable":true,', "", "catalog.services[0]"),
    ('"description":"Later"', '"description":""', "catalog.services[0].plans[1]"),
    ('"instances":"asynchronous"', '"instances":"later"', "modes.p-async"),
    ('"id":"p-async"', '"id":"p-sync"', "catalog.services[0].plans[0]"),
    (*before("svc", plan("p")), "catalog.services[0]"),
    ('"bindable":true,', '"bindable":true,"requires":["x"],', "catalog.services[0]"),
    ('"description":"At once"', '"description":"At once","schemas":{}', "catalog.services[0].plans[0]"),
    ("1.2.0", "1.2", "catalog.services[0].plans[1]"),
    ('"modes":{', '"modes":{"p-other":{},', "modes.p-other"),
    ('"bindings_retrievable":true,', "", "catalog.services[0].plans[1]"),
    ('"user":"platform"', '"user":"a:b"', "platform"),
    ('"user":"backend"', '"user":""', "backend"),
    ('"password":"worker"', '"password":""', "backend"),
    ('"password":"secret"', '"password":"secret","also":{"user":"a:b","password":"p"}', "platform"),
    ('"password":"worker"', '"password":"worker","also":{"user":"u","password":""}', "backend"),
    ('"password":"secret"', '"password":"secret","also":{}', "the top"),
    ('"password":"worker"', '"password":"worker","also":[]', "the top"),
]

# The same behind another service that is whole.
BEHIND = [
    ('"bindable":true,', "", "catalog.services[1]"),
    ("1.2.0", "1.2", "catalog.services[1].plans[1]"),
    ('"id":"p-sync"', '"id":"p"', "catalog.services[0].plans[0]"),
    ('"description":"At once"', '"free":1', "catalog.services[1].plans[0]"),
]

# The same, and which value is wanted there.
WANTED = {
    "kinds": [
        ('"backend":', '"other":', "an object with the texts user and password, and with such an object if it has also"),
        ('"catalog":{', '"catalog":[],"other":{', "an object"),
        ('"modes":{', '"modes":1,"other":{', "an object of objects"),
        ('{"platform"', '{"orders_per_instance":0,"platform"', "a whole number from 1 to 1000000"),
        ('"services":', '"other":', "a list of objects"),
        ('"id":"svc",', "", "a text of 1 to 256 bytes without control characters"),
        ('"name":"store"', '"name":""', "a text that isn't empty"),
        ('"bindable":true', '"bindable":"true"', "true or false"),
        ('"plans":[', '"plans":[],"other":[', "a list of objects that isn't empty"),
        ('"bindable":true,', '"bindable":true,"tags":[1],', "a list of texts"),
        ('"bindable":true,', '"bindable":true,"metadata":"m",', "an object"),
        ('"description":"Later",', '"description":"Later","free":0,', "true or false"),
        ('"description":"Later",', '"description":"Later","maximum_polling_duration":"10m",', "a whole number of seconds from 0"),
        ('{"version":"1.2.0"}', '"1.2.0"', "an object with the text version, and with a text if it has a description"),
        ('"instances":"asynchronous"', '"instances":"async"', "synchronous or asynchronous"),
        ('{"uri":"mem:1"}', '"mem:1"', "an object"),
    ],
    "other faults": [
        ('"id":"p-async"', '"id":"p-sync"', "an id that no other one has"),
        ('"bindable":true,', '"bindable":true,"requires":["x"],', "nothing, this broker leaves it out"),
        ('"description":"Later",', '"description":"Later","schemas":{},', "nothing, this broker leaves it out"),
        ("1.2.0", "1.2", "a semantic version, as 1.0.0"),
        ('"modes":{', '"modes":{"large":{},', "the id of a plan, and no plan has this one"),
        ('"bindings_retrievable":true,', "", "bindings_retrievable in its service, for asynchronous bindings"),
        ('"user":"platform"', '"user":"a:b"', "a user without a colon, and both texts of 1 to 256 bytes without control characters"),
    ],
}


def past(*paths):
    return [f"read past: {it}" for it in paths]


OF_ITS_OWN = '"metadata":{"x":1},"free":true,"bindable":true,"plan_updateable":true,"maximum_polling_duration":5'

# The same, and what is said behind the lines of the plans. No password is guessed easily.
REMARKS = {
    "read past": [
        ('{"platform"', '{"also":{},"platform"', past("also")),
        ('{"platform"', '{"orders_per_instance":5,"platform"', []),
        ('"password":"secret"', '"password":"secret","token":"t"', past("platform.token")),
        ('"password":"secret"', '"password":"secret","also":{"user":"u","password":"p","also":{}}', past("platform.also.also")),
        ('"password":"worker"', '"password":"worker","name":"b","also":{"user":"u","password":"p","id":1}', past("backend.name", "backend.also.id")),
        ('"services":[', '"modes":{},"services":[', past("catalog.modes")),
        ('"bindable":true,', '"bindable":true,"tags":[],"metadata":{"x":1},"instances_retrievable":true,"allow_context_updates":true,', []),
        ('"bindable":true,', '"bindable":true,"binding_rotatable":false,"dashboard_client":null,"requires":[],', []),
        ('"bindable":true,', '"bindable":true,"free":true,"schemas":null,', past("catalog.services[0].free", "catalog.services[0].schemas")),
        ('"description":"At once"', '"description":"At once",' + OF_ITS_OWN, []),
        ('"description":"At once"', '"description":"At once","binding_rotatable":false,"schemas":null', []),
        ('"description":"Later",', '"description":"Later","plan_updatable":true,"tags":null,', past("catalog.services[0].plans[1].plan_updatable", "catalog.services[0].plans[1].tags")),
        ('{"version":"1.2.0"}', '{"version":"1.2.0","description":"d","public":true}', past("catalog.services[0].plans[1].maintenance_info.public")),
        ('"instances":"asynchronous"', '"instances":"asynchronous","instance":"synchronous"', past("modes.p-async.instance")),
        ('"instances":"asynchronous"', r'"instances":"asynchronous","b\n":1', past("modes.p-async.?")),
        ('"uri":"mem:1"', '"credentials":{"x":1}', []),
    ],
    "logins of both doors": [
        ('"user":"backend","password":"worker"', '"user":"platform","password":"secret"', ["one login for both doors"]),
        ('"user":"backend","password":"worker"', '"user":"platform","password":"worker"', []),
        ('"password":"secret"', '"password":"secret","also":{"user":"backend","password":"worker"}', ["one login for both doors"]),
        ('"password":"worker"', '"password":"worker","also":{"user":"platform","password":"secret"}', ["one login for both doors"]),
        ('"password":"worker"', '"password":"worker","also":{"user":"backend","password":"secret"}', []),
        ('"password":"secret"', '"password":"secret","also":{"user":"platform","password":"secret"}', []),
    ],
    "names with a space": [
        ('"name":"store"', '"name":"key store"', ["a space in a name: catalog.services[0]"]),
        ('"name":"large"', '"name":"large "', ["a space in a name: catalog.services[0].plans[1]"]),
        ('"name":"small"', '"name":" "', ["a space in a name: catalog.services[0].plans[0]"]),
        ('"name":"small"', r'"name":"very\u0020small"', ["a space in a name: catalog.services[0].plans[0]"]),
        ('"name":"small"', r'"name":"very\tsmall\u00a0!\u001f"', []),
        ('"id":"svc"', '"id":"s v c"', []),
    ],
    "bindings that give nothing": [
        ('"credentials":{"uri":"mem:1"}', '"credentials":{}', ["bindings give {}: catalog.services[0].plans[0]"]),
        ('"credentials":{"uri":"mem:1"}', '"credentials":null', ["bindings give {}: catalog.services[0].plans[0]"]),
        ('"bindings":"asynchronous"', '"bindings":"asynchronous","credentials":{}', []),
        ('"description":"At once"', '"description":"At once","bindable":false', []),
    ],
}

# The lines of the plans, and those of passwords.
PLANS = ["plan p-sync: instances synchronous, bindings synchronous", "plan p-async: instances asynchronous, bindings asynchronous"]
GUESSED = "a password that is easily guessed: "

# Passwords in the place of the platform's, and whether they are easily guessed. None may be empty.
OTHER_PASSWORDS = [
    ("elf letters", True),
    ("zwölf letter", False),
    ("ö234567890", True),
    ("twelve chars", False),
    ("correct horse", True),
    ("battery staple", True),
]

# Several changes at once, and all that is said then behind the counts.
SMALL_PLANS = [plan("a", "small"), plan("b", "x"), plan("c", "small"), plan("d", "small")]
SPACED_PLANS = [plan("a", "a"), plan("b", "b "), plan("c", " c")]


def synchronous(*plans):
    return [f"plan {it}: instances synchronous, bindings synchronous" for it in plans]


NO_MODE = ',\n  "p-async":{"instances":"asynchronous","bindings":"asynchronous"}'
ALSO = {door: f'"user":"{door}","also":{{"user":"u","password":"p"}}' for door in PASSWORDS}
SEVERAL = {
    "timings": (
        [('"p-sync":{', '"p-sync":{"instances":"asynchronous",'), (NO_MODE, "")],
        ["plan p-sync: instances asynchronous, bindings synchronous", *synchronous("p-async"), "bindings give {}: catalog.services[0].plans[1]"],
    ),
    "second logins of both doors": ([(f'"user":"{door}"', ALSO[door]) for door in PASSWORDS], [*PLANS, "one login for both doors"]),
    "plans of one name": (
        [before("first", *SMALL_PLANS), ('"name":"large"', '"name":"small"')],
        [
            *synchronous("a", "b", "c", "d"),
            *PLANS,
            "two plans of one name: catalog.services[0].plans[2]",
            "two plans of one name: catalog.services[0].plans[3]",
            "two plans of one name: catalog.services[1].plans[1]",
        ],
    ),
    "spaces in the order of the file": (
        [
            before("first", *SPACED_PLANS, name="a b"),
            ('"name":"store"', '"name":"key store"'),
            ('"name":"small"', '"name":"very small"'),
        ],
        [
            *synchronous("a", "b", "c"),
            *PLANS,
            *(f"a space in a name: catalog.services[{it}]" for it in ("0", "0].plans[1", "0].plans[2", "1", "1].plans[0")),
        ],
    ),
    "bindings at once beside instances by a backend": (
        [('"bindings":"asynchronous"', '"bindings":"synchronous"')],
        [PLANS[0], "plan p-async: instances asynchronous, bindings synchronous", "bindings give {}: catalog.services[0].plans[1]"],
    ),
    "credentials at once beside instances by a backend": (
        [('"bindings":"asynchronous"', '"bindings":"synchronous","credentials":{"x":1}')],
        [PLANS[0], "plan p-async: instances asynchronous, bindings synchronous"],
    ),
    "plans that may not be bound": (
        [('"credentials":{"uri":"mem:1"}', '"credentials":{}'), ('"bindable":true', '"bindable":false')],
        PLANS,
    ),
    "all kinds in order": (
        [
            ('"user":"backend","password":"worker"', '"user":"platform","password":"secret"'),
            ('"name":"large"', '"name":"small"'),
            ('"name":"store"', '"name":"key store"'),
            ('{"platform"', '{"also":{},"platform"'),
        ],
        [
            *PLANS,
            "read past: also",
            "two plans of one name: catalog.services[0].plans[1]",
            "a space in a name: catalog.services[0]",
            "one login for both doors",
        ],
    ),
}


def changed(changes, text=BUILT_IN):
    """A text with other texts at the first places of some of its texts."""
    for old, new in changes:
        if old not in text:
            raise ValueError(f"a change finds nothing: {old}")
        text = text.replace(old, new, 1)
    return text


class Check:
    """`check` over files that only their owner may read."""

    def __init__(self, program, folder):
        self.program, self.path = program, pathlib.Path(folder, "settings.json")
        self.path.touch(0o600)

    def ends(self, text, *words):
        """The status, standard output and standard error of `check` over a file."""
        self.path.write_bytes(text if isinstance(text, bytes) else text.encode())
        ended = subprocess.run([self.program, "check", *words, self.path], capture_output=True, text=True, timeout=60)
        return ended.returncode, ended.stdout, ended.stderr

    def line(self, text, number):
        """That line of those that explain a fault."""
        status, output, errors = self.ends(text, "--explain")
        lines = errors.splitlines()
        return (status, output, lines[number]) if len(lines) > number else (status, output, errors)

    def remarks(self, changes):
        """The lines behind the counts, where no password is easily guessed."""
        text = changed(changes).replace('"password":"', '"password":"long enough ')
        status, output, errors = self.ends(text, "--explain")
        return status, output.splitlines()[1:], errors


def counted(text):
    """The line of a file without a fault."""
    services = json.loads(text)["catalog"]["services"]
    return f"services {len(services)}, plans {sum(len(it['plans']) for it in services)}\n"


def as_said(check, name, text, fault):
    """How `check` ends over a file with this fault, or with none."""
    expected = (3, "", f"settings: {fault}\n") if fault else (0, counted(text), "")
    return name, check.ends(text), expected


def try_faults(check):
    for text in NO_TEXTS:
        yield as_said(check, f"no text: {text}", text, "1 Text")
    yield as_said(check, "no field", "{}", "2 Missing platform")
    for name, cases in FAULTS.items():
        for old, new, fault in cases:
            yield as_said(check, f"{name}: {new}", changed([(old, new)]), fault)


def try_first(check):
    for name, cases in FIRST.items():
        for (old, new, fault), (other, beside, _) in itertools.combinations(cases, 2):
            yield as_said(check, f"{name}: {new} beside {beside}", changed([(old, new), (other, beside)]), fault)


def try_explained(check):
    for text, reason in REASONS:
        yield f"reasons: {text}", check.ends(text, "--explain"), (3, "", f"settings: 1 Text\n{reason}\n")
    for old, new, place in PLACES:
        yield f"places: {new}", check.line(changed([(old, new)]), 1), (3, "", f"at {place}")
    behind = changed([before("first", plan("p"))])
    for old, new, place in BEHIND:
        yield f"places behind a service: {new}", check.line(changed([(old, new)], behind), 1), (3, "", f"at {place}")
    for name, cases in WANTED.items():
        for old, new, wanted in cases:
            yield f"wanted, {name}: {new}", check.line(changed([(old, new)]), 2), (3, "", f"wanted: {wanted}")


def try_remarks(check):
    for name, cases in REMARKS.items():
        for old, new, lines in cases:
            yield f"remarks, {name}: {new}", check.remarks([(old, new)]), (0, PLANS + lines, "")
    for name, (changes, lines) in SEVERAL.items():
        yield f"remarks, {name}", check.remarks(changes), (0, lines, "")


def try_passwords(check):
    """Passwords as they stand in the file."""
    found = {password: check.ends(changed([("secret", password)]), "--explain")[1] for password, _ in OTHER_PASSWORDS}
    for password, is_guessed in OTHER_PASSWORDS:
        yield f"passwords: {password}", f"{GUESSED}platform\n" in found[password], is_guessed
    first = changed([('"secret"', '"a long one, too","also":{"user":"u","password":"p"}')])
    both = changed([('"worker"', '"short","also":{"user":"u","password":"long enough"}')], first)
    lines = [*PLANS, *(GUESSED + it for it in ("platform.also", "backend", "backend.also"))]
    yield "passwords of second logins", check.ends(both, "--explain")[1].splitlines()[1:], lines
    built_in = [*PLANS, *(GUESSED + it for it in PASSWORDS)]
    yield "the built-in settings", check.ends(BUILT_IN, "--explain")[1].splitlines()[1:], built_in


def tries(program):
    with tempfile.TemporaryDirectory() as folder:
        check = Check(program, folder)
        yield from try_faults(check)
        yield from try_first(check)
        yield from try_explained(check)
        yield from try_remarks(check)
        yield from try_passwords(check)


if __name__ == "__main__":
    sys.exit(tell("settings", tries(os.path.abspath(sys.argv[1]))))
