#!/usr/bin/env python3
"""A backend for PostgreSQL, over the frame of backend.py: an instance is a database, and a binding is a role that may log in.

usage: examples/postgresql.py [--login FILE] [--most N] [--once] URL

It calls PostgreSQL as a superuser, where the variables of libpq say (PGHOST, PGPORT, PGUSER, PGPASSWORD).
BINDING_SECRET names a file that the bindings' passwords are derived from, and DATABASE_HOST is the host that
applications call, 127.0.0.1 without it. It needs psycopg2 (Debian: python3-psycopg2).
"""

import contextlib
import hashlib
import hmac
import os
import sys

import psycopg2
from psycopg2 import sql

from backend import Failed, Later, Service, main

# The connections that a plan allows, by its id. The parameter `connections` takes their place.
PLANS = {"postgresql-small": 10, "postgresql-large": 50}
MOST_CONNECTIONS = 100


def digest(*ids):
    """A hash of ids, which have 256 bytes at most and no control character. A name of PostgreSQL has 63."""
    return hashlib.sha256("\0".join(ids).encode())


def connections_of(order):
    wanted = order["parameters"].get("connections", PLANS[order["plan_id"]])
    if type(wanted) is not int or not 1 <= wanted <= MOST_CONNECTIONS:
        raise Failed(f"connections has to be a whole number from 1 to {MOST_CONNECTIONS}")
    return wanted


class Session:
    """A session of PostgreSQL. Each statement is carried out by itself."""

    def __init__(self, database="postgres"):
        self.connection = psycopg2.connect(dbname=database)
        self.connection.autocommit = True

    def close(self):
        self.connection.close()

    def run(self, text, *names, values=()):
        """The rows of a statement. {} in it is a name, %s a value."""
        with self.connection.cursor() as cursor:
            cursor.execute(sql.SQL(text).format(*map(sql.Identifier, names)), values)
            return cursor.fetchall() if cursor.description else []

    def has_database(self, name):
        return bool(self.run("SELECT 1 FROM pg_database WHERE datname = %s", values=[name]))

    def has_role(self, name):
        return bool(self.run("SELECT 1 FROM pg_roles WHERE rolname = %s", values=[name]))


class Databases(Service):
    """Each step looks what is there already, since an order may be carried out again. A database belongs to a role
    of the same name, which nobody logs in as."""

    def __init__(self):
        try:
            with open(os.environ.get("BINDING_SECRET", ""), "rb") as file:
                self.secret = file.read()
        except OSError as error:
            print(f"postgresql: BINDING_SECRET: {error}", file=sys.stderr)
            sys.exit(2)

    @contextlib.contextmanager
    def lock(self, order):
        """An advisory lock, by the hash of the instance. It goes with its session, over which the work is done too:
        who has lost the lock can't go on."""
        key = int.from_bytes(digest(order["instance_id"]).digest()[:8], "big", signed=True)
        with contextlib.closing(Session()) as session:
            if session.run("SELECT pg_try_advisory_lock(%s)", values=[key]) != [(True,)]:
                raise Later("another worker has the instance")
            yield session

    def carry_out(self, order, session):
        database = f"db_{digest(order['instance_id']).hexdigest()[:40]}"
        if order["kind"] in ("bind", "unbind"):
            role = f"role_{digest(order['instance_id'], order['binding_id']).hexdigest()[:40]}"
            return getattr(self, order["kind"])(order, session, database, role)
        return getattr(self, order["kind"])(order, session, database)

    def create(self, order, session, database):
        connections = connections_of(order)
        if not session.has_role(database):
            session.run("CREATE ROLE {} NOLOGIN", database)
        if not session.has_database(database):
            session.run("CREATE DATABASE {} OWNER {}", database, database)
        session.run("REVOKE ALL ON DATABASE {} FROM PUBLIC", database)
        session.run("ALTER DATABASE {} CONNECTION LIMIT %s", database, values=[connections])

    def update(self, order, session, database):
        connections = connections_of(order)
        if not session.has_database(database):
            raise Failed("the database is not there")
        session.run("ALTER DATABASE {} CONNECTION LIMIT %s", database, values=[connections])

    def delete(self, order, session, database):
        session.run("DROP DATABASE IF EXISTS {} WITH (FORCE)", database)
        session.run("DROP ROLE IF EXISTS {}", database)

    def bind(self, order, session, database, role):
        """The password is the same when the order is done again, and another one for the next binding of this id."""
        password = hmac.new(self.secret, f"{role} {order['seq']}".encode(), "sha256").hexdigest()
        if not session.has_role(role):
            session.run("CREATE ROLE {} IN ROLE {}", role, database)
        session.run("ALTER ROLE {} LOGIN PASSWORD %s", role, values=[password])
        # What one binding makes belongs to all of them, and outlasts it.
        session.run("ALTER ROLE {} SET role TO {}", role, database)
        host, port = os.environ.get("DATABASE_HOST", "127.0.0.1"), session.connection.info.port
        uri = f"postgresql://{role}:{password}@{host}:{port}/{database}"
        return {"uri": uri, "username": role, "password": password, "database": database}

    def unbind(self, order, session, database, role):
        if not session.has_role(role):
            return
        session.run("ALTER ROLE {} NOLOGIN", role)
        session.run("SELECT pg_terminate_backend(pid) FROM pg_stat_activity WHERE usename = %s", values=[role])
        if session.has_database(database):
            with contextlib.closing(Session(database)) as inside:
                inside.run("REASSIGN OWNED BY {} TO {}", role, database)
                inside.run("DROP OWNED BY {}", role)
        session.run("DROP ROLE {}", role)


if __name__ == "__main__":
    sys.exit(main(Databases))
