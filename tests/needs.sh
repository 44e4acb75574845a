#!/bin/sh
# Looks for what the gate uses beside the toolkit's own parts. Names each thing that is missing with the Debian
# package that has it, and ends with status 1 where something is.
#
#     sh tests/needs.sh               says what is missing, on standard error
#     sh tests/needs.sh --packages    writes only the packages, for apt-get
#     sh tests/needs.sh --more        writes those of what the gate passes over where it isn't there

packages=
what=$1

lacks() {
    packages="$packages $2"
    [ -n "$what" ] || echo "make test: missing: $1 (Debian: $2)" >&2
}

has() {
    command -v "$1" >/dev/null 2>&1
}

strict_tables() {
    python3 -c 'import sqlite3; sqlite3.connect(":memory:").execute("CREATE TABLE t (n INTEGER) STRICT")' 2>/dev/null
}

links_libraries() {
    printf '#include <stdlib.h>\nvoid *taken(void) { return malloc(1); }\n' | cc -shared -fPIC -x c -o /dev/null - 2>/dev/null
}

if [ "$what" = --more ]; then
    has nginx || lacks nginx nginx-light
    has haproxy || lacks haproxy haproxy
    has openssl || lacks openssl openssl
    has lintian || lacks lintian lintian
    has debootstrap || lacks debootstrap debootstrap
    has systemd-nspawn || lacks systemd-nspawn systemd-container
    has podman || lacks podman podman
    has runc || lacks runc runc
    has node || lacks node nodejs
    has go || lacks go golang-go
    ls /usr/lib/postgresql/*/bin/initdb >/dev/null 2>&1 || lacks PostgreSQL postgresql
    { python3 -c 'import psycopg2' || /usr/bin/python3 -c 'import psycopg2'; } 2>/dev/null || lacks psycopg2 python3-psycopg2
    echo $packages
    exit 0
fi

has bash || lacks bash bash
has curl || lacks curl curl
has sqlite3 || lacks 'the program sqlite3' sqlite3
if ! has python3; then
    lacks python3 python3
elif ! strict_tables; then
    lacks "python3's sqlite3 with STRICT tables" 'libsqlite3-0'
fi
if ! has cc; then
    lacks 'a C compiler, cc' 'gcc libc6-dev'
elif ! links_libraries; then
    lacks 'what a C compiler links with' 'libc6-dev'
fi

if [ "$what" = --packages ]; then
    echo $packages
elif ! has "${RT:-rt}"; then
    echo "make test: missing: the toolkit's ${RT:-rt}, of rattle-kit-13b or rattle-kit-13f" >&2
    exit 1
elif [ -n "$packages" ]; then
    exit 1
fi
