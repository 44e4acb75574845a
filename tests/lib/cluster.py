"""A cluster of PostgreSQL in a folder, for the trials of the backend that works with it."""

import glob
import os
import pwd
import shutil
import signal
import subprocess
import sys
import time

from serving import MOST_STARTS, free_address

# Where Debian has the programs of each version.
PROGRAMS = "/usr/lib/postgresql/*/bin"
# What is kept in a folder that goes away needs no disk, and little room.
OPTIONS = ["fsync=off", "full_page_writes=off", "max_wal_size=64MB", "min_wal_size=32MB", "shared_buffers=32MB"]
OPTIONS += ["listen_addresses=127.0.0.1", "log_min_messages=panic"]
# PostgreSQL isn't run by root, but by the user of Debian's package.
USER = "postgres"


def program(name):
    """The program of the newest PostgreSQL that is there, or none."""
    return max(glob.glob(os.path.join(PROGRAMS, name)), default=None)


def python_with_psycopg2():
    """An interpreter that has the library by which the example calls PostgreSQL, or none."""
    for each in (sys.executable, "/usr/bin/python3"):
        if shutil.which(each) and subprocess.run([each, "-c", "import psycopg2"], stderr=subprocess.DEVNULL).returncode == 0:
            return each
    return None


def missing():
    """What keeps a cluster and its backend from being tried."""
    needed = {"postgresql": program("initdb"), "python3-psycopg2": python_with_psycopg2()}
    return [name for name, there in needed.items() if not there]


class Cluster:
    """A cluster that runs until it is left. Over its socket all may log in who can reach the folder, over TCP those with a
    password."""

    def __init__(self, folder):
        self.folder = os.path.join(folder, "postgresql")
        os.mkdir(self.folder, 0o700)
        self.how = {"stdout": subprocess.DEVNULL, "cwd": self.folder}
        if os.geteuid() == 0:
            of = pwd.getpwnam(USER)
            os.chown(self.folder, of.pw_uid, of.pw_gid)
            self.how |= {"user": of.pw_uid, "group": of.pw_gid, "extra_groups": []}

    def __enter__(self):
        data = os.path.join(self.folder, "data")
        words = ["-U", USER, "--auth-local=trust", "--auth-host=scram-sha-256", "--no-sync", "-E", "UTF8", "--locale=C"]
        subprocess.run([program("initdb"), *words, data], check=True, **self.how)
        for _ in range(MOST_STARTS):
            self.start(data)
            if self.is_ready():
                return self
        raise RuntimeError("PostgreSQL doesn't start")

    def start(self, data):
        self.port = free_address().rpartition(":")[2]
        own = [f"port={self.port}", f"unix_socket_directories={self.folder}"]
        options = [word for option in OPTIONS + own for word in ("-c", option)]
        self.process = subprocess.Popen([program("postgres"), "-D", data, *options], **self.how)

    def is_ready(self):
        """Waits until it can be called; whether it didn't end instead, since another has taken its port."""
        while self.process.poll() is None:
            if self.psql("SELECT 1") == ["1"]:
                return True
            time.sleep(0.1)
        return False

    def __exit__(self, *_):
        # (ends at once, without waiting for sessions)
        self.process.send_signal(signal.SIGQUIT)
        self.process.wait()

    def environment(self):
        """By which its superuser logs in."""
        return {**os.environ, "PGHOST": self.folder, "PGPORT": self.port, "PGUSER": USER, "PGDATABASE": USER}

    def psql(self, statement, *words):
        """The rows that a statement gives, as text, or what went wrong."""
        command = [program("psql"), "-X", "-q", "-A", "-t", "-v", "ON_ERROR_STOP=1", *words, "-c", statement]
        ran = subprocess.run(command, env=self.environment(), capture_output=True, text=True, timeout=60)
        return ran.stdout.split("\n")[:-1] if ran.returncode == 0 else ran.stderr
