#!/usr/bin/env python3
"""Makes the container image of a program and tries it by docs/PLATFORMS.md: what it says of itself, that its volume
keeps what was answered when it is killed and another one is started, and that HAProxy takes the configuration of that page.

usage: tests/trials/imaged.py PROGRAM

Runs as root, and needs podman with runc; HAProxy and openssl for the last. Where something of that isn't there, or no
container runs, it says what it passed over.
"""

import json
import os
import re
import shutil
import subprocess
import sys
import tempfile

sys.path.append(os.path.join(os.path.dirname(os.path.abspath(__file__)), "..", "lib"))

from conversations import CLOSE, SYNC, at, replies, request
from serving import EXAMPLES, ROOT, SETTINGS, Serving, passed_over, tell

SCRIPT = os.path.join(ROOT, "packaging", "image.sh")
PAGE = os.path.join(ROOT, "docs", "PLATFORMS.md")
NAME = "localhost/osb-broker:tried"
READY = ["/usr/bin/osb-broker", "ready"]
USER = 65532
THERE = (200, '{"parameters":{},"plan_id":"p-sync","service_id":"svc"}')
# Images, containers and volumes are kept in a folder of the trial.
STORAGE = """[storage]
driver = "vfs"
graphroot = "{0}/images"
runroot = "{0}/run"
"""
CONTAINERS = """[containers]
default_ulimits = ["nofile=1024:1024", "nproc=4096:4096"]
[engine]
runtime = "runc"
cgroup_manager = "cgroupfs"
events_logger = "file"
volume_path = "{0}/volumes"
tmp_dir = "{0}/engine"
"""

# What `check --explain` says of examples/settings.json, if only its user may read it.
REMARKS = """plan p-sync: instances synchronous, bindings synchronous
plan p-async: instances asynchronous, bindings asynchronous
a password that is easily guessed: platform
a password that is easily guessed: backend
"""


def run(*words, **more):
    """What a command prints, on both outputs, and its status."""
    ran = subprocess.run(words, stdin=subprocess.DEVNULL, stdout=subprocess.PIPE, stderr=subprocess.STDOUT, text=True, **more)
    return ran.returncode, ran.stdout


def missing(*programs):
    return [it for it in programs if not shutil.which(it)]


def told(start):
    """The lines of the page that begin so, as a script."""
    with open(PAGE, encoding="utf-8") as file:
        return "\n".join(line for line in re.findall("^    (.*)", file.read(), re.MULTILINE) if line.startswith(start))


class Container(Serving):
    """The program in a container of the image, over a volume, until it is killed."""

    def __init__(self, settings):
        words = ["podman", "run", "--rm", "--name", "broker", "--network", "host", "-v", "records:/var/lib/osb-broker"]
        files = ["-v", f"{settings}:/etc/osb-broker/settings.json:ro", NAME, "serve", "--settings"]
        self.words = [*words, *files, "/etc/osb-broker/settings.json", "--database", "/var/lib/osb-broker/broker.db"]
        self.more = {}
        self.start()

    def kill(self):
        run("podman", "kill", "broker")
        self.process.communicate()


def no_container(folder):
    """What keeps any image from being made and run here."""
    source, room = os.path.join(folder, "nothing.c"), os.path.join(folder, "nothing")
    os.mkdir(room)
    with open(source, "w", encoding="utf-8") as file:
        file.write("int main(void) { return 0; }\n")
    with open(os.path.join(room, "Containerfile"), "w", encoding="utf-8") as file:
        file.write('FROM scratch\nCOPY nothing /\nENTRYPOINT ["/nothing"]\n')
    for words in (["cc", "-static", "-o", os.path.join(room, "nothing"), source], ["podman", "build", "-q", "-t", NAME, room],
                  ["podman", "run", "--rm", "--network", "host", NAME]):
        status, said = run(*words)
        if status:
            return said.strip()[-200:]
    return ""


def configuration():
    image = json.loads(run("podman", "image", "inspect", NAME)[1])[0]
    found = image["Config"]
    yield "its user", found["User"], f"{USER}:{USER}"
    yield "its volume", list(found["Volumes"]), ["/var/lib/osb-broker"]
    words = found["Entrypoint"] + found["Cmd"][:1] + found["Cmd"][-2:]
    yield "its words", words, ["/usr/bin/osb-broker", "serve", "127.0.0.1:8080", "--explain"]
    yield "its health check", (image.get("Healthcheck") or {}).get("Test"), ["CMD", *READY, "127.0.0.1:8080"]


def serves(settings):
    """Whether what one container answered is in the volume, and another one has it."""
    with Container(settings) as serving:
        made = serving.sends(request("PUT", at("a"), SYNC, CLOSE))
        yield "an instance is made", replies(made), [(201, "{}")]
        yield "it is ready", run("podman", "exec", "broker", *READY, serving.address), (0, "")
        gone = (1, "osb-broker: not ready 127.0.0.1:1\n")
        yield "another address isn't", run("podman", "exec", "broker", *READY, "127.0.0.1:1", "--within", "1"), gone
    folder = run("podman", "volume", "inspect", "-f", "{{.Mountpoint}}", "records")[1].strip()
    kept = [os.stat(os.path.join(folder, name)) for name in ("broker.db", "broker.db-wal")]
    yield "its files", [(it.st_mode & 0o777, it.st_uid) for it in kept], [(0o600, USER)] * 2
    with Container(settings) as serving:
        yield "it is there in another one", replies(serving.sends(request("GET", at("a"), "", CLOSE))), [THERE]


def proxy(folder):
    """Whether HAProxy takes the configuration of the page, with a certificate in place of the secret."""
    lacking = missing("haproxy", "openssl")
    if lacking:
        passed_over("imaged", "the proxy's configuration", *lacking)
        return
    os.symlink(EXAMPLES, os.path.join(folder, "examples"))
    words = ["openssl", "req", "-x509", "-newkey", "rsa:2048", "-nodes", "-subj", "/CN=localhost", "-days", "2"]
    run(*words, "-keyout", "broker.pem.key", "-out", "broker.pem", cwd=folder)
    script = told("printf") + "\n" + told("sed").replace("/etc/haproxy/certificate", folder)
    yield "the commands of the proxy's configuration", run("sh", "-ec", script, cwd=folder), (0, "")
    yield "HAProxy takes it", run("haproxy", "-c", "-f", "00.cfg", "-f", "01.cfg", cwd=folder), (0, "Configuration file is valid\n")


def tries(program, folder):
    yield from proxy(folder)
    why = no_container(folder)
    if why:
        passed_over("imaged", "the image", "containers", why=why)
        return
    settings = os.path.join(folder, "settings.json")
    shutil.copy(SETTINGS, settings)
    os.chown(settings, USER, USER)
    os.chmod(settings, 0o600)
    yield "it is made", run(SCRIPT, program, NAME), (0, f"{NAME}\n")
    yield from configuration()
    checks = told("podman run").replace("localhost/osb-broker:VERSION", NAME)
    yield "the settings are looked at", run("sh", "-c", checks, cwd=folder), (0, "services 1, plans 2\n" + REMARKS)
    yield from serves(settings)


def main():
    lacking = ["root"] if os.geteuid() else missing("podman", "runc")
    if lacking:
        passed_over("imaged", "everything", *lacking)
        return 0
    with tempfile.TemporaryDirectory() as folder:
        os.chmod(folder, 0o755)
        for name, text in [("storage", STORAGE), ("containers", CONTAINERS)]:
            path = os.path.join(folder, f"{name}.conf")
            with open(path, "w", encoding="utf-8") as file:
                file.write(text.format(folder))
            os.environ[f"CONTAINERS_{'STORAGE_' if name == 'storage' else ''}CONF"] = path
        # Health checks by themselves need systemd.
        os.environ["DISABLE_HC_SYSTEMD"] = "true"
        try:
            return tell("imaged", tries(os.path.abspath(sys.argv[1]), folder))
        finally:
            for words in (["rm", "--force", "broker"], ["volume", "rm", "records"], ["rmi", NAME]):
                run("podman", *words)


if __name__ == "__main__":
    sys.exit(main())
