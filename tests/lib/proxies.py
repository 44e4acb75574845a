"""The proxies of the examples in front of a broker, and what a client reads behind one."""

import os
import socket
import ssl
import subprocess
import tempfile

from conversations import replies
from serving import EXAMPLES, SHOWN, free_address, read_to_end, wait_until

UNUSABLE = '{"description":"The request is not usable."}'
AWAY = '{"description":"The broker does not answer."}'
CODINGS = 411, '{"description":"Transfer codings are not supported."}'


def replaced(text, given, used, times=1):
    """A text with another part in the place of one that is in it so many times."""
    if text.count(given) != times:
        raise RuntimeError(f"{given} stands {text.count(given)} times in the example")
    return text.replace(given, used)


class Proxy:
    """A proxy in front of a broker, until it is left. The addresses of its example are put in the place of free ones,
    and nothing else of it is changed. What stands around it in Debian is written in `around` here, for one folder."""

    # Its program, its example, the address at which that listens, and what stands around it.
    program = example = listens = around = ""
    # The file in its folder that has a line of each request.
    said = ""
    # How often its example names the broker's address, and whether it keeps connections to it.
    calls, keeps = 2, False
    # The words that it is started with, those that have it look at its configuration alone, and what it says to these.
    words, checks, valid = [], [], ""

    def __init__(self, folder, broker):
        self.folder, self.address = tempfile.mkdtemp(dir=folder), free_address()
        self.port = int(self.address.rpartition(":")[2])
        with open(os.path.join(EXAMPLES, self.example), encoding="utf-8") as file:
            self.writes("broker.conf", self.placed(file.read(), broker))
        self.writes("around.conf", self.around)
        key, certificate = os.path.join(self.folder, "broker.key"), os.path.join(self.folder, "broker.crt")
        words = ["openssl", "req", "-x509", "-newkey", "rsa:2048", "-nodes", "-subj", "/CN=localhost", "-days", "2"]
        subprocess.run([*words, "-keyout", key, "-out", certificate], check=True, stderr=subprocess.DEVNULL)
        with open(certificate, encoding="utf-8") as one, open(key, encoding="utf-8") as other:
            self.writes("broker.pem", one.read() + other.read())
        self.trust = ssl.create_default_context(cafile=certificate)
        self.trust.check_hostname = False

    def placed(self, configuration, broker):
        """The example with the addresses that are used."""
        return replaced(replaced(configuration, "127.0.0.1:8080", broker, self.calls), self.listens, self.address)

    def writes(self, name, text):
        with open(os.path.join(self.folder, name), "w", encoding="utf-8") as file:
            file.write(text)

    def is_valid(self):
        """What the proxy says of its configuration: its status, and all that it prints."""
        words = [self.program, *self.checks]
        ran = subprocess.run(words, cwd=self.folder, stdout=subprocess.PIPE, stderr=subprocess.STDOUT, text=True)
        return ran.returncode, ran.stdout.strip()

    def __enter__(self):
        words = [self.program, *self.words]
        complaints = os.path.join(self.folder, "complaints")
        with open(os.path.join(self.folder, self.said), "a", encoding="utf-8") as said, open(complaints, "w") as errors:
            self.process = subprocess.Popen(words, cwd=self.folder, stdout=said, stderr=errors)
        wait_until(f"{self.program} listens", lambda: self.process.poll() is not None or self.takes_clients(), 60)
        if self.process.poll() is not None:
            with open(complaints, encoding="utf-8") as errors:
                raise RuntimeError(f"{self.program} doesn't listen: {errors.read()[-SHOWN:]}")
        return self

    def takes_clients(self):
        try:
            self.connection().close()
            return True
        except OSError:
            return False

    def __exit__(self, *_):
        self.process.terminate()
        self.process.wait()

    def silent_connection(self, source="127.0.0.1"):
        """A connection of this address that didn't even begin TLS."""
        return socket.create_connection(("127.0.0.1", self.port), timeout=30, source_address=(source, 0))

    def connection(self, source="127.0.0.1"):
        return self.trust.wrap_socket(self.silent_connection(source), server_hostname="localhost")

    def sends(self, bytes_sent, source="127.0.0.1"):
        """What a client of this address reads that sends these bytes."""
        with self.connection(source) as client:
            client.sendall(bytes_sent)
            return read_to_end(client)

    def answers(self, bytes_sent, source="127.0.0.1"):
        """The status and the body of the only reply, or what went wrong."""
        try:
            return first_of(self.sends(bytes_sent, source))
        except OSError as error:
            return repr(error)

    def log(self):
        """What it wrote of requests."""
        with open(os.path.join(self.folder, self.said), encoding="utf-8") as file:
            return file.read()


def first_of(output):
    found = replies(output)
    return found[0] if len(found) == 1 else found


class Nginx(Proxy):
    program, example, listens, said = "nginx", "nginx.conf", "127.0.0.1:8443", "osb-broker.log"
    around = """pid nginx.pid;
error_log error.log warn;
events { worker_connections 4096; }
http {
    access_log access.log;
    client_body_temp_path body;
    include broker.conf;
}
"""
    words = ["-p", ".", "-c", "around.conf", "-e", "error.log", "-g", "daemon off;"]
    checks, valid = ["-t", "-q", *words], ""
    # What it answers to a head that it refuses, to a body in chunks, to a client that stops inside its head and inside its
    # body, and for a broker that isn't there.
    refused = 400, UNUSABLE
    chunks = 201, "{}"
    no_head = no_body = []
    away = 502, AWAY

    calls = 3

    def placed(self, configuration, broker):
        placed = super().placed(configuration, broker)
        return replaced(replaced(placed, "127.0.0.1:8442", free_address(), 11), "/var/log/nginx/", "")


class NginxKept(Nginx):
    """The same with connections to the broker that are kept."""

    example, keeps = "nginx-kept.conf", True


class HAProxy(Proxy):
    program, example, listens, said = "haproxy", "haproxy.cfg", "127.0.0.1:8445", "said"
    around = "global\n    log stdout format raw local0\n"
    words = ["-f", "around.conf", "-f", "broker.conf"]
    checks, valid = ["-c", *words], "Configuration file is valid"
    # The pages that it answers a head with can't be changed.
    refused = 400, "<html><body><h1>400 Bad request</h1>\nYour browser sent an invalid request.\n</body></html>\n"
    no_head = 408, "<html><body><h1>408 Request Time-out</h1>\nYour browser didn't send a complete request in time.\n</body></html>\n"
    no_body = 408, '{"description":"The request took too long."}'
    chunks = CODINGS
    away = 503, AWAY


class HAProxyKept(HAProxy):
    """The same with connections to the broker that are kept."""

    example, calls, keeps = "haproxy-kept.cfg", 3, True

    def placed(self, configuration, broker):
        return replaced(super().placed(configuration, broker), "127.0.0.1:8081", free_address(), 2)
