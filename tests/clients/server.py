"""A served plane for the scripts beside this file: it listens at a free port of the loopback, and is told to end after some connections."""
import contextlib
import http.client
import json
import socket
import subprocess
import time

ROOT = "/apis/serving.knative.dev/v1/namespaces/default"


def manifest(kind, name, **spec):
    if kind != "Route":
        spec = {"template": {"spec": {"containers": [{"image": "img"}]}}, **spec}
    return {"apiVersion": "serving.knative.dev/v1", "kind": kind, "metadata": {"name": name}, "spec": spec}


def report(name):
    return {"revisionName": name, "resourcesAvailable": {"status": "True"}, "containerHealthy": {"status": "True"}}


class Server:
    def __init__(self, program, *words):
        with socket.socket() as gate:
            gate.bind(("127.0.0.1", 0))
            self.port = gate.getsockname()[1]
        self.process = subprocess.Popen([program, "serve", "--listen", f"127.0.0.1:{self.port}", *words], stdout=subprocess.PIPE, stderr=subprocess.PIPE)

    def connect(self):
        """A connection to the server, once it listens."""
        for _ in range(500):
            try:
                return socket.create_connection(("127.0.0.1", self.port), timeout=60)
            except ConnectionRefusedError:
                time.sleep(0.02)
        raise TimeoutError("the server doesn't listen")

    def client(self):
        client = http.client.HTTPConnection("127.0.0.1", self.port)
        client.sock = self.connect()
        return client

    def ended(self):
        """The status and the lines of a server that comes to its end."""
        lines, _ = self.process.communicate(timeout=60)
        return self.process.returncode, lines.decode().splitlines()


@contextlib.contextmanager
def serving(program, *words):
    server = Server(program, *words)
    try:
        yield server
    finally:
        server.process.kill()
        server.process.wait()


def ask(client, method, path, body=None):
    """The code and the value of a reply."""
    client.request(method, path, body=None if body is None else json.dumps(body))
    reply = client.getresponse()
    return reply.status, json.loads(reply.read())


class Checks:
    """What a script found: each check that isn't met is printed."""

    def __init__(self, name):
        self.name, self.made, self.wrong = name, 0, 0

    def equal(self, found, due, of):
        self.made += 1
        if found != due:
            self.wrong += 1
            print(f"{self.name}: {of}: {found!r}, not {due!r}")

    def end(self):
        print(f"{self.name}: {self.made} checks, {self.wrong} wrong")
        return 1 if self.wrong else 0
