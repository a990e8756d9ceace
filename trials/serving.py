"""A server over a store of its own, and clients of it: for trials/test-serve."""

import http.client
import json
import os
import select
import signal
import socket
import subprocess
import time

import harness
from harness import NATIX, TOOLS
import natix  # found by harness

SERVE = os.path.join(TOOLS, "natix-serve")


class Answer:
    """An answer: its status, its headers by their names in small letters, and its body."""

    def __init__(self, status, headers, body):
        self.status, self.headers, self.body = status, {name.lower(): value for name, value in headers}, body

    @property
    def fields(self):
        try:
            return json.loads(self.body)
        except ValueError:
            return {}

    @property
    def tag(self):
        return self.headers.get("etag") or self.fields.get("etag")

    def __repr__(self):
        return f"{self.status} {self.body[:200]!r}"


class Client:
    """One connection at a time."""

    def __init__(self, port, patience=harness.PATIENCE):
        self.port, self.patience = port, patience
        self.connection = None

    def ask(self, method, path, body=None, headers=None):
        """The answer to a request; `ConnectionError` where the connection goes instead."""
        if self.connection is None:
            self.connection = http.client.HTTPConnection("127.0.0.1", self.port, timeout=self.patience)
        try:
            self.connection.request(method, path, body=body, headers=headers or {})
            reply = self.connection.getresponse()
            answer = Answer(reply.status, reply.getheaders(), reply.read())
        except (OSError, http.client.HTTPException) as why:
            self.close()
            raise ConnectionError(str(why))
        if answer.headers.get("connection") == "close":
            self.close()
        return answer

    def close(self):
        if self.connection is not None:
            self.connection.close()
            self.connection = None

    def __getattr__(self, name):
        """`client.get(path)`, `client.put(path, body)` and so on."""
        if name not in ("get", "put", "post", "delete", "move", "copy", "mkcol", "propfind", "proppatch", "options", "head"):
            raise AttributeError(name)
        return lambda path, body=None, **headers: self.ask(name.upper(), path, body, {word.replace("_", "-"): value for word, value in headers.items()})


class Server:
    """natix-serve over a store, until the end of a `with`."""

    def __init__(self, path, *words, k=256, port=0):
        self.path = path
        if not os.path.exists(path):
            made = subprocess.run([NATIX, path, "init", str(k)], stdout=subprocess.PIPE)
            assert made.stdout == b"ok\n", made
        self.process = subprocess.Popen([SERVE, "--listen", f"127.0.0.1:{port}", *words, path], stdout=subprocess.PIPE, stderr=subprocess.PIPE,
                                        env={**os.environ, "NATIX": NATIX}, start_new_session=True)
        if not select.select([self.process.stdout], [], [], harness.PATIENCE)[0]:
            self.process.kill()
            raise TimeoutError("natix-serve doesn't begin")
        line = self.process.stdout.readline().decode()
        if not line.startswith("http://"):
            raise ValueError(f"natix-serve said {self.process.stderr.read().decode()!r}")
        self.port = int(line.rstrip("/\n").rpartition(":")[2])
        self.said = ""
        self.status = None

    def __enter__(self):
        return self

    def __exit__(self, *_):
        self.end()

    def client(self, **more):
        return Client(self.port, **more)

    def socket(self, sent=b""):
        """A connection of its own, on which so many bytes were sent."""
        found = socket.create_connection(("127.0.0.1", self.port), timeout=harness.PATIENCE)
        found.sendall(sent)
        return found

    def natix(self):
        """The number of the process of natix, 0 where it isn't open."""
        found = self.client().get("/?status").fields
        return found["natix"] if found["open"] else 0

    def wait_open(self):
        end = time.monotonic() + harness.PATIENCE
        while not self.natix() and time.monotonic() < end:
            time.sleep(0.05)

    def signal(self, number=signal.SIGTERM):
        self.process.send_signal(number)

    def end(self):
        """Ends the server: its exit status, and what it said."""
        if self.status is None:
            if self.process.poll() is None:
                self.signal()
            try:
                _, said = self.process.communicate(timeout=harness.PATIENCE)
            except subprocess.TimeoutExpired:
                self.process.kill()
                _, said = self.process.communicate()
            self.said, self.status = said.decode("utf-8", "replace"), self.process.returncode
        return self.status, self.said


def stored(path):
    """The documents of a store by their names, as natix itself exports them."""
    with natix.Store.open(path, NATIX) as store:
        return {name: bytes(store.export(name, natix.Pyx)) for name in store.names()}
