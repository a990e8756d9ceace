"""Drawn requests, and kills of natix under clients that keep lists of their own: for trials/test-serve."""

import os
import random
import signal
import socket
import threading
import time
import urllib.parse

import harness
from harness import expect
from serving import Server, stored

METHODS = ("GET", "GET", "GET", "HEAD", "PUT", "PUT", "PUT", "PUT", "POST", "POST", "POST", "DELETE", "MOVE", "MOVE", "COPY", "COPY", "MKCOL", "PROPFIND", "PROPPATCH", "OPTIONS",
           "LOCK", "PATCH", "TRACE")
CHANGING = {"PUT", "POST", "DELETE", "MOVE", "COPY", "MKCOL"}
PATHS = ("/", "/a", "/b", "/c.xml", "/f/", "/f/a", "/f/g/", "/f/g/b", "/n%C3%A4me", "/%2e%2e/x", "/-x", "/a%0Adrop%20a", "/a;b", "/a%20b", "/%25%32%35", "/f")
BODIES = (b"", b"<a/>", b"<a><b>x</b>y</a>", b"<a", b"(a\n-x\n)a\n", b"(a\n.\ndrop a\n)a\n", b"retext /0/0 x\n", b"insert /0/0 (b\ninsert /0/0/0 -y\n", b"delete /0/0\n", b"delete /0/0\ndelete /9\n",
          b"insert /0/0 -x\r\n", b"commit\ndrop a\n", b"begin\n", b"plain\0bytes\xff", b"\n.\n", b"<!DOCTYPE a [<!ENTITY b 'c'>]><a>&b;</a>", b"insert /0/0 Ab c\n" * 2,
          b'<propfind xmlns="DAV:"><prop><getetag/><x xmlns="y"/></prop></propfind>')
QUERIES = ("?as=json", "?as=pyx", "?path=/0", "?path=/0/0", "?path=/0/0/0", "?find=//b", "?find=//%23text&most=1", "?match=//b/%23text&content=x", "?xpath=//b%5B@c='1'%5D",
           "?parts", "?children=2", "?children=2&path=/0", "?status", "?path=", "?as=none", "?path=/4294967295", "?%ff=%fe", "?a=b&a=c")
HEADERS = (("Content-Type", "application/xml"), ("Content-Type", "application/x-pyx"), ("Content-Type", "text/plain"), ("Content-Type", "\xe4"), ("If-Match", "*"), ("If-None-Match", "*"),
           ("If-Match", '"x-1"'), ("If-Match", "x"), ("Depth", "0"), ("Depth", "1"), ("Depth", "2"), ("Overwrite", "F"), ("Overwrite", "x"), ("Accept", "application/json"),
           ("Accept", "text/html;q=0.1, */*;q=x"), ("Accept", ",;,"), ("If", "(<x>)"), ("Range", "bytes=0-1"), ("Content-Encoding", "gzip"), ("Expect", "100-continue"),
           ("Origin", "http://evil.example"), ("Host", "evil.example"), ("Authorization", "Basic x"))


def drawn_bytes(draw):
    return bytes(draw.choice(b"()A-?/\\n\n\r\t .<>&;'\"ab0x\0\xc3\xa4\xff%") for _ in range(draw.randrange(40)))


def drawn_path(draw):
    if draw.random() < 0.85:
        return draw.choice(PATHS)
    return "/" + urllib.parse.quote(drawn_bytes(draw), safe="/()-?.<>&;'\"" if draw.random() < 0.5 else "/").replace("#", "%23")


def raw_status(server, draw):
    """The status that bytes are answered by which are no request, or hardly one, 0 where the connection was ended without one."""
    head = b"%b %b HTTP/1.1\r\nHost: localhost\r\n" % (draw.choice((b"GET", b"PUT", b"POST", b"get", b"\xff")), draw.choice((b"/a", b"*", b"a", b"http://localhost/a", b"/" + drawn_bytes(draw))))
    lines = b"".join(draw.choice((b"Content-Length: 3", b"Content-Length: -1", b"Transfer-Encoding: chunked", b"Upgrade: websocket", b"X: " + drawn_bytes(draw), drawn_bytes(draw),
                                  b"Connection: upgrade", b"Expect: x")) + b"\r\n" for _ in range(draw.randrange(4)))
    with server.socket(head + lines + b"\r\n" + draw.choice((b"", b"abc", b"3\r\nabc\r\n0\r\n\r\n", drawn_bytes(draw)))) as connection:
        connection.shutdown(socket.SHUT_WR)
        found = b""
        try:
            while more := connection.recv(1 << 16):
                found += more
        except ConnectionError:
            pass
        line = found[:100].split(b" ")
        return int(line[1]) if len(line) > 1 else 0


def drawn_request(draw):
    """A method, a path, a body and headers."""
    method = draw.choice(METHODS)
    path = drawn_path(draw) + (draw.choice(QUERIES) if draw.random() < (0.6 if method == "GET" else 0.15) else "")
    body = None
    if method in ("PUT", "POST", "PROPFIND", "PROPPATCH") or draw.random() < 0.05:
        body = draw.choice(BODIES) if draw.random() < 0.85 else drawn_bytes(draw)
    headers = dict(draw.choice(HEADERS) for _ in range(draw.choice((0, 0, 0, 0, 1, 1, 2))))
    if method in ("MOVE", "COPY") and draw.random() < 0.95:
        headers["Destination"] = drawn_path(draw) if draw.random() < 0.9 else draw.choice(("http://other.example/x", "x", "", "http://[/x"))
    return method, path.encode("ascii", "replace").decode().replace(" ", "%20"), body, headers


class Watch:
    """What the server has, by its lists, and what of it may have changed by the requests that were answered."""

    def __init__(self, client):
        self.client = client
        self.found = self.look()

    def look(self):
        """The content of each document that has a path, and the names of all."""
        listed = self.client.get("/?as=json").fields
        documents = {one["name"]: one["etag"] for one in listed["documents"]}
        return {**documents, **{folder: "" for folder in listed["folders"]}}

    def check(self, what, changes):
        """Nothing changed where nothing was to change."""
        now = self.look()
        if not changes:
            expect(what, sorted(set(now.items()) ^ set(self.found.items())), [])
        self.found = now


def check_drawn(path, requests, seed):
    """Drawn requests: none is answered by 500, and the documents change by those alone that were answered well."""
    draw, statuses = random.Random(seed), {}
    with Server(path) as server:
        client = server.client()
        watch = Watch(server.client())
        for number in range(requests):
            if draw.random() < 0.05:
                status = raw_status(server, draw)
                expect(f"request {number}, raw: a status", status < 500, True)
                watch.found = watch.look()
                continue
            method, target, body, headers = drawn_request(draw)
            try:
                answer = client.ask(method, target, body, headers)
            except (ConnectionError, UnicodeError, ValueError):
                continue  # what http.client doesn't send, or no HTTP
            status = answer.status
            statuses[status] = statuses.get(status, 0) + 1
            what = f"request {number}: {method} {target} {body!r} {headers}: {answer}"
            expect(f"{what}: a status", status < 500 or status in (502, 507), True)
            changes = method in CHANGING and status in (200, 201, 204)
            if method in CHANGING:
                watch.check(what, changes)
        watch.check("in the end", False)
        contents = {one["name"]: client.get(one["href"] + "?as=pyx").body for one in client.get("/?as=json").fields["documents"]}
        folders = len(client.get("/?as=json").fields["folders"])
        expect("the end of a server that was asked at random", server.end(), (0, ""))
    there = stored(path)
    expect("what the store has in the end", {name: lines for name, lines in there.items() if not name.endswith("/")}, contents)
    expect("the folders that it has", sum(name.endswith("/") for name in there), folders)
    return statuses


# Kills

DELAY = 0.05  # seconds before something is asked again that wasn't carried out


class Mine:
    """A client's own documents: what each has by what was answered, and what it may have besides where that isn't known."""

    def __init__(self, server, number, seed, may_go=False):
        self.client, self.number, self.may_go, self.draw = server.client(), number, may_go, random.Random(f"{seed} {number}")
        self.has, self.maybe = {}, {}  # by their paths: a value or None; values of which one is there
        self.made = self.acknowledged = self.unknown = self.refused = 0

    def body(self, value):
        """A document with one value in two places, which every transaction keeps the same."""
        return f"<d><t>{value}</t><u>{value}</u></d>".encode()

    def value_of(self, path):
        """The value that a document has, None where it isn't there, and `torn` where its places differ."""
        answer = self.ask("GET", f"{path}?as=pyx")
        if answer.status == 404:
            return None
        lines = answer.body.decode().split("\n")
        return lines[2][1:] if len(lines) == 9 and lines[2] == lines[5] else "torn"

    def ask(self, method, path, body=None, headers=None):
        """The answer to a question, as soon as there is one."""
        while True:
            answer = self.sent(method, path, body, headers)
            if answer is not None and answer.status != 503:
                return answer
            expect("a question is not carried out", answer is None or answer.fields.get("known") == "not", True)
            time.sleep(DELAY)

    def sent(self, method, path, body=None, headers=None):
        """The answer to a request, None where the server went; it isn't ended but where the trial does that."""
        try:
            return self.client.ask(method, path, body, headers)
        except ConnectionError as why:
            if not self.may_go:
                expect(f"a connection that the server ended: {why}", False, True)
                raise
            return None

    def settle(self, path):
        """Finds out what a document has of which that isn't known."""
        value = self.value_of(path)
        expect(f"{path} has one of what it may have", value in self.maybe[path], True)
        self.has[path] = value
        del self.maybe[path]

    def turn(self):
        """One change."""
        paths = list(self.has)
        path = self.draw.choice(paths) if paths and self.draw.random() < 0.8 else f"/kills/{self.number}-{len(paths)}"
        if path in self.maybe:
            self.settle(path)
        self.made += 1
        before, value, draw = self.has.get(path), f"v{self.number}.{self.made}", self.draw.random()
        if before is None or draw < 0.25:
            self.change(path, value, 201 if before is None else 200, "PUT", self.body(value), {"Content-Type": "application/xml"})
        elif draw < 0.7:
            self.change(path, value, 200, "POST", f"retext /0/0/0 {value}\nretext /0/1/0 {value}\n".encode())
        elif draw < 0.8:
            self.change(path, before, 404, "POST", f"retext /0/0/0 {value}\ndelete /0/7\n".encode())
        elif draw < 0.9:
            self.change(path, None, 204, "DELETE")
        else:
            self.move(path, before)

    def change(self, path, value, status, method, body=None, headers=None):
        self.judge(self.sent(method, path, body, headers), {path: value}, status)

    def move(self, path, value):
        other = path + "m" if not path.endswith("m") else path[:-1]
        if other in self.maybe:
            self.settle(other)
        there = self.has.get(other) is not None
        self.judge(self.sent("MOVE", path, None, {"Destination": other}), {path: None, other: value}, 204 if there else 201)

    def judge(self, answer, after, status):
        """Takes an answer: what the documents have then is known, or one of two."""
        if answer is None or answer.status == 503:
            known = "unknown" if answer is None else answer.fields.get("known")
            expect(f"what is known: {answer}", known in ("not", "unknown"), True)
            if known == "unknown":
                self.unknown += 1
                for path, value in after.items():
                    self.maybe[path] = {self.has.get(path), value}
            else:
                self.refused += 1
            time.sleep(DELAY)
            return
        expect(f"the status of {after}: {answer}", answer.status, status)
        if answer.status < 300:
            self.acknowledged += 1
            self.has.update(after)

    def run(self, until):
        try:
            while time.monotonic() < until:
                self.turn()
            for path in list(self.maybe):
                self.settle(path)
        except Exception as why:  # a thread's own
            expect(f"client {self.number}: {why!r}", False, True)


def check_kills(path, seconds, seed, clients=12):
    """Kills natix each second under a mixed load."""
    with Server(path) as server:
        server.client().mkcol("/kills/")
        until = time.monotonic() + seconds
        all_of_them = [Mine(server, number, seed) for number in range(clients)]
        threads = begun(all_of_them, until)
        kills = 0
        while time.monotonic() < until - 1:
            time.sleep(1)
            number = server.natix()
            if number:
                os.kill(number, signal.SIGKILL)
                kills += 1
        for thread in threads:
            thread.join(2 * harness.PATIENCE)
        for one in all_of_them:
            for where, value in one.has.items():
                expect(f"{where} in the end", one.value_of(where), value)
        status, said = server.end()
        expect("the end behind kills", (status, said if "Traceback" in said else ""), (0, ""))
        expect("each end was told", said.count("is opened again"), kills)
    check_stored(path, all_of_them)
    return kills, {what: sum(getattr(one, what) for one in all_of_them) for what in ("acknowledged", "refused", "unknown")}


def check_server_kills(path, seconds, seed, clients=6):
    """Kills the server itself each two seconds, and begins another one."""
    server = Server(path)
    server.client().mkcol("/kills/")
    until, kills = time.monotonic() + seconds, 0
    all_of_them = [Mine(server, number, seed, may_go=True) for number in range(clients)]
    threads = begun(all_of_them, until)
    while time.monotonic() < until - 2:
        time.sleep(2)
        server.signal(signal.SIGKILL)
        server.end()
        kills += 1
        server = Server(path, "--wait", "20", port=server.port)
    for thread in threads:
        thread.join(2 * harness.PATIENCE)
    expect("the end behind kills of the server", server.end(), (0, ""))
    check_stored(path, all_of_them)
    return kills


def begun(all_of_them, until):
    threads = [threading.Thread(target=one.run, args=(until,)) for one in all_of_them]
    for thread in threads:
        thread.start()
    return threads


def check_stored(path, all_of_them):
    """What natix itself finds in the store is what the clients know."""
    there = stored(path)
    wanted = {where[1:]: value for one in all_of_them for where, value in one.has.items() if value is not None}
    expect("the documents behind all kills", sorted(name for name in there if name != "kills/"), sorted(wanted))
    for name, value in wanted.items():
        expect(f"{name} behind all kills", there.get(name), f"(d\n(t\n-{value}\n)t\n(u\n-{value}\n)u\n)d\n".encode())
