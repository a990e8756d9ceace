"""What requests are answered, by docs/SERVING.md: for trials/test-serve."""

import base64
import os
import shutil
import signal
import socket
import subprocess
import threading
import time

import harness
from harness import expect
from serving import SERVE, Server, stored

SHOP = b'<shop lang="en"><?sort price?><item id="1">tea</item><!-- c --></shop>'
LINES = b"(shop\nAlang en\n?sort price\n(item\nAid 1\n-tea\n)item\n?natix:comment  c \n)shop\n"
XML, PYX = "application/xml", "application/x-pyx"


def word(answer):
    """The status and the word of a refusal."""
    return answer.status, answer.fields.get("error")


def check_looks(client):
    """Looking at a document."""
    made = client.put("/shop", SHOP, Content_Type=XML)
    expect("put", (made.status, made.fields["nodes"], made.headers["location"]), (201, 8, "/shop"))
    expect("get", client.get("/shop").body, SHOP + b"\n")
    expect("its tag", client.get("/shop").tag, made.tag)
    expect("as PYX", client.get("/shop", Accept=PYX).body, LINES)
    expect("as PYX by the query", client.get("/shop?as=pyx").body, LINES)
    expect("as JSON", client.get("/shop", Accept="application/json").fields["children"][0]["name"], "shop")
    expect("a subtree", client.get("/shop?path=/0/2").body, b'<item id="1">tea</item>\n')
    expect("a text", client.get("/shop?path=/0/2/1").body, b"tea")
    expect("an instruction", client.get("/shop?path=/0/1").body, b"<?sort price?>")
    expect("a node as JSON", client.get("/shop?path=/0/0&as=json").fields, {"kind": "attribute", "name": "lang", "content": "en"})
    expect("children", [one.get("name") for one in client.get("/shop?children=2&path=/0").fields["children"]], ["lang", "sort"])
    expect("children further on", client.get("/shop?children=2&path=/0&from=2").fields["children"][0], {"kind": "element", "name": "item", "count": 2})
    for query, paths in (("find=//item/@id", ["/0/2/0"]), ("find=//none", []), ("match=//@id&content=1", ["/0/2/0"]), ("match=//@id&content=2", []),
                         ("xpath=//item[@id='1']/text()", ["/0/2/1"]), ("xpath=/shop/item", ["/0/2"])):
        expect(query, [one["path"] for one in client.get("/shop?" + query).fields["found"]], paths)
    expect("parts", client.get("/shop?parts").fields["count"], 1)
    listed = client.get("/", Accept="application/json").fields["documents"]
    expect("the list", [(one["name"], one["nodes"], one["parts"]) for one in listed], [("shop", 8, 1)])
    expect("head", (client.head("/shop").headers["content-length"], client.head("/shop").body), (str(len(SHOP) + 1), b""))
    expect("known already", client.get("/shop", If_None_Match=made.tag).status, 304)
    expect("a browser may run nothing of it", "sandbox" in client.get("/shop").headers["content-security-policy"], True)


def check_refusals(client):
    """Each refusal that the table has, but those of want of room."""
    for what, answer, wanted in (
            ("no document", client.get("/none"), (404, "no-document")), ("no document to drop", client.delete("/none"), (404, "no-document")),
            ("no node", client.get("/shop?path=/0/9"), (404, "no-node")), ("no node to edit", client.post("/shop", "delete /0/9\n"), (404, "no-node")),
            ("a bad place", client.post("/shop", "insert /0/9 -x\n"), (409, "bad-place")), ("a second root", client.post("/shop", "insert /0 (x\n"), (409, "bad-place")),
            ("twice", client.post("/shop", "insert /0/1 Alang de\n"), (409, "twice")), ("no content", client.post("/shop", "retext /0 x\n"), (409, "no-content")),
            ("too heavy", client.post("/shop", f"insert /0/3 ({'x' * 2100}\n"), (422, "too-heavy")), ("malformed", client.put("/bad.xml", b"<a>"), (422, "xml")),
            ("bad lines", client.put("/bad", b"(a\n)b\n", Content_Type=PYX), (422, "bad-nesting")), ("no line", client.post("/shop", "insert /0/3 x\n"), (422, "pyx")),
            ("too deep", client.put("/bad", b"(a\n" * 300 + b")a\n" * 300, Content_Type=PYX), (413, "too-deep")),
            ("no edit", client.post("/shop", "drop shop\n"), (400, "path")), ("another edit", client.post("/shop", "rename /0 x\n"), (400, "syntax")),
            ("a query", client.get("/shop?nonsense=1"), (400, "query")), ("a query twice", client.get("/shop?path=/&path=/"), (400, "query")),
            ("a path", client.get("/shop?path=/01"), (400, "path")), ("no question", client.get("/shop?find=item"), (400, "question")),
            ("an XPath", client.get("/shop?xpath=count(//a)"), (400, "question")), ("no folder", client.put("/no/shop", SHOP), (409, "no-folder")),
            ("a dot", client.put("/../shop", SHOP), (400, "name")), ("an empty step", client.get("//shop"), (400, "name")),
            ("half a percent", client.get("/%f"), (400, "name")), ("a long name", client.put("/" + "x" * 256, SHOP), (414, "name")),
            ("a coding", client.put("/shop", SHOP, Content_Encoding="gzip"), (415, "coding")), ("a range", client.put("/shop", SHOP, Content_Range="bytes 0-1/2"), (400, "range")),
            ("a method", client.ask("PATCH", "/shop"), (405, "method")), ("a dot as a line", client.put("/dot", b"(a\n.\ndrop shop\n)a\n", Content_Type=PYX), (422, "pyx"))):
        expect(what, word(answer), wanted)
    heavy = client.post("/shop", f"retext /0/2/1 x\ninsert /0/3 ({'x' * 2100}\n").fields
    expect("where it is, and which edit", (heavy["path"], heavy["weight"], heavy["at"]), ("/0/3", 264, 2))
    expect("nothing of all that was kept", client.get("/shop?as=pyx").body, LINES)


def check_edits(client):
    """Edits by lines and by fragments."""
    client.put("/edits", SHOP, Content_Type=XML)
    done = client.post("/edits", "retext /0/2/1 black tea\r\ninsert /0/3 (cup\ninsert /0/3/0 -a\\nb\n")
    expect("three edits", (done.status, done.fields["edits"]), (200, 3))
    expect("behind them", client.get("/edits?as=pyx").body, LINES.replace(b"-tea\n)item\n", b"-black tea\n)item\n(cup\n-a\\nb\n)cup\n"))
    expect("an XML fragment", client.post("/edits?path=/0/3", b"<p>x &lt; <b>y</b></p>z<?i?>", Content_Type=XML).fields["edits"], 6)
    expect("behind it", client.get("/edits?path=/0/3").body, b"<p>x &lt; <b>y</b></p>\n")
    expect("a PYX fragment", client.post("/edits?path=/0/3", b"(q\n)q\n", Content_Type=PYX).fields["edits"], 1)
    expect("a malformed one", word(client.post("/edits?path=/0/3", b"</natix-fragment><evil/><natix-fragment>", Content_Type=XML)), (422, "xml"))
    expect("an open one", word(client.post("/edits?path=/0/3", b"(q\n", Content_Type=PYX)), (422, "unclosed"))
    expect("one that ends too often", word(client.post("/edits?path=/0/3", b")q\n)q\n", Content_Type=PYX)), (422, "bad-nesting"))
    expect("a node taken away", client.delete("/edits?path=/0/3").status, 200)
    expect("what was below it is gone", client.get("/edits?path=/0/3").body, b"<p>x &lt; <b>y</b></p>\n")


def check_tags(client):
    """A tag changes with each change, and is never had again."""
    seen = [client.put("/tags", b"<a><b>1</b></a>", Content_Type=XML).tag]

    def changed(what, answer):
        now = client.get("/tags").tag
        expect(f"{what}: status", answer.status < 300, True)
        expect(f"{what}: a new tag", now not in seen, True)
        seen.append(now)

    changed("an edit", client.post("/tags", "retext /0/0/0 2\n", If_Match=seen[-1]))
    expect("a tag of before", word(client.post("/tags", "retext /0/0/0 3\n", If_Match=seen[-2])), (412, "condition"))
    changed("the same content", client.post("/tags", "retext /0/0/0 2\n"))
    changed("a replacement", client.put("/tags", b"<a><b>1</b></a>", If_Match=seen[-1], Content_Type=XML))
    client.move("/tags", Destination="/elsewhere")
    changed("away and back", client.move("/elsewhere", Destination="/tags"))
    client.delete("/tags")
    expect("gone", word(client.put("/tags", b"<a/>", If_Match=seen[-1], Content_Type=XML)), (412, "condition"))
    changed("made again", client.put("/tags", b"<a><b>1</b></a>", If_None_Match="*", Content_Type=XML))
    expect("there already", word(client.put("/tags", b"<a/>", If_None_Match="*", Content_Type=XML)), (412, "condition"))
    expect("a form's tag", client.post("/tags", "retext /0/0/0 9\n", If_Match=client.get("/tags?as=json").tag).status, 200)
    expect("a weak tag", client.post("/tags", "retext /0/0/0 9\n", If_Match="W/" + client.get("/tags").tag).status, 412)


def check_dav(client):
    """Folders, moves, copies and properties."""
    destination = {"Host": "127.0.0.1:1", "Destination": "http://127.0.0.1:1/dav/c"}
    for what, answer, wanted in (
            ("a folder", client.mkcol("/dav"), 201), ("again", client.mkcol("/dav/"), 405), ("within none", client.mkcol("/none/x"), 409), ("with a body", client.mkcol("/z", b"x"), 415),
            ("into it", client.put("/dav/a%20b", SHOP, Content_Type=XML), 201),
            ("over it", client.put("/dav", SHOP), 405), ("a move", client.move("/dav/a%20b", Destination="/dav/b"), 201), ("a copy", client.ask("COPY", "/dav/b", None, destination), 201),
            ("not over it", client.copy("/dav/b", Destination="/dav/c", Overwrite="F"), 412), ("over that", client.copy("/dav/b", Destination="/dav/c"), 204),
            ("another server", client.copy("/dav/b", Destination="http://example.org/x"), 502), ("none", client.copy("/dav/b"), 400),
            ("into itself", client.move("/dav/", Destination="/dav/x/"), 409), ("onto itself", client.move("/dav/b", Destination="/dav/b"), 403),
            ("a folder moved", client.move("/dav/", Destination="/new"), 201), ("the old one", client.get("/dav/"), 404), ("the new one", client.get("/new/b"), 200),
            ("a folder copied", client.copy("/new", Destination="/dav/"), 201), ("without what is below", client.copy("/new", Destination="/bare", Depth="0"), 201),
            ("endless", client.propfind("/", Depth="infinity"), 403), ("a property", client.proppatch("/new/b", b'<propertyupdate xmlns="DAV:"><set><prop><x/></prop></set></propertyupdate>'), 207),
            ("no XML", client.propfind("/", b"<", Depth="0"), 400), ("entities", client.propfind("/", b'<!DOCTYPE a [<!ENTITY x "y">]><a>&x;</a>', Depth="0"), 400),
            ("a lock", client.ask("LOCK", "/new/b"), 405), ("a condition on locks", client.put("/new/b", SHOP, If="(<opaquelocktoken:x>)"), 412)):
        expect(f"DAV: {what}", answer.status, wanted)
    expect("DAV: what is in the copy", sorted(one["name"] for one in client.get("/dav/?as=json").fields["documents"]), ["dav/b", "dav/c"])
    found = client.propfind("/new/", Depth="1").body.decode()
    expect("DAV: properties", (found.count("<D:response>"), f"<D:getcontentlength>{len(SHOP) + 1}</D:getcontentlength>" in found, "<D:collection/>" in found), (3, True, True))
    expect("DAV: the size", client.head("/new/b").headers["content-length"], str(len(SHOP) + 1))
    expect("DAV: a folder goes", (client.delete("/dav").status, client.delete("/new/").status, client.delete("/bare/").status), (204, 204, 204))
    expect("DAV: options", client.options("/").headers["dav"], "1")


def check_names(client):
    """Each name leads to one path, whatever bytes it has."""
    for name, path in (("a%20b", "/a%20b"), ("a%2520b", "/a%2520b"), ("%2Dx", "/-x"), ("%C3%89", "/%C3%89"), ("x%", "/x%25"), ("%41", "/%2541"), ("%00%0A%7F", "/%00%0A%7F"),
                       ("a&b;c|d`$(e)'\"<>", "/a&b;c%7Cd%60$(e)'%22%3C%3E"), ("%FF", "/%FF")):
        made = client.put(path, b"<n/>", Content_Type=XML)
        expect(f"the name of {path}", (made.status, made.fields.get("name")), (201, name))
        expect(f"{path} again", client.get(path).body, b"<n/>\n")
        expect(f"{path} in the list", [one["name"] for one in client.get("/?as=json").fields["documents"] if one["href"] == made.fields.get("href")], [name])
        expect(f"{path} goes", client.delete(made.fields.get("href", "/")).status, 204)


def check_files(client):
    """Bodies that are no XML."""
    for what, name, body, kind in (("a text", "/f.txt", "Grüße\r\n\tx\\n\n".encode(), "text/plain"), ("bytes", "/f.bin", bytes(range(256)) * 50, ""), ("nothing", "/f", b"", ""),
                                   ("two megabytes", "/large.txt", b"0123456789 \\\n" * 170_000, "text/plain"), ("a kilobyte", "/k.txt", b"x" * 1000, "text/x")):
        expect(f"{what}: put", client.put(name, body, **({"Content_Type": kind} if kind else {})).status, 201)
        found = client.get(name)
        expect(f"{what}: get", found.body == body, True)
        expect(f"{what}: type", found.headers["content-type"], kind or "application/octet-stream")
        client.delete(name)
    client.put("/odd", b"(natix-file\nAtype text/x\\nX-Evil: 1\n-x\n)natix-file\n", Content_Type=PYX)
    expect("a type with a line's end", client.get("/odd").headers["content-type"], "application/octet-stream")
    client.put("/sub", b"(a\n-\x01\xff\n)a\n", Content_Type=PYX)
    expect("what XML can't say", (word(client.get("/sub")), client.get("/sub?as=pyx").body), ((422, "not-xml"), b"(a\n-\x01\xff\n)a\n"))


def check_bodies(path):
    """Bodies that are too long, slow, cut or not as their head says, and connections that are silent."""
    with Server(path, "--most", "100000", "--patience", "2") as server:
        client = server.client()
        expect("a body that is too long", word(client.put("/long.txt", b"x" * 100_001)), (413, "too-large"))
        unread = server.socket(b"PUT /long.txt HTTP/1.1\r\nHost: localhost\r\nContent-Length: 99999999999\r\n\r\n")
        expect("refused before it is read", unread.recv(100).split(b"\r\n")[0], b"HTTP/1.1 413 Request Entity Too Large")
        pieces = server.socket(b"PUT /long.txt HTTP/1.1\r\nHost: localhost\r\nTransfer-Encoding: chunked\r\n\r\n" + b"8000\r\n" + b"x" * 0x8000 + b"\r\n")
        for _ in range(4):
            pieces.sendall(b"8000\r\n" + b"x" * 0x8000 + b"\r\n")
        expect("refused in its midst", pieces.recv(100).split(b"\r\n")[0], b"HTTP/1.1 413 Request Entity Too Large")
        slow = server.socket(b"PUT /slow.txt HTTP/1.1\r\nHost: localhost\r\nContent-Length: 8\r\n\r\n")
        for byte in b"by bytes":
            time.sleep(0.3)
            slow.sendall(bytes([byte]))
        expect("a byte after the other", slow.recv(100).split(b"\r\n")[0], b"HTTP/1.1 201 Created")
        silent = server.socket(b"PUT /silent.txt HTTP/1.1\r\nHost: localhost\r\nContent-Length: 8\r\n\r\nby")
        expect("a silent one", silent.recv(100).split(b"\r\n")[0], b"HTTP/1.1 408 Request Timeout")
        half = server.socket(b"PUT /half.txt HTTP/1.1\r\nHost: localhost\r\nContent-Length: 8\r\n\r\nby")
        half.shutdown(socket.SHUT_WR)
        time.sleep(0.3)
        odd = server.socket(b"PUT /odd.txt HTTP/1.1\r\nHost: localhost\r\nTransfer-Encoding: chunked\r\n\r\nzz\r\nx\r\n")
        expect("a chunk without a length", odd.recv(100)[8:12], b" 400")
        expect("no HTTP", server.socket(b"\0\1\2\3 / x\r\n\r\n").recv(100)[8:12], b" 400")
        expect("what is there", sorted(one["name"] for one in client.get("/?as=json").fields["documents"]), ["slow.txt"])
        check_greedy(server, client)
        check_many(server, client)
        for one in (unread, pieces, slow, silent, half, odd):
            one.close()
        status, said = server.end()
        expect("its end", (status, said), (0, ""))


def check_greedy(server, client):
    """Bodies that are too many at once, and a client that asks much and takes nothing."""
    head = b"PUT /many%d.txt HTTP/1.1\r\nHost: localhost\r\nContent-Length: 100000\r\n\r\n"
    many = [server.socket(head % at + b"x" * 99_999) for at in range(10)]
    found = {one.recv(12) for one in many}
    expect("too many bodies at once", found <= {b"HTTP/1.1 503", b"HTTP/1.1 408"} and b"HTTP/1.1 503" in found, True)
    for one in many:
        one.close()
    client.put("/greedy.txt", b"x" * 99_000)
    greedy = server.socket(b"GET /greedy.txt HTTP/1.1\r\nHost: localhost\r\n\r\n" * 200)
    time.sleep(1)
    expect("one who takes nothing", client.get("/?status").fields["requests"], 2)
    time.sleep(3)
    expect("that one is given up", client.get("/?status").fields["requests"], 1)
    greedy.close()
    client.delete("/greedy.txt")


def check_many(server, client, count=1000):
    """So many connections at once, most of which say nothing or half of something."""
    others = [server.socket((b"", b"GET /slow", b"GET /slow.txt HTTP/1.1\r\nHost: localhost\r\n\r\n")[at % 3]) for at in range(count)]
    begin = time.monotonic()
    expect("one among many", client.get("/slow.txt").body, b"by bytes")
    taken = time.monotonic() - begin
    expect(f"it waits for none of them: {taken:.1f} s", taken < 20, True)  # 30 s are what a silent one has
    expect("those that asked", {one.recv(15) for one in others[2::3]}, {b"HTTP/1.1 200 OK"})
    for one in others:
        one.close()


def check_end(path):
    """SIGTERM ends the server once the requests under way are answered."""
    with Server(path) as server:
        slow = server.socket(b"PUT /last.xml HTTP/1.1\r\nHost: localhost\r\nContent-Length: 7\r\n\r\n<last")
        kept = server.client()
        kept.get("/")
        time.sleep(0.3)
        server.signal(signal.SIGTERM)
        time.sleep(0.5)
        try:
            answer = kept.get("/")
            expect("a request behind the signal", word(answer), (503, "ending"))
        except ConnectionError:
            pass
        refused = False
        try:
            server.socket().close()
        except OSError:
            refused = True
        expect("no new connection", refused, True)
        slow.sendall(b"/>")
        expect("the one under way", slow.recv(100).split(b"\r\n")[0], b"HTTP/1.1 201 Created")
        slow.close()
        expect("the end", server.end(), (0, ""))
        expect("what it was told", stored(path).get("last.xml"), b"(last\n)last\n")


def check_access(path, folder):
    """Users, tokens, hosts and pages of other servers."""
    file = os.path.join(folder, "users")
    with open(file, "wb") as users:
        for name, password in (("ann", b"tea\n"), ("token", b"s3cret\n")):
            users.write(subprocess.run([SERVE, "--user", name], input=password, stdout=subprocess.PIPE).stdout)
    basic = {name: "Basic " + base64.b64encode(name.encode()).decode() for name in ("ann:tea", "ann:cup", "token:s3cret", "bob:tea", "ann")}
    with Server(path, "--auth", file, "--read-only") as server:
        client = server.client()
        for given, status in ((None, 401), (basic["ann:tea"], 200), (basic["ann:cup"], 401), (basic["bob:tea"], 401), (basic["token:s3cret"], 401), (basic["ann"], 401),
                              ("Bearer s3cret", 200), ("Bearer tea", 401), ("Basic ???", 401), ("Digest x", 401)):
            expect(f"Authorization: {given}", client.get("/?as=json", **({"Authorization": given} if given else {})).status, status)
        expect("read-only", word(client.put("/x", SHOP, Authorization=basic["ann:tea"])), (403, "read-only"))
    with Server(path, "--host", "store.example") as server:
        client = server.client()
        for host, status in (("localhost", 200), ("127.0.0.1:1", 200), ("store.example", 200), ("[::1]:80", 200), ("evil.example", 403)):
            expect(f"Host: {host}", client.get("/?as=json", Host=host).status, status)
        for headers, status in (({"Origin": "http://evil.example"}, 403), ({"Origin": "null"}, 403), ({"Origin": f"http://127.0.0.1:{server.port}"}, 201),
                                ({"Sec_Fetch_Site": "cross-site"}, 403)):
            expect(f"a change by {headers}", client.put("/" + str(len(str(headers))), SHOP, **headers).status, status)
    for words in (["--listen", "0.0.0.0:0"], ["--listen", "nonsense"], ["--auth", "/none"], []):
        done = subprocess.run([SERVE, *words, *([path] if words else [])], stdout=subprocess.PIPE, stderr=subprocess.PIPE, timeout=harness.PATIENCE)
        expect(f"misuse: {words}", (done.returncode, b"Traceback" in done.stderr), (1, False))
    done = subprocess.run([SERVE, "--listen", "127.0.0.1:0", path + "-none"], stdout=subprocess.PIPE, stderr=subprocess.PIPE, timeout=harness.PATIENCE)
    expect("no store", (done.returncode, b"there is no store" in done.stderr), (7, True))


def check_together(path, clients=64, turns=6):
    """Changes that come at once go together, each judged alone; of those with a condition on one tag one alone is carried out."""
    with Server(path) as server:
        client = server.client()
        client.put("/list", b"<list><item>0</item></list>", Content_Type=XML)
        before, statuses = client.get("/?status").fields, []

        def work(number):
            mine = server.client()
            for turn in range(turns):
                if number % 4 == 0:
                    statuses.append(("refused", mine.post("/list", f"insert /0/1 -{number}.{turn}\ndelete /0/99999\n").status))
                elif number % 4 == 1:
                    statuses.append(("put", mine.put(f"/list-{number}-{turn}", b"<a/>", Content_Type=XML).status))
                else:
                    statuses.append(("insert", mine.post("/list", f"insert /0/1 (i{number}.{turn}\n").status))

        threads = [threading.Thread(target=work, args=(number,)) for number in range(clients)]
        for thread in threads:
            thread.start()
        for thread in threads:
            thread.join()
        after = client.get("/?status").fields
        expect("what each was told", sorted(set(statuses)), [("insert", 200), ("put", 201), ("refused", 404)])
        lines = client.get("/list?as=pyx").body.decode().split("\n")
        expect("all that were told ok, once", sorted(line[2:] for line in lines if line.startswith("(i") and line != "(item"),
               sorted(f"{number}.{turn}" for number in range(clients) if number % 4 > 1 for turn in range(turns)))
        expect("fewer commits than changes", after["commits"] - before["commits"] < after["changes"] - before["changes"], True)
        check_counter(server)
        return after["changes"] - before["changes"], after["commits"] - before["commits"]


def check_counter(server, clients=8, turns=10):
    """A counter that each client reads and makes one greater by a condition on its tag."""
    server.client().put("/counter", b"<n>0</n>", Content_Type=XML)

    def work():
        mine = server.client()
        for _ in range(turns):
            while True:
                read = mine.get("/counter?path=/0/0")
                done = mine.post("/counter", f"retext /0/0 {int(read.body) + 1}\n", If_Match=read.tag)
                if done.status == 200:
                    break
                expect("a counter's refusal", done.status, 412)

    threads = [threading.Thread(target=work) for _ in range(clients)]
    for thread in threads:
        thread.start()
    for thread in threads:
        thread.join()
    expect("the counter", server.client().get("/counter?path=/0/0").body, b"%d" % (clients * turns))


def check_litmus(path, folder):
    """The suite litmus, where it is there: how many of its tests passed."""
    if not shutil.which("litmus"):
        print("litmus isn't there, so its suites aren't tried")
        return
    with Server(path) as server:
        done = subprocess.run(["litmus", "-k", f"http://127.0.0.1:{server.port}/"], cwd=folder, stdout=subprocess.PIPE, stderr=subprocess.STDOUT, timeout=300,
                              env={**os.environ, "TESTS": "basic copymove http"})
        said = done.stdout.decode("utf-8", "replace")
        expect("litmus", (done.returncode, said.count("100.0%"), "FAIL" in said), (0, 3, False))
