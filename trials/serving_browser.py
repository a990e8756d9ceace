"""The page of natix-serve in a headless Chromium, by its own protocol: for trials/test-serve."""

import asyncio
import contextlib
import os
import shutil
import subprocess
import tempfile
import time

import aiohttp
from harness import PATIENCE, expect
from serving import Server

BROWSERS = ("chromium-headless-shell", "chromium", "google-chrome")
NUMBERS = {"Enter": 13, "ArrowDown": 40, "ArrowUp": 38, "ArrowLeft": 37, "ArrowRight": 39, "Delete": 46, "Insert": 45, "Home": 36, "End": 35, "Escape": 27, "z": 90}
CONTROL = 2


class Browser:
    """One page. What it asked for, and what went wrong in it, is kept."""

    def __init__(self, program, folder):
        words = [program, "--headless", "--no-sandbox", "--remote-debugging-port=0", f"--user-data-dir={folder}", "--window-size=1200,800", "about:blank"]
        self.process = subprocess.Popen(words, stderr=subprocess.PIPE, stdout=subprocess.DEVNULL)
        self.number, self.wrong, self.asked = 0, [], []

    async def begin(self):
        line = b""
        while b"DevTools listening" not in line:
            line = self.process.stderr.readline()
            if not line:
                raise OSError("the browser doesn't begin")
        port = int(line.split(b"ws://127.0.0.1:")[1].split(b"/")[0])
        self.session = aiohttp.ClientSession()
        async with self.session.get(f"http://127.0.0.1:{port}/json") as reply:
            page = next(one for one in await reply.json() if one["type"] == "page")
        self.socket = await self.session.ws_connect(page["webSocketDebuggerUrl"], max_msg_size=0)
        for domain in ("Page", "Runtime", "Log", "Network"):
            await self.call(domain + ".enable")

    async def end(self):
        await self.session.close()
        self.process.terminate()
        self.process.wait(PATIENCE)

    async def call(self, method, **given):
        self.number += 1
        number = self.number
        await self.socket.send_json({"id": number, "method": method, "params": given})
        while True:
            said = await asyncio.wait_for(self.socket.receive_json(), PATIENCE)
            if said.get("id") == number:
                return said.get("result", {})
            if said.get("method") in ("Runtime.exceptionThrown", "Log.entryAdded"):
                self.wrong.append(str(said["params"])[:500])
            if said.get("method") == "Network.requestWillBeSent":
                self.asked.append(said["params"]["request"]["url"])

    async def value(self, text):
        """What a text of its language gives."""
        found = await self.call("Runtime.evaluate", expression=text, awaitPromise=True, returnByValue=True)
        return found.get("result", {}).get("value")

    async def wait(self, what, text, wanted):
        """Waits until that gives what is wanted."""
        end = time.monotonic() + 10
        while (found := await self.value(text)) != wanted and time.monotonic() < end:
            await asyncio.sleep(0.05)
        expect(f"the page: {what}", found, wanted)

    async def keys(self, *keys, held=0):
        for key in keys:
            given = {"key": key, "code": key, "modifiers": held, "windowsVirtualKeyCode": NUMBERS.get(key, 0)}
            await self.call("Input.dispatchKeyEvent", type="keyDown", **given, **({"text": "\r"} if key == "Enter" else {}))
            await self.call("Input.dispatchKeyEvent", type="keyUp", **given)
            await self.value("line")  # what the key asked for is done

    async def go(self, address):
        await self.call("Page.navigate", url=address)
        await self.wait(address, "document.readyState", "complete")
        await self.value("line")


SAID = "document.querySelector('#said').textContent"
CHOSEN = "document.querySelector('[aria-selected=true]').innerText.replace(/\\s+/g, ' ').trim()"


async def drive(browser, server):
    """Looks, edits and takes back, by keys alone."""
    client = server.client()
    client.put("/shop.xml", b'<shop lang="en"><item>tea &lt; \\n</item><item>cup</item></shop>')
    before = client.get("/shop.xml?as=pyx").body
    address = f"http://127.0.0.1:{server.port}/"
    await browser.go(f"{address}#/shop.xml")
    await browser.wait("a document", SAID, "shop.xml")
    await browser.value("$('tree').focus()")
    await browser.keys("Home", "ArrowDown", "ArrowDown", "ArrowDown", "ArrowRight", "ArrowRight")
    await browser.wait("down to a text", CHOSEN, "0 “tea < \\n”")
    await browser.keys("Enter")
    await browser.value("document.activeElement.select()")
    await browser.call("Input.insertText", text="black\\ttea & <b>")
    await browser.keys("Enter")
    await browser.wait("an edit", SAID, "/0/1/0 has another content")
    expect("the page: what it edited", client.get("/shop.xml?path=/0/1/0").body, b"black\\ttea & <b>")
    await browser.keys("ArrowLeft", "Delete")
    await browser.wait("a subtree taken away", SAID, "/0/1 is gone")
    await browser.keys("Insert")
    await browser.value("$('newname').value = 'pot', document.querySelector('input[value=before]').checked = true, $('addform').requestSubmit(), line")
    await browser.wait("a node put before one", SAID, "/0/1 is new")
    expect("the page: behind three edits", client.get("/shop.xml").body, b'<shop lang="en"><pot/><item>cup</item></shop>\n')
    for what in ("/0/1 is new", "/0/1 is gone", "/0/1/0 has another content"):
        await browser.keys("z", held=CONTROL)
        await browser.wait("taken back", SAID, f"Taken back: {what}")
    expect("the page: all is as it was", client.get("/shop.xml?as=pyx").body, before)
    await browser.value("$('steps').value = '//item/#text', $('value').value = 'cup', $('ask').requestSubmit(), line")
    await browser.keys("Enter")
    await browser.wait("found by its content", CHOSEN, "0 “cup”")
    client.post("/shop.xml", "retext /0/2/0 mug\n")
    await browser.keys("Delete")
    await browser.wait("somebody else's change", "document.querySelector('#said').textContent.startsWith('Somebody else')", True)
    expect("the page: nothing was done then", client.get("/shop.xml?path=/0/2/0").body, b"mug")
    await browser.value("$('showparts').click(), line")
    await browser.wait("parts", "document.querySelectorAll('.bars button').length > 0", True)
    expect("the page: what it asked for", [one for one in browser.asked if not one.startswith(address)], [])


async def open_large(browser, server, nodes):
    """A document of many nodes under one element: how many seconds until some of it is shown."""
    server.client(patience=600).put("/large.xml", b"<list>" + b"<item n='1'>some words</item>" * (nodes // 3) + b"</list>")
    begin = time.monotonic()
    await browser.go(f"http://127.0.0.1:{server.port}/#/large.xml")
    await browser.wait("a large document", "document.querySelectorAll('#tree .row').length", 203)
    return time.monotonic() - begin


async def try_page(program, server, nodes, folder):
    browser = Browser(program, folder)
    try:
        await browser.begin()
        await drive(browser, server)
        taken = await open_large(browser, server, nodes)
        wrong = [one for one in browser.wrong if "412" not in one]  # that a condition doesn't hold is noted by the browser too
        expect("the page: what went wrong", wrong, [])
        return taken
    finally:
        with contextlib.suppress(AttributeError):
            await browser.end()


def check_page(path, nodes):
    """The page, where a browser is there: how many seconds a large document takes to be shown."""
    program = next((found for found in map(shutil.which, BROWSERS) if found), None)
    if program is None:
        print("no browser is there, so the page isn't tried")
        return None
    with Server(path) as server, tempfile.TemporaryDirectory() as folder:
        return asyncio.run(try_page(program, server, nodes, os.path.join(folder, "browser")))
