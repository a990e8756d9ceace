"""The server itself: its sockets, one session of natix that is opened again where it ended, and an end after what is under way."""

from __future__ import annotations

import asyncio
import contextlib
import logging
import resource
import signal
import socket
import sys
import traceback
from typing import Any, Awaitable, Callable, Dict, List, NamedTuple, Optional

import natix
from aiohttp import web
from aiohttp.http_exceptions import HttpProcessingError

from . import bodies
from .access import Access
from .answers import Refusal, Reply, of_json, refusal_of, refusal_of_end
from .commits import Busy
from .dav import METHODS, Dav
from .engine import Ended, Engine, NoTransactions
from .library import Library, LongName
from .page import page
from .rest import Rest

WAITS = (0.1, 0.2, 0.5, 1.0, 2.0, 5.0)  # seconds before a store is opened again, longer and longer
LOOKS = ("GET", "HEAD", "OPTIONS", "PROPFIND")
USER_TIMEOUT = 18  # an option of TCP, in milliseconds
LINGERS = 10.0  # seconds in which a body that was refused may still come
SILENT = 30  # seconds in which a connection has to bring a request's head


class Settings(NamedTuple):
    """How to serve."""

    store: str
    host: str
    port: int
    most: int = 64 << 20
    patience: float = 60.0
    grace: float = 30.0
    read_only: bool = False
    wait: float = 0.0
    clients: int = 4_000


def tell(text: str) -> None:
    print(f"natix-serve: {text}", file=sys.stderr, flush=True)


class Patient(web.Server):
    """Connections, of which one that brings no whole head of a request for a while is closed."""

    def __call__(self) -> Any:
        handler = super().__call__()
        asyncio.get_running_loop().call_later(SILENT, self.look, handler)
        return handler

    @staticmethod
    def look(handler: Any) -> None:
        if getattr(handler, "_request_count", 1) == 0:
            handler.force_close()


class Service:
    """Requests and their answers."""

    def __init__(self, settings: Settings, access: Access) -> None:
        self.settings, self.access = settings, access
        self.engine = Engine(settings.store)
        self.library = Library(self.engine)
        self.bodies = bodies.Bodies(settings.most, settings.patience)
        self.rest, self.dav = Rest(self.library, self.bodies, page), Dav(self.library, self.bodies)
        self.under_way = 0
        self.none_under_way = asyncio.Event()
        self.none_under_way.set()
        self.ends = False
        self.why_closed = "it is being opened"
        self.methods: Dict[str, Callable[[bodies.Call], Awaitable[Reply]]] = {
            "GET": self.rest.get, "HEAD": self.rest.get, "PUT": self.rest.put, "POST": self.rest.post, "DELETE": self.rest.delete,
            "OPTIONS": self.dav.options, "PROPFIND": self.dav.propfind, "PROPPATCH": self.dav.proppatch, "MKCOL": self.dav.mkcol,
            "MOVE": self.dav.move, "COPY": self.dav.copy}

    async def handle(self, request: web.BaseRequest) -> web.StreamResponse:
        """Answers a request."""
        self.under_way += 1
        self.none_under_way.clear()
        try:
            reply = await self.answer(request)
            return await self.bodies.send(request, reply, {"Server": "natix-serve"}, self.ends)
        except ConnectionError:
            raise asyncio.CancelledError  # the client went, which is no fault to be told
        finally:
            self.under_way -= 1
            if not self.under_way:
                self.none_under_way.set()

    async def answer(self, request: web.BaseRequest) -> Reply:
        call: Optional[bodies.Call] = None
        try:
            if self.ends:
                raise Refusal(503, "ending", "the server ends", {"Retry-After": "5"}, known="not")
            await self.access.check(request.method, request.headers)
            if request.method == "OPTIONS" and request.raw_path == "*":
                return Reply(200, headers={"DAV": "1", "Allow": METHODS})
            call = bodies.Call(request)
            return await self.carry_out(call)
        except Refusal as refusal:
            return refusal.reply()
        except natix.Refused as refused:
            return refusal_of(refused, request.method == "POST").reply()
        except Ended as end:
            return refusal_of_end(end).reply()
        except Busy:
            return Refusal(503, "busy", "there is too much to do now", {"Retry-After": "2"}, known="not").reply()
        except LongName as why:
            return Refusal(414, "name", str(why)).reply()
        except (ConnectionError, asyncio.TimeoutError, asyncio.CancelledError):
            raise  # the client went
        except Exception:
            tell(f"a fault of the server's own at {request.method} {request.raw_path[:200]!r}\n{traceback.format_exc()}")
            return Refusal(500, "server", "a fault of the server's own", known="unknown").reply()
        finally:
            if call is not None:
                self.bodies.release(call)

    async def carry_out(self, call: bodies.Call) -> Reply:
        method = self.methods.get(call.method)
        if method is None:
            raise Refusal(405, "method", f"{call.method[:20]} isn't answered here", {"Allow": METHODS})
        if self.settings.read_only and call.method not in LOOKS:
            raise Refusal(403, "read-only", "nothing is changed here")
        if call.name == "" and "status" in call.target.query and call.method in ("GET", "HEAD"):
            return self.status(call)
        if not self.engine.is_open and call.method != "OPTIONS":
            raise Refusal(503, "closed", f"the store isn't open now: {self.why_closed}", {"Retry-After": "1"}, known="not")
        return await method(call)

    def status(self, call: bodies.Call) -> Reply:
        """What the server is doing."""
        call.target.only("status", "as")
        commits = self.library.commits
        return of_json({"open": self.engine.is_open, "natix": self.engine.process, "requests": self.under_way, "waiting": len(commits.waiting),
                        "commits": commits.commits, "changes": commits.together, "documents": len(self.library.documents.sorted)})

    # The store

    async def open(self) -> None:
        """Opens the store."""
        await self.engine.open(self.library.documents.reopen)

    async def open_first(self) -> None:
        """Opens the store, which another process may have for a while."""
        end = asyncio.get_running_loop().time() + self.settings.wait
        while True:
            try:
                return await self.open()
            except Ended as why:
                if why.status != 3 or asyncio.get_running_loop().time() >= end:
                    raise
            await asyncio.sleep(0.1)

    async def keep_open(self) -> None:
        """Opens the store again each time that natix ends."""
        while True:
            end = await asyncio.shield(self.engine.ended)
            if self.ends:
                return
            tell(f"{end}; {self.settings.store} is opened again")
            for tried in range(1 << 30):
                self.why_closed = str(end)
                await asyncio.sleep(WAITS[min(tried, len(WAITS) - 1)])
                try:
                    await self.open()
                    break
                except (Ended, NoTransactions, OSError) as why:
                    if str(why) != self.why_closed:
                        tell(str(why))
                    end = why if isinstance(why, Ended) else end

    # The end

    async def end(self) -> None:
        """Waits for the requests that are under way, and ends natix."""
        self.ends = True
        with contextlib.suppress(asyncio.TimeoutError):
            await asyncio.wait_for(self.none_under_way.wait(), self.settings.grace)
        if self.engine.is_open:
            end = await self.engine.close()
            if end.status:
                tell(str(end))


def is_to_tell(record: logging.LogRecord) -> bool:
    """Whether aiohttp has something to tell that isn't a client's fault: what is no HTTP was answered by 400, and a client that goes before its
    request is looked at shows as an assertion."""
    return not (record.exc_info and isinstance(record.exc_info[1], (HttpProcessingError, AssertionError)))


def listening(host: str, port: int) -> socket.socket:
    """The socket that is listened at. A client that went without a word is noticed after two minutes."""
    kind = socket.AF_INET6 if ":" in host else socket.AF_INET
    found = socket.socket(kind, socket.SOCK_STREAM)
    found.setsockopt(socket.SOL_SOCKET, socket.SO_REUSEADDR, 1)
    for option, value in ((socket.TCP_KEEPIDLE, 60), (socket.TCP_KEEPINTVL, 15), (socket.TCP_KEEPCNT, 4), (USER_TIMEOUT, 120_000)):
        found.setsockopt(socket.IPPROTO_TCP, option, value)
    found.setsockopt(socket.SOL_SOCKET, socket.SO_KEEPALIVE, 1)
    found.bind((host, port))
    return found


def more_files(most: int) -> None:
    """Lets this process have a descriptor for each client."""
    soft, hard = resource.getrlimit(resource.RLIMIT_NOFILE)
    wanted = most + 100
    if soft < wanted:
        resource.setrlimit(resource.RLIMIT_NOFILE, (min(wanted, hard) if hard != resource.RLIM_INFINITY else wanted, hard))


async def serve(settings: Settings, access: Callable[[], Access]) -> int:
    """Serves until a signal asks for the end."""
    more_files(settings.clients)
    logging.getLogger("aiohttp.server").addFilter(is_to_tell)
    service = Service(settings, access())
    await service.open_first()
    with listening(settings.host, settings.port) as place:
        loop = asyncio.get_running_loop()
        server = Patient(service.handle, lingering_time=LINGERS, auto_decompress=False, access_log=None, tcp_keepalive=False)
        listener = await loop.create_server(server, sock=place, backlog=1024)
        stop = asyncio.Event()
        for number in (signal.SIGTERM, signal.SIGINT):
            loop.add_signal_handler(number, stop.set)
        tasks: List["asyncio.Task[None]"] = [asyncio.ensure_future(service.keep_open()), asyncio.ensure_future(service.library.commits.run())]
        host, port = place.getsockname()[:2]
        print(f"http://{f'[{host}]' if ':' in host else host}:{port}/", flush=True)
        await stop.wait()
        listener.close()
        await service.end()
        for task in tasks:
            task.cancel()
        await server.shutdown(1.0)
        for number in (signal.SIGTERM, signal.SIGINT):  # the process ends by itself now, and with its status
            loop.remove_signal_handler(number)
            signal.signal(number, signal.SIG_IGN)
    return 0
