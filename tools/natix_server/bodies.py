"""Reading what clients send, and sending what they asked for, to slow ones too."""

from __future__ import annotations

import asyncio
from typing import Any, Awaitable, Dict

from aiohttp import web
from aiohttp.http_exceptions import HttpProcessingError

from .answers import Refusal, Reply
from .asked import Target

PIECE = 1 << 18
HELD = 8  # so many bodies of the greatest size may be in memory at once


class Call:
    """A request under way: what it asks for, and how much of its body is in memory."""

    def __init__(self, request: web.BaseRequest) -> None:
        self.request, self.held = request, 0
        self.method, self.headers = request.method, request.headers
        self.target = Target(request.raw_path)

    @property
    def name(self) -> str:
        return self.target.name

    @property
    def kind(self) -> str:
        """The type that is said of the body."""
        return self.headers.get("Content-Type", "").partition(";")[0].strip().lower()


class Bodies:
    """The bodies of requests under way: each has at most `most` bytes, and a client that is silent for `patience` seconds is given up."""

    def __init__(self, most: int, patience: float) -> None:
        self.most, self.patience = most, patience
        self.held = 0

    def check_size(self, request: web.BaseRequest, most: int) -> None:
        """Refuses a body before any of it is read, where its head says enough."""
        if request.headers.get("Content-Encoding", "identity").strip().lower() not in ("identity", ""):
            raise Refusal(415, "coding", "a body is taken as it is")
        if (request.content_length or 0) > most:
            raise self.too_large(most)

    @staticmethod
    def too_large(most: int) -> Refusal:
        return Refusal(413, "too-large", f"a body of at most {most:,} bytes is taken", {"Connection": "close"}, most=most)

    async def read(self, call: Call, most: int) -> bytes:
        """The whole body."""
        request = call.request
        self.check_size(request, most)
        if request.headers.get("Expect", "").lower() == "100-continue":
            await request.writer.write(b"HTTP/1.1 100 Continue\r\n\r\n")  # type: ignore[attr-defined]
        pieces = []
        try:
            while not request.content.at_eof():
                piece = request.content.read_nowait() or await asyncio.wait_for(request.content.readany(), self.patience)
                call.held += len(piece)
                self.held += len(piece)
                if call.held > most:
                    raise self.too_large(most)
                if self.held > HELD * self.most:
                    raise Refusal(503, "busy", "there are too many bodies now", {"Retry-After": "2", "Connection": "close"}, known="not")
                pieces.append(piece)
        except asyncio.TimeoutError:
            raise Refusal(408, "silent", "no more of the body came", {"Connection": "close"})
        except (web.RequestPayloadError, HttpProcessingError, ValueError):
            raise Refusal(400, "body", "the body isn't as its head says", {"Connection": "close"})
        return b"".join(pieces)

    def release(self, call: Call) -> None:
        """A request is over."""
        self.held -= call.held
        call.held = 0

    async def send(self, request: web.BaseRequest, reply: Reply, more: Dict[str, str], closes: bool) -> web.StreamResponse:
        """Sends an answer: a long one in pieces, each as the client takes it."""
        headers = {**more, **reply.headers}
        closes = closes or headers.pop("Connection", "") == "close"
        if reply.type:
            headers["Content-Type"] = reply.type
        is_short = len(reply.body) <= PIECE or request.method == "HEAD"
        response = web.Response(status=reply.status, body=reply.body, headers=headers) if is_short else web.StreamResponse(status=reply.status, headers=headers)
        if closes:
            response.force_close()
        if not is_short:
            response.content_length = len(reply.body)
        await self.hurried(request, response.prepare(request))
        for at in range(0, 0 if is_short else len(reply.body), PIECE):
            await self.hurried(request, response.write(reply.body[at:at + PIECE]))
        await self.hurried(request, response.write_eof())
        return response

    async def hurried(self, request: web.BaseRequest, work: Awaitable[Any]) -> None:
        """Sends a piece. A client that takes nothing for a while loses its connection."""
        abort = getattr(request.transport, "abort", lambda: None)  # where it went already, the work says so
        late = asyncio.get_running_loop().call_later(self.patience, abort)
        try:
            await work
        finally:
            late.cancel()
