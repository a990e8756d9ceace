"""One session of `natix STORE run`, to which commands are sent without waiting for the replies to those before."""

from __future__ import annotations

import asyncio
import contextlib
from collections import deque
from typing import Any, Callable, Deque, Dict, Generic, List, Optional, Sequence, Tuple, TypeVar, Union, cast

import natix
import natix_commands
import natix_faults
from natix_sources import find_natix

BLOCK = 1 << 18
NOT, UNKNOWN = "not", "unknown"  # what is known of a command that has no reply: it wasn't carried out, or nobody can tell

Answer = TypeVar("Answer")


class Ended(Exception):
    """natix ended before it had answered: `known` says what is known of the command that waits."""

    def __init__(self, status: int, said: str, known: str, why: Optional[str] = None) -> None:
        meaning = why or (natix_commands.STATUSES.get(status, "the end of its input") if status >= 0 else "a signal ended it")
        super().__init__(f"natix ended with {status}: {meaning}" + (f" ({said})" if said else ""))
        self.status, self.said, self.known, self.why = status, said, known, why


class NoTransactions(Exception):
    """This natix knows no transactions."""


class Asked(Generic[Answer]):
    """What was sent and has no reply yet. `take` makes the answer of the reply the moment that this is there, before any later reply
    is looked at."""

    __slots__ = ("has_lines", "changes", "take", "answer")

    def __init__(self, has_lines: bool, changes: bool, take: Callable[[Union[bytes, natix.Refused]], Answer], answer: "asyncio.Future[Answer]") -> None:
        self.has_lines, self.changes, self.take, self.answer = has_lines, changes, take, answer


def as_one(commands: Sequence[natix.Command[Any]]) -> natix.Command[Any]:
    """One command: where there are several, they are a transaction."""
    return commands[0] if len(commands) == 1 else natix.Transaction(commands)


def text_of(command: natix.Command[Any]) -> bytes:
    """The lines of a command."""
    return command.line + b"\n" + command.body


class Engine:
    """The program, with what it was asked. It may be opened again once it has ended."""

    def __init__(self, path: str) -> None:
        self.path = natix._store_word(path)
        self.asked: Deque[Asked[Any]] = deque()
        self.is_open = False
        self.ended: "asyncio.Future[Ended]"
        self._process: Optional[asyncio.subprocess.Process] = None
        self._buffer = bytearray()
        self._looked = 0  # how much of it has no end of the first reply

    @property
    def process(self) -> int:
        """The number of the process."""
        return self._process.pid if self._process else 0

    async def open(self, take: Callable[[Dict[str, int]], None]) -> None:
        """Starts the program, and hands on the documents, each with its number of nodes, before anything else is asked or changed."""
        self._buffer.clear()
        self._looked = 0
        self.ended = asyncio.get_running_loop().create_future()
        self._process = await asyncio.create_subprocess_exec(
            find_natix(), self.path, "run", stdin=asyncio.subprocess.PIPE, stdout=asyncio.subprocess.PIPE, stderr=asyncio.subprocess.PIPE,
            limit=1 << 20, start_new_session=True)  # Ctrl-C is for the server to take
        asyncio.ensure_future(self._read(self._process))
        try:
            await self._send(b"\n", Asked(False, False, lambda reply: None, asyncio.get_running_loop().create_future()), opens=True)
            await self._look_for_transactions()
            await self._ask_names(take)
        except Ended as end:
            why = natix_faults.explain(self.path) if end.status == 3 else natix_faults.missing(self.path) if end.status == 7 else None
            raise Ended(end.status, end.said, end.known, why) from None

    async def _look_for_transactions(self) -> None:
        """An empty transaction is answered by a dot, and by two refusals where natix knows none."""
        loop = asyncio.get_running_loop()
        found = await self._send(text_of(natix.Transaction([])), Asked(False, False, lambda reply: reply, loop.create_future()), opens=True)
        if found != b".\n":
            await self.close()
            raise NoTransactions("this natix knows no transactions: a later one is needed")

    async def _ask_names(self, take: Callable[[Dict[str, int]], None]) -> None:
        command = natix.names()

        def begin(reply: Union[bytes, natix.Refused]) -> None:
            take(command.read(reply.split(b"\n")[:-1] if isinstance(reply, bytes) else []))
            self.is_open = True

        await self._send(text_of(command), Asked(True, False, begin, asyncio.get_running_loop().create_future()), opens=True)

    async def ask(self, command: natix.Command[Answer]) -> Answer:
        """The answer to a question."""
        def take(reply: Union[bytes, natix.Refused]) -> Answer:
            if isinstance(reply, natix.Refused):
                raise reply
            return command.read(reply.split(b"\n")[:-1])

        return await self.ask_with(command, take)

    async def ask_with(self, command: natix.Command[Any], take: Callable[[Union[bytes, natix.Refused]], Answer]) -> Answer:
        """The same, where the answer is made of the lines of the reply by `take`."""
        return await self._send(text_of(command), Asked(command.has_lines, False, take, asyncio.get_running_loop().create_future()))

    async def ask_all(self, commands: Sequence[natix.Command[Any]], last: Callable[[], Answer]) -> Tuple[List[Any], Answer]:
        """The answers to questions that stand behind each other, a `Refused` where one is refused, and what `last` gives the moment that
        the last one is there: no change comes between."""
        loop = asyncio.get_running_loop()
        answers: List[Any] = []

        def taker(command: natix.Command[Any]) -> Callable[[Union[bytes, natix.Refused]], None]:
            return lambda reply: answers.append(reply if isinstance(reply, natix.Refused) else command.read(reply.split(b"\n")[:-1]))

        if not self.is_open:
            raise Ended(0, "", NOT, "it isn't open now")
        self.asked.extend(Asked(command.has_lines, False, taker(command), loop.create_future()) for command in commands[:-1])
        lines = b"".join(command.line + b"\n" for command in commands)

        def take_last(reply: Union[bytes, natix.Refused]) -> Answer:
            taker(commands[-1])(reply)
            return last()

        return answers, await self._send(lines, Asked(commands[-1].has_lines, False, take_last, loop.create_future()))

    async def change(self, commands: Sequence[natix.Command[Any]], take: Callable[[Union[bytes, natix.Refused]], Answer]) -> Answer:
        """Sends commands that change the store, several as one transaction."""
        command = as_one(commands)
        return await self._send(text_of(command), Asked(command.has_lines, True, take, asyncio.get_running_loop().create_future()))

    async def _send(self, lines: bytes, asked: Asked[Answer], opens: bool = False) -> Answer:
        if not (self.is_open or opens) or self._process is None or self.ended.done():
            raise Ended(0, "", NOT, "it isn't open now")
        self.asked.append(asked)
        cast(asyncio.StreamWriter, self._process.stdin).write(lines)
        return await asyncio.shield(asked.answer)

    async def _read(self, process: asyncio.subprocess.Process) -> None:
        """Reads replies until there are no more."""
        output = cast(asyncio.StreamReader, process.stdout)
        while True:
            block = await output.read(BLOCK)
            if not block:
                break
            self._buffer += block
            while self.asked and self._take():
                pass
        said = await cast(asyncio.StreamReader, process.stderr).read()
        status = await process.wait()
        with contextlib.suppress(OSError):  # what was written when nobody read it any more
            pipe = cast(asyncio.StreamWriter, process.stdin)
            pipe.close()
            await pipe.wait_closed()
        self._end(status, said.decode("utf-8", "replace").strip())

    def _take(self) -> bool:
        """Takes the first reply, if it is there as a whole."""
        place = self._end_of_reply(self.asked[0].has_lines)
        if place is None:
            self._looked = len(self._buffer)
            return False
        reply = bytes(self._buffer[:place[0]])
        del self._buffer[:place[1]]
        self._looked = 0
        self._answer(self.asked.popleft(), reply)
        return True

    def _end_of_reply(self, has_lines: bool) -> Optional[Tuple[int, int]]:
        """Where the first reply ends, and where the next one begins: a line, or all of them up to a dot."""
        buffer = self._buffer
        if not has_lines or b"error ".startswith(bytes(buffer[:6])):
            end = buffer.find(b"\n", self._looked) + 1
            return (end, end) if end else None
        if buffer.startswith(b".\n"):
            return 0, 2
        end = buffer.find(b"\n.\n", max(0, self._looked - 2)) + 1
        return (end, end + 2) if end else None

    @staticmethod
    def _answer(asked: Asked[Any], reply: bytes) -> None:
        refused = natix.Refused(reply[6:-1].decode("utf-8", "surrogateescape")) if reply.startswith(b"error ") else None
        try:
            answer = asked.take(refused or reply)
        except Exception as error:
            if not asked.answer.done():
                asked.answer.set_exception(error)
                asked.answer.exception()  # whoever asked may be gone
            return
        if not asked.answer.done():
            asked.answer.set_result(answer)

    def _end(self, status: int, said: str) -> None:
        """Says to all who wait that the program ended. The store has the commands whose replies were written whole, and at most the one
        behind them: so of all that wait only the first one may have been carried out, where it changes something."""
        self.is_open = False
        waiting, first = list(self.asked), True
        self.asked.clear()
        for asked in waiting:
            known = UNKNOWN if first and asked.changes else NOT
            first = False
            if not asked.answer.done():
                asked.answer.set_exception(Ended(status, said, known))
                asked.answer.exception()
        if not self.ended.done():
            self.ended.set_result(Ended(status, said, NOT))

    async def close(self) -> Ended:
        """Ends the program once it has answered all that it was asked."""
        if self._process is not None:
            cast(asyncio.StreamWriter, self._process.stdin).close()
        return await asyncio.shield(self.ended)
