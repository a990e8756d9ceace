"""Changes, and how those that wait go together as one commit.

While natix makes a commit, other changes come. Those that don't look at what another one changes go together then as one transaction, in
the order in which they came, each whole. Where natix refuses it, the change that was refused is set aside, and the others are sent again
without it; then it is sent alone, so that what its client is told is said of nothing but its own commands.
"""

from __future__ import annotations

import asyncio
from collections import deque
from typing import Any, Callable, Deque, FrozenSet, List, NamedTuple, Optional, Sequence, Set, Tuple, Union

import natix

from .documents import Documents, Effect
from .engine import Ended, Engine

MOST_TOGETHER = 256  # changes
MOST_BYTES = 4 << 20  # of their commands, where there are several
MOST_WAITING = 10_000


class Busy(Exception):
    """There is too much to do now."""


class Plan(NamedTuple):
    """Commands, and what each does to the documents that there are."""

    commands: Sequence[natix.Command[Any]]
    effects: Sequence[Effect]


class Claim(NamedTuple):
    """What a change looks at or changes: documents by their names, and folders with all that is below. One that isn't `exclusive` only
    edits documents, and looks at nothing before natix does; such changes of one document may go together."""

    names: FrozenSet[str]
    folders: Tuple[str, ...] = ()
    exclusive: bool = True


class Done(NamedTuple):
    """What a change came to: natix's answers to its commands, and the tag of each document that it put or edited."""

    answers: List[Any]
    tags: List[Optional[str]]


class Change:
    """A change that a client asks for. `plan` looks at the documents as they are when the change's turn comes, and raises what refuses it."""

    __slots__ = ("plan", "claim", "alone", "made", "done")

    def __init__(self, claim: Claim, plan: Callable[[Documents], Plan], done: "asyncio.Future[Done]") -> None:
        self.claim, self.plan, self.done = claim, plan, done
        self.alone = False  # it was refused among others
        self.made = Plan((), ())


class Group:
    """Changes that go together."""

    def __init__(self) -> None:
        self.changes: List[Change] = []
        self.names: Set[str] = set()
        self.exclusive: Set[str] = set()
        self.folders: List[str] = []
        self.size = 0

    def has_room(self, change: Change) -> bool:
        """Whether a change may go with those that are here."""
        claim = change.claim
        if not self.changes:
            return True
        if change.alone or self.changes[0].alone or len(self.changes) == MOST_TOGETHER or self.size > MOST_BYTES:
            return False
        if claim.names & (self.names if claim.exclusive else self.exclusive):
            return False
        if any(name.startswith(folder) for name in claim.names for folder in self.folders):
            return False
        if any(name.startswith(folder) for name in self.names for folder in claim.folders):
            return False
        return not any(folder.startswith(other) or other.startswith(folder) for folder in claim.folders for other in self.folders)

    def add(self, change: Change) -> None:
        self.changes.append(change)
        self.names |= change.claim.names
        self.folders += change.claim.folders
        if change.claim.exclusive:
            self.exclusive |= change.claim.names
        self.size += sum(len(command.line) + len(command.body) for command in change.made.commands)


class Commits:
    """The changes that wait, and the one task that has them carried out."""

    def __init__(self, engine: Engine, documents: Documents) -> None:
        self.engine, self.documents = engine, documents
        self.waiting: Deque[Change] = deque()
        self.some = asyncio.Event()
        self.commits = self.together = 0  # how many transactions, and how many changes in them

    async def carry_out(self, claim: Claim, plan: Callable[[Documents], Plan]) -> Done:
        """Carries a change out, or raises why it wasn't: `natix.Refused`, `Ended`, or what `plan` raises."""
        if len(self.waiting) >= MOST_WAITING:
            raise Busy
        change = Change(claim, plan, asyncio.get_running_loop().create_future())
        self.waiting.append(change)
        self.some.set()
        return await asyncio.shield(change.done)

    async def run(self) -> None:
        """Carries changes out for as long as natix is there."""
        while True:
            await self.some.wait()
            group = self.gather()
            while group:
                group = await self.send(group)

    def gather(self) -> List[Change]:
        """Plans the changes that go together next."""
        group, left = Group(), []
        while self.waiting:
            change = self.waiting.popleft()
            if len(group.changes) >= MOST_TOGETHER or group.changes and group.changes[0].alone:
                left.append(change)
                break
            if not group.has_room(change):
                left.append(change)
                continue
            try:
                change.made = change.plan(self.documents)
            except Exception as why:
                fail(change, why)
                continue
            if change.made.commands:
                group.add(change)
            else:
                settle(change, Done([], []))
        self.waiting.extendleft(reversed(left))
        if not self.waiting:
            self.some.clear()
        return group.changes

    async def send(self, group: List[Change]) -> List[Change]:
        """Sends changes as one transaction: those that are to be sent again, since one of them was refused."""
        commands = [command for change in group for command in change.made.commands]
        try:
            refused = await self.engine.change(commands, lambda reply: self.take(group, commands, reply))
        except Ended as end:
            for change in group:
                fail(change, end)
            return []
        except Exception as why:
            for change in group:
                fail(change, why)
            return []
        if refused is None:
            self.commits, self.together = self.commits + 1, self.together + len(group)
            return []
        at, reason = which(group, refused)
        if len(group) == 1:
            fail(group[0], reason)
            return []
        group[at].alone = True
        self.waiting.appendleft(group[at])
        self.some.set()
        return [change for number, change in enumerate(group) if number != at]

    def take(self, group: List[Change], commands: List[natix.Command[Any]], reply: Union[bytes, natix.Refused]) -> Optional[natix.Refused]:
        """Takes a reply the moment that it comes: what it says, and what is so of the documents from now on."""
        if isinstance(reply, natix.Refused):
            return reply
        lines = iter(reply.split(b"\n")[:-1])
        for change in group:
            answers = [command.read([next(lines)]) for command in change.made.commands]
            for effect, answer in zip(change.made.effects, answers):
                self.documents.take(effect, answer)
            settle(change, Done(answers, [self.documents.tag(effect.new or effect.name) for effect in change.made.effects]))
        return None


def which(group: List[Change], refused: natix.Refused) -> Tuple[int, natix.Refused]:
    """Which change was refused, and why, with the number of the command among its own."""
    if refused.word != "at":
        return 0, refused
    number = int(refused.fields[1])
    said = refused.fields[2:]
    for at, change in enumerate(group):
        if number <= len(change.made.commands):
            return at, natix.Refused(" ".join(said), repr(change.made.commands[number - 1]), number if len(change.made.commands) > 1 else None)
        number -= len(change.made.commands)
    return 0, refused


def settle(change: Change, done: Done) -> None:
    if not change.done.done():
        change.done.set_result(done)


def fail(change: Change, why: Exception) -> None:
    if not change.done.done():
        change.done.set_exception(why)
        change.done.exception()  # whoever asked may be gone
