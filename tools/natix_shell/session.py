"""A store with a cursor: its nodes, and edits that can be taken back."""

from __future__ import annotations

import contextlib
import hashlib
import subprocess
from typing import Any, Callable, Dict, Iterator, List, NamedTuple, Optional, Tuple

import natix
import natix_sources
from natix_files import Files

from .pending import Pending
from .terminal import Break
from .texts import count, shown_path

BATCH = 128  # nodes that are asked for together
KEPT_EDITS = 100
KEPT_BYTES = 4 << 20  # of what `undo` puts back
TOO_LONG = "what was there before has more than 4 MiB"


class Wrong(Exception):
    """A command that the shell doesn't carry out, and why."""


class Where(NamedTuple):
    """A node: its document and its path."""

    name: str
    path: Tuple[int, ...]

    def __str__(self) -> str:
        return f"{self.name} {shown_path(self.path)}"


class Edit(NamedTuple):
    """A change of the store: its command, what takes it back or why nothing does, and how to find out whether it was carried
    out when no answer came."""

    command: natix.Command[Any]
    inverse: Optional[natix.Command[Any]]
    why: str
    was_done: Callable[[natix.Store], bool]
    moved: Tuple[Tuple[Where, int], ...] = ()  # where children came to, or went from where the number is below 0, one after the other
    renamed: Optional[Tuple[str, str]] = None  # a document, and its new name
    takes_back: bool = False  # the edit before it
    said: str = ""  # what it is called, where it is more than one command

    def shown(self) -> str:
        return self.said or repr(self.command)

    def size(self) -> int:
        return len(self.inverse.line) + len(self.inverse.body) if self.inverse else 0

    def taken_back(self) -> Edit:
        """The edit that takes this one back."""
        assert self.inverse is not None
        renamed = self.renamed and self.renamed[::-1]
        return Edit(self.inverse, None, "", lambda store: not self.was_done(store), tuple((where, -by) for where, by in reversed(self.moved)), renamed, True,
                    f"undo of {self.shown()}")


def together(commands: List[natix.Command[Any]]) -> natix.Command[Any]:
    """Commands as one: a transaction, where they are several."""
    return commands[0] if len(commands) == 1 else natix.Transaction(commands)


class Sight:
    """Takes a document as it comes: its sum, and its lines where they aren't too long to be kept."""

    def __init__(self) -> None:
        self.stopped = False
        self.error: Optional[BaseException] = None
        self.found = hashlib.sha256()
        self.kept: Optional[bytearray] = bytearray()

    def write(self, lines: bytes) -> None:
        self.found.update(lines)
        if self.kept is not None:
            self.kept += lines
            if len(self.kept) > KEPT_BYTES:
                self.kept = None

    def stop(self, error: Optional[BaseException] = None) -> None:
        self.stopped, self.error = True, error

    @property
    def lines(self) -> Optional[natix.Pyx]:
        return None if self.kept is None else natix.Pyx(self.kept)


class Session:
    """The store with the cursor, and the edits that can be taken back."""

    def __init__(self, path: str, interrupt: Break, wait: float = 0.0) -> None:
        self.path, self.interrupt = path, interrupt
        self.cursor: Optional[Where] = None
        self.edits: List[Edit] = []
        self.at_work: Optional[Edit] = None
        self.pending: Optional[Pending] = None
        self.open(wait)

    def open(self, wait: float = 0.0) -> None:
        """Opens the store, and ends what an earlier shell was stopped in while it replaced documents: which ones, and whether each is the new one."""
        self.store = natix.Store(self.path, wait=wait)
        self.documents: Dict[str, int] = self.store.names()
        self.recovered: Dict[str, bool] = {}
        if any(name.startswith(natix.REPLACEMENT) for name in self.documents):
            self.recovered = self.store.recover()
            self.refresh()

    def aside(self, words: List[str], about: Optional[str] = None, **streams: Any) -> "subprocess.CompletedProcess[bytes]":
        """Runs another command of natix over the store, which isn't open meanwhile."""
        if self.pending is not None:
            self.pending.know([about] if about else [])
            done = self.pending.aside(words, **streams)
        else:
            before = self.refresh()
            self.store.close()
            try:
                done = subprocess.run([natix_sources.find_natix(), self.store.path, *words], stderr=subprocess.PIPE, **streams)
            finally:
                self.open(wait=1.0)
            if self.documents != before:
                self.edits.clear()  # another process was there
        if done.returncode not in (0, 2):
            raise natix.Ended(done.returncode, done.stderr.decode("utf-8", "replace").strip(), [], [], 0, None)
        return done

    def refresh(self) -> Dict[str, int]:
        self.documents = self.store.names() if self.pending is None else self.pending.names(self.store.names())
        return self.documents

    def of(self, name: str) -> natix.Store:
        """The store that has a document as it is now: within a transaction as that has made it so far."""
        return self.pending.store if self.pending is not None and name in self.pending.known else self.store

    def rules(self) -> Dict[Tuple[str, str], str]:
        return (self.store if self.pending is None else self.pending.store).rules()

    def get(self, where: Where) -> natix.Node:
        return self.of(where.name).get(*where)

    def lines(self, where: Where) -> natix.Pyx:
        """The lines of a node with all below it."""
        return self.of(where.name).subtree(*where)

    def sight(self, name: str, store: Optional[natix.Store] = None) -> Sight:
        """A document as it is: its sum, and its lines where they can be kept."""
        sight = Sight()
        Files(store or self.of(name)).pour(name, sight)
        return sight

    def children(self, where: Where, number: int, begin: int = 0) -> Iterator[Tuple[int, natix.Node]]:
        """The children of a node that has so many, some of them asked for together."""
        for first in range(begin, number, BATCH):
            self.interrupt.check()
            positions = range(first, min(number, first + BATCH))
            nodes = self.of(where.name).ask_all([natix.get(where.name, (*where.path, position)) for position in positions])
            for position, node in zip(positions, nodes):
                if isinstance(node, natix.Refused):
                    raise node
                yield position, node

    def walk(self, where: Where, node: natix.Node, most_depth: int = 256) -> Iterator[Tuple[int, int, natix.Node, bool]]:
        """The nodes below one in document order: depth, position, node, and whether it begins here or ends."""
        rows = [self.children(where, node.children)]
        above: List[Tuple[int, natix.Node]] = []
        path = list(where.path)
        while rows:
            found = next(rows[-1], None)
            if found is None:
                rows.pop()
                if rows:
                    yield (len(rows), *above.pop(), False)
                    path.pop()
                continue
            yield (len(rows), *found, True)
            if found[1].kind == "element" and len(rows) <= most_depth:
                path.append(found[0])
                above.append(found)
                rows.append(self.children(Where(where.name, tuple(path)), found[1].children if len(rows) < most_depth else 0))

    # Changes

    def begin(self) -> None:
        """What changes from here on is one transaction."""
        self.pending = Pending(self.store)
        self.cursor_before = self.cursor

    def end_pending(self) -> None:
        """Forgets a transaction."""
        if self.pending is not None:
            self.pending.close()
        self.pending = None

    def roll_back(self) -> None:
        """Forgets a transaction, and goes back to where the cursor was before it."""
        self.end_pending()
        self.cursor = self.cursor_before

    def commit(self) -> None:
        """Carries a transaction out, as one edit; where it is refused nothing is left of it."""
        pending = self.pending
        assert pending is not None
        said = f"a transaction of {count(len(pending.commands), 'command')}"
        edit = Edit(natix.Transaction(pending.commands), self.inverse_of(pending), TOO_LONG, pending.is_carried_out, said=said)
        self.at_work = edit
        try:
            self.store.ask(edit.command)
        except natix.Refused:
            self.at_work = None
            self.roll_back()
            raise
        self.note(edit)
        self.end_pending()

    def inverse_of(self, pending: Pending) -> Optional[natix.Command[Any]]:
        """What takes a transaction back: the documents that it is about as they were, and the rules."""
        before: List[natix.Command[Any]] = []
        behind: List[natix.Command[Any]] = []
        for name, was_there, is_there in pending.changed():
            if is_there:
                before.append(natix.drop(name))
            lines = self.sight(name, self.store).lines if was_there else natix.Pyx(b"")
            if lines is None:
                return None
            if was_there:
                behind.append(natix.load(name, lines))
        after = pending.store.rules()
        for pair in {**pending.rules_before, **after}:
            entry = pending.rules_before.get(pair, "free")
            if after.get(pair, "free") != entry:
                behind.append(natix.rule(*pair, entry))
        return natix.Transaction([*before, *behind])

    def carry_out(self, edit: Edit) -> Any:
        """Carries an edit out, and keeps what takes it back. Within a transaction it is carried out at the end of that."""
        if self.pending is not None:
            answer = self.pending.take(edit.command)
            self.move_cursor(edit)
            return answer
        self.at_work = edit
        answer = self.store.ask(edit.command)
        self.at_work = None
        self.note(edit)
        return answer

    def note(self, edit: Edit) -> None:
        """An edit was carried out."""
        self.at_work = None
        if edit.takes_back:
            self.edits.pop()
        elif edit.command.line != b"checkpoint":
            if edit.inverse is None:
                self.edits.clear()  # those before it would meet other paths
            self.edits.append(edit)
        while len(self.edits) > 1 and (len(self.edits) > KEPT_EDITS or sum(kept.size() for kept in self.edits) > KEPT_BYTES):
            del self.edits[0]
        self.move_cursor(edit)

    def move_cursor(self, edit: Edit) -> None:
        """Leaves the cursor at its node, or above it where that is gone."""
        if edit.renamed and self.cursor is not None and self.cursor.name == edit.renamed[0]:
            self.cursor = Where(edit.renamed[1], self.cursor.path)
        for where, by in edit.moved:
            if self.cursor is None or where.name != self.cursor.name:
                continue
            path, depth = self.cursor.path, len(where.path)
            if not depth:
                self.cursor = None if by < 0 else self.cursor  # the document is gone
            elif path[:depth - 1] == where.path[:-1] and len(path) >= depth:
                at, first = path[depth - 1], where.path[-1]
                if first <= at < first - by:
                    self.cursor = Where(where.name, where.path[:-1])
                elif at >= first:
                    self.cursor = Where(where.name, (*path[:depth - 1], at + by, *path[depth:]))

    def revive(self) -> str:
        """Opens the store again after an end that nobody asked for, and says whether the command at work was carried out."""
        edit, self.at_work = self.at_work, None
        with contextlib.suppress(natix.Error):
            self.store.close()  # where it isn't what ended
        self.open(wait=1.0)
        if edit is None:
            said = "no change was at work: the store is as it was"
        elif edit.was_done(self.store):
            self.note(edit)
            said = f"`{edit.shown()}` was carried out"
        else:
            said = f"`{edit.shown()}` wasn't carried out: the store is as it was"
        if self.pending is not None and edit is None:
            said += "; the transaction that was begun is gone, and nothing of it was carried out"
        self.end_pending()
        self.refresh()
        return said
