"""Commands of a script, how their replies are read, and what is raised where one is refused or the program ends."""

from __future__ import annotations

import re
import signal
from typing import Any, Callable, Dict, Generic, Iterable, List, Optional, Sequence, Tuple, TypeVar, Union

import natix_subtrees
from natix_lines import (Interval, Loaded, Node, Path, bytes_of, escaped, line_of_node, path_word, read_interval, read_node, read_path, text_of, word_of)
from natix_sources import Error, Pyx, Source, pyx

CHANGES = (b"load", b"drop", b"rename", b"insert", b"delete", b"retext", b"rule")  # what may stand in a transaction
STATUSES = {
    1: "the arguments are no command line",
    2: "the input was refused, or there was a store already",
    3: "a file of the store failed, or another process had it",
    4: "reading failed",
    5: "writing failed",
    6: "there was no memory",
    7: "page 0 of the store is missing, or doesn't begin as that of a store",
    8: "the store is damaged: its pages stand for no documents",
    9: "there was too much input",
}

Answer = TypeVar("Answer")


# What goes wrong


class Refused(Error):
    """A refusal, which changed nothing: its word as in docs/FORMATS.md, and where it has them the line of the PYX, the path
    of the node and its weight. `fields` are the words of the refusal as they came, `command` is what was refused, and `name` the document that it is
    about, where it is about one. Of a transaction `number` says which of its commands was refused, from 1."""

    __module__ = "natix"

    def __init__(self, said: str, command: str = "", number: Optional[int] = None) -> None:
        super().__init__(said if number is None else f"{said}, by command {number} of a transaction: {command}")
        self.command, self.number, self.said = command, number, said
        words = command.split(" ", 2)
        self.name: Optional[str] = words[1] if len(words) > 1 and words[0] not in ("rule", "begin;") else None
        self.fields: Tuple[str, ...] = tuple(said.split())
        self.word: str = self.fields[0] if self.fields else said
        self.line: Optional[int] = None
        self.path: Optional[Path] = None
        self.weight: Optional[int] = None
        if self.word == "pyx" and len(self.fields) == 3:
            self.line, self.word = int(self.fields[1]), self.fields[2]
        elif self.word == "plan-line":
            self.line = int(self.fields[1])
        elif self.word == "too-heavy":
            self.path, self.weight = read_path(self.fields[1]), int(self.fields[2])


class Ended(Error):
    """The program ended: `status` is its exit status, or below 0 the signal that ended it, and `meaning` says what that is.

    Where a store can't be opened, `why` says who has it, or what is missing, as far as that shows, and where a file of it failed how
    little room its disk has.

    `answered` are the commands of the call that were answered, each with its answer, and `unanswered` those that
    weren't; `count` says how many were answered in the whole session. What was answered is kept. Of the rest at most one
    is, the first that changes the store: `uncertain`, None where there is none."""

    __module__ = "natix"

    def __init__(self, status: int, said: str, answered: List[Tuple[str, Any]], unanswered: List[str], count: int, uncertain: Optional[str],
                 why: Optional[str] = None) -> None:
        self.status, self.said, self.count = status, said, count
        self.answered, self.unanswered, self.uncertain = answered, unanswered, uncertain
        self.why = why  # what was found out about it from outside
        self.meaning = why or (STATUSES.get(status, "") if status >= 0 else f"a signal ended it: {signal_name(-status)}")
        what = f"natix ended with {status}: {self.meaning or 'the end of its input'}" + (f" ({said})" if said else "")
        if answered or unanswered:
            what += f"; of this call {len(answered)} commands were answered, and {len(unanswered)} weren't"
        if uncertain is not None:
            what += f", of which `{uncertain}` may have been carried out"
        super().__init__(what)


def signal_name(number: int) -> str:
    try:
        return signal.Signals(number).name
    except ValueError:
        return str(number)


# Commands


class Command(Generic[Answer]):
    """A command of a script, with how its reply is read. The functions below make them."""

    __slots__ = ("line", "body", "read", "has_lines", "changes")

    def __init__(self, line: bytes, read: Callable[[List[bytes]], Answer], has_lines: bool = False, changes: bool = False, body: bytes = b"") -> None:
        self.line, self.read, self.has_lines, self.changes, self.body = line, read, has_lines, changes, body

    def __repr__(self) -> str:
        return text_of(self.line[:200])

    @property
    def word(self) -> bytes:
        return self.line.partition(b" ")[0]

    @property
    def documents(self) -> List[str]:
        """The names of the documents that it is about."""
        names = {b"rename": 2, b"rule": 0}.get(self.word, 1)
        return [text_of(name) for name in self.line.split(b" ", 3)[1:1 + names]]

    def refused(self, said: str) -> Refused:
        """What is raised where this is what it is refused by."""
        return Refused(said, repr(self))


class Transaction(Command[List[Any]]):
    """Commands that change the store, carried out as one: all of them, or where one is refused none. Its answer is theirs."""

    __slots__ = ("commands",)

    def __init__(self, commands: Iterable[Command[Any]]) -> None:
        self.commands = list(commands)
        for command in self.commands:
            if command.word not in CHANGES:
                raise ValueError(f"`{command!r}` can't stand in a transaction")
        body = b"".join(part for command in self.commands for part in (command.line, b"\n", command.body))
        super().__init__(b"begin", self.answers, has_lines=True, changes=bool(self.commands), body=body + b"commit\n")

    def __repr__(self) -> str:
        shown = [repr(command) for command in self.commands[:3]]
        more = len(self.commands) - len(shown)
        return "; ".join(["begin", *shown, *([f".. {more} more"] if more else []), "commit"])

    @property
    def documents(self) -> List[str]:
        return list(dict.fromkeys(name for command in self.commands for name in command.documents))

    def answers(self, reply: List[bytes]) -> List[Any]:
        return [command.read([line]) for command, line in zip(self.commands, reply)]

    def refused(self, said: str) -> Refused:
        found = re.fullmatch(r"at ([0-9]+) (.*)", said, re.S)
        if not found:
            return super().refused(said)
        number = int(found[1])
        return Refused(found[2], repr(self.commands[number - 1]), number)


def nothing(reply: List[bytes]) -> None:
    return None


def read_loaded(reply: List[bytes]) -> Loaded:
    _, nodes, intervals = reply[0].split()
    return Loaded(int(nodes), int(intervals))


def load(name: str, source: Source, keep: bool = False) -> Command[Loaded]:
    """Keeps a document under a new name."""
    lines = pyx(source, keep)
    return Command(b"load " + word_of(name), lambda reply: read_loaded(reply)._replace(left_out=lines.left_out), changes=True, body=document_lines(lines))


def drop(name: str) -> Command[None]:
    """Forgets a document."""
    return Command(b"drop " + word_of(name), nothing, changes=True)


def rename(old: str, new: str) -> Command[None]:
    """Gives a document another name, which is new."""
    return Command(b"rename %b %b" % (word_of(old), word_of(new)), nothing, changes=True)


def names() -> Command[Dict[str, int]]:
    """The documents, each with its number of nodes."""
    return Command(b"names", lambda reply: {text_of(name): int(nodes) for _, name, nodes in (line.split() for line in reply)}, has_lines=True)


def export(name: str) -> Command[Pyx]:
    """A document's lines."""
    return Command(b"export " + word_of(name), lambda reply: Pyx(b"".join(line + b"\n" for line in reply)), has_lines=True)


def insert(name: str, path: Sequence[int], node: Node) -> Command[None]:
    """Puts a node without children at the path."""
    return Command(b"insert %b %b %b" % (word_of(name), path_word(path), line_of_node(node)), nothing, changes=True)


def delete(name: str, path: Sequence[int]) -> Command[None]:
    """Takes away the node at the path, and all below it."""
    return Command(b"delete %b %b" % (word_of(name), path_word(path)), nothing, changes=True)


def graft(name: str, path: Sequence[int], lines: bytes) -> List[Command[None]]:
    """The commands that put nodes with all below them at the path: those of some lines of PYX, beside each other."""
    return [Command(b"insert %b %b %b" % (word_of(name), path_word(here), line), nothing, changes=True) for here, line in natix_subtrees.placed(path, lines)]


def retext(name: str, path: Sequence[int], content: Union[str, bytes]) -> Command[None]:
    """Replaces the content of the node at the path."""
    return Command(b"retext %b %b %b" % (word_of(name), path_word(path), escaped(content)), nothing, changes=True)


def get(name: str, path: Sequence[int]) -> Command[Node]:
    """The node at the path."""
    return Command(b"get %b %b" % (word_of(name), path_word(path)), read_node)


def layout(name: str) -> Command[List[Interval]]:
    """The intervals in which a document is stored."""
    return Command(b"layout " + word_of(name), lambda reply: [read_interval(line) for line in reply], has_lines=True)


def rule(parent: str, child: str, entry: str) -> Command[None]:
    """Says what is asked of such a child below such a parent: `standalone`, `cluster` or `free`."""
    return Command(b"rule %b %b %b" % (word_of(parent), word_of(child), word_of(entry)), nothing, changes=True)


def rules() -> Command[Dict[Tuple[str, str], str]]:
    """The entries that aren't `free`, by parent and child."""
    return Command(b"rules", lambda reply: {(text_of(parent), text_of(child)): text_of(entry) for _, parent, child, entry in (line.split() for line in reply)}, has_lines=True)


def checkpoint() -> Command[None]:
    """Empties the log."""
    return Command(b"checkpoint", nothing, changes=True)


def document_lines(source: Source) -> bytes:
    """A document's lines, and the dot behind them."""
    lines = pyx(source)
    dot = re.search(rb"^\.\r?$", lines, re.M)
    if dot:
        raise ValueError(f"line {lines.count(10, 0, dot.start()) + 1} of the document is a dot, which would end it")
    return lines + (b".\n" if lines.endswith(b"\n") or not lines else b"\n.\n")
