"""Stores of natix from Python: documents kept by a proved program, with which this module talks over pipes.

    >>> import natix, tempfile, os
    >>> shelf = os.path.join(tempfile.mkdtemp(), "shelf")
    >>> with natix.Store.create(shelf) as store:
    ...     store.load("shop", '<shop lang="en"><item>tea</item></shop>')
    ...     store.get("shop", (0, 1))
    Loaded(nodes=5, intervals=1)
    Node(kind='element', name='item', content='', children=1)
    >>> with natix.Store.open(shelf) as store:
    ...     store.names()
    ...     store.export("shop")
    {'shop': 5}
    '<shop lang="en"><item>tea</item></shop>\\n'

A store is two files, and `natix STORE run` alone opens them; one process has a store at a time. **What a call that
changes the store has answered is there, whatever crash comes.** A path is a tuple of positions: `(0, 2)` is the third
child of the root's first child, and `()` the document's root.

A document is edited where it lies:

    >>> with natix.Store.open(shelf) as store:
    ...     store.retext("shop", (0, 1, 0), "black tea")
    ...     store.insert("shop", (0, 2), natix.Node.element("shelf"))
    ...     store.delete("shop", (0, 0))
    ...     store.export("shop")
    '<shop><item>black tea</item><shelf/></shop>\\n'

A command that is refused changes nothing and raises `Refused`, with the word and the place:

    >>> with natix.Store.open(shelf) as store:
    ...     store.get("shop", (0, 7))
    Traceback (most recent call last):
    natix.Refused: no-node

Where the program ends otherwise than it was asked to, `Ended` is raised, with its status and what that means, and with
which commands it had answered. Many commands go faster together, by `Store.ask_all`:

    >>> with natix.Store.open(shelf) as store:
    ...     answers = store.ask_all([natix.get("shop", (0, at)) for at in range(3)])
    >>> [answer.name for answer in answers[:2]], answers[2]
    (['item', 'shelf'], Refused('no-node'))

Several commands are carried out as one by a transaction: whatever comes between, the store has all of them or none. They are
sent at the end of the block; where that is left by an exception nothing is sent, and where one of them is refused the store stays as it was:

    >>> with natix.Store.open(shelf) as store:
    ...     with store.transaction():
    ...         store.rename("shop", "tea")
    ...         store.insert("tea", (0, 0), natix.Node.attribute("lang", "de"))
    ...     with store.transaction():
    ...         store.delete("tea", (0, 0))
    ...         store.drop("shop")
    Traceback (most recent call last):
    natix.Refused: no-document, by command 2 of a transaction: drop shop

So are whole subtrees put in, replaced, moved and copied:

    >>> with natix.Store.open(shelf) as store:
    ...     store.graft("tea", (0, 3), "<shelf><item>pot</item>two</shelf>!")
    ...     store.move("tea", (0, 3, 0), (0, 1))
    ...     store.replace("tea", (0, 3), "<rack/>")
    ...     store.relabel("tea", (0,), "shop")
    ...     store.export("tea")
    5
    (0, 1)
    1
    '<shop lang="de"><item>pot</item><item>black tea</item><rack/><shelf>two</shelf>!</shop>\\n'
    >>> with natix.Store.open(shelf) as store:
    ...     store.rename("tea", "shop")

A load leaves comments and the document type out, and says so; `keep` keeps them. `put` replaces a document, which stays
where the new one is refused:

    >>> with natix.Store.open(shelf) as store:
    ...     store.put("shop", "<!-- closed --><shop/>")
    ...     store.put("shop", "<!-- closed --><shop/>", keep=True)
    ...     store.export("shop")
    Loaded(nodes=2, intervals=1, left_out=('1 comment',))
    Loaded(nodes=3, intervals=1)
    '<!-- closed -->\\n<shop/>\\n'

The program `natix` is the one that `$NATIX` names, or that of this repository, or the one on the PATH; `xmlpyx`, which
makes PYX of XML, stands beside this module, or `$XMLPYX` names it. No store is for two threads at once.
"""

from __future__ import annotations

import contextlib
import os
import select
import subprocess
import time
import xml.etree.ElementTree as tree
from typing import IO, Any, Callable, Dict, Iterable, Iterator, List, Optional, Sequence, Set, Tuple, Type, TypeVar, Union, cast, overload

import natix_faults
import natix_subtrees
from natix_commands import (Answer, Command, Ended, Refused, Transaction, checkpoint, delete, document_lines, drop, export, get, graft, insert, layout, load,
                            names, nothing, rename, retext, rule, rules)
from natix_lines import Bound, Interval, Loaded, Node, Path, Plan, bytes_of, line_of_node, path_word, read_interval, read_line, read_path, text_of, word_of
from natix_sources import Error, NotXml, Pyx, Source, find_natix, naming, new_file, pyx, xml_of

__all__ = ["Bound", "Command", "Ended", "Error", "Gathered", "Interval", "Loaded", "Node", "NotXml", "Plan", "Pyx", "Refused", "Store", "Transaction",
           "checkpoint", "delete", "drop", "export", "get", "graft", "insert", "layout", "load", "names", "new_file", "plan", "pyx", "rename", "retext", "rule",
           "rules", "tidy", "verify"]

BLOCK = 65536
REPLACEMENT = "~natix-new~"  # before the name of a document that is replaced, as this module did it before there were transactions
MOST_ASKED = 4096  # nodes of a subtree that are asked for one by one


# Commands without a session


def _run(words: Sequence[str], source: bytes) -> List[bytes]:
    """The lines that a command of natix without a session answers."""
    done = subprocess.run([find_natix(), *words], input=source, stdout=subprocess.PIPE, stderr=subprocess.PIPE)
    lines = done.stdout.split(b"\n")[:-1]
    if done.returncode == 2:
        raise Refused(text_of(lines[0]).partition(" ")[2], " ".join(words))
    if done.returncode:
        raise Ended(done.returncode, text_of(done.stderr).strip(), [], [" ".join(words)], 0, None)
    return lines


def tidy(source: Source) -> Pyx:
    """The canonical text of a document.

    >>> tidy(Pyx(b"(a\\r\\n)a"))
    b'(a\\n)a\\n'
    """
    return Pyx(b"".join(line + b"\n" for line in _run(["_", "tidy"], pyx(source))))


def plan(source: Source, k: int) -> Plan:
    """A plan with as few parts as possible that weigh at most k.

    >>> for interval in plan("<a>tea</a>", 3).intervals:
    ...     print(interval)
    Interval(parent=None, first=0, last=0, weight=3)
    Interval(parent=(0,), first=0, last=0, weight=2)
    """
    intervals, bounds = [], []
    for line in _run(["_", "plan", str(k)], pyx(source)):
        if line.startswith(b"bound "):
            _, _, least, lean, nearly = line.split()
            bounds.append(Bound(int(least), int(lean), int(nearly)))
        else:
            intervals.append(read_interval(line))
    return Plan(intervals, bounds)


def verify(source: Source, claimed: Plan, k: int) -> int:
    """Certifies that no cut has fewer parts than a plan, and answers how many these are.

    >>> verify("<a>tea</a>", plan("<a>tea</a>", 3), 3)
    2
    """
    lines = []
    for parent, first, last, weight in claimed.intervals:
        lines.append(b"root %d\n" % weight if parent is None else b"run %b %d %d %d\n" % (path_word(parent), first, last, weight))
    lines += [b"bound %d %d %d %d\n" % (number, *bound) for number, bound in enumerate(claimed.bounds)]
    return int(_run(["_", "verify", str(k)], document_lines(source) + b"".join(lines))[0].split()[1])


# Stores


class Gathered:
    """The commands of a transaction that is under way, and behind its end what they were answered."""

    def __init__(self, names: Callable[[], Iterable[str]]) -> None:
        self.commands: List[Command[Any]] = []
        self.answers: List[Any] = []
        self._names = names

    def take(self, command: Command[Any]) -> None:
        self.commands += command.commands if isinstance(command, Transaction) else Transaction([command]).commands

    def has(self, name: str) -> bool:
        """Whether there is a document of a name behind these commands, where none of them is refused."""
        names = set(self._names())
        for command in self.commands:
            old, *new = [*command.documents, ""]
            if command.word in (b"drop", b"rename"):
                names.discard(old)
            if command.word in (b"load", b"rename"):
                names.add(new[0] if command.word == b"rename" else old)
        return name in names

    def check(self, question: Command[Any]) -> None:
        """Refuses a question whose answer may be another one behind these commands, of which the store knows nothing yet."""
        words = {command.word for command in self.commands}
        changed: Set[str] = {name for command in self.commands for name in command.documents}
        if question.word == b"names" and self.commands or question.word == b"rules" and b"rule" in words or changed.intersection(question.documents):
            raise ValueError(f"`{question!r}` is asked of what a transaction that isn't sent yet has changed: ask before")


Target = TypeVar("Target")


class Store:
    """A store, open in a process of its own until `close`, which the end of a `with` calls.

    A call that is interrupted, as by Ctrl-C, ends the process: what was answered is kept, and the store is opened again."""

    def __init__(self, path: Union[str, "os.PathLike[str]"], program: Optional[str] = None, wait: float = 0.0) -> None:
        end = time.monotonic() + wait
        while True:
            self.path = _store_word(path)
            try:
                self._begin(program)
            except Ended as ended:
                if ended.status != 3 or time.monotonic() >= end:
                    raise
                time.sleep(0.1)
                continue
            if self.path == _store_word(path):
                return
            self.close()  # a link led elsewhere meanwhile

    def _begin(self, program: Optional[str]) -> None:
        """Starts the program."""
        self._answered = 0  # in the whole session
        self._gathered: Optional[Gathered] = None
        self._rest = b""  # what came of a line of a reply
        self._process = subprocess.Popen([find_natix(program), self.path, "run"], stdin=subprocess.PIPE, stdout=subprocess.PIPE, stderr=subprocess.PIPE,
                                         bufsize=0, start_new_session=True)  # Ctrl-C is for this program to take
        for pipe in (self._process.stdin, self._process.stdout):
            os.set_blocking(cast(IO[bytes], pipe).fileno(), False)
        try:
            self.ask_all([Command(b"", nothing)])  # answered as a line that is no command once the store is open
        except Ended as ended:
            why = natix_faults.explain(self.path) if ended.status == 3 else natix_faults.missing(self.path) if ended.status == 7 else None
            raise Ended(ended.status, ended.said, [], [], 0, None, why) from None
        self._answered = 0

    @classmethod
    def create(cls, path: Union[str, "os.PathLike[str]"], k: int = 256, target: Optional[int] = None, tolerance: Optional[int] = None,
               pages: Optional[int] = None, program: Optional[str] = None) -> Store:
        """Makes a store and opens it. A part of a document weighs at most k there."""
        words = [_store_word(path), "init", str(k)]
        for number, value, usual in ((1, target, 50), (2, tolerance, k // 4), (3, pages, 16777216)):
            if any(later is not None for later in (target, tolerance, pages)[number - 1:]):
                words.append(str(usual if value is None else value))
        done = subprocess.run([find_natix(program), *words], stdin=subprocess.DEVNULL, stdout=subprocess.PIPE, stderr=subprocess.PIPE)
        if done.returncode == 2:
            raise Refused(text_of(done.stdout).strip().partition(" ")[2], " ".join(words))
        if done.returncode:
            why = natix_faults.explain(words[0]) if done.returncode == 3 else None
            raise Ended(done.returncode, text_of(done.stderr).strip(), [], [], 0, None, why)
        return cls(path, program)

    @classmethod
    def open(cls, path: Union[str, "os.PathLike[str]"], program: Optional[str] = None, wait: float = 0.0) -> Store:
        """Opens a store, or raises `Ended` where it is none, or another process has it for so many seconds more."""
        return cls(path, program, wait)

    def __enter__(self) -> Store:
        return self

    def __exit__(self, kind: Optional[Type[BaseException]], error: Optional[BaseException], trace: object) -> None:
        try:
            self.close()
        except Error:
            if kind is None:
                raise

    @property
    def process(self) -> int:
        """The number of the process."""
        return self._process.pid

    def close(self) -> None:
        """Ends the program, and raises `Ended` where it doesn't end well."""
        if self._process.stdin is None or self._process.stdin.closed:
            return
        try:
            self._process.stdin.close()
        except BrokenPipeError:
            pass
        status, said = self._wait()
        if status:
            raise Ended(status, said, [], [], self._answered, None)

    def _wait(self) -> Tuple[int, str]:
        """Waits for the program's end: its status, and its line on standard error."""
        said = cast(IO[bytes], self._process.stderr).read()
        status = self._process.wait()
        for pipe in (self._process.stdin, self._process.stdout, self._process.stderr):
            cast(IO[bytes], pipe).close()
        return status, text_of(said).strip()

    def ask(self, command: Command[Answer]) -> Answer:
        """The answer to a command."""
        answer = self.ask_all([command])[0]
        if isinstance(answer, Refused):
            raise answer
        return cast(Answer, answer)

    def ask_all(self, commands: Iterable[Command[Any]]) -> List[Any]:
        """The answers to commands that are all sent without waiting for any. Where one is refused, the answer is a `Refused`,
        and the others are carried out."""
        asked = list(commands)
        if cast(IO[bytes], self._process.stdin).closed:
            raise ValueError("this store is closed")
        if self._gathered is not None:
            return [self._gather(command) for command in asked]
        return self._send(asked)

    def _gather(self, command: Command[Any]) -> Any:
        """Keeps a change for the end of a transaction, and asks what is no change."""
        gathered = cast(Gathered, self._gathered)
        if command.changes:
            return gathered.take(command)
        gathered.check(command)
        return self._send([command])[0]

    def _send(self, asked: List[Command[Any]]) -> List[Any]:
        answers: List[Any] = []
        try:
            self._exchange(asked, answers)
        except BaseException:  # replies that nobody reads must not be taken for those of a later command
            if not cast(IO[bytes], self._process.stdin).closed:
                self._process.kill()
                self._wait()
            raise
        return answers

    def _exchange(self, asked: List[Command[Any]], answers: List[Any]) -> None:
        """Writes commands and reads replies, whichever can be done."""
        source = memoryview(b"".join(part for command in asked for part in (command.line, b"\n", command.body)))
        stdin, stdout = cast(IO[bytes], self._process.stdin).fileno(), cast(IO[bytes], self._process.stdout).fileno()
        poll = select.poll()
        poll.register(stdout, select.POLLIN)
        poll.register(stdin, select.POLLOUT)
        writing = True
        lines: List[bytes] = []  # of a reply that goes on
        while len(answers) < len(asked):
            if writing and not source:
                writing = False
                poll.unregister(stdin)
            for file, _ in poll.poll():
                if file == stdout:
                    block = os.read(stdout, BLOCK)
                    if not block:
                        self._end(asked, answers)
                    lines = self._take(block, lines, asked, answers)
                elif writing:
                    try:
                        source = source[os.write(stdin, source[:BLOCK]):]
                    except BrokenPipeError:  # the replies that were written still come
                        source = source[:0]

    def _take(self, block: bytes, lines: List[bytes], asked: List[Command[Any]], answers: List[Any]) -> List[bytes]:
        """Takes a block of replies, and answers the lines of a reply that goes on."""
        found = (self._rest + block).split(b"\n")
        self._rest = found.pop()
        for line in found:
            command = asked[len(answers)]
            lines.append(line)
            if line.startswith(b"error ") and len(lines) == 1:
                answers.append(command.refused(text_of(line[6:])))
            elif not command.has_lines:
                answers.append(command.read(lines))
            elif line == b".":
                answers.append(command.read(lines[:-1]))
            else:
                continue
            self._answered += 1
            lines = []
        return lines

    def _end(self, asked: List[Command[Any]], answers: List[Any]) -> None:
        """Raises what says that the program ended."""
        status, said = self._wait()
        left = asked[len(answers):]
        why = natix_faults.little_room(self.path) if status == 3 else None
        uncertain = next((repr(command) for command in left if command.changes), None)
        raise Ended(status, said, [(repr(command), answer) for command, answer in zip(asked, answers)], [repr(command) for command in left], self._answered, uncertain, why)

    @contextlib.contextmanager
    def transaction(self) -> Iterator[Gathered]:
        """Gathers the changes that are made within, and carries them out as one at its end: all of them, or where one is refused none,
        and then `Refused` is raised with its number. Where the block is left by an exception nothing is sent.

        Within it a change answers None; what it was answered stands in `answers` of what this gives, behind the end. A question is asked at
        once, and refused by ValueError where a change before it is about the same document: the store knows nothing of that yet. A
        transaction within another one is part of that."""
        outer = self._gathered
        gathered = outer if outer is not None else Gathered(lambda: self._send([names()])[0])
        before = len(gathered.commands)
        self._gathered = gathered
        try:
            yield gathered
        except BaseException:
            del gathered.commands[before:]
            raise
        finally:
            self._gathered = outer
        if outer is None and gathered.commands:
            gathered.answers = self.ask(Transaction(gathered.commands))

    def load(self, name: str, source: Source, keep: bool = False) -> Loaded:
        """Keeps a document under a new name: a string or bytes of XML, a path or an open file of XML, an ElementTree, or PYX.

        Comments and the document type are left out, which `Loaded` says. With `keep` they become instructions, of which
        `export` makes what they were."""
        return self.ask(load(name, source, keep))

    def put(self, name: str, source: Source, keep: bool = False) -> Loaded:
        """Keeps a document, in place of the one of that name where there is one: where the new one is refused, that stays."""
        new = load(name, source, keep)
        with self.transaction() as done:
            if done.has(name):
                self.drop(name)
            self.ask(new)
        return cast(Loaded, done.answers[-1] if done.answers else None)

    def recover(self) -> Dict[str, bool]:
        """Ends what an earlier version of this module began: it kept a new document under a name of its own, `~natix-new~` and the
        document's, before it took the place of the old one. Says of each name whether it has the new document."""
        kept, ended = self.names(), {}
        for waiting in kept:
            name = waiting[len(REPLACEMENT):]
            if not waiting.startswith(REPLACEMENT) or not name:
                continue
            ended[name] = name not in kept or self.export(name, Pyx) == self.export(waiting, Pyx)
            if name in kept:
                self.drop(waiting)
            else:
                self.rename(waiting, name)
        return ended

    # Subtrees, each of which takes several commands and is one transaction

    def subtree(self, name: str, path: Sequence[int]) -> Pyx:
        """The lines of the node at the path with all below it; those of the whole document for its root."""
        if not path:
            return self.ask(export(name))
        here = tuple(path)
        found = {here: self.get(name, here)}
        level = [here]
        while level:
            below = [(*above, at) for above in level for at in range(found[above].children)]
            if len(found) + len(below) > MOST_ASKED:
                return self._cut_out(name, here)
            for one, node in zip(below, self.ask_all([get(name, one) for one in below])):
                if isinstance(node, Refused):
                    raise node
                found[one] = node
            level = [one for one in below if found[one].children]
        lines: List[bytes] = []
        _add_lines(found, here, lines)
        return Pyx(b"".join(line + b"\n" for line in lines))

    def _cut_out(self, name: str, path: Path) -> Pyx:
        """The same out of all lines of the document."""
        lines: List[bytes] = []
        taker = natix_subtrees.Subtrees([path], lambda _, line: lines.append(bytes_of(line)))
        taker.write(self.ask(export(name)))
        if taker.error:
            raise taker.error
        return Pyx(b"".join(line + b"\n" for line in lines))

    def graft(self, name: str, path: Sequence[int], source: Union[Source, Node], keep: bool = False) -> int:
        """Puts nodes with all below them at the path, beside each other, and says how many nodes that were. A string or bytes have
        any XML that an element can have, as `<a/>text<b/>`; any other source is a document, whose nodes at its top are put there; or it is a `Node`."""
        lines = _fragment(source, keep)
        with self.transaction():
            self.ask_all(graft(name, path, lines))
        return natix_subtrees.count_nodes(lines)

    def replace(self, name: str, path: Sequence[int], source: Union[Source, Node], keep: bool = False) -> int:
        """Puts nodes, as of `graft`, in place of the node at the path and all below it."""
        lines = _fragment(source, keep)
        with self.transaction():
            self._replace(name, tuple(path), lines)
        return natix_subtrees.count_nodes(lines)

    def _replace(self, name: str, path: Path, lines: bytes) -> None:
        if len(path) == 1 and self.get(name, path).kind == "element":
            self._put(name, natix_subtrees.with_root(self.ask(export(name)), lines))  # a document always has its root element
        elif not path:
            self._put(name, lines)
        else:
            self.ask_all([delete(name, path), *graft(name, path, lines)])

    def _put(self, name: str, lines: bytes) -> None:
        self.ask_all([drop(name), load(name, Pyx(lines))])

    def relabel(self, name: str, path: Sequence[int], label: str) -> None:
        """Gives an element, an attribute or an instruction another name."""
        lines = natix_subtrees.relabelled(self.subtree(name, path), word_of(label))
        with self.transaction():
            self._replace(name, tuple(path), lines)

    def move(self, name: str, path: Sequence[int], to: Sequence[int], other: Optional[str] = None) -> Path:
        """Takes the node at a path with all below it to another place, of the same document or of another one: before the node that is at `to` now,
        or behind the last one. Says which path it has then."""
        place = tuple(to) if other not in (None, name) else natix_subtrees.without(to, path)
        if other in (None, name) and natix_subtrees.is_below(to, path):
            raise ValueError(f"{tuple(to)} is below {tuple(path)}, and a node can't stand below itself")
        lines = self._subtree_of_node(name, path)
        with self.transaction():
            self.ask_all([delete(name, path), *graft(other or name, place, lines)])
        return place

    def copy(self, name: str, path: Sequence[int], to: Sequence[int], other: Optional[str] = None) -> Path:
        """Puts what stands at a path, with all below it, to another place once more, of the same document or of another one."""
        lines = self._subtree_of_node(name, path)
        with self.transaction():
            self.ask_all(graft(other or name, to, lines))
        return tuple(to)

    def _subtree_of_node(self, name: str, path: Sequence[int]) -> Pyx:
        if not path:
            raise ValueError("a document's root is no node that can stand elsewhere: its name can be another one, and `load` copies it")
        return self.subtree(name, path)

    @overload
    def export(self, name: str) -> str: ...

    @overload
    def export(self, name: str, to: Type[Target]) -> Target: ...

    @overload
    def export(self, name: str, to: "os.PathLike[str]") -> None: ...

    def export(self, name: str, to: Any = str) -> Any:
        """The document as XML, or as `to` says: `str`, `bytes`, `Pyx`, an ElementTree's class, or the path of a file, which has
        it whole or is left as it was."""
        lines = self.ask(export(name))
        if to is Pyx:
            return lines
        with naming(name):
            xml = xml_of(bytes(lines))
        if to is str:
            return xml.decode()
        if to is bytes:
            return xml
        if to is tree.ElementTree:
            return tree.ElementTree(tree.fromstring(xml))
        if to is tree.Element:
            return tree.fromstring(xml)
        with new_file(to) as file:
            file.write(xml)
        return None

    def drop(self, name: str) -> None:
        """Forgets a document."""
        self.ask(drop(name))

    def rename(self, old: str, new: str) -> None:
        """Gives a document another name, which is new."""
        self.ask(rename(old, new))

    def names(self) -> Dict[str, int]:
        """The documents, each with its number of nodes."""
        return self.ask(names())

    def insert(self, name: str, path: Sequence[int], node: Node) -> None:
        """Puts a node without children at the path."""
        self.ask(insert(name, path, node))

    def delete(self, name: str, path: Sequence[int]) -> None:
        """Takes away the node at the path, and all below it."""
        self.ask(delete(name, path))

    def retext(self, name: str, path: Sequence[int], content: Union[str, bytes]) -> None:
        """Replaces the content of the node at the path."""
        self.ask(retext(name, path, content))

    def get(self, name: str, path: Sequence[int]) -> Node:
        """The node at the path."""
        return self.ask(get(name, path))

    def layout(self, name: str) -> List[Interval]:
        """The intervals in which a document is stored."""
        return self.ask(layout(name))

    def rule(self, parent: str, child: str, entry: str) -> None:
        """Says what is asked of such a child below such a parent: `standalone`, `cluster` or `free`."""
        self.ask(rule(parent, child, entry))

    def rules(self) -> Dict[Tuple[str, str], str]:
        """The entries that aren't `free`, by parent and child."""
        return self.ask(rules())

    def checkpoint(self) -> None:
        """Empties the log."""
        self.ask(checkpoint())

    def plan(self, name: str, k: int) -> Plan:
        """A plan of a document, as of the function `plan`."""
        return plan(self.export(name, Pyx), k)

    def verify(self, name: str, claimed: Plan, k: int) -> int:
        """Certifies a plan of a document, as the function `verify` does."""
        return verify(self.export(name, Pyx), claimed, k)


def _fragment(source: Union[Source, Node], keep: bool) -> Pyx:
    """The lines of what is to stand at a path."""
    if isinstance(source, Node):
        line = line_of_node(source)
        return Pyx(line + b"\n" + (b")" + line[1:] + b"\n" if source.kind == "element" else b""))
    lines = natix_subtrees.fragment(source, keep)
    if not lines.strip():
        raise ValueError("there is no node in what is to be put there")
    return lines


def _add_lines(nodes: Dict[Path, Node], path: Path, lines: List[bytes]) -> None:
    """Adds the lines of the node at a path, and of all below it."""
    node = nodes[path]
    lines.append(line_of_node(node))
    for at in range(node.children):
        _add_lines(nodes, (*path, at), lines)
    if node.kind == "element":
        lines.append(b")" + bytes_of(node.name))


def _store_word(path: Union[str, "os.PathLike[str]"]) -> str:
    """A store's name as natix takes it. A link names what it leads to, whose log stands beside that."""
    word = os.fspath(path)
    if os.path.islink(word):
        return os.path.realpath(word)
    return os.path.join(".", word) if word.startswith("-") or word == "_" else word
