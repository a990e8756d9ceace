"""Documents of any size that go into stores of natix and come out of them, in little memory.

    >>> import natix, natix_files, os, tempfile
    >>> folder = tempfile.mkdtemp()
    >>> with open(os.path.join(folder, "tea.xml"), "w") as file:
    ...     _ = file.write("<shop><item>tea</item></shop>")
    >>> with natix.Store.create(os.path.join(folder, "shelf")) as store:
    ...     files = natix_files.Files(store)
    ...     with open(os.path.join(folder, "tea.xml"), "rb") as file:
    ...         files.copy_in("tea", file)
    ...     with natix.new_file(os.path.join(folder, "again.xml")) as file:
    ...         files.copy_out("tea", file)
    Loaded(nodes=4, intervals=1)
    >>> open(os.path.join(folder, "again.xml")).read()
    '<shop><item>tea</item></shop>\\n'
"""

from __future__ import annotations

import os
import re
import select
import subprocess
import tempfile
import time
from typing import IO, Any, Callable, List, Optional, Tuple, cast

import natix
import natix_lines
import natix_sources

BLOCK = 65536
Watch = Callable[[int, int], Any]


class Stopped(natix.Error):
    """A document was on its way, and whoever watched that stopped it. Nothing was changed."""


class Watched:
    """Tells a watcher how far a document is."""

    def __init__(self, watch: Optional[Watch], file: Optional[IO[bytes]]) -> None:
        self.watch, self.file = watch, file
        self.bytes = self.nodes = 0
        self.last, self.next = b"\n", time.monotonic() + 0.1

    def asks_to_stop(self, lines: bytes) -> bool:
        """Counts what went by; whether the watcher wants no more."""
        if self.watch is None:
            return False
        self.bytes += len(lines)
        self.nodes += lines.count(b"\n") - lines.count(b"\n)") - (self.last == b"\n" and lines.startswith(b")"))
        self.last = lines[-1:] or self.last
        if time.monotonic() < self.next:
            return False
        self.next = time.monotonic() + 0.1
        return bool(self.watch(self.place(), self.nodes))

    def place(self) -> int:
        """How far the file was read or written, by whichever process; where it has no places, the bytes of PYX."""
        try:
            return os.lseek(cast(IO[bytes], self.file).fileno(), 0, os.SEEK_CUR)
        except OSError:
            return self.bytes


class Through:
    """A file of PYX that goes to the program, or comes from it, as it is."""

    def __init__(self, file: IO[bytes]) -> None:
        self.file = file
        self.stopped = False
        self.left_out: Tuple[str, ...] = ()  # of the XML
        self.error: Optional[Exception] = None  # why the document isn't whole

    def __enter__(self) -> Through:
        return self

    def __exit__(self, *error: object) -> None:
        pass

    def read(self) -> bytes:
        try:
            return os.read(self.file.fileno(), BLOCK)
        except OSError as error:
            self.error = error
            return b""

    def write(self, lines: bytes) -> None:
        """Writes, as long as that goes well: what comes is to be read in any case."""
        source = memoryview(lines)
        try:
            while source and not self.error and not self.stopped:
                source = source[os.write(self.file.fileno(), source):]
        except OSError as error:
            self.error = error

    def is_whole(self) -> bool:
        return self.error is None

    def stop(self, error: Optional[Exception] = None) -> None:
        self.stopped = True
        self.error = self.error or error

    def check(self) -> None:
        """Raises what went wrong."""
        if self.error:
            raise self.error


class Maker(Through):
    """A file of XML, with xmlpyx between it and the program."""

    def __init__(self, words: List[str], file: IO[bytes]) -> None:
        self.said = tempfile.TemporaryFile()
        pipe = subprocess.PIPE
        source: Any = file if words[-1] == "in" else pipe
        target: Any = pipe if words[-1] == "in" else file
        self.process = subprocess.Popen(words, stdin=source, stdout=target, stderr=self.said, bufsize=0, start_new_session=True)
        super().__init__(cast(IO[bytes], self.process.stdout or self.process.stdin))

    def __exit__(self, *error: object) -> None:
        self.process.kill()
        self.end()
        self.said.close()

    def end(self) -> int:
        self.file.close()
        return self.process.wait()

    def write(self, lines: bytes) -> None:
        super().write(lines)
        if isinstance(self.error, BrokenPipeError):
            self.error = None  # it says itself why it takes no more
            self.stopped = True

    def is_whole(self) -> bool:
        return super().is_whole() and self.end() == 0

    def stop(self, error: Optional[Exception] = None) -> None:
        super().stop(error)
        self.process.kill()

    def check(self) -> None:
        super().check()
        status = self.end()
        self.said.seek(0)
        said = self.said.read()
        natix_sources.check_xmlpyx(status, said)
        self.left_out = natix_sources.left_out_of(said)


class Files:
    """Takes documents of open files into a store, and writes them to such. A file is read and written from the place on at
    which its descriptor stands."""

    def __init__(self, store: natix.Store) -> None:
        self.store = store
        self.lines: List[bytes] = []  # of a reply that goes on

    def copy_in(self, name: str, source: IO[bytes], watch: Optional[Watch] = None, form: str = "xml", keep: bool = False) -> natix.Loaded:
        """Keeps the document of an open file under a new name, in little memory however large it is. `form` is `xml` or `pyx`;
        `keep` keeps comments and the document type.

        `watch` is called about ten times a second, with how many bytes of the file and how many nodes went in. Where it answers
        true, `Stopped` is raised, and nothing is kept."""
        return cast(natix.Loaded, self.take_in(natix.load(name, natix.Pyx(b"")), source, watch, form, keep))

    def put(self, name: str, source: IO[bytes], watch: Optional[Watch] = None, form: str = "xml", keep: bool = False) -> natix.Loaded:
        """Keeps the document of an open file in place of the one of that name, by one transaction: where it is refused or stopped, that one stays."""
        changes = natix.Transaction([natix.drop(name), natix.load(name, natix.Pyx(b""))])
        return cast(natix.Loaded, self.take_in(changes, source, watch, form, keep))

    def take_in(self, command: natix.Command[Any], source: IO[bytes], watch: Optional[Watch], form: str, keep: bool) -> Any:
        """Sends a command whose last document is an open file's, and gives what that was answered."""
        changes, command.changes = command.changes, False  # as long as its last line isn't sent
        with Maker(natix_sources.into_words(keep), source) if form == "xml" else Through(source) as maker:
            watched = Watched(watch, source)
            answer = self.guarded(lambda: self.pour_in(command, maker, watched, changes))
            if maker.stopped and maker.error is None:
                raise Stopped(f"`{command!r}` was stopped")
            maker.check()
        if isinstance(answer, natix.Refused):
            raise answer
        loaded = answer[-1] if isinstance(command, natix.Transaction) else answer
        return loaded._replace(left_out=maker.left_out)

    def copy(self, name: str, other: str) -> natix.Loaded:
        """Keeps a document under a second name, which is new."""
        with tempfile.TemporaryFile() as file:
            self.copy_out(name, file, form="pyx")
            file.seek(0)
            return self.copy_in(other, file, form="pyx")

    def copy_out(self, name: str, target: IO[bytes], watch: Optional[Watch] = None, form: str = "xml") -> None:
        """Writes a document to an open file, in little memory however large it is. `form` and `watch` are those of `copy_in`."""
        command = natix.export(name)
        with Maker([*natix_sources.find_xmlpyx(), "out"], target) if form == "xml" else Through(target) as maker:
            watched = Watched(watch, target)
            refused, stopped = self.guarded(lambda: self.pour_out(command, maker, watched))
            if refused is not None:
                raise refused
            if stopped:
                raise Stopped(f"`{command!r}` was stopped")
            maker.check()

    def pour(self, name: str, taker: Any) -> None:
        """Hands a document's lines to `taker.write`, in blocks as they come, until `taker.stopped`: the others are read in vain."""
        refused, _ = self.guarded(lambda: self.pour_out(natix.export(name), taker, Watched(None, None)))
        if refused is not None:
            raise refused

    def guarded(self, exchange: Callable[[], Any]) -> Any:
        """An exchange, and where it breaks off the end of the program: replies that nobody reads must not be taken for those of
        a later command."""
        if cast(IO[bytes], self.store._process.stdin).closed:
            raise ValueError("this store is closed")
        if self.store._gathered is not None:
            raise ValueError("a file goes in or out by itself, and not within a transaction")
        self.lines = []
        try:
            return exchange()
        except BaseException:
            if not cast(IO[bytes], self.store._process.stdin).closed:
                self.store._process.kill()
                self.store._wait()
            raise

    def pour_in(self, command: natix.Command[Any], maker: Through, watched: Watched, changes: bool) -> Any:
        """Sends a `load`, or a transaction that ends with one, as the document's lines come, and gives what it is answered."""
        answers: List[Any] = []
        begin, _, end = (command.line + b"\n" + command.body).rpartition(b".\n")
        self.send(begin, command, answers)
        rest, block = b"", b"-"
        while block and not maker.stopped:
            block = maker.read()
            lines, newline, rest = (rest + block).rpartition(b"\n")
            lines += newline if block else newline + rest
            if re.search(rb"^\.\r?$", lines, re.M):  # xmlpyx makes no such line
                maker.stop(ValueError("the document has a line that is a dot, which would end it"))
            elif watched.asks_to_stop(lines):
                maker.stop()
            else:
                self.send(lines, command, answers)
        if maker.stopped or not maker.is_whole():
            self.send(b"\n\n.\n" + end, command, answers)  # no document has an empty line
        else:
            command.changes = changes
            self.send((b"\n.\n" if rest else b".\n") + end, command, answers)
        while not answers:
            watched.asks_to_stop(b"")
            self.take_block(command, answers)
        return answers[0]

    def send(self, data: bytes, command: natix.Command[Any], answers: List[Any]) -> None:
        """Writes to the program while it answers nothing but its end."""
        source = memoryview(data)
        poll = select.poll()
        stdin = cast(IO[bytes], self.store._process.stdin).fileno()
        poll.register(stdin, select.POLLOUT)
        while source and not answers:
            poll.poll()
            try:
                source = source[os.write(stdin, source[:BLOCK]):]
            except BrokenPipeError:
                while not answers:  # until the end shows, or a reply that was written before it
                    self.take_block(command, answers)

    def take_block(self, command: natix.Command[Any], answers: List[Any]) -> None:
        """Takes what comes of a reply within a tenth of a second."""
        poll = select.poll()
        stdout = cast(IO[bytes], self.store._process.stdout).fileno()
        poll.register(stdout, select.POLLIN)
        if poll.poll(100):
            block = os.read(stdout, BLOCK)
            if not block:
                self.store._end([command], answers)
            self.lines = self.store._take(block, self.lines, [command], answers)

    def pour_out(self, command: natix.Command[natix.Pyx], maker: Any, watched: Watched) -> Tuple[Optional[natix.Refused], bool]:
        """Hands a document's lines on as they come. All are read, also where nobody wants more."""
        self.send(command.line + b"\n", command, [])
        stdout = cast(IO[bytes], self.store._process.stdout).fileno()
        poll = select.poll()
        poll.register(stdout, select.POLLIN)
        rest, begun, stopped = b"", False, False  # what may be of the dot, and whether a line was handed on
        while True:
            poll.poll()
            block = os.read(stdout, BLOCK)
            if not block:
                self.store._end([command], [])
            rest += block
            if not begun and rest.startswith(b"error "[:len(rest)]):
                if rest.endswith(b"\n"):
                    self.store._answered += 1
                    return natix.Refused(natix_lines.text_of(rest[6:-1]), repr(command)), False
                continue
            ended = rest.endswith(b"\n.\n")
            lines, rest = (rest[:-2], b"") if ended else (rest[:-3], rest[-3:])
            begun = begun or bool(lines)
            maker.write(lines)
            if watched.asks_to_stop(lines) and not stopped and not ended:
                stopped = True
                maker.stop()
            if ended:
                self.store._answered += 1
                return None, stopped
