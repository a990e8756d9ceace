"""Copies of a whole store: as a text, as a new store, as a stream of its pages.

A new store is made under another name in the same folder, and both of its files are renamed once it is whole, the log first: a
log alone is no store, so no half store is ever taken for one."""

from __future__ import annotations

import contextlib
import hashlib
import os
import shutil
import struct
import subprocess
import tempfile
from typing import IO, Callable, Iterator, NamedTuple, Optional

import natix
import natix_sources
from natix_files import Files

from .session import Wrong

FIRST_LINE = b"natix dump 1\n"
LONGEST_LINE = 4 << 20


class Made(NamedTuple):
    """A new store: its documents, and the bytes of the old one and of this one."""

    documents: int
    before: int
    after: int


class Settings(NamedTuple):
    """What a store is made with."""

    k: int
    target: Optional[int] = None
    tolerance: Optional[int] = None
    pages: Optional[int] = None


def no_stop() -> None:
    """For whoever is never asked to stop."""


# As a text


def dump(store: natix.Store, file: IO[bytes], check: Callable[[], None] = no_stop) -> int:
    """Writes the rules and the documents of a store, and says how many documents."""
    names, rules = store.names(), store.rules()
    write(file, FIRST_LINE)
    for (parent, child), entry in rules.items():
        write(file, f"rule {parent} {child} {entry}\n".encode("utf-8", "surrogateescape"))
    for name, nodes in names.items():
        check()
        write(file, f"document {name} {nodes}\n".encode())
        Files(store).copy_out(name, file, form="pyx")
        write(file, b".\n")
    write(file, b"end %d %d\n" % (len(rules), len(names)))
    return len(names)


def write(file: IO[bytes], data: bytes) -> None:
    """Writes past what Python keeps of a file, as documents are written."""
    file.flush()
    while data:
        data = data[os.write(file.fileno(), data):]


class Dump:
    """Reads what `dump` wrote."""

    def __init__(self, file: IO[bytes]) -> None:
        self.file = file
        self.number = 0

    def wrong(self, why: str) -> natix.Error:
        return natix.Error(f"line {self.number} of the dump: {why}")

    def line(self) -> bytes:
        line = self.file.readline(LONGEST_LINE)
        self.number += 1
        if not line.endswith(b"\n"):
            raise self.wrong("it breaks off here" if len(line) < LONGEST_LINE else "it is too long")
        return line

    def lines(self) -> Iterator[bytes]:
        """The lines of a document."""
        for line in iter(self.line, b".\n"):
            yield line

    def restore(self, store: natix.Store, check: Callable[[], None] = no_stop) -> int:
        """Puts all that was dumped into a new store, and says how many documents."""
        if self.line() != FIRST_LINE:
            raise self.wrong("it isn't the beginning of a dump that this shell reads")
        rules = documents = 0
        while True:
            check()
            words = self.line().decode("utf-8", "surrogateescape").split()
            if words[:1] == ["rule"] and len(words) == 4:
                self.rule(store, *words[1:])
                rules += 1
            elif words[:1] == ["document"] and len(words) == 3:
                self.document(store, *words[1:])
                documents += 1
            elif words == ["end", str(rules), str(documents)]:
                break
            else:
                raise self.wrong("no rule, no document and no end that fits what came before")
        if self.file.read(1):
            raise self.wrong("something stands behind the end")
        return documents

    def rule(self, store: natix.Store, parent: str, child: str, entry: str) -> None:
        try:
            store.rule(parent, child, entry)
        except natix.Refused as refused:
            raise self.wrong(f"the rule is refused: {refused}")

    def document(self, store: natix.Store, name: str, nodes: str) -> None:
        with tempfile.TemporaryFile() as file:
            for line in self.lines():
                file.write(line)
            file.flush()
            file.seek(0)
            try:
                loaded = Files(store).copy_in(name, file, form="pyx")
            except (natix.Refused, ValueError) as refused:
                raise self.wrong(f"the document {name} is refused: {refused}")
        if str(loaded.nodes) != nodes:
            raise self.wrong(f"the document {name} has {loaded.nodes} nodes, and {nodes} were dumped")


# As a new store


@contextlib.contextmanager
def placed(path: str) -> Iterator[str]:
    """A name to make a store at, in a folder of its own. Once the block ends well the store is checked, and is there under the
    name that was asked for, which no store may have."""
    check_new(path)
    folder = os.path.dirname(os.path.abspath(path))
    work = tempfile.mkdtemp(prefix=".natix-new.", dir=folder)
    try:
        made = os.path.join(work, "store")
        yield made
        shorten(made)
        check_store(made)
        check_new(path)
        os.rename(made + ".log", path + ".log")
        os.rename(made, path)
        natix_sources.sync_folders([folder])
    finally:
        shutil.rmtree(work, ignore_errors=True)


def check_new(path: str) -> None:
    if os.path.lexists(path):
        raise Wrong(f"{path} is there already")
    if os.path.lexists(path + ".log"):
        raise Wrong(f"{path}.log is there already; without {path} it is what a copy that was stopped left, and can be taken away")
    folder = os.path.dirname(path)
    if folder and not os.path.isdir(folder):
        raise Wrong(f"there is no folder {folder}")


@contextlib.contextmanager
def new_store(path: str, settings: Settings) -> Iterator[natix.Store]:
    """A new store that is there once the block ends well."""
    with placed(path) as made:
        with natix.Store.create(made, *settings) as store:
            yield store


def shorten(path: str) -> None:
    """Moves all that a log has into the pages, and cuts off the room that the log then has: natix makes no log shorter."""
    with natix.Store.open(path) as store:
        store.checkpoint()
    with open(path + ".log", "r+b") as log:
        if log.read(1) == b"\0":  # no group follows
            log.truncate(1)
            os.fsync(log.fileno())


def check_store(path: str) -> None:
    """Raises what `natix STORE check` says of a store that isn't sound."""
    done = subprocess.run([natix_sources.find_natix(), path, "check"], stdin=subprocess.DEVNULL, stdout=subprocess.PIPE, stderr=subprocess.PIPE)
    if done.returncode or done.stdout != b"sound\n":
        raise natix.Error(f"the new store isn't sound: {done.stdout.decode()}{done.stderr.decode()}")


def restore(path: str, k: int, file: IO[bytes]) -> int:
    """Makes a store of a dump, and says how many documents it has."""
    with new_store(path, Settings(k)) as store:
        return Dump(file).restore(store)


def restore_backup(path: str, file: IO[bytes]) -> None:
    """Makes a store of a backup."""
    with placed(path) as made:
        done = subprocess.run([natix_sources.find_natix(), made, "apply"], stdin=file, stdout=subprocess.PIPE, stderr=subprocess.PIPE)
        said = (done.stdout + done.stderr).decode("utf-8", "replace").strip()
        if done.returncode == 2 or not os.path.exists(made):
            raise natix.Error(f"that is no whole backup ({said or 'it is empty'})")
        if done.returncode:
            raise natix.Ended(done.returncode, said, [], [], 0, None)


def compact(store: natix.Store, new: str, k: Optional[int], check: Callable[[], None] = no_stop) -> Made:
    """Makes a new store of all documents and rules of one, which it compares."""
    settings = settings_of(store)
    if k is not None:
        settings = settings._replace(k=k, tolerance=k // 4)
    names, rules = store.names(), store.rules()
    with new_store(new, settings) as other:
        for (parent, child), entry in rules.items():
            other.rule(parent, child, entry)
        for name in names:
            check()
            copy_document(store, other, name)
        if other.names() != names or other.rules() != rules:
            raise natix.Error("the new store has other documents or rules")
    return Made(len(names), size_of(store.path), size_of(new))


def copy_document(store: natix.Store, other: natix.Store, name: str) -> None:
    """Copies a document into another store, and looks whether it is the same there."""
    with tempfile.TemporaryFile() as file:
        Files(store).copy_out(name, file, form="pyx")
        file.seek(0)
        before = sum_of(file)
        file.seek(0)
        try:
            Files(other).copy_in(name, file, form="pyx")
        except natix.Refused as refused:
            raise natix.Error(f"{name} is refused by the new store: {refused}")
        file.seek(0)
        file.truncate()
        Files(other).copy_out(name, file, form="pyx")
        file.seek(0)
        if sum_of(file) != before:
            raise natix.Error(f"{name} isn't the same in the new store")


def sum_of(file: IO[bytes]) -> bytes:
    found = hashlib.sha256()
    for block in iter(lambda: os.read(file.fileno(), 1 << 16), b""):
        found.update(block)
    return found.digest()


def size_of(path: str) -> int:
    return os.path.getsize(path) + os.path.getsize(path + ".log")


def settings_of(store: natix.Store) -> Settings:
    """What a store was made with, as the first page of its file has it once the log is empty."""
    store.checkpoint()
    with open(store.path, "rb") as file:
        return Settings(*struct.unpack_from(">HHHI", file.read(64), 10))


def lead_to(link: str, new: str) -> bool:
    """Lets a symbolic link lead to another store, by renaming a link; false where the name is none."""
    if not os.path.islink(link):
        return False
    folder = os.path.dirname(os.path.abspath(link))
    target = os.path.abspath(new)
    if not os.path.isabs(os.readlink(link)):
        target = os.path.relpath(target, os.path.realpath(folder))
    waiting = tempfile.mktemp(prefix=".natix-link.", dir=folder)
    os.symlink(target, waiting)
    os.rename(waiting, link)
    natix_sources.sync_folders([folder])
    return True
