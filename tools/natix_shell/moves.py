"""Commands for whole documents: files in and out, other names, and copies of the store."""

from __future__ import annotations

import contextlib
import os
import re
import subprocess
import sys
from typing import IO, Any, Iterator, List, Tuple

import natix
import natix_sources
from natix_files import Files, Stopped

from . import copies
from .places import Places, Row, read_words
from .session import TOO_LONG, Edit, Where, Wrong
from .terminal import Enough, Progress
from .texts import count, shown_loaded, why

LOAD = "load [-f] [--keep] [--as NAME] [--json] FILE.."
PUT = "put [--keep] NAME FILE"


def exchange(name: str, lines: natix.Pyx) -> natix.Transaction:
    """What puts a document in the place of the one of that name."""
    return natix.Transaction([natix.drop(name), natix.load(name, lines)])


@contextlib.contextmanager
def naming(name: str, path: str) -> Iterator[None]:
    """Says of what is refused within, and doesn't end the program, which document and which file it is of."""
    try:
        yield
    except OSError as error:
        raise Wrong(f"{path}: {error.strerror}")
    except (natix.Ended, Stopped):
        raise
    except (Wrong, ValueError, natix.Error) as error:
        raise Wrong(f"{name} ({path}): {why(error)}")


class Moves(Places):
    def do_load(self, words: List[str]) -> None:
        read = read_words(LOAD, words, "-f", "--keep", "--as=", "--json")
        name = getattr(read, "as")
        if not read.rest or name is not None and len(read.rest) > 1:
            raise Wrong(f"usage: {LOAD}")
        if name is None and len(read.rest) == 2 and not os.path.exists(os.path.expanduser(read.rest[1])):
            raise Wrong(f"{read.rest[1]}: No such file; `load --as {read.rest[1]} {read.rest[0]}` gives the document that name")
        failed: List[str] = []
        self.list(self.load_all(read, failed), read.json)
        if failed:
            raise Wrong("")  # what each of them is was told

    def do_put(self, words: List[str]) -> None:
        read = read_words(PUT, words, "--keep")
        if len(read.rest) != 2:
            raise Wrong(f"usage: {PUT}")
        name, path = read.rest
        with naming(name, path):
            row, _ = self.load(self.new_name(name), os.path.expanduser(path), True, read.keep)
        self.screen.line(row)

    def load_all(self, read: Any, failed: List[str]) -> Any:
        """Loads files, each into its document, and gives the row of each one that is there."""
        for path in read.rest:
            named = getattr(read, "as") or re.sub(r"\.(xml|pyx)$", "", os.path.basename(path))
            try:
                with naming(named, path):
                    row = self.load(self.new_name(named, ": --as NAME says one"), os.path.expanduser(path), read.f, read.keep)
            except Wrong as refused:
                failed.append(str(refused))
                self.session.at_work = None
                self.tell(failed[-1])
            else:
                yield row

    def load(self, name: str, path: str, replaces: bool, keep: bool) -> Row:
        there = name in self.session.documents
        if there and not replaces:
            raise Wrong("there is a document of that name: load -f puts this one in its place, --as NAME takes another name")
        if os.path.isdir(path):
            raise Wrong("that is a folder")
        with os.fdopen(os.dup(0), "rb", buffering=0) if path == "-" else open(path, "rb", buffering=0) as file:
            progress = Progress(self.screen, os.path.basename(path), os.fstat(file.fileno()).st_size, 0)
            try:
                loaded = (self.put if there else self.take)(name, file, progress, "pyx" if path.endswith(".pyx") else "xml", keep)
            finally:
                progress.clear()
        self.session.documents[name] = loaded.nodes
        return f"{name}: {shown_loaded(loaded)}", {"name": name, "file": path, **loaded._asdict()}

    def take(self, name: str, file: IO[bytes], progress: Progress, form: str, keep: bool) -> natix.Loaded:
        """Loads a new document."""
        edit = Edit(natix.load(name, natix.Pyx(b"")), natix.drop(name), "", lambda store: name in store.names(), ((Where(name, ()), 1),))
        if self.session.pending is not None:
            self.session.pending.know([name])
            loaded = Files(self.session.of(name)).copy_in(name, file, progress, form, keep)
            self.session.pending.note(natix.load(name, self.session.of(name).export(name, natix.Pyx)))
            return loaded
        self.session.at_work = edit
        loaded = Files(self.session.store).copy_in(name, file, progress, form, keep)
        self.session.note(edit)
        return loaded

    def put(self, name: str, file: IO[bytes], progress: Progress, form: str, keep: bool) -> natix.Loaded:
        """Loads a document in place of another one, by one transaction."""
        if self.session.pending is not None:
            self.session.pending.know([name])
            loaded = Files(self.session.of(name)).put(name, file, progress, form, keep)
            self.session.pending.note(exchange(name, self.session.of(name).export(name, natix.Pyx)))
        else:
            before = self.session.sight(name)
            edit = Edit(exchange(name, natix.Pyx(b"")), exchange(name, before.lines) if before.lines is not None else None, TOO_LONG,
                        lambda store: self.session.sight(name, store).found.digest() != before.found.digest(), said=f"put {name}")
            self.session.at_work = edit
            loaded = Files(self.session.store).put(name, file, progress, form, keep)
            self.session.note(edit)
        if self.session.cursor is not None and self.session.cursor.name == name:
            self.session.cursor = None  # its node is gone
        return loaded

    def do_save(self, words: List[str]) -> None:
        if len(words) != 2:
            raise Wrong("usage: save NAME FILE, or save NAME - for standard output")
        name, path = self.document(words[0]), os.path.expanduser(words[1])
        with natix_sources.naming(name):
            if path == "-":
                sys.stdout.flush()
                Files(self.session.of(name)).copy_out(name, sys.stdout.buffer, lambda *_: self.session.interrupt.asked)
                return
            size = self.save(name, path)
        self.screen.line(f"{path}: {count(size, 'byte')}")

    def save(self, name: str, path: str) -> int:
        """Writes a document to a file, and says how many bytes."""
        progress = Progress(self.screen, name, 0, self.session.documents[name])
        try:
            with natix.new_file(path) as file:
                Files(self.session.of(name)).copy_out(name, file, progress, "pyx" if path.endswith(".pyx") else "xml")
                return os.fstat(file.fileno()).st_size
        except OSError as error:
            raise Wrong(f"{path}: {error.strerror}")
        finally:
            progress.clear()

    # Other names

    def do_rm(self, words: List[str]) -> None:
        if not words:
            raise Wrong("usage: rm NAME..")
        for name in map(self.document, words):
            lines = self.session.sight(name).lines
            inverse = natix.load(name, lines) if lines is not None else None
            self.session.carry_out(Edit(natix.drop(name), inverse, TOO_LONG, lambda store: name not in store.names(), ((Where(name, ()), -1),)))
            del self.session.documents[name]
            self.screen.line("ok")

    def do_mv(self, words: List[str]) -> None:
        name, new = self.names_of("mv", words)
        self.session.carry_out(Edit(natix.rename(name, new), natix.rename(new, name), "", lambda store: new in store.names(), (), (name, new),
                                    said=f"mv {name} {new}"))
        self.session.documents[new] = self.session.documents.pop(name)
        self.screen.line("ok")

    def names_of(self, command: str, words: List[str]) -> Tuple[str, str]:
        """A document and a name that none has."""
        if len(words) != 2:
            raise Wrong(f"usage: {command} NAME NEW")
        name, other = self.document(words[0]), self.new_name(words[1])
        if other in self.session.documents:
            raise Wrong(f"there is a document {other}")
        return name, other

    def do_cp(self, words: List[str]) -> None:
        name, other = self.names_of("cp", words)
        edit = Edit(natix.load(other, natix.Pyx(b"")), natix.drop(other), "", lambda store: other in store.names(), ((Where(other, ()), 1),))
        if self.session.pending is not None:
            lines = self.session.of(name).export(name, natix.Pyx)
            loaded = self.session.carry_out(edit._replace(command=natix.load(other, lines)))
        else:
            self.session.at_work = edit
            loaded = Files(self.session.store).copy(name, other)
            self.session.note(edit)
        self.session.documents[other] = loaded.nodes
        self.screen.line(f"{other}: {shown_loaded(loaded)}")

    # Copies of the store

    def do_dump(self, words: List[str]) -> None:
        if len(words) > 1:
            raise Wrong("usage: dump [FILE]")
        path = words[0] if words else "-"
        if path == "-":
            sys.stdout.flush()
            copies.dump(self.session.store, sys.stdout.buffer, self.stop_if_asked)
            return
        with natix.new_file(os.path.expanduser(path)) as file:
            documents = copies.dump(self.session.store, file, self.stop_if_asked)
            size = os.fstat(file.fileno()).st_size
        self.screen.line(f"{path}: {count(documents, 'document')}, {count(size, 'byte')}")

    def stop_if_asked(self) -> None:
        if self.session.interrupt.asked:
            raise Enough("stopped")

    def do_backup(self, words: List[str]) -> None:
        if len(words) != 1:
            raise Wrong("usage: backup FILE, or backup - for standard output")
        path = os.path.expanduser(words[0])
        if path == "-":
            sys.stdout.flush()
            self.ship(sys.stdout.buffer)
            return
        if os.path.isdir(path):
            raise Wrong(f"{path} is a folder")
        with natix.new_file(path) as file:
            self.ship(file)
            size = os.fstat(file.fileno()).st_size
        self.screen.line(f"{words[0]}: {count(size, 'byte')}, all of {self.session.path} as it is now")

    def ship(self, file: IO[bytes]) -> None:
        """Writes all pages of the store to an open file."""
        done = self.session.aside(["ship", "all"], stdin=subprocess.DEVNULL, stdout=file)
        if done.returncode:
            raise natix.Error("natix ships no base of the store")

    def do_compact(self, words: List[str]) -> None:
        read = read_words("compact [--k K] NEW", words, "--k=")
        if len(read.rest) != 1 or read.k is not None and not re.fullmatch(r"[1-9][0-9]{0,2}", read.k):
            raise Wrong("usage: compact [--k K] NEW")
        new = os.path.expanduser(read.rest[0])
        made = copies.compact(self.session.store, new, int(read.k) if read.k else None, self.stop_if_asked)
        self.screen.line(f"{new}: {count(made.documents, 'document')}, checked; {made.after:,} bytes, and {self.session.path} has {made.before:,}")
        if copies.lead_to(self.session.path, new):
            self.screen.line(f"{self.session.path} leads to {new} now; {self.session.store.path} and its log stay, and can be taken away")
            self.session.store.close()
            self.session.open(wait=1.0)
