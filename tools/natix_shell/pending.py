"""A transaction that is begun: what it has so far, in a store of the shell's own."""

from __future__ import annotations

import os
import subprocess
import tempfile
from typing import Any, Dict, List, Set, Tuple

import natix
import natix_sources
from natix_files import Files

MEMORY = "/dev/shm"  # files there are in memory
WIDEST_K = 256  # so the store of the shell's own refuses no node that the other one takes


class Pending:
    """The commands of a transaction, and a second store that has the documents that they are about, as they make them. It is asked in place of the
    store itself, which knows nothing of the transaction before its end."""

    def __init__(self, store: natix.Store) -> None:
        self.real = store
        self.there = set(store.names())
        self.rules_before = store.rules()
        self.known: Set[str] = set()  # the documents that the second store has, or that it would have were they not gone
        self.commands: List[natix.Command[Any]] = []
        self.spoiled = False  # a command of a script was refused, so none is to be carried out
        self.folder = tempfile.TemporaryDirectory(prefix="natix-shell.", dir=MEMORY if os.access(MEMORY, os.W_OK) else None)
        self.path = os.path.join(self.folder.name, "begun")
        self.store = natix.Store.create(self.path, WIDEST_K)
        self.store.ask_all([natix.rule(parent, child, entry) for (parent, child), entry in self.rules_before.items()])

    def know(self, names: List[str]) -> None:
        """Copies documents into the second store that aren't there yet."""
        for name in names:
            if name in self.known:
                continue
            if name in self.there:
                copy_into(self.real, name, self.store, name)
            self.known.add(name)

    def take(self, command: natix.Command[Any]) -> Any:
        """Carries a command out in the second store; where it isn't refused there, it is one of the transaction."""
        self.know(command.documents)
        answer = self.store.ask(command)
        self.note(command)
        return answer

    def note(self, command: natix.Command[Any]) -> None:
        """A command was carried out in the second store."""
        self.commands += command.commands if isinstance(command, natix.Transaction) else [command]

    def names(self, others: Dict[str, int]) -> Dict[str, int]:
        """The documents, by those that the store itself has."""
        return dict(sorted({**{name: nodes for name, nodes in others.items() if name not in self.known}, **self.store.names()}.items()))

    def aside(self, words: List[str], **streams: Any) -> "subprocess.CompletedProcess[bytes]":
        """Runs another command of natix over the second store."""
        self.store.close()
        try:
            return subprocess.run([natix_sources.find_natix(), self.path, *words], stderr=subprocess.PIPE, **streams)
        finally:
            self.store = natix.Store.open(self.path)

    def changed(self) -> List[Tuple[str, bool, bool]]:
        """The documents that the commands are about, and whether each was there before, and is there behind them."""
        after = self.store.names()
        return [(name, name in self.there, name in after) for name in dict.fromkeys(name for command in self.commands for name in command.documents)]

    def is_carried_out(self, store: natix.Store) -> bool:
        """Whether a store has what the second one has."""
        names = store.names()
        for name, _, is_there in self.changed():
            if is_there != (name in names) or is_there and store.export(name, natix.Pyx) != self.store.export(name, natix.Pyx):
                return False
        return store.rules() == self.store.rules()

    def close(self) -> None:
        try:
            self.store.close()
        except natix.Error:
            pass
        self.folder.cleanup()


def copy_into(store: natix.Store, name: str, other: natix.Store, new: str) -> natix.Loaded:
    """Copies a document into another store."""
    with tempfile.TemporaryFile() as file:
        Files(store).copy_out(name, file, form="pyx")
        file.seek(0)
        return Files(other).copy_in(new, file, form="pyx")
