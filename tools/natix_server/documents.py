"""What the server knows of the documents: which there are, and for each a number that changes with it.

**Its tag never comes again for another content.** It is made of what is drawn when the store is opened, and of a counter that goes up with
each change that natix has answered. Whoever else may have had the store before it was opened again, all tags are new then.
"""

from __future__ import annotations

import bisect
import secrets
import time
from typing import Dict, Iterator, List, NamedTuple, Optional

import natix

from .names import FOLDER, above


class Effect(NamedTuple):
    """What a command does to the documents that there are: `put`, `drop`, `edit`, or `rename` with the new name."""

    what: str
    name: str
    new: str = ""


class Document:
    """What is known of a document. `size` is that of its XML or of its file, once somebody asked for it, and `parts` is likewise."""

    __slots__ = ("version", "nodes", "changed", "size", "kind", "parts")

    def __init__(self, version: int, nodes: int, changed: float) -> None:
        self.version, self.nodes, self.changed = version, nodes, changed
        self.size: Optional[int] = None
        self.kind = ""  # the type of a file's content
        self.parts: Optional[int] = None


class Documents:
    """The documents of a store, by their names' order."""

    def __init__(self) -> None:
        self.session, self.counter = "", 0
        self.opened = 0.0
        self.by_name: Dict[str, Document] = {}
        self.sorted: List[str] = []

    def reopen(self, names: Dict[str, int]) -> None:
        """Takes the documents of a store that was opened."""
        self.session, self.counter, self.opened = secrets.token_hex(6), 0, time.time()
        self.by_name = {name: Document(0, nodes, self.opened) for name, nodes in names.items()}
        self.sorted = sorted(self.by_name)

    def __contains__(self, name: str) -> bool:
        return name in self.by_name

    def get(self, name: str) -> Optional[Document]:
        return self.by_name.get(name)

    def tag(self, name: str) -> Optional[str]:
        """The tag of a document as it is now, without quotes."""
        found = self.by_name.get(name)
        return f"{self.session}-{found.version}" if found else None

    def below(self, folder: str, behind: str = "") -> Iterator[str]:
        """The names that begin with a folder's, its own among them, behind a name if one is given."""
        at = max(bisect.bisect_left(self.sorted, folder), bisect.bisect_right(self.sorted, behind) if behind else 0)
        while at < len(self.sorted) and self.sorted[at].startswith(folder):
            yield self.sorted[at]
            at += 1

    def is_folder(self, name: str) -> bool:
        """Whether there is a folder of this name, which ends with a slash, or is empty for the one above all."""
        return not name or next(self.below(name), None) is not None

    def has_place(self, name: str) -> bool:
        """Whether the folder is there in which a document or a folder of this name stands."""
        folder = above(name)
        return folder is None or self.is_folder(folder)

    def take(self, effect: Effect, answer: object) -> None:
        """A command was carried out."""
        self.counter += 1
        if effect.what == "drop":
            self._remove(effect.name)
        elif effect.what == "put":
            self._add(effect.name, Document(self.counter, answer.nodes if isinstance(answer, natix.Loaded) else 0, time.time()))
            self.by_name[effect.name].parts = answer.intervals if isinstance(answer, natix.Loaded) else None
        elif effect.what == "rename":
            nodes = self.by_name[effect.name].nodes
            self._remove(effect.name)
            self._add(effect.new, Document(self.counter, nodes, time.time()))
        else:
            self.by_name[effect.name] = Document(self.counter, self.by_name[effect.name].nodes, time.time())

    def _add(self, name: str, document: Document) -> None:
        if name not in self.by_name:
            bisect.insort(self.sorted, name)
        self.by_name[name] = document

    def _remove(self, name: str) -> None:
        if self.by_name.pop(name, None) is not None:
            del self.sorted[bisect.bisect_left(self.sorted, name)]


def steps_below(documents: Documents, folder: str) -> Iterator[str]:
    """What stands right in a folder: documents, and folders with a slash at the end, each once."""
    last = None
    for name in documents.below(folder):
        step, slash, _ = name[len(folder):].partition(FOLDER)
        found = folder + step + slash
        if step and found != last:
            yield found
            last = found
