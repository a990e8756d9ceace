"""Completion by Tab: commands, documents, files, and the labels of children."""

from __future__ import annotations

import os
import re
from typing import Dict, Iterable, List, Optional

import natix

from .commands import HELP, Row, Shell
from .edits import ENTRIES
from .session import Where, Wrong
from .terminal import Enough
from .texts import label

FILES = ("load", "dump", "backup", "compact")
FILES_BEHIND = ("save", "put")  # a name and a file
NAMES = ("rm", "mv", "cp", "save", "put", "layout", "find", "xpath")
SEEN = 1000  # children that completion looks at


class Completion:
    """Completes commands, documents, files, and the labels of children."""

    def __init__(self, shell: Shell) -> None:
        self.shell, self.session = shell, shell.session
        self.found: List[str] = []
        self.ended: Optional[natix.Ended] = None  # what the program said while it was asked for labels

    def complete(self, text: str, number: int) -> Optional[str]:
        import readline
        if number == 0:
            self.session.interrupt.prompting = False  # an exchange that is broken off would end the program
            try:
                self.found = sorted(set(self.candidates(readline.get_line_buffer()[:readline.get_begidx()].split(), text)))
            except natix.Ended as end:
                self.found, self.ended = [], end
            except (natix.Error, Wrong, Enough, OSError, ValueError):
                self.found = []
            finally:
                self.session.interrupt.prompting = True
        return self.found[number] if number < len(self.found) else None

    def candidates(self, before: List[str], text: str) -> Iterable[str]:
        if not before or before[0] == "help":
            return [name + " " for name in HELP if name.startswith(text)]
        command, at = before[0], len(before) - 1
        if before[1:2] and before[1].startswith("-") and command == "tree":
            at -= 1
        if command in FILES or command in FILES_BEHIND and at == 1:
            return self.files(text)
        if command == "rule":
            return self.labels(at, text)
        if command in NAMES and (at == 0 or command == "rm"):
            return self.names(text)
        if "WHERE" not in HELP.get(command, Row("", "")).words:
            return []
        cursor = self.session.cursor
        if at == 0:
            return [*(self.below(cursor, text) if cursor else ()), *(self.names(text) if not cursor or command not in ("insert", "retext", "graft", "replace") else ())]
        start = before[len(before) - 1] if before[len(before) - 1] in self.session.documents else before[1]
        if at == 1 or command in ("move", "copy") and at < 4:
            return self.below(Where(start, ()) if start in self.session.documents or not cursor else cursor, text)
        return []

    def names(self, text: str) -> List[str]:
        return [name + " " for name in self.session.documents if name.startswith(text)]

    def files(self, text: str) -> List[str]:
        folder, last = os.path.split(text)
        with os.scandir(os.path.expanduser(folder) or ".") as found:
            return [os.path.join(folder, entry.name) + ("/" if entry.is_dir() else " ") for entry in found
                    if entry.name.startswith(last) and not re.search(r"""[\s"'\\]""", entry.name) and (last or not entry.name.startswith("."))]

    def below(self, start: Where, text: str) -> List[str]:
        """Paths to the children of the node that the path so far leads to, by their labels."""
        folder, slash, last = text.rpartition("/")
        where = self.shell.resolve(start, folder + slash) if slash else start
        seen: Dict[str, int] = {}
        found = []
        for position, node in self.session.children(where, min(SEEN, self.session.get(where).children)):
            name = label(node)
            number = seen[name] = seen.get(name, 0) + 1
            for step in (name if number == 1 else f"{name}[{number}]", str(position) if last.isdigit() else ""):
                if step and step.startswith(last):
                    found.append(f"{folder}{slash}{step}")
        return found

    def labels(self, at: int, text: str) -> List[str]:
        """Words of a rule: the labels that the first nodes of the documents have."""
        if at == 2:
            return [word for word in ENTRIES if word.startswith(text)]
        found = {"#doc"} if at == 0 else {"#text"}
        cursor = self.session.cursor
        for name in [cursor.name] if cursor else list(self.session.documents)[:10]:
            where = Where(name, ())
            for seen, (_, _, node, _) in enumerate(self.session.walk(where, self.session.get(where))):
                if seen >= SEEN:
                    break
                if at == 1 or node.kind == "element":
                    found.add(label(node))
        return [word + " " for word in found if word.startswith(text) and at < 2]
