"""What all commands share: where nodes are, the words of a command, and rows that are listed."""

from __future__ import annotations

import argparse
import json
import re
from typing import Any, Callable, Dict, Iterable, List, NoReturn, Tuple

import natix

from .session import Session, Where, Wrong
from .terminal import Screen
from .texts import label, quoted

Row = Tuple[str, Dict[str, Any]]  # what is listed: as a line, and for --json


class Reader(argparse.ArgumentParser):
    """Reads the words of a command."""

    def error(self, message: str) -> NoReturn:
        raise Wrong(f"usage: {self.prog}")


def read_words(usage: str, words: List[str], *options: str) -> argparse.Namespace:
    """The words of a command: those that are no options are `rest`; an option whose name ends with = takes a word."""
    reader = Reader(prog=usage, add_help=False, allow_abbrev=False)
    for option in options:
        if option.endswith("="):
            reader.add_argument(option[:-1], dest=option.strip("-="))
        else:
            reader.add_argument(option, dest=option.strip("-"), action="store_true")
    reader.add_argument("rest", nargs="*")
    return reader.parse_intermixed_args(words)


def take_option(option: str, words: str) -> Tuple[bool, str]:
    """Whether an option stands before the words of a plain command, and these words without it."""
    has = words.startswith(option + " ")
    return has, words[len(option):].lstrip() if has else words


class Places:
    """Finds the nodes that words lead to."""

    def __init__(self, session: Session, screen: Screen, tell: Callable[[str], None]) -> None:
        self.session, self.screen, self.tell = session, screen, tell

    def where(self, words: List[str]) -> Where:
        """The node that words lead to."""
        cursor = self.session.cursor
        if len(words) > 2:
            raise Wrong("that is more than a document and a path")
        if len(words) == 2:
            return self.resolve(Where(self.document(words[0]), ()), words[1])
        if not words:
            if cursor is None:
                raise Wrong("which document? `ls` lists them")
            return cursor
        return self.resolve(cursor, words[0]) if cursor is not None else Where(self.document(words[0]), ())

    def resolve(self, start: Where, path: str) -> Where:
        """The node that a path leads to. Whether a node stands at a position isn't asked."""
        steps = list(start.path)
        if path.startswith("/"):
            steps = []
        for step in path.split("/"):
            if step in ("", "."):
                continue
            if step == "..":
                if not steps:
                    raise Wrong("there is nothing above the document")
                steps.pop()
            elif re.fullmatch(r"[0-9]+", step):
                steps.append(int(step))
            else:
                steps.append(self.child(Where(start.name, tuple(steps)), step))
        return Where(start.name, tuple(steps))

    def child(self, where: Where, step: str) -> int:
        """The position of the child that a label says. Of several of one label the first is meant, or the one whose number
        stands in brackets: they count from 1, as in XPath."""
        found = re.fullmatch(r"(.+)\[([0-9]+)\]", step)
        wanted, number = (found.group(1), int(found.group(2))) if found else (step, 1)
        if number == 0:
            raise Wrong(f"{step}: numbers in brackets begin with 1")
        left = number
        for position, node in self.session.children(where, self.session.get(where).children):
            if label(node) == wanted:
                left -= 1
                if not left:
                    return position
        other = f"; the document of that name is `{step} /`" if step in self.session.documents else ""
        raise Wrong(f"no child {step} at {where}{other}")

    def where_and_rest(self, words: str, what: str) -> Tuple[Where, str]:
        """The node of an edit, and what stands behind it."""
        number = 1 if self.session.cursor else 2
        parts = words.split(" ", number)
        if len(parts) <= number and what != "CONTENT" or len(parts) < number:
            raise Wrong(f"usage: {'PATH' if number == 1 else 'NAME PATH'} {what}")
        return self.where(parts[:number]), parts[number] if len(parts) > number else ""

    def document(self, name: str) -> str:
        """The name of a document that is there."""
        if name not in self.session.documents:
            near = [other for other in self.session.documents if other.lower().startswith(name.lower())][:3]
            raise Wrong(f"there is no document {name}" + (f": {', '.join(near)}?" if near else ""))
        return name

    def new_name(self, name: str, more: str = "") -> str:
        """A name for a document."""
        if not re.fullmatch(r"[!-,.-~][!-~]{0,254}", name) or name.startswith(natix.REPLACEMENT):
            raise Wrong(f"{quoted(name)} is no name of a document{more}")
        return name

    def list(self, rows: Iterable[Row], as_json: bool) -> None:
        """Lists rows: a line each, or all as one array of JSON."""
        if not as_json:
            for text, _ in rows:
                self.screen.line(text)
            return
        behind = "["
        for _, fields in rows:
            self.screen.put(f"{behind}\n  {json.dumps(fields)}")
            behind = ","
        self.screen.line("[]" if behind == "[" else "\n]")
