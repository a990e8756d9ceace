"""Commands that look into documents."""

from __future__ import annotations

import re
from typing import Dict, Iterator, List, Tuple

import natix
from natix_files import Files
from natix_subtrees import Subtrees

from . import questions
from .places import Places, Row, read_words, take_option
from .session import Where, Wrong
from .terminal import Enough
from .texts import XmlWriter, count, described, shown_path

Path = Tuple[int, ...]


class Looks(Places):
    def width(self, used: int) -> int:
        return max(20, self.screen.columns - used - 20) if self.screen.is_terminal else 60

    def do_ls(self, words: List[str]) -> None:
        read = read_words("ls [--json] [WHERE]", words, "--json")
        if not read.rest and self.session.cursor is None:
            documents = self.session.refresh().items()
            self.list(((f"{name}/ ({count(nodes, 'node')})", {"name": name, "nodes": nodes}) for name, nodes in documents), read.json)
        else:
            self.list(self.rows_of(self.where(read.rest)), read.json)

    def rows_of(self, where: Where) -> Iterator[Row]:
        """The children of a node."""
        for position, node in self.session.children(where, self.session.get(where).children):
            yield f"{position} {described(node, self.width(8))}", {"position": position, **node._asdict()}

    def do_cd(self, words: List[str]) -> None:
        cursor = self.session.cursor
        if not words or words == [".."] and (cursor is None or not cursor.path):
            self.session.cursor = None
            return
        where = self.where(words)
        if self.session.get(where).kind not in ("element", "document"):
            raise Wrong(f"nothing stands below {where}")
        self.session.cursor = where

    def do_tree(self, words: List[str]) -> None:
        read = read_words("tree [--json] [-N] [WHERE]", words, "--json")
        depth, rest = 256, read.rest
        if rest and re.fullmatch(r"-[0-9]+", rest[0]):
            depth, rest = int(rest[0][1:]), rest[1:]
        self.list(self.rows_below(self.where(rest), depth), read.json)

    def rows_below(self, where: Where, depth: int) -> Iterator[Row]:
        """A node and those below it."""
        node, path = self.session.get(where), list(where.path)
        yield f"{shown_path(where.path)} {described(node, self.width(8))}", {"path": shown_path(where.path), **node._asdict()}
        for level, position, below, begins in self.session.walk(where, node, depth):
            if begins and level <= depth:
                path[len(where.path) + level - 1:] = [position]
                row = f"{'  ' * level}{position} {described(below, self.width(2 * level + 8))}"
                yield row, {"path": shown_path(tuple(path)), **below._asdict()}

    def do_show(self, words: List[str]) -> None:
        where = self.where(words)
        node = self.session.get(where)
        if node.kind not in ("element", "document"):
            self.screen.line(node.content)
            return
        writer = XmlWriter()
        self.subtrees(where.name, Subtrees([where.path], lambda _, line: self.screen.put(writer.line(line))))
        self.screen.put("\n")

    def subtrees(self, name: str, taker: Subtrees) -> None:
        """Reads a document once, and hands on the lines below some of its nodes."""
        Files(self.session.of(name)).pour(name, taker)
        if taker.error:
            raise taker.error
        if taker.stopped and self.session.interrupt.asked:
            raise Enough("stopped")

    def xml_at(self, name: str, paths: List[Path]) -> Iterator[Row]:
        """What stands at some paths, in document order."""
        texts: Dict[Path, List[str]] = {path: [] for path in paths}
        writers = {path: XmlWriter() for path in paths}
        self.subtrees(name, Subtrees(paths, lambda path, line: texts[path].append(writers[path].line(line))))
        for path in sorted(paths):
            xml = "".join(texts[path]).strip() if texts[path] and texts[path][0].startswith(" ") else "".join(texts[path])
            yield f"{shown_path(path)} {xml}", {"path": shown_path(path), "xml": xml}

    def do_get(self, words: List[str]) -> None:
        where = self.where(words)
        self.screen.line(f"{shown_path(where.path)} {described(self.session.get(where))}")

    def do_find(self, words: str) -> None:
        name, steps, as_json = self.question("find [--json] NAME STEPS", words)
        paths = questions.find(self.session, name, [steps])[0]
        nodes = self.session.of(name).ask_all([natix.get(name, path) for path in paths])
        self.list(((f"{shown_path(path)} {described(node, self.width(8))}", {"path": shown_path(path), **node._asdict()})
                   for path, node in zip(paths, nodes)), as_json)

    def do_xpath(self, words: str) -> None:
        name, xpath, as_json = self.question("xpath [--json] NAME XPATH", words)
        question = questions.of_xpath(xpath)
        if question is not None:
            paths = questions.answer(self.session, name, question)
        else:
            self.tell(f"the store answers no such question: lxml does, over an export of {name}")
            found = questions.by_lxml(self.session, name, xpath)
            if not isinstance(found, list):
                self.list([(str(found), {"value": found})], as_json)
                return
            paths = found
        self.list(self.xml_at(name, paths), as_json)

    def question(self, usage: str, words: str) -> Tuple[str, str, bool]:
        """The document and the question of a line, and whether JSON is asked for."""
        as_json, words = take_option("--json", words)
        cursor = self.session.cursor
        first, _, rest = words.partition(" ")
        name, asked = (cursor.name, words) if cursor is not None and first not in self.session.documents else (first, rest.strip())
        if asked[:1] in "'\"" and asked[-1:] == asked[:1] and asked.count(asked[:1]) == 2:
            asked = asked[1:-1]
        if not asked:
            raise Wrong(f"usage: {usage}")
        return self.document(name), asked, as_json

    def do_layout(self, words: List[str]) -> None:
        read = read_words("layout [--json] [NAME]", words, "--json")
        names = read.rest or ([self.session.cursor.name] if self.session.cursor else [])
        if len(names) != 1:
            raise Wrong("usage: layout [--json] NAME")
        name = self.document(names[0])
        if self.session.of(name) is not self.session.store:
            raise Wrong(f"the parts of {name} are known once the transaction is carried out")
        self.list((self.row_of_part(part) for part in self.session.store.layout(name)), read.json)

    def row_of_part(self, part: natix.Interval) -> Row:
        members = "the root"
        if part.parent is not None:
            members = f"{shown_path(part.parent).rstrip('/')}/{part.first}" + (f"..{part.last}" if part.last > part.first else "")
        parent = None if part.parent is None else shown_path(part.parent)
        return f"{members} weighs {part.weight}", {**part._asdict(), "parent": parent}

    def do_rules(self, words: List[str]) -> None:
        read = read_words("rules [--json]", words, "--json")
        self.list(((f"{parent} {child} {entry}", {"parent": parent, "child": child, "entry": entry})
                   for (parent, child), entry in self.session.rules().items()), read.json)
