"""Commands that change documents where they lie, transactions of them, and the command that takes such a change back."""

from __future__ import annotations

import os
from typing import Any, Callable, List, Optional, Tuple

import natix
import natix_sources
import natix_subtrees

from .places import Places, take_option
from .session import KEPT_BYTES, TOO_LONG, Edit, Where, Wrong, together
from .texts import count, meaning

ENTRIES = ("standalone", "cluster", "free")
Inverse = Optional[natix.Command[Any]]


class Edits(Places):
    def children_of(self, where: Where) -> int:
        return self.session.get(where).children

    def below(self, where: Where) -> Where:
        """The node above a place, which stands below a document's root."""
        if not where.path:
            raise Wrong(f"a place is said by a path, and {where} is the document's root")
        return Where(where.name, where.path[:-1])

    def grown(self, parent: Where, before: int, by: int) -> Callable[[natix.Store], bool]:
        """Finds out whether a node has so many children more than it had."""
        return lambda store: store.get(*parent).children == before + by

    def changed(self, where: Where, before: natix.Pyx) -> Callable[[natix.Store], bool]:
        """Finds out whether a node, with all below it, isn't what it was."""
        return lambda store: store.subtree(*where) != before

    # Single nodes

    def do_insert(self, words: str) -> None:
        where, line = self.where_and_rest(words, "LINE")
        node = natix.Node.read("A" + line[1:] if line.startswith("@") else line)
        parent = Where(where.name, where.path[:-1])
        was_done = self.grown(parent, self.children_of(parent) if where.path else 0, 1)
        self.session.carry_out(Edit(natix.insert(*where, node), natix.delete(*where), "", was_done, ((where, 1),)))
        self.screen.line("ok")

    def do_delete(self, words: List[str]) -> None:
        where = self.where(words)
        parent = Where(where.name, where.path[:-1])
        lines, before = self.session.lines(where) if where.path else natix.Pyx(b""), self.children_of(parent)
        inverse = self.inverse(natix.graft(*where, lines)) if where.path else None
        self.session.carry_out(Edit(natix.delete(*where), inverse, TOO_LONG, self.grown(parent, before, -1), ((where, -1),)))
        self.screen.line("ok")

    def do_retext(self, words: str) -> None:
        where, line = self.where_and_rest(words, "CONTENT")
        before, content = self.session.get(where).content, natix.Node.read("-" + line).content
        self.session.carry_out(Edit(natix.retext(*where, content), natix.retext(*where, before), "", lambda store: store.get(*where).content == content))
        self.screen.line("ok")

    def inverse(self, commands: List[natix.Command[Any]]) -> Inverse:
        """What takes an edit back, as one command, where that isn't too long to be kept."""
        found = together(commands)
        return found if len(found.body) <= KEPT_BYTES else None

    # Subtrees, each by one transaction

    def fragment(self, text: str, keep: bool) -> natix.Pyx:
        """The lines of some XML, or of a file that has some."""
        if "<" in text:
            return self.some(natix_subtrees.fragment(text, keep))
        path = os.path.expanduser(text)
        if not path or os.path.isdir(path):
            raise Wrong(f"{text or 'nothing'} is neither XML nor a file that has some")
        with os.fdopen(os.dup(0), "rb") if path == "-" else open(path, "rb") as file, natix_sources.naming(path):
            data = file.read()
            return self.some(natix.Pyx(data) if path.endswith(".pyx") else natix_subtrees.fragment(data, keep))

    def some(self, lines: natix.Pyx) -> natix.Pyx:
        if not lines.strip():
            raise Wrong("there is no node in that")
        return lines

    def told(self, lines: natix.Pyx) -> None:
        left = f"; left out: {', '.join(lines.left_out)}" if lines.left_out else ""
        self.screen.line(f"ok: {count(natix_subtrees.count_nodes(lines), 'node')}{left}")

    def do_graft(self, words: str) -> None:
        keep, words = take_option("--keep", words)
        where, text = self.where_and_rest(words, "XML")
        self.put_at(where, self.fragment(text, keep), f"graft {where}")

    def put_at(self, where: Where, lines: natix.Pyx, said: str) -> None:
        """Puts nodes at a place."""
        parent, tops = self.below(where), natix_subtrees.count_tops(lines)
        was_done = self.grown(parent, self.children_of(parent), tops)
        self.session.carry_out(Edit(together(natix.graft(*where, lines)), together([natix.delete(*where)] * tops), "", was_done, ((where, tops),), said=said))
        self.told(lines)

    def do_replace(self, words: str) -> None:
        keep, words = take_option("--keep", words)
        where, text = self.where_and_rest(words, "XML")
        self.below(where)
        lines = self.fragment(text, keep)
        tops = natix_subtrees.count_tops(lines)
        self.exchange(where, self.session.lines(where), lines, ((where, -1), (where, tops)), f"replace {where}")
        self.told(lines)

    def exchange(self, where: Where, old: natix.Pyx, new: natix.Pyx, moved: Tuple[Tuple[Where, int], ...], said: str) -> None:
        """Puts nodes in the place of one, with all below it."""
        name = where.name
        if len(where.path) == 1 and old.startswith(b"("):  # a document always has its root element
            document = self.session.of(name).export(name, natix.Pyx)
            command = natix.Transaction([natix.drop(name), natix.load(name, natix_subtrees.with_root(document, new))])
            inverse = self.inverse([natix.drop(name), natix.load(name, document)])
        else:
            command = natix.Transaction([natix.delete(*where), *natix.graft(*where, new)])
            inverse = self.inverse([*[natix.delete(*where)] * natix_subtrees.count_tops(new), *natix.graft(*where, old)])
        self.session.carry_out(Edit(command, inverse, TOO_LONG, self.changed(where, old), moved, said=said))

    def do_relabel(self, words: List[str]) -> None:
        if not words:
            raise Wrong("usage: relabel WHERE NAME")
        where = self.where(words[:-1])
        self.below(where)
        old = self.session.lines(where)
        new = natix_subtrees.relabelled(old, words[-1].encode("utf-8", "surrogateescape"))
        self.exchange(where, old, new, (), f"relabel {where} {words[-1]}")
        self.screen.line("ok")

    def two_places(self, command: str, words: List[str]) -> Tuple[Where, Where]:
        """Where something is, and where it is to be."""
        if len(words) not in (2, 3, 4):
            raise Wrong(f"usage: {command} WHERE WHERE")
        one = 1 if len(words) == 2 or len(words) == 3 and words[0] not in self.session.documents else 2
        source, place = self.where(words[:one]), words[one:]
        to = self.where(place) if len(place) == 2 else self.resolve(self.session.cursor if one == 1 and self.session.cursor else Where(source.name, ()), place[0])
        self.below(source)
        self.below(to)
        return source, to

    def do_move(self, words: List[str]) -> None:
        source, to = self.two_places("move", words)
        said = f"move {source} {to}"
        if source.name == to.name:
            if natix_subtrees.is_below(to.path, source.path):
                raise Wrong(f"{to} is below {source}, and a node can't stand below itself")
            to = Where(to.name, natix_subtrees.without(to.path, source.path))
        lines = self.session.lines(source)
        inverse = self.inverse([natix.delete(*to), *natix.graft(*source, lines)])
        before = self.session.sight(source.name).found.digest()
        self.session.carry_out(Edit(natix.Transaction([natix.delete(*source), *natix.graft(*to, lines)]), inverse, TOO_LONG,
                                    lambda store: self.session.sight(source.name, store).found.digest() != before, ((source, -1), (to, 1)), said=said))
        self.screen.line(f"ok: {to}")

    def do_copy(self, words: List[str]) -> None:
        source, to = self.two_places("copy", words)
        self.put_at(to, self.session.lines(source), f"copy {source} {to}")

    # Rules and the log

    def do_rule(self, words: List[str]) -> None:
        if len(words) != 3 or words[2] not in ENTRIES:
            raise Wrong(f"usage: rule PARENT CHILD ENTRY, which is {', '.join(ENTRIES)}")
        parent, child, entry = words
        before = self.session.rules().get((parent, child), "free")
        self.session.carry_out(Edit(natix.rule(parent, child, entry), natix.rule(parent, child, before), "",
                                    lambda store: store.rules().get((parent, child), "free") == entry))
        self.screen.line("ok")

    def do_checkpoint(self, words: List[str]) -> None:
        self.session.carry_out(Edit(natix.checkpoint(), None, "", lambda store: False))
        self.screen.line("ok")

    # Transactions

    def do_begin(self, words: List[str]) -> None:
        if words or self.session.pending is not None:
            raise Wrong("usage: begin" if words else "a transaction is begun already: `commit` or `rollback` ends it")
        self.session.begin()
        self.screen.line("ok")

    def do_commit(self, words: List[str]) -> None:
        pending = self.session.pending
        if pending is None:
            raise Wrong("no transaction is begun")
        number = len(pending.commands)
        if pending.spoiled:
            self.session.roll_back()
            self.session.refresh()
            raise Wrong("a command of the transaction was refused, so nothing of it is carried out")
        try:
            if number:
                self.session.commit()
            else:
                self.session.end_pending()
        except natix.Refused as refused:
            self.session.refresh()
            place = f"command {refused.number}, `{refused.command}`: " if refused.number else ""
            raise Wrong(f"{place}refused: {meaning(refused)}; nothing of the transaction is carried out")
        self.session.refresh()
        self.screen.line(f"ok: {count(number, 'command')} as one")

    def do_rollback(self, words: List[str]) -> None:
        if self.session.pending is None:
            raise Wrong("no transaction is begun")
        number = len(self.session.pending.commands)
        self.session.roll_back()
        self.session.refresh()
        self.screen.line(f"ok: {count(number, 'command')} left out")

    def do_undo(self, words: List[str]) -> None:
        if not self.session.edits:
            raise Wrong("there is no edit of this session to take back")
        edit = self.session.edits[-1]
        if edit.inverse is None:
            raise Wrong(f"nothing takes `{edit.shown()}` back: {edit.why}")
        self.session.carry_out(edit.taken_back())
        self.session.refresh()
        self.screen.line(f"taken back: {edit.shown()}")
