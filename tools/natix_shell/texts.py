"""Nodes, contents and refusals as a person reads them."""

from __future__ import annotations

from typing import Optional, Tuple

import natix

WORDS = {
    "syntax": "natix carries out no such command here",
    "exists": "there is a document of that name, or a store",
    "no-document": "there is no document of that name",
    "no-node": "there is no node at that path",
    "bad-place": "such a node can't stand there, or can't be taken from there",
    "twice": "the element has an attribute of that name",
    "no-content": "elements and the document's root have no content",
    "too-deep": "a node would be deeper than 256",
    "too-many": "the document would have more than 524,288 nodes",
    "too-many-rules": "there are 4,096 rules, which is the most",
    "full": "the store may have no pages left for that",
    "bad-code": "a line begins with none of ( ) A - ?",
    "long-line": "a name and a content have more than 1,048,576 bytes together",
    "bad-name": "that is no name",
    "bad-nesting": "elements don't end as they began, or something stands outside the root element",
    "bad-attribute": "an attribute stands behind something else",
    "unclosed": "an element isn't ended",
    "empty": "there is no element",
}


def shown_path(path: Tuple[int, ...]) -> str:
    return "".join(f"/{position}" for position in path) or "/"


def label(node: natix.Node) -> str:
    """What a node is called, as in a rule."""
    return {"document": "#doc", "text": "#text"}.get(node.kind) or {"attribute": "@", "instruction": "?"}.get(node.kind, "") + node.name


def quoted(content: str, most: Optional[int] = None) -> str:
    """A content on one line, cut where it is longer than that."""
    cut = most is not None and len(content) > most
    for character, pair in (("\\", "\\\\"), ("\n", "\\n"), ("\t", "\\t"), ("\r", "\\r")):
        content = (content[:most] if cut else content).replace(character, pair)
    return f'"{content}{"…" if cut else ""}"'


def described(node: natix.Node, most: Optional[int] = None) -> str:
    """A node on one line."""
    if node.kind in ("element", "document"):
        return f"{label(node)}/ ({node.children})"
    return f"{label(node)} {quoted(node.content, most)}"


def meaning(refused: natix.Refused) -> str:
    if refused.word == "too-heavy":
        return f"too-heavy: the node {shown_path(refused.path or ())} weighs {refused.weight} slots, more than a part may"
    line = f" in line {refused.line} of the PYX" if refused.line else ""
    return f"{refused.word}{line}: {WORDS.get(refused.word, 'see docs/FORMATS.md')}"


def count(number: int, what: str) -> str:
    return f"{number:,} {what}{'' if number == 1 else 's'}"


PLACED = ("get", "insert", "delete", "retext", "drop", "export", "layout")  # commands of one document


def why(error: BaseException) -> str:
    """What to say of something that went wrong."""
    if isinstance(error, natix.Refused):
        command, *words = error.command.split(" ", 3)
        place = " ".join(words[:2]) if command in PLACED else ""
        return f"{place}: refused: {meaning(error)}" if place else f"refused: {meaning(error)}"
    if isinstance(error, OSError) and error.strerror:
        return f"{error.filename}: {error.strerror}" if error.filename is not None else error.strerror
    return str(error)


def shown_loaded(loaded: natix.Loaded) -> str:
    parts = f", {count(loaded.intervals, 'part')}" if loaded.intervals else ""
    left = f"; left out: {', '.join(loaded.left_out)}" if loaded.left_out else ""
    return f"{count(loaded.nodes, 'node')}{parts}{left}"


def as_text(content: str) -> str:
    return content.replace("&", "&amp;").replace("<", "&lt;").replace(">", "&gt;").replace("\r", "&#13;")


def as_attribute(content: str) -> str:
    return as_text(content).replace('"', "&quot;").replace("\n", "&#10;").replace("\t", "&#9;")


class XmlWriter:
    """Makes XML of a node's lines, as they come. What XML can't have stands in it as it is."""

    def __init__(self) -> None:
        self.is_open = False  # a start tag isn't ended

    def line(self, line: str) -> str:
        code, name, content = natix.read_line(line)
        if code == "(":
            return self.ended(True) + f"<{name}"
        if code == ")":
            was_open, self.is_open = self.is_open, False
            return "/>" if was_open else f"</{name}>"
        if code == "A":
            return f' {name}="{as_attribute(content)}"'
        if code == "-":
            return self.ended() + as_text(content)
        if name == "natix:comment":
            return self.ended() + f"<!--{content}-->"
        if name == "natix:doctype":
            return self.ended() + f"<!DOCTYPE {content}>"
        return self.ended() + f"<?{name}{content and ' '}{content}?>"

    def ended(self, opens: bool = False) -> str:
        was_open, self.is_open = self.is_open, opens
        return ">" if was_open else ""
