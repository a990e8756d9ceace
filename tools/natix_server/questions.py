"""Questions about the lines of a document: a part of them, and which nodes names reach.

A session of natix answers `get` and `export`, but neither the lines of a subtree nor which nodes names reach: so these are worked out here of
an export of the whole document. Where a session answers them, `cut`, `reached` and `matched` are what it replaces.
"""

from __future__ import annotations

from typing import Any, Dict, Iterator, List, NamedTuple, Optional, Set, Tuple

import natix
import natix_lines
import natix_steps
from natix_shell.questions import Question, of_xpath

Path = Tuple[int, ...]


class Found(NamedTuple):
    """A node that a question reached: its path, and its line as PYX has it."""

    path: Path
    line: bytes


class NoQuestion(Exception):
    """What was asked is no question that natix answers."""


def cut(lines: bytes, path: Path) -> Optional[bytes]:
    """The lines of the node at a path and of all below it, None where no node is there."""
    if not path:
        return lines
    at, here, below = 0, [0], 0  # the line, the position of the next child of each open node, and which of them are on the path
    while at < len(lines):
        end = lines.index(b"\n", at) + 1
        code = lines[at:at + 1]
        if code == b")":
            here.pop()
            below = min(below, len(here) - 1)
            if not here:
                return None
        else:
            on_path = below == len(here) - 1 and here[-1] == path[below]
            here[-1] += 1
            if on_path and len(here) == len(path):
                return lines[at:end] if code != b"(" else lines[at:end_of_element(lines, end)]
            if code == b"(":
                below += on_path
                here.append(0)
        at = end
    return None


def end_of_element(lines: bytes, at: int) -> int:
    """Where the lines of an element end whose first line ends here."""
    depth = 1
    while depth:
        code = lines[at:at + 1]
        depth += (code == b"(") - (code == b")")
        at = lines.index(b"\n", at) + 1
    return at


def label_of(line: bytes) -> bytes:
    """What a node is called, by its line."""
    code = line[:1]
    if code == b"(":
        return line[1:]
    if code == b"-":
        return b"#text"
    return (b"@" if code == b"A" else b"?") + line[1:].partition(b" ")[0]


def content_of(line: bytes) -> str:
    """The content of a node, by its line; an element has none."""
    return "" if line[:1] == b"(" else natix_lines.node_of_line(line, 0).content


class Steps:
    """The steps of a question, by which a walk through a document goes."""

    def __init__(self, text: str) -> None:
        try:
            steps = natix_steps.steps_of(text)
        except natix_steps.CannotTurn as why:
            raise NoQuestion(str(why))
        self.last = 1 << len(steps)
        self.by_label: Dict[bytes, List[Tuple[int, bool]]] = {}
        self.floats = sum(1 << at for at, (axis, _) in enumerate(steps) if axis == "//")
        for at, (axis, label) in enumerate(steps):
            self.by_label.setdefault(label.encode("utf-8", "surrogateescape"), []).append((1 << at, axis == "//"))

    def of_child(self, label: bytes, direct: int, floating: int) -> int:
        """How far the steps have come at a child, as bits: those that lead to its parent, and those that lead to it or a node above."""
        return sum(step << 1 for step, floats in self.by_label.get(label, ()) if step & (floating if floats else direct))


def reached(lines: bytes, text: str) -> Iterator[Found]:
    """The nodes that name steps reach, in document order."""
    steps = Steps(text)
    open_nodes = [(1, 1 & steps.floats)]
    path: List[int] = []  # that of the innermost open element
    here = [0]  # the position of the next child of each open node
    for line in lines.split(b"\n")[:-1]:
        if line[:1] == b")":
            open_nodes.pop()
            here.pop()
            path.pop()
            continue
        direct, floating = open_nodes[-1]
        come = steps.of_child(label_of(line), direct, floating)
        if come & steps.last:
            yield Found((*path, here[-1]), line)
        if line[:1] == b"(":
            open_nodes.append((come, floating | come & steps.floats))
            path.append(here[-1])
            here.append(0)
            here[-2] += 1
        else:
            here[-1] += 1


def matched(lines: bytes, text: str, content: str) -> Iterator[Found]:
    """Those of the nodes that have this content."""
    return (found for found in reached(lines, text) if found.line[:1] != b"(" and content_of(found.line) == content)


def by_xpath(lines: bytes, xpath: str) -> List[Found]:
    """What an XPath of names and one equality with an attribute finds."""
    question = of_xpath(xpath)
    if question is None:
        raise NoQuestion("names, and one equality with an attribute, are what can be asked")
    if not question.behind:
        return list(reached(lines, question.steps))
    return answered(lines, question)


def answered(lines: bytes, question: Question) -> List[Found]:
    steps = natix_steps.steps_of(question.steps)
    front = "".join(axis + label for axis, label in steps[:question.behind])
    nodes: Set[Path] = {found.path[:-1] for found in matched(lines, f"{front}/@{question.attribute}", question.content)}
    below = len(steps) - question.behind
    return [found for found in reached(lines, question.steps) if found.path[:len(found.path) - below] in nodes]


# As JSON


def of_node(node: natix.Node) -> Dict[str, Any]:
    """A node as JSON has it. Bytes that are no UTF-8 stand in it as Python's surrogates for them."""
    fields: Dict[str, Any] = {"kind": node.kind}
    if node.name:
        fields["name"] = node.name
    if node.kind not in ("document", "element"):
        fields["content"] = node.content
    return fields


def tree_of(lines: bytes, whole: bool) -> Dict[str, Any]:
    """The nodes of lines as JSON: of a whole document its root, else the one that the first line says."""
    root: Dict[str, Any] = {"kind": "document", "children": []}
    open_nodes = [root["children"]]
    for line in lines.split(b"\n")[:-1]:
        if line[:1] == b")":
            open_nodes.pop()
            continue
        fields = of_node(natix_lines.node_of_line(line, 0))
        open_nodes[-1].append(fields)
        if line[:1] == b"(":
            fields["children"] = []
            open_nodes.append(fields["children"])
    return root if whole else root["children"][0]
