"""Nodes and intervals, and how they and words stand in commands, replies and lines of PYX."""

from __future__ import annotations

import re
from typing import List, NamedTuple, Optional, Sequence, Tuple, Union

Path = Tuple[int, ...]


# What comes back


class Loaded(NamedTuple):
    """How many nodes a document has, its root counted, how many intervals it is stored in, and what of its XML was left out:
    comments and the document type, where `keep` didn't ask for them."""

    nodes: int
    intervals: int
    left_out: Tuple[str, ...] = ()

    def __repr__(self) -> str:
        more = f", left_out={self.left_out!r}" if self.left_out else ""
        return f"Loaded(nodes={self.nodes}, intervals={self.intervals}{more})"


class Node(NamedTuple):
    """A node. Its kind is `document`, `element`, `attribute`, `text` or `instruction`."""

    kind: str
    name: str = ""
    content: str = ""
    children: int = 0

    @classmethod
    def element(cls, name: str) -> Node:
        return cls("element", name)

    @classmethod
    def attribute(cls, name: str, content: str = "") -> Node:
        return cls("attribute", name, content)

    @classmethod
    def text(cls, content: str) -> Node:
        return cls("text", "", content)

    @classmethod
    def instruction(cls, name: str, content: str = "") -> Node:
        return cls("instruction", name, content)

    @classmethod
    def read(cls, line: str) -> Node:
        """The node of a line of PYX that isn't an end.

        >>> Node.read("Aname tea\\\\tcup")
        Node(kind='attribute', name='name', content='tea\\tcup', children=0)
        """
        if line[:1] not in KINDS:
            raise ValueError(f"{line!r} is no line of PYX that says a node")
        return node_of_line(bytes_of(line), 0)


class Interval(NamedTuple):
    """Children of the node at `parent`, from the `first` to the `last`, and what the part of the document that is kept
    with them weighs. The interval of the root alone has no parent."""

    parent: Optional[Path]
    first: int
    last: int
    weight: int


class Bound(NamedTuple):
    """What is certified of a node's subtree: docs/FORMATS.md, "Plans"."""

    least: int
    lean: int
    nearly: int


class Plan(NamedTuple):
    """Intervals that cut a document into as few parts as possible, and a bound for each node."""

    intervals: List[Interval]
    bounds: List[Bound]


# Words and lines


def bytes_of(text: Union[str, bytes]) -> bytes:
    return text if isinstance(text, bytes) else text.encode("utf-8", "surrogateescape")


def text_of(data: bytes) -> str:
    return data.decode("utf-8", "surrogateescape")


ESCAPES = {b"\\n": b"\n", b"\\t": b"\t", b"\\r": b"\r", b"\\\\": b"\\"}
ESCAPE = re.compile(rb"\\[ntr\\]")


def escaped(content: Union[str, bytes]) -> bytes:
    data = bytes_of(content).replace(b"\\", b"\\\\")
    return data.replace(b"\n", b"\\n").replace(b"\t", b"\\t").replace(b"\r", b"\\r")


def content_of(data: bytes) -> str:
    return text_of(ESCAPE.sub(lambda found: ESCAPES[found.group()], data) if b"\\" in data else data)


def word_of(word: Union[str, bytes]) -> bytes:
    """A word of a command. One that would be more than a word is no name for natix either."""
    data = bytes_of(word)
    if not data or re.search(rb"[\0- ]", data):
        raise ValueError(f"{word!r} is no word of a command")
    return data


def path_word(path: Sequence[int]) -> bytes:
    if any(type(position) is not int or position < 0 for position in path):
        raise ValueError(f"{path!r} is no path: it is a tuple of positions from 0 on")
    return b"".join(b"/%d" % position for position in path) or b"/"


def read_path(text: str) -> Path:
    """The path that `/0/2` is."""
    return tuple(int(position) for position in text.split("/")[1:] if position)


KINDS = {"(": "element", "A": "attribute", "-": "text", "?": "instruction"}
CODES = {kind: code.encode() for code, kind in KINDS.items()}


def line_of_node(node: Node) -> bytes:
    """The line of a node, as of an `insert`."""
    if node.kind not in CODES:
        raise ValueError(f"{node.kind!r} is no kind of a node that can be put in")
    code, content = CODES[node.kind], escaped(node.content)
    if node.kind == "text":
        return code + content
    name = bytes_of(node.name)
    if b"\n" in name or b"\r" in name or b" " in name:
        raise ValueError(f"{node.name!r} is no name")
    return code + name + (b" " + content if node.kind == "attribute" or content else b"")


def read_node(reply: List[bytes]) -> Node:
    _, children, line = reply[0].split(b" ", 2)
    return node_of_line(line, int(children))


def node_of_line(line: bytes, children: int) -> Node:
    kind = KINDS.get(text_of(line[:1]))
    if kind is None:
        return Node("document", "", "", children)
    if kind == "text":
        return Node(kind, "", content_of(line[1:]), children)
    name, _, content = line[1:].partition(b" ")
    return Node(kind, text_of(name), content_of(content), children)


def read_line(line: str) -> Tuple[str, str, str]:
    """The code of a line of PYX, its name and its content; that of a text has no name."""
    code, rest = line[:1], line[1:]
    name, _, content = ("", "", rest) if code == "-" else rest.partition(" ")
    return code, name, content_of(bytes_of(content)) if "\\" in content else content


def read_interval(line: bytes) -> Interval:
    words = line.split()
    if words[0] == b"root":
        return Interval(None, 0, 0, int(words[1]))
    return Interval(read_path(text_of(words[1])), int(words[2]), int(words[3]), int(words[4]))
