"""Parts of documents: the lines of nodes beside each other with all below them, as they are put at a path or taken from one."""

from __future__ import annotations

import re
from typing import Callable, Iterable, Iterator, List, Optional, Sequence, Set, Tuple

from natix_sources import NotXml, Pyx, Source, pyx

Path = Tuple[int, ...]
Take = Callable[[Path, str], None]
HELPER = b"natix"  # what the nodes of a fragment stand in while they are read
DOCUMENT = re.compile(rb"(\xef\xbb\xbf)?\s*(<\?xml\s|((<!--.*?-->|<\?.*?\?>)\s*)*<!DOCTYPE)", re.S)


def fragment(source: Source, keep: bool = False) -> Pyx:
    """The lines of nodes that are to stand beside each other: those of a string or bytes of XML, which may be any that an element can
    have, and those at the top of what is a document for `pyx`.

    >>> fragment("<a>x</a> and <b/>")
    b'(a\\n-x\\n)a\\n- and \\n(b\\n)b\\n'
    >>> fragment("<a>")
    Traceback (most recent call last):
    natix.NotXml: line 1, column 6: mismatched tag
    """
    if isinstance(source, Pyx):
        return source
    if isinstance(source, str):
        source = source.encode()
    if not isinstance(source, bytes) or DOCUMENT.match(source):
        return pyx(source, keep)
    begin = b"<%b>" % HELPER
    try:
        lines = pyx(b"%b%b</%b>" % (begin, source, HELPER), keep)
    except NotXml as error:
        raise NotXml(re.sub(r"^line 1, column (\d+)", lambda place: f"line 1, column {int(place[1]) - len(begin)}", str(error))) from None
    made = Pyx(lines[len(HELPER) + 2:-len(HELPER) - 2])
    made.left_out = lines.left_out
    return made


def nodes_of(lines: bytes) -> List[bytes]:
    """The lines of nodes and of ends, each without its LF."""
    return [line[:-1] if line.endswith(b"\r") else line for line in lines.split(b"\n") if line]


def placed(path: Sequence[int], lines: bytes) -> Iterator[Tuple[Path, bytes]]:
    """Each node of these lines with the path that it gets where the first one is put at a path, the others behind it.

    >>> list(placed((0, 3), b"(a\\n-x\\n)a\\n-y\\n"))
    [((0, 3), b'(a'), ((0, 3, 0), b'-x'), ((0, 4), b'-y')]
    """
    here = list(path)
    for line in nodes_of(lines):
        if line.startswith(b")"):
            here.pop()
        else:
            yield tuple(here), line
            if line.startswith(b"("):
                here.append(0)
                continue
        here[-1] += 1


def count_tops(lines: bytes) -> int:
    """How many nodes stand beside each other in these lines."""
    depth = count = 0
    for line in nodes_of(lines):
        count += depth == 0 and not line.startswith(b")")
        depth += {b"(": 1, b")": -1}.get(line[:1], 0)
    return count


def count_nodes(lines: bytes) -> int:
    return sum(not line.startswith(b")") for line in nodes_of(lines))


def without(path: Sequence[int], gone: Sequence[int]) -> Path:
    """The path of a place once the node at another one is gone.

    >>> without((0, 5, 1), (0, 2)), without((0, 2), (0, 5)), without((0, 2), (0, 2))
    ((0, 4, 1), (0, 2), (0, 2))
    """
    depth = len(gone) - 1
    if len(path) > depth and tuple(path[:depth]) == tuple(gone[:depth]) and path[depth] > gone[depth]:
        return (*path[:depth], path[depth] - 1, *path[depth + 1:])
    return tuple(path)


def is_below(path: Sequence[int], other: Sequence[int]) -> bool:
    """Whether a path leads to what stands below another one."""
    return len(path) > len(other) and tuple(path[:len(other)]) == tuple(other)


def relabelled(lines: bytes, name: bytes) -> Pyx:
    """The lines of one node, which has another name then."""
    first, *rest = nodes_of(lines)
    code, (_, space, content) = first[:1], first.partition(b" ")
    if code == b"-":
        raise ValueError("a text has no name")
    if code == b"(":
        rest[-1] = b")" + name
    return Pyx(b"".join(line + b"\n" for line in (code + name + space + content, *rest)))


def with_root(document: bytes, lines: bytes) -> Pyx:
    """The lines of a document with others in place of its root element."""
    before: List[bytes] = []
    behind: List[bytes] = []
    depth, found = 0, before
    for line in nodes_of(document):
        depth += line.startswith(b"(")
        if not depth:
            found.append(line)
        if line.startswith(b")"):
            depth -= 1
            found = behind
    return Pyx(b"".join(line + b"\n" for line in (*before, *nodes_of(lines), *behind)))


class Subtrees:
    """Takes an export of a document as it comes, and hands on each line of a node at one of the paths, or below it, with that path."""

    def __init__(self, paths: Iterable[Path], take: Take) -> None:
        self.wanted: Set[Path] = set(paths)
        self.take = take
        self.inside: List[Path] = [path for path in self.wanted if not path]  # the wanted nodes that are open
        self.path: List[int] = []
        self.next = [0]  # the position of the next child of each open node
        self.rest = b""
        self.stopped = False
        self.error: Optional[BaseException] = None

    def write(self, block: bytes) -> None:
        *lines, self.rest = (self.rest + block).split(b"\n")
        try:
            for line in lines:
                if self.stopped:
                    return
                self.line(line.decode("utf-8", "surrogateescape"))
        except Exception as error:  # what comes is to be read in any case
            self.stop(error)

    def stop(self, error: Optional[BaseException] = None) -> None:
        self.stopped = True
        self.error = self.error or error

    def line(self, line: str) -> None:
        if line.startswith(")"):
            for path in self.inside:
                self.take(path, line)
            self.next.pop()
            closed = tuple(self.path)
            self.path.pop()
            if closed in self.wanted:
                self.inside.remove(closed)
            return
        position = self.next[-1]
        self.next[-1] += 1
        is_element = line.startswith("(")
        here = (*self.path, position) if is_element or self.wanted else ()
        if here in self.wanted:
            self.inside.append(here)
        for path in self.inside:
            self.take(path, line)
        if is_element:
            self.path.append(position)
            self.next.append(0)
        elif here in self.wanted:
            self.inside.remove(here)
