"""Edits that a client sends: lines, or a fragment of XML to be put at a path."""

from __future__ import annotations

import re
from typing import Any, List, Tuple

import natix
import natix_lines

from .answers import Refusal
from .asked import read_path
from .contents import lines_of_xml

MOST_COMMANDS = 100_000  # of one request
WRAP = "natix-fragment"
Commands = List[natix.Command[Any]]


def of_lines(name: str, body: bytes) -> Commands:
    """The commands of a body's lines: `insert PATH LINE`, `delete PATH`, `retext PATH CONTENT`, as in a script but without the document's name."""
    lines = body.split(b"\n")
    if not lines[-1]:
        lines.pop()
    if not lines or len(lines) > MOST_COMMANDS:
        raise Refusal(400, "syntax", f"from 1 to {MOST_COMMANDS:,} lines are taken")
    commands = []
    for number, line in enumerate(lines, 1):
        try:
            commands.append(of_line(name, line[:-1] if line.endswith(b"\r") else line))
        except Refusal as why:
            raise Refusal(why.status, str(why), why.fields["meaning"], at=number)
        except ValueError as why:
            raise Refusal(422, "pyx", str(why), at=number)
    return commands


def of_line(name: str, line: bytes) -> natix.Command[Any]:
    word, _, rest = line.partition(b" ")
    place, space, content = rest.partition(b" ")
    try:
        path = read_path(place.decode("ascii"))
    except UnicodeDecodeError:
        raise Refusal(400, "path", "a path has digits and slashes")
    if word == b"delete" and not space:
        return natix.delete(name, path)
    if word == b"retext":
        return natix.retext(name, path, natix_lines.content_of(content))
    if word == b"insert" and space:
        return natix.insert(name, path, natix.Node.read(natix_lines.text_of(content)))
    raise Refusal(400, "syntax", "a line is `insert PATH LINE`, `delete PATH` or `retext PATH CONTENT`")


def of_fragment(body: bytes, most: int) -> bytes:
    """The lines of a fragment: elements, texts, instructions and comments beside each other, in UTF-8."""
    inner = re.sub(rb"^(\xef\xbb\xbf)?(<\?xml[ \t\r\n][^>]*\?>)?", b"", body, count=1)
    try:
        lines = lines_of_xml(b"<%b>%b</%b>" % (WRAP.encode(), inner, WRAP.encode()), most)
    except natix.NotXml as why:
        raise natix.NotXml(re.sub(r"^line 1, column ([0-9]+)", lambda found: f"line 1, column {max(1, int(found[1]) - len(WRAP) - 2)}", str(why)))
    return lines[len(WRAP) + 2:-len(WRAP) - 2]


def inserts(name: str, path: Tuple[int, ...], lines: bytes) -> Commands:
    """The commands that put the nodes of lines at a path, one behind the other, with all that is below them."""
    if not path:
        raise Refusal(409, "bad-place", "a node stands below another one")
    commands: Commands = []
    here = list(path)  # that of the next node
    names: List[bytes] = []  # of the elements that are open
    for number, line in enumerate(lines.rstrip(b"\n").split(b"\n"), 1):
        line = line[:-1] if line.endswith(b"\r") else line
        if line[:1] == b")":
            if not names or line[1:] != names.pop():
                raise Refusal(422, "bad-nesting", "elements don't end as they began", line=number)
            here.pop()
            here[-1] += 1
            continue
        try:
            commands.append(natix.insert(name, here, natix.Node.read(natix_lines.text_of(line))))
        except ValueError as why:
            raise Refusal(422, "pyx", str(why), line=number)
        if line[:1] == b"(":
            names.append(line[1:])
            here.append(0)
        else:
            here[-1] += 1
    if names:
        raise Refusal(422, "unclosed", "an element isn't ended")
    if not commands or len(commands) > MOST_COMMANDS:
        raise Refusal(400, "syntax", f"from 1 to {MOST_COMMANDS:,} nodes are taken")
    return commands
