"""Names of documents and the paths of a URL that lead to them.

A document's name has bytes from `!` to `~` alone, and a URL's path any. So a byte that a name can't have stands in it as `%XX`, and a
text of the path that looks so gets a `25` more: `a b` is the name `a%20b`, and `a%20b` the name `a%2520b`. Each name has one path, and each path one name.
"""

from __future__ import annotations

import re
import urllib.parse
from typing import Optional, Tuple

OUTSIDE = rb"[01][0-9A-F]|20|7F|[89A-F][0-9A-F]"  # the bytes that no name has
ESCAPED = re.compile(rb"%((?:25)*)(" + OUTSIDE + rb")")
FIRST_ESCAPED = re.compile(rb"%((?:25)*)(2D)")  # a name doesn't begin with `-`
RAW = re.compile(rb"[\x00-\x20\x7f-\xff]")
LONGEST_NAME = 255
FOLDER = "/"  # ends the name of what stands for a folder
SAFE = "!$&'()*+,-./:;=@_~"  # what a path may have as it is, beside letters and digits


class NoName(Exception):
    """A URL's path leads to no name that a document can have."""


def _one_level_more(found: "re.Match[bytes]") -> bytes:
    return b"%25" + found[1] + found[2]


def _one_level_less(found: "re.Match[bytes]") -> bytes:
    return b"%" + found[1][2:] + found[2] if found[1] else bytes([int(found[2], 16)])


def name_of(path: bytes) -> str:
    """The name of the document at a path, as it is once its percents are taken back; the path begins with no slash."""
    name = RAW.sub(lambda byte: b"%%%02X" % byte[0][0], ESCAPED.sub(_one_level_more, path))
    name = FIRST_ESCAPED.sub(_one_level_more, name, count=1) if FIRST_ESCAPED.match(name) else name
    return (b"%2D" + name[1:] if name.startswith(b"-") else name).decode("ascii")


def path_of(name: str) -> bytes:
    """The path of a document's name."""
    data = name.encode("ascii")
    first = FIRST_ESCAPED.match(data)
    begin = _one_level_less(first) if first else b""
    return begin + ESCAPED.sub(_one_level_less, data[first.end() if first else 0:])


def href_of(name: str) -> str:
    """The path of a document's name as a URL has it."""
    return "/" + urllib.parse.quote(path_of(name), safe=SAFE)


def is_served(name: str) -> bool:
    """Whether a client may ask for the document: browsers and folders have a meaning of their own for `.`, `..` and an empty step."""
    steps = name[:-1].split("/") if name.endswith(FOLDER) else name.split("/")
    return all(step not in ("", ".", "..") for step in steps)


def unquoted(text: str) -> bytes:
    """A part of a URL without its percents."""
    data = text.encode("utf-8", "surrogateescape")
    if re.search(rb"%(?![0-9A-Fa-f]{2})", data):
        raise NoName("a percent without two digits behind it")
    return urllib.parse.unquote_to_bytes(data)


def place_of(target: str) -> str:
    """The name that a URL's path leads to: empty for `/`, and with a slash at its end where the path has one."""
    if not target.startswith("/"):
        raise NoName("no path")
    if target == "/":
        return ""
    name = name_of(unquoted(target[1:]))
    if not is_served(name):
        raise NoName("an empty step, `.` or `..`")
    if len(name) > LONGEST_NAME:
        raise NoName(f"a name of {len(name)} bytes, and {LONGEST_NAME} are the most")
    return name


def split_target(target: str) -> Tuple[str, str]:
    """The path and the query of a request's target, which may be a whole URL."""
    found = re.fullmatch(r"(?:[A-Za-z][A-Za-z0-9+.-]*://[^/?#]*)?(/[^?#]*)?(?:\?([^#]*))?", target)
    if not found:
        raise NoName("no target of a request")
    return found[1] or "/", found[2] or ""


def above(name: str) -> Optional[str]:
    """The folder that a document or a folder stands in, None where that is the one above all."""
    front, slash, _ = name.rstrip(FOLDER).rpartition(FOLDER)
    return front + slash if slash else None
