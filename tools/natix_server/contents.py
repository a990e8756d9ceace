"""What a body is kept as, and what of it comes back: XML, PYX, or a file that is no XML.

A file that is no XML is kept as a document too, whose root element `natix-file` has its bytes as texts: as they are where they are text that
XML can say, else in base64.
"""

from __future__ import annotations

import base64
import binascii
import re
import subprocess
import tempfile
from typing import IO, Dict, List, NamedTuple, Optional, cast

import natix
import natix_lines
import natix_sources

FILE = "natix-file"
PYX_TYPES = ("application/x-pyx", "text/x-pyx")
UNSAID = ("", "application/octet-stream", "application/x-www-form-urlencoded")  # types that clients send where they don't know one
XML_SUFFIXES = frozenset((
    "atom", "dbk", "dita", "ditamap", "docbook", "fo", "gml", "gpx", "kml", "mathml", "mml", "musicxml", "plist", "pnml", "rdf", "rng", "rss", "sch",
    "svg", "tei", "ui", "wsdl", "xbrl", "xcf", "xhtml", "xjb", "xlf", "xliff", "xmi", "xml", "xpl", "xsd", "xsl", "xslt", "xspf", "xul", "xvrl"))
LARGE, SMALL = 1_000_000, 120  # bytes of a text of a file; small ones fit into a part with each K from 16 on, and no longer ones up to NEAR do
NEAR = 1_024
TYPE = re.compile(r"[\w!#$&^.+-]+/[\w!#$&^.+-]+", re.A)
UNSAYABLE = re.compile("[\0-\x08\x0b\x0c\x0e-\x1f\ufffe\uffff]")


class TooLong(Exception):
    """A body stands for more than is taken."""


class File(NamedTuple):
    """The bytes of a file, and the type that was said when it came, which may be none."""

    content: bytes
    type: str


def is_xml_type(kind: str) -> bool:
    return kind in ("application/xml", "text/xml") or kind.startswith(("application/", "image/", "text/", "model/")) and kind.endswith("+xml")


def form_of(kind: str, name: str, body: bytes) -> str:
    """What a body is: `pyx`, `xml` or `file`, by its type, else by the name's suffix, else by its first byte."""
    if kind in PYX_TYPES:
        return "pyx"
    if is_xml_type(kind):
        return "xml"
    if kind not in UNSAID or not body:
        return "file"
    _, dot, suffix = name.rpartition("/")[2].rpartition(".")
    if dot:
        return "xml" if suffix.lower() in XML_SUFFIXES else "file"
    return "xml" if re.match(rb"(?:\xef\xbb\xbf|\xff\xfe|\xfe\xff)?\0?[ \t\r\n\0]*<", body) else "file"


def lines_of(kind: str, name: str, body: bytes, most: int) -> natix.Pyx:
    """The lines of a body's document; those of XML have at most so many bytes."""
    form = form_of(kind, name, body)
    if form == "pyx":
        return natix.Pyx(body if body.endswith(b"\n") or not body else body + b"\n")
    return lines_of_xml(body, most) if form == "xml" else lines_of_file(File(body, "" if kind in UNSAID else kind))


def lines_of_xml(body: bytes, most: int) -> natix.Pyx:
    """The lines of XML, comments and the document type kept as instructions. Entities may stand for much more than they are."""
    with tempfile.TemporaryFile() as given, tempfile.TemporaryFile() as said:
        given.write(body)
        given.seek(0)
        with subprocess.Popen(natix_sources.into_words(True), stdin=given, stdout=subprocess.PIPE, stderr=said) as process:
            lines = cast(IO[bytes], process.stdout).read(most + 1)
            if len(lines) > most:
                process.kill()
                raise TooLong(f"its lines have more than {most:,} bytes")
        said.seek(0)
        natix_sources.check_xmlpyx(process.returncode, said.read())
        return natix.Pyx(lines)


# Files that are no XML


def is_text(content: bytes) -> bool:
    """Whether XML can say these bytes."""
    try:
        return UNSAYABLE.search(content.decode()) is None
    except UnicodeDecodeError:
        return False


def pieces(content: bytes) -> List[bytes]:
    """The texts of a file's bytes. None ends within a character."""
    cut: List[bytes] = []
    at = 0
    while at < len(content):
        end = at + (LARGE if len(content) - at > NEAR else SMALL)
        while end < len(content) and content[end] & 0xC0 == 0x80:
            end -= 1
        cut.append(content[at:end])
        at = end
    return cut


def lines_of_file(file: File) -> natix.Pyx:
    nodes = [natix.Node.attribute("type", file.type)] if file.type else []
    content = file.content
    if not is_text(content):
        nodes.append(natix.Node.attribute("coding", "base64"))
        content = base64.b64encode(content)
    lines = [natix_lines.line_of_node(node) for node in nodes] + [b"-" + natix_lines.escaped(piece) for piece in pieces(content)]
    return natix.Pyx(b"\n".join([b"(" + FILE.encode(), *lines, b")" + FILE.encode()]) + b"\n")


def file_of(lines: bytes) -> Optional[File]:
    """The file that these lines keep, None where they are another document."""
    if not lines.startswith(b"(%b\n" % FILE.encode()):
        return None
    said: Dict[str, str] = {}
    content: List[bytes] = []
    *inner, last = lines.split(b"\n")[1:-1]
    for line in inner:
        if line[:1] == b"A" and not content:
            node = natix_lines.node_of_line(line, 0)
            said[node.name] = node.content
        elif line[:1] == b"-":
            content.append(natix_lines.bytes_of(natix_lines.content_of(line[1:])))
        else:
            return None
    if not set(said) <= {"type", "coding"} or said.get("coding", "base64") != "base64" or last != b")" + FILE.encode():
        return None
    try:
        whole = b"".join(content)
        kind = said.get("type", "")
        return File(base64.b64decode(whole, validate=True) if "coding" in said else whole, kind if TYPE.fullmatch(kind) else "")
    except binascii.Error:
        return None
