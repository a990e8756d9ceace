"""WebDAV, class 1: folders, properties that can be read, and documents moved and copied."""

from __future__ import annotations

import asyncio
import re
import xml.etree.ElementTree as tree
from email.utils import formatdate
from typing import Callable, Dict, List, NamedTuple, Optional, Sequence, Tuple
from xml.sax.saxutils import escape, quoteattr

import natix

from .answers import Refusal, Reply, refusal_of
from .asked import condition_of
from .bodies import Bodies, Call
from .documents import Documents, steps_below
from .library import Library
from .names import FOLDER, LONGEST_NAME, NoName, href_of, is_served, place_of, split_target

METHODS = "OPTIONS, GET, HEAD, PUT, POST, DELETE, PROPFIND, PROPPATCH, MKCOL, COPY, MOVE"
MOST_ASKED = 64 << 10  # bytes of a question about properties
TOGETHER = 32  # documents that are measured at once
DAV = "DAV:"
KNOWN = ("resourcetype", "getetag", "getlastmodified", "getcontentlength", "getcontenttype")
MULTI = "application/xml; charset=utf-8"


class Wanted(NamedTuple):
    """The properties that a PROPFIND asks for, each with its namespace; all that there are where it names none."""

    names: Optional[List[Tuple[str, str]]]
    values: bool = True


class Dav:
    """The answers to the requests of WebDAV."""

    def __init__(self, library: Library, bodies: Bodies) -> None:
        self.library, self.bodies = library, bodies

    async def options(self, call: Call) -> Reply:
        return Reply(200, headers={"DAV": "1", "Allow": METHODS, "MS-Author-Via": "DAV"})

    # Properties

    async def propfind(self, call: Call) -> Reply:
        """The properties of a document, of a folder, or of a folder and what stands right in it."""
        call.target.only()
        name = self.resolved(call.name)
        depth = call.headers.get("Depth", "infinity").strip().lower()
        if depth not in ("0", "1", "infinity"):
            raise Refusal(400, "depth", "Depth is 0 or 1")
        if depth == "infinity" and (not name or name.endswith(FOLDER)):
            raise finite_depth()
        wanted = read_wanted(await self.bodies.read(call, MOST_ASKED))
        names = [name]
        if depth == "1" and (not name or name.endswith(FOLDER)):
            names += [one for one in steps_below(self.library.documents, name) if is_served(one)]
        parts = [b'<?xml version="1.0" encoding="utf-8"?>\n<D:multistatus xmlns:D="DAV:">']
        for at in range(0, len(names), TOGETHER):
            some = names[at:at + TOGETHER]
            found = await asyncio.gather(*(self.properties(one, wanted) for one in some))
            parts += [response_of(one, properties, wanted).encode("utf-8", "replace") for one, properties in zip(some, found) if properties is not None]
        parts.append(b"</D:multistatus>\n")
        return Reply(207, b"".join(parts), MULTI)

    def resolved(self, name: str) -> str:
        """The document or the folder that a name means: a folder may be named without its slash."""
        documents = self.library.documents
        if name and not name.endswith(FOLDER):
            if name in documents:
                return name
            name += FOLDER
        if not documents.is_folder(name):
            raise refusal_of(natix.Refused("no-document"))
        return name

    async def properties(self, name: str, wanted: Wanted) -> Optional[Dict[str, str]]:
        """The properties of DAV that a document or a folder has; None where it has gone."""
        documents = self.library.documents
        if not name or name.endswith(FOLDER):
            return {"resourcetype": "<D:collection/>", "getlastmodified": formatdate(documents.opened, usegmt=True)}
        needs_size = wanted.names is None and wanted.values or wanted.names is not None and any(one in wanted.names for one in ((DAV, KNOWN[3]), (DAV, KNOWN[4])))
        document = await self.library.measured(name) if needs_size else documents.get(name)
        if document is None:
            return None
        found = {"resourcetype": "", "getetag": f'"{documents.tag(name)}"', "getlastmodified": formatdate(document.changed, usegmt=True)}
        if document.size is not None or not wanted.values:
            found["getcontentlength"] = str(document.size)
        if document.kind or not wanted.values:
            found["getcontenttype"] = document.kind
        return found

    async def proppatch(self, call: Call) -> Reply:
        """Properties of a client's own aren't kept: each is refused, and none is changed."""
        name = self.resolved(call.name)
        names = read_changes(await self.bodies.read(call, MOST_ASKED))
        refused = "".join(element_of(one) for one in names)
        body = (f'<?xml version="1.0" encoding="utf-8"?>\n<D:multistatus xmlns:D="DAV:"><D:response><D:href>{escape(href(name))}</D:href>'
                f"<D:propstat><D:prop>{refused}</D:prop><D:status>HTTP/1.1 403 Forbidden</D:status></D:propstat></D:response></D:multistatus>\n")
        return Reply(207, body.encode("utf-8", "replace"), MULTI)

    # Folders, moves and copies

    async def mkcol(self, call: Call) -> Reply:
        """Makes a folder."""
        call.target.only()
        plain = call.name.rstrip(FOLDER)
        name, condition = plain + FOLDER, condition_of(call.headers, plain + FOLDER)
        if await self.bodies.read(call, MOST_ASKED):
            raise Refusal(415, "body", "a folder is made without a body")
        if not plain:
            raise Refusal(405, "exists", "the folder above all is there", {"Allow": METHODS})

        def check(documents: Documents) -> None:
            if plain in documents or documents.is_folder(name):
                raise Refusal(405, "exists", "there is a document or a folder of that name", {"Allow": METHODS})
            if not documents.has_place(name):
                raise Refusal(409, "no-folder", "there is no folder for it")
            if condition:
                condition(documents)

        check(self.library.documents)
        if len(name) > LONGEST_NAME:
            raise Refusal(414, "name", "the name is too long")
        await self.library.make_folder(name, check)
        return Reply(201)

    async def move(self, call: Call) -> Reply:
        if call.headers.get("Depth", "infinity").strip().lower() != "infinity":
            raise Refusal(400, "depth", "a folder moves with all that is below it")
        old, new, check = self.pair(call)
        made = not self.is_there(self.library.documents, new)
        await self.library.move(old, new, check)
        return Reply(201 if made else 204, headers={"Location": href(new)} if made else {})

    async def copy(self, call: Call) -> Reply:
        depth = call.headers.get("Depth", "infinity").strip().lower()
        if depth not in ("0", "infinity"):
            raise Refusal(400, "depth", "Depth is 0 or infinity")
        old, new, check = self.pair(call)
        made = not self.is_there(self.library.documents, new)
        await self.library.copy(old, new, depth == "infinity" or not old.endswith(FOLDER), check)
        return Reply(201 if made else 204, headers={"Location": href(new)} if made else {})

    def pair(self, call: Call) -> Tuple[str, str, Callable[[Documents], None]]:
        """The source and the target of a move or a copy, and what refuses it."""
        call.target.only()
        old = self.resolved(call.name)
        new = destination_of(call)
        overwrite = call.headers.get("Overwrite", "T").strip().upper()
        if overwrite not in ("T", "F"):
            raise Refusal(400, "overwrite", "Overwrite is T or F")
        if not old or not new.rstrip(FOLDER):
            raise Refusal(403, "folder", "the folder above all stays where it is")
        new = new.rstrip(FOLDER) + (FOLDER if old.endswith(FOLDER) else "")
        plain, other = old.rstrip(FOLDER), new.rstrip(FOLDER)
        if plain == other:
            raise Refusal(403, "same", "the target is the source")
        if other.startswith(plain + FOLDER) and old.endswith(FOLDER) or plain.startswith(other + FOLDER):
            raise Refusal(409, "within", "the one stands within the other")
        condition = condition_of(call.headers, old)

        def check(documents: Documents) -> None:
            if old not in documents and not (old.endswith(FOLDER) and documents.is_folder(old)):
                raise refusal_of(natix.Refused("no-document"))
            if condition:
                condition(documents)
            if overwrite == "F" and self.is_there(documents, new):
                raise Refusal(412, "exists", "something is there, and Overwrite says F")
            if not documents.has_place(new):
                raise Refusal(409, "no-folder", "there is no folder for it")

        check(self.library.documents)
        return old, new, check

    @staticmethod
    def is_there(documents: Documents, name: str) -> bool:
        plain = name.rstrip(FOLDER)
        return plain in documents or documents.is_folder(plain + FOLDER)


def href(name: str) -> str:
    return href_of(name) if name else "/"


def finite_depth() -> Refusal:
    return Refusal(403, "depth", "Depth is 0 or 1 here: propfind-finite-depth")


def destination_of(call: Call) -> str:
    """The name that a header Destination leads to: on this server alone."""
    given = call.headers.get("Destination")
    if given is None:
        raise Refusal(400, "destination", "no header Destination")
    found = re.match(r"[A-Za-z][A-Za-z0-9+.-]*://([^/?#]*)", given)
    if found and found[1].rpartition("@")[2].lower() != call.headers.get("Host", "").lower():
        raise Refusal(502, "destination", "that is another server")
    try:
        path, query = split_target(given)
        if query:
            raise NoName("a query")
        return place_of(path)
    except NoName as why:
        raise Refusal(414 if "bytes" in str(why) else 400, "name", f"Destination: {why}")


# Properties


def parsed(body: bytes) -> tree.Element:
    """The XML of a request. One with a document type is refused, since it has no use for entities."""
    if b"<!DOCTYPE" in body or b"<!ENTITY" in body or b"\0" in body:
        raise Refusal(400, "xml", "no document type is taken here")
    try:
        return tree.fromstring(body)
    except (tree.ParseError, ValueError, LookupError) as why:
        raise Refusal(400, "xml", str(why))


def name_parts(tag: str) -> Tuple[str, str]:
    namespace, _, name = tag[1:].rpartition("}") if tag.startswith("{") else ("", "", tag)
    return namespace, name


def read_wanted(body: bytes) -> Wanted:
    """What a PROPFIND asks for. Without a body it asks for all."""
    if not body:
        return Wanted(None)
    root = parsed(body)
    if name_parts(root.tag) != (DAV, "propfind"):
        raise Refusal(400, "xml", "no propfind")
    for child in root:
        what = name_parts(child.tag)
        if what == (DAV, "allprop"):
            return Wanted(None)
        if what == (DAV, "propname"):
            return Wanted(None, False)
        if what == (DAV, "prop"):
            return Wanted([name_parts(one.tag) for one in child][:1000])
    raise Refusal(400, "xml", "a propfind without allprop, propname or prop")


def read_changes(body: bytes) -> List[Tuple[str, str]]:
    """The properties that a PROPPATCH is about."""
    root = parsed(body)
    if name_parts(root.tag) != (DAV, "propertyupdate"):
        raise Refusal(400, "xml", "no propertyupdate")
    names = [name_parts(one.tag) for change in root for prop in change if name_parts(prop.tag) == (DAV, "prop") for one in prop]
    if not names:
        raise Refusal(400, "xml", "a propertyupdate of no property")
    return names[:1000]


def element_of(name: Tuple[str, str], value: str = "") -> str:
    """A property as an element."""
    namespace, local = name
    if namespace == DAV:
        return f"<D:{local}>{value}</D:{local}>" if value else f"<D:{local}/>"
    return f"<{local} xmlns={quoteattr(namespace)}/>"


def response_of(name: str, found: Dict[str, str], wanted: Wanted) -> str:
    """What is said of a document or a folder."""
    asked: Sequence[Tuple[str, str]] = [(DAV, one) for one in found] if wanted.names is None else wanted.names
    there = [one for one in asked if one[0] == DAV and one[1] in found]
    missing = [one for one in asked if one not in there]
    text = f"<D:response><D:href>{escape(href(name))}</D:href>"
    if there or not missing:
        inner = "".join(element_of(one, value_of(one[1], found) if wanted.values else "") for one in there)
        text += f"<D:propstat><D:prop>{inner}</D:prop><D:status>HTTP/1.1 200 OK</D:status></D:propstat>"
    if missing:
        text += f"<D:propstat><D:prop>{''.join(map(element_of, missing))}</D:prop><D:status>HTTP/1.1 404 Not Found</D:status></D:propstat>"
    return text + "</D:response>\n"


def value_of(name: str, found: Dict[str, str]) -> str:
    return found[name] if name == "resourcetype" else escape(found[name])
