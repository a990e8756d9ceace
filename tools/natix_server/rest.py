"""Looking at documents, and changing them: GET, PUT, POST, DELETE."""

from __future__ import annotations

from typing import Any, Callable, Dict, Iterator, List, Optional, TypeVar

import natix
import natix_lines
import natix_sources

from . import contents, edits, questions
from .answers import JSON, SHUT, Refusal, Reply, of_json, path_text, refusal_of
from .asked import MOST_FOUND, Target, condition_of, form_of, is_known
from .bodies import Bodies, Call
from .commits import Busy, Done
from .documents import Documents
from .library import Library, Path, Shown
from .names import FOLDER, href_of, is_served

MOST_CHILDREN = 1_000  # in one answer
MOST_LISTED = 10_000
MOST_SHOWN = 500  # characters of a content, among others
BATCH = 100
MOST_LINES = 4  # so many times the bytes of the greatest body may be the lines of one
TRIES = 10  # of a look at a document that changes
PYX_TYPE = "application/x-pyx"
Made = TypeVar("Made")
QUESTIONS = ("path", "find", "match", "xpath", "parts", "children")


class Rest:
    """The answers to requests about documents."""

    def __init__(self, library: Library, bodies: Bodies, page: Callable[[], Reply]) -> None:
        self.library, self.bodies, self.page = library, bodies, page

    # Looking

    async def get(self, call: Call) -> Reply:
        """A document, a part of it, the answer to a question about it, or what is in a folder."""
        documents, target = self.library.documents, call.target
        if target.is_folder or target.name not in documents and documents.is_folder(target.name + FOLDER):
            if not target.is_folder:
                return Reply(301, headers={"Location": href_of(target.name + FOLDER)})
            return await self.folder(call)
        target.only("as", "content", "most", "from", *QUESTIONS)
        asked = [word for word in QUESTIONS if word in target.query and word != "children"]
        if len(asked) > 1:
            raise Refusal(400, "query", f"{' and '.join(asked)} are two questions")
        if target.name not in documents:
            raise refusal_of(natix.Refused("no-document"))
        if is_known(call.headers, f"{documents.tag(target.name)}{self.suffix(call)}"):
            return Reply(304, headers={"ETag": f'"{documents.tag(target.name)}{self.suffix(call)}"'})
        if "children" in target.query:
            return await self.children(call)
        if not asked or asked == ["path"]:
            return await self.document(call)
        return await self.parts(call) if asked == ["parts"] else await self.found(call)

    @staticmethod
    def suffix(call: Call) -> str:
        """What a tag has behind it, so that each form has one of its own."""
        form = form_of(call.headers, call.target.query, "")
        return f".{form}" if form in ("json", "pyx") or "as" in call.target.query else ""

    def tagged(self, call: Call, shown: Shown, body: bytes, kind: str) -> Reply:
        headers = {"ETag": f'"{shown.tag}{self.suffix(call)}"', "Vary": "Accept", "Cache-Control": "no-cache", **SHUT}
        return Reply(200, body, kind, headers)

    async def document(self, call: Call) -> Reply:
        """A document, or the node at a path with all that is below it."""
        form, name = form_of(call.headers, call.target.query, ""), call.name
        path = call.target.path() if "path" in call.target.query else ()
        if not path and form in ("", "html", "file"):
            shown = await self.whole(name)
            return self.tagged(call, shown, shown.content, shown.type or "application/xml; charset=utf-8")
        lines = await self.library.lines(name)
        part = await self.library.aside(questions.cut, lines.content, path)
        if part is None:
            raise refusal_of(natix.Refused("no-node"))
        if form == "pyx":
            return self.tagged(call, lines, part, PYX_TYPE)
        if form == "json":
            tree = await self.library.aside(lambda: of_json(questions.tree_of(part or b"", not path)).body)
            return self.tagged(call, lines, tree, JSON)
        if not part.startswith((b"(", b"?")):
            return self.tagged(call, lines, natix_lines.bytes_of(questions.content_of(part[:-1])), "text/plain; charset=utf-8")
        return self.tagged(call, lines, await self.xml(part), "application/xml; charset=utf-8")

    async def whole(self, name: str) -> Shown:
        try:
            return await self.library.shown(name)
        except natix.NotXml as why:
            raise Refusal(422, "not-xml", f"XML can't say this document, and ?as=pyx or ?as=json gives it: {why}")

    async def xml(self, lines: bytes) -> bytes:
        """The XML of a part's lines."""
        if lines.startswith(b"?"):
            node = natix_lines.node_of_line(lines[:-1], 0)
            return natix_lines.bytes_of(f"<?{node.name}{node.content and ' '}{node.content}?>")
        try:
            return await self.library.aside(natix_sources.xml_of, lines)
        except natix.NotXml as why:
            raise Refusal(422, "not-xml", f"XML can't say this, and ?as=pyx or ?as=json gives it: {why}")

    async def children(self, call: Call) -> Reply:
        """A node and some of its children, without what is below these: no more of the document is read."""
        target, path = call.target, call.target.path() if "path" in call.target.query else ()
        first = target.number("from", 0, 0, 0xFFFFFFF)
        most = target.number("children", 100, 0, MOST_CHILDREN)
        for _ in range(TRIES):
            tag, nodes = await self.library.get(call.name, [path])
            node = nodes[0]
            if isinstance(node, natix.Refused):
                raise refusal_of(node)
            children = await self.some_children(call.name, tag, [(*path, at) for at in range(first, min(node.children, first + most))])
            if children is not None:
                answer = {"path": path_text(path), "node": self.counted(node), "from": first, "children": children}
                return self.tagged(call, Shown(tag, b""), of_json(answer).body, JSON)
        raise Busy

    async def some_children(self, name: str, tag: str, paths: List[Path]) -> Optional[List[Dict[str, Any]]]:
        """The nodes at these paths, some of them asked for together; None where the document isn't any more what it was."""
        children = []
        for at in range(0, len(paths), BATCH):
            now, nodes = await self.library.get(name, paths[at:at + BATCH])
            if now != tag:
                return None
            children += [self.counted(node) for node in nodes if isinstance(node, natix.Node)]
        return children

    @staticmethod
    def cut(node: natix.Node) -> Dict[str, Any]:
        """A node whose content, where it is long, is cut, and how long it is is said."""
        fields = questions.of_node(node._replace(content=node.content[:MOST_SHOWN]))
        return {**fields, "length": len(node.content)} if len(node.content) > MOST_SHOWN else fields

    def counted(self, node: natix.Node) -> Dict[str, Any]:
        """The same with the number of its children."""
        return {**self.cut(node), "count": node.children}

    async def parts(self, call: Call) -> Reply:
        """The parts in which a document is stored."""
        call.target.only("parts", "as", "most")
        most = call.target.number("most", MOST_FOUND, 1, MOST_FOUND)
        tag, intervals = await self.library.parts(call.name)
        document = self.library.documents.get(call.name)
        if document is not None:
            document.parts = len(intervals)
        some = [{"path": path_text((*one.parent, one.first)) if one.parent is not None else "/", "members": one.last - one.first + 1, "weight": one.weight}
                for one in intervals[:most]]
        return self.tagged(call, Shown(tag, b""), of_json({"count": len(intervals), "parts": some}).body, JSON)

    async def found(self, call: Call) -> Reply:
        """The nodes that a question reaches, each with its path."""
        target = call.target
        most = target.number("most", MOST_FOUND, 1, MOST_FOUND)
        lines = await self.library.lines(call.name)
        try:
            body = await self.library.aside(self.of_found, lines.content, target, most)
        except questions.NoQuestion as why:
            raise Refusal(400, "question", str(why))
        return self.tagged(call, lines, body, JSON)

    def of_found(self, lines: bytes, target: Target, most: int) -> bytes:
        some = self.some_found(lines, target, most + 1)
        found = [{"path": path_text(one.path), "node": self.cut(natix_lines.node_of_line(one.line, 0))} for one in some[:most]]
        return of_json({"found": found, "more": len(some) > most}).body

    @staticmethod
    def some_found(lines: bytes, target: Target, most: int) -> List[questions.Found]:
        query = target.query
        if "match" in query and "content" not in query:
            raise Refusal(400, "query", "match asks for a content too")
        if "xpath" in query:
            return questions.by_xpath(lines, query["xpath"])[:most]
        found: Iterator[questions.Found] = (questions.matched(lines, query["match"], query["content"]) if "match" in query
                                            else questions.reached(lines, query["find"]))
        return [one for _, one in zip(range(most), found)]

    # Folders

    async def folder(self, call: Call) -> Reply:
        """What is in a folder: a page for a browser, else a list."""
        call.target.only("as", "from", "most", "parts")
        if not self.library.documents.is_folder(call.name):
            raise Refusal(404, "no-folder", "there is no folder of that name")
        if form_of(call.headers, call.target.query, "json") == "html":
            return self.page()
        most = call.target.number("most", MOST_LISTED, 1, MOST_LISTED)
        nodes = await self.library.engine.ask(natix.names())
        documents = self.library.documents
        names = [name for _, name in zip(range(most + 1), documents.below(call.name, call.target.query.get("from", "")))]
        if "parts" in call.target.query:
            await self.count_parts(names[:most])
        listed = [self.listed(name, nodes.get(name)) for name in names[:most] if name in documents]
        answer = {"folder": href_of(call.name) if call.name else "/", "documents": [one for one in listed if "folder" not in one],
                  "folders": [one["href"] for one in listed if "folder" in one], "next": names[most - 1] if len(names) > most else None}
        return of_json(answer, headers={"Vary": "Accept", "Cache-Control": "no-cache"})

    async def count_parts(self, names: List[str]) -> None:
        """Asks for the number of parts where that isn't known."""
        for name in names:
            document = self.library.documents.get(name)
            if document is not None and document.parts is None:
                try:
                    document.parts = len((await self.library.parts(name))[1])
                except natix.Refused:
                    pass

    def listed(self, name: str, nodes: Optional[int]) -> Dict[str, Any]:
        """A document as a list has it."""
        if name.endswith(FOLDER):
            return {"folder": True, "href": href_of(name)}
        document = self.library.documents.by_name[name]
        fields = {"name": name, "href": href_of(name) if is_served(name) else None, "nodes": nodes, "etag": f'"{self.library.documents.tag(name)}"'}
        if document.parts is not None:
            fields["parts"] = document.parts
        return fields

    # Changing

    async def put(self, call: Call) -> Reply:
        """Makes a document, or puts it in the place of the one that is there."""
        call.target.only()
        if call.target.is_folder:
            raise Refusal(405, "folder", "a folder is made by MKCOL", {"Allow": "GET, MKCOL, PROPFIND, DELETE, OPTIONS"})
        if "Content-Range" in call.headers:
            raise Refusal(400, "range", "a document is put as a whole")
        name, condition = call.name, condition_of(call.headers, call.name)
        self.check_place(self.library.documents, name)
        if condition:
            condition(self.library.documents)  # before a long body is read, and again when its turn comes
        body = await self.bodies.read(call, self.bodies.most)
        load = await self.made(lambda: natix.load(name, contents.lines_of(call.kind, name, body, MOST_LINES * self.bodies.most)))

        def check(documents: Documents) -> None:
            self.check_place(documents, name)
            if condition:
                condition(documents)

        done, made = await self.library.put(name, load, check)
        loaded = done.answers[-1]
        fields = {"name": name, "href": href_of(name), "nodes": loaded.nodes, "parts": loaded.intervals, "etag": f'"{done.tags[-1]}"'}
        return of_json(fields, 201 if made else 200, {"Location": href_of(name)} if made else {})

    @staticmethod
    def check_place(documents: Documents, name: str) -> None:
        """Refuses a document where its folder isn't there, or a folder has its name."""
        if name not in documents and documents.is_folder(name + FOLDER):
            raise Refusal(405, "folder", "there is a folder of that name", {"Allow": "GET, MKCOL, PROPFIND, DELETE, OPTIONS"})
        if not documents.has_place(name):
            raise Refusal(409, "no-folder", "there is no folder for it: MKCOL makes one")

    async def made(self, work: Callable[[], Made]) -> Made:
        """What is made of a body, aside; where it can't be, a refusal."""
        try:
            return await self.library.aside(work)
        except natix.NotXml as why:
            raise Refusal(422, "xml", str(why))
        except ValueError as why:
            raise Refusal(422, "pyx", str(why))
        except contents.TooLong as why:
            raise Refusal(413, "too-large", str(why))

    async def delete(self, call: Call) -> Reply:
        """Forgets a document or a folder, or takes a node away."""
        call.target.only("path")
        documents, name = self.library.documents, call.name
        condition = condition_of(call.headers, name)
        if "path" in call.target.query:
            if call.target.is_folder:
                raise Refusal(405, "folder", "a document is edited", {"Allow": "GET, MKCOL, PROPFIND, DELETE, OPTIONS"})
            return self.edited(await self.library.edit(name, [natix.delete(name, call.target.path())], condition))
        if not name:
            raise Refusal(403, "folder", "the folder above all stays")
        if name not in documents and not name.endswith(FOLDER) and documents.is_folder(name + FOLDER):
            name += FOLDER
        if name.endswith(FOLDER) and call.headers.get("Depth", "infinity").lower() != "infinity":
            raise Refusal(400, "depth", "a folder goes with all that is below it")

        def check(documents: Documents) -> None:
            if condition:
                condition(documents)
            if name not in documents and not (name.endswith(FOLDER) and documents.is_folder(name)):
                raise refusal_of(natix.Refused("no-document"))

        await self.library.drop(name, check)
        return Reply(204)

    async def post(self, call: Call) -> Reply:
        """Edits a document, by lines of edits, or by XML that is put at a path."""
        call.target.only("path")
        if call.target.is_folder:
            raise Refusal(405, "folder", "a document is edited", {"Allow": "GET, MKCOL, PROPFIND, DELETE, OPTIONS"})
        name, condition = call.name, condition_of(call.headers, call.name)
        if name not in self.library.documents:
            raise refusal_of(natix.Refused("no-document"))
        body = await self.bodies.read(call, self.bodies.most)
        if "path" in call.target.query:
            path, is_pyx = call.target.path(), call.kind in contents.PYX_TYPES
            commands = await self.made(lambda: edits.inserts(name, path, body if is_pyx else edits.of_fragment(body, MOST_LINES * self.bodies.most)))
        elif contents.is_xml_type(call.kind):
            raise Refusal(400, "query", "XML is put at a path, ?path=")
        else:
            commands = await self.made(lambda: edits.of_lines(name, body))
        return self.edited(await self.library.edit(name, commands, condition))

    @staticmethod
    def edited(done: Done) -> Reply:
        return of_json({"edits": len(done.answers), "etag": f'"{done.tags[-1]}"'}, headers={"ETag": f'"{done.tags[-1]}"'})
