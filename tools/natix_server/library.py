"""Documents as clients read and change them: whole ones, nodes, folders."""

from __future__ import annotations

import asyncio
from collections import OrderedDict
from concurrent.futures import ThreadPoolExecutor
from typing import Any, Callable, List, NamedTuple, Optional, Sequence, Tuple, TypeVar, Union

import natix
import natix_sources

from . import contents
from .commits import Busy, Claim, Commits, Done, Plan
from .documents import Document, Documents, Effect
from .engine import Engine
from .names import FOLDER, LONGEST_NAME

KEPT_BYTES = 64 << 20  # of documents that were read
WORKERS = 4  # programs that turn XML into lines, or lines into XML, at once
TRIES = 10  # of a copy whose source changes
FOLDER_LINES = natix.Pyx(b"(natix-folder\n)natix-folder\n")

Result = TypeVar("Result")
Path = Tuple[int, ...]


class Stale(Exception):
    """What a change was made of isn't there any more as it was read."""


class NotSo(Exception):
    """A condition of a request doesn't hold: 412."""


class Shown(NamedTuple):
    """A document's bytes in some form, with the tag that it has then. A file that is no XML has its type."""

    tag: str
    content: bytes
    type: str = ""


class Kept:
    """Documents that were read, those that nobody asked for of late left out."""

    def __init__(self, most: int) -> None:
        self.most, self.size = most, 0
        self.shown: "OrderedDict[Tuple[str, str], Shown]" = OrderedDict()

    def get(self, form: str, name: str, tag: Optional[str]) -> Optional[Shown]:
        found = self.shown.get((form, name))
        if found is None or found.tag != tag:
            return None
        self.shown.move_to_end((form, name))
        return found

    def put(self, form: str, name: str, shown: Shown) -> None:
        self.drop(form, name)
        if len(shown.content) > self.most // 2:
            return
        self.shown[form, name] = shown
        self.size += len(shown.content)
        while self.size > self.most:
            (form, name), _ = next(iter(self.shown.items()))
            self.drop(form, name)

    def drop(self, form: str, name: str) -> None:
        found = self.shown.pop((form, name), None)
        self.size -= len(found.content) if found else 0


class Library:
    """The documents of the store that the engine has open."""

    def __init__(self, engine: Engine) -> None:
        self.engine = engine
        self.documents = Documents()
        self.commits = Commits(engine, self.documents)
        self.kept = Kept(KEPT_BYTES)
        self.workers = ThreadPoolExecutor(WORKERS)
        self.readers = asyncio.Semaphore(16)  # documents that are read at once

    async def aside(self, work: Callable[..., Result], *given: Any) -> Result:
        """Has some work done beside the server's own."""
        return await asyncio.get_running_loop().run_in_executor(self.workers, work, *given)

    # Reading

    async def lines(self, name: str) -> Shown:
        """The document's lines, with its tag at the moment when natix gave them."""
        found = self.kept.get("pyx", name, self.documents.tag(name))
        if found:
            return found

        def take(reply: Union[bytes, natix.Refused]) -> Shown:
            if isinstance(reply, natix.Refused):
                raise reply
            return Shown(self.documents.tag(name) or "", natix.Pyx(reply))

        async with self.readers:
            shown = await self.engine.ask_with(natix.export(name), take)
        self.kept.put("pyx", name, shown)
        return shown

    async def shown(self, name: str) -> Shown:
        """The document's XML, or the file that it keeps."""
        found = self.kept.get("xml", name, self.documents.tag(name))
        if found:
            return found
        lines = await self.lines(name)
        file = contents.file_of(lines.content)
        if file:
            shown = Shown(lines.tag, file.content, file.type or "application/octet-stream")
        else:
            shown = Shown(lines.tag, await self.aside(natix_sources.xml_of, lines.content))
        self.kept.put("xml", name, shown)
        return shown

    async def measured(self, name: str) -> Optional[Document]:
        """What is known of a document as it is now, its size and type among it, if XML can say it; None where it is gone."""
        for _ in range(TRIES):
            document = self.documents.get(name)
            if document is None or document.size is not None:
                return document
            try:
                shown = await self.shown(name)
            except natix.Refused:
                continue
            except natix.NotXml:
                break
            document = self.documents.get(name)
            if document is not None and shown.tag == self.documents.tag(name):
                document.size, document.kind = len(shown.content), shown.type or "application/xml"
        return self.documents.get(name)

    async def get(self, name: str, paths: Sequence[Path]) -> Tuple[str, List[Union[natix.Node, natix.Refused]]]:
        """The nodes at these paths, with the document's tag, all of one moment."""
        answers, tag = await self.engine.ask_all([natix.get(name, path) for path in paths], lambda: self.documents.tag(name))
        return tag or "", answers

    async def parts(self, name: str) -> Tuple[str, List[natix.Interval]]:
        """The intervals in which a document is stored, with its tag."""
        answers, tag = await self.engine.ask_all([natix.layout(name)], lambda: self.documents.tag(name))
        if isinstance(answers[0], natix.Refused):
            raise answers[0]
        return tag or "", answers[0]

    # Changes

    async def put(self, name: str, load: natix.Command[natix.Loaded], check: Callable[[Documents], None]) -> Tuple[Done, bool]:
        """Makes a document, or puts it in the place of the one that is there: whether it was made."""
        made = False

        def plan(documents: Documents) -> Plan:
            nonlocal made
            check(documents)
            made = name not in documents
            there = [] if made else [natix.drop(name)]
            return Plan([*there, load], [*([] if made else [Effect("drop", name)]), Effect("put", name)])

        return await self.commits.carry_out(Claim(frozenset((name, name + FOLDER))), plan), made

    async def drop(self, name: str, check: Callable[[Documents], None]) -> Done:
        """Forgets a document, or a folder with all that is below."""
        def plan(documents: Documents) -> Plan:
            check(documents)
            names = tree_of(documents, name)
            return Plan([natix.drop(one) for one in names], [Effect("drop", one) for one in names])

        return await self.commits.carry_out(claim_of(name), plan)

    async def edit(self, name: str, commands: Sequence[natix.Command[Any]], check: Optional[Callable[[Documents], None]]) -> Done:
        """Edits a document by some commands."""
        def plan(documents: Documents) -> Plan:
            if check:
                check(documents)
            return Plan(commands, [Effect("edit", name)] * len(commands))

        return await self.commits.carry_out(Claim(frozenset((name,)), (), check is not None), plan)

    async def make_folder(self, name: str, check: Callable[[Documents], None]) -> Done:
        """Makes a folder: a document whose name ends with a slash stands for it."""
        load = natix.load(name, FOLDER_LINES)

        def plan(documents: Documents) -> Plan:
            check(documents)
            return Plan([load], [Effect("put", name)])

        return await self.commits.carry_out(Claim(frozenset((name, name.rstrip(FOLDER)))), plan)

    async def move(self, old: str, new: str, check: Callable[[Documents], None]) -> Done:
        """Gives a document, or a folder with all that is below, another name, in the place of what has that."""
        def plan(documents: Documents) -> Plan:
            check(documents)
            gone = targets(documents, new)
            pairs = [(one, new + one[len(old):]) for one in tree_of(documents, old)]
            check_lengths(pairs)
            return Plan([*map(natix.drop, gone), *(natix.rename(*pair) for pair in pairs)],
                        [*(Effect("drop", one) for one in gone), *(Effect("rename", *pair) for pair in pairs)])

        return await self.commits.carry_out(claim_of(old, new), plan)

    async def copy(self, old: str, new: str, is_deep: bool, check: Callable[[Documents], None]) -> Done:
        """Copies a document, or a folder with all that is below, in the place of what has that name. Where one of them changes before
        the copy's turn comes, all are read again."""
        for _ in range(TRIES):
            names = tree_of(self.documents, old) if is_deep else [name for name in tree_of(self.documents, old) if name == old]
            read = [(name, await self.lines(name)) for name in names]
            loads = [(natix.load(new + name[len(old):], natix.Pyx(shown.content)), new + name[len(old):]) for name, shown in read]
            check_lengths([("", name) for _, name in loads])

            def plan(documents: Documents) -> Plan:
                check(documents)
                if is_deep and tree_of(documents, old) != names or any(documents.tag(name) != shown.tag for name, shown in read):
                    raise Stale
                gone = targets(documents, new)
                made = loads or [(natix.load(new, FOLDER_LINES), new)]  # a folder that only what is below it stands for
                return Plan([*map(natix.drop, gone), *(load for load, _ in made)],
                            [*(Effect("drop", one) for one in gone), *(Effect("put", name) for _, name in made)])

            try:
                return await self.commits.carry_out(claim_of(old, new), plan)
            except Stale:
                continue
        raise Busy


class LongName(Exception):
    """A name would be longer than one may be."""


def check_lengths(pairs: Sequence[Tuple[str, str]]) -> None:
    for _, name in pairs:
        if len(name) > LONGEST_NAME:
            raise LongName(f"{name[:40]}.. would have {len(name)} bytes, and {LONGEST_NAME} are the most")


def tree_of(documents: Documents, name: str) -> List[str]:
    """The documents that a name means: itself, or of a folder all that is below."""
    return list(documents.below(name)) if name.endswith(FOLDER) or not name else [name] if name in documents else []


def targets(documents: Documents, new: str) -> List[str]:
    """What has to go where something comes to stand under a name: a document, and a folder of that name."""
    plain = new.rstrip(FOLDER)
    return [*([plain] if plain in documents else []), *documents.below(plain + FOLDER)]


def claim_of(*names: str) -> Claim:
    """All that names mean, whether documents or folders."""
    plain = [name.rstrip(FOLDER) for name in names]
    return Claim(frozenset(plain), tuple(name + FOLDER for name in plain))
