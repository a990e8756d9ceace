"""Questions about a document: by names and one equality, which the store answers, and by XPath over an export, by lxml."""

from __future__ import annotations

import re
from typing import Any, Dict, List, NamedTuple, Optional, Set, Tuple, Union

import natix
import natix_steps
from natix_files import Files
from natix_subtrees import Subtrees

from .session import BATCH, Session, Wrong

Path = Tuple[int, ...]
EQUALITY = re.compile(r"""(.+?)\[\s*(?:@|attribute\s*::\s*)([^\s='"\]]+)\s*=\s*(?:'([^']*)'|"([^"]*)")\s*\]\s*""", re.S)


class Question(NamedTuple):
    """Names on the way from the root, as the steps of `natix STORE find`, and of the node behind so many of them the content
    that an attribute has."""

    steps: str
    behind: int = 0
    attribute: str = ""
    content: str = ""


def of_xpath(xpath: str) -> Optional[Question]:
    """The question that an XPath is, where names and one equality with an attribute say it."""
    try:
        plain, equality = "", Question("")
        for slashes, part in natix_steps.parts_of(xpath.strip()):
            found = EQUALITY.fullmatch(part)
            if equality.behind and (found or slashes == "//"):
                return None
            plain += slashes + (found[1] if found else part)
            if found:
                natix_steps.steps_of(f"/@{found[2]}")
                behind = len(natix_steps.steps_of(natix_steps.steps_of_xpath(plain)))
                equality = Question("", behind, found[2], found[3] if found[3] is not None else found[4])
        return equality._replace(steps=natix_steps.steps_of_xpath(plain))
    except natix_steps.CannotTurn:
        return None


def find(session: Session, name: str, questions: List[str]) -> List[List[Path]]:
    """The paths of the nodes that steps reach, by a program of its own, since a session answers no such questions."""
    try:
        for steps in questions:
            natix_steps.steps_of(steps)
    except natix_steps.CannotTurn as error:
        raise Wrong(f"{steps}: {error}")
    asked = "".join(f"find {name} {steps}\n" for steps in questions).encode("utf-8", "surrogateescape")
    lines = session.aside(["find"], name, input=asked, stdout=-1).stdout.decode().splitlines()
    answers: List[List[Path]] = [[]]
    for line in lines:
        if line.startswith("error "):
            raise natix.Refused(line[len("error "):])
        if line == ".":
            answers.append([])
        else:
            answers[-1].append(natix.read_path(line[len("at "):]))
    return answers[:-1]


def answer(session: Session, name: str, question: Question) -> List[Path]:
    """The paths of the nodes that a question is about."""
    if not question.behind:
        return find(session, name, [question.steps])[0]
    steps = natix_steps.steps_of(question.steps)
    front = "".join(axis + label for axis, label in steps[:question.behind])
    reached, attributes = find(session, name, [question.steps, f"{front}/@{question.attribute}"])
    nodes: Set[Path] = set()
    for first in range(0, len(attributes), BATCH):
        paths = attributes[first:first + BATCH]
        found = session.of(name).ask_all([natix.get(name, path) for path in paths])
        nodes.update(path[:-1] for path, node in zip(paths, found) if node.content == question.content)
    below = len(steps) - question.behind
    return [path for path in reached if path[:len(path) - below] in nodes]


# By lxml


class Copy:
    """A document as lxml has it, with the path of each node. A name is one as it is written, so one without a prefix is of no
    namespace, whatever namespace the document says for it, as in the questions that the store answers."""

    def __init__(self, etree: Any) -> None:
        self.etree = etree
        self.root: Any = None
        self.open: List[Any] = []
        self.namespaces: List[Dict[str, str]] = [{"xml": "http://www.w3.org/XML/1998/namespace"}]
        self.prefixes: Dict[str, str] = {}  # those of the whole document
        self.paths: List[Tuple[Any, Path]] = []  # the elements and what stands between tags
        self.inner: Dict[Path, List[str]] = {(): []}  # what the children of each element are
        self.here: Path = ()
        self.waiting: Optional[Tuple[str, List[Tuple[str, str]]]] = None  # a start tag

    def line(self, line: str) -> None:
        code, name, content = natix.read_line(line)
        if code == ")":
            self.start()
            self.open.pop()
            self.namespaces.pop()
            self.here = self.here[:-1]
            return
        if code == "A" and self.waiting:
            self.waiting[1].append((name, content))
        else:
            self.start()
        self.inner[self.here].append({"A": "@" + name, "-": "#text"}.get(code, ""))
        if code == "(":
            self.here = (*self.here, len(self.inner[self.here]) - 1)
            self.inner[self.here] = []
            self.waiting = (name, [])
        elif code != "A":
            self.add(code, name, content)

    def start(self) -> None:
        """Makes the element whose start tag ended."""
        if self.waiting is None:
            return
        (name, attributes), self.waiting = self.waiting, None
        known = {**self.namespaces[-1], **{given[6:]: value for given, value in attributes if given.startswith("xmlns:")}}
        self.namespaces.append(known)
        self.prefixes.update(known)
        named = {self.qualified(given, known): value for given, value in attributes if given != "xmlns" and not given.startswith("xmlns:")}
        element = self.etree.Element(self.qualified(name, known), named, nsmap={prefix: uri for prefix, uri in known.items() if prefix != "xml"})
        if self.open:
            self.open[-1].append(element)
        else:
            self.root = element
        self.open.append(element)
        self.paths.append((element, self.here))

    def qualified(self, name: str, known: Dict[str, str]) -> str:
        prefix, colon, local = name.partition(":")
        if not colon:
            return name
        if prefix not in known:
            raise Wrong(f"the prefix of {name} is said nowhere, and lxml takes no such document")
        return f"{{{known[prefix]}}}{local}"

    def add(self, code: str, name: str, content: str) -> None:
        """Adds a text, an instruction or a comment to the innermost element."""
        if not self.open:
            return
        parent = self.open[-1]
        if code == "-":
            last = parent[-1] if len(parent) else None
            if last is None:
                parent.text = (parent.text or "") + content
            else:
                last.tail = (last.tail or "") + content
            return
        made = self.etree.Comment(content) if name == "natix:comment" else self.etree.ProcessingInstruction(name, content or None)
        parent.append(made)
        self.paths.append((made, (*self.here, len(self.inner[self.here]) - 1)))


def by_lxml(session: Session, name: str, xpath: str) -> Union[List[Path], str, float, bool]:
    """What an XPath finds: the paths of nodes, or a value."""
    try:
        from lxml import etree  # type: ignore[import]
    except ImportError:
        raise Wrong("lxml isn't installed (Debian: python3-lxml), and without it names and one equality with an attribute are what can be asked")
    copy = Copy(etree)
    taker = Subtrees([()], lambda _, line: copy.line(line))
    Files(session.of(name)).pour(name, taker)
    if taker.error:
        raise taker.error
    try:
        found = etree.ElementTree(copy.root).xpath(xpath, namespaces={prefix: uri for prefix, uri in copy.prefixes.items() if prefix != "xml"})
    except etree.XPathError as error:
        raise Wrong(f"the XPath: {error}")
    if not isinstance(found, list):
        return found if not hasattr(found, "getparent") else str(found)
    places = {element: path for element, path in copy.paths}
    return sorted({path for path in (path_of(one, places, copy.inner) for one in found) if path is not None})


def path_of(found: Any, places: Dict[Any, Path], inner: Dict[Path, List[str]]) -> Optional[Path]:
    """The path of what lxml found."""
    if not hasattr(found, "is_attribute"):
        return places.get(found)
    parent = found.getparent()
    path = places[parent]
    if found.is_attribute:
        names = inner[path]
        local = found.attrname.rpartition("}")[2]
        wanted = [at for at, label in enumerate(names) if label[:1] == "@" and label[1:].rpartition(":")[2] == local
                  and label[1:] not in ("xmlns",) and not label.startswith("@xmlns:")]
        return (*path, wanted[0]) if wanted else None
    if found.is_tail:
        return (*path[:-1], path[-1] + 1)
    return (*path, inner[path].index("#text"))
