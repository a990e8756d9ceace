"""What documents come from and go to: XML by xmlpyx, trees of elements, files that are whole or not there."""

from __future__ import annotations

import contextlib
import os
import re
import shutil
import subprocess
import sys
import tempfile
import xml.etree.ElementTree as tree
from typing import IO, Any, Dict, Iterable, Iterator, List, Optional, Tuple, Union, cast

HERE = os.path.dirname(os.path.abspath(__file__))
LEFT_OUT = b"xmlpyx: left out: "
# The prefixes that ElementTree gives to these namespaces, whatever the document had
GUESSED = {
    "http://www.w3.org/1999/xhtml": "html", "http://www.w3.org/1999/02/22-rdf-syntax-ns#": "rdf", "http://schemas.xmlsoap.org/wsdl/": "wsdl",
    "http://www.w3.org/2001/XMLSchema": "xs", "http://www.w3.org/2001/XMLSchema-instance": "xsi", "http://purl.org/dc/elements/1.1/": "dc",
}
XML = "http://www.w3.org/XML/1998/namespace"


class Error(Exception):
    """Anything that natix says instead of an answer."""

    __module__ = "natix"


class NotXml(Error):
    """What xmlpyx refuses, with the place: XML that is malformed or has what PYX can't say, or a document that XML can't."""

    __module__ = "natix"


class Pyx(bytes):
    """The lines of a document in PYX. Of one that was XML, `left_out` says what of the XML they don't have."""

    __module__ = "natix"
    left_out: Tuple[str, ...] = ()


Source = Union[str, bytes, Pyx, "os.PathLike[str]", IO[bytes], tree.Element, "tree.ElementTree", Any]


def find_natix(named: Optional[str] = None) -> str:
    for program in (named, os.environ.get("NATIX"), os.path.join(HERE, "..", "crates", "natix", "out", "natix"), shutil.which("natix")):
        if program and os.access(program, os.X_OK):
            return program
    raise FileNotFoundError("there is no program natix: name it by $NATIX, or put it on the PATH")


def find_xmlpyx() -> List[str]:
    beside = os.path.join(HERE, "xmlpyx")
    for program in (os.environ.get("XMLPYX"), os.path.join(HERE, "fast", "xmlpyx"), beside, shutil.which("xmlpyx")):
        if program and os.access(program, os.X_OK):
            return [sys.executable, program] if program == beside else [program]
    raise FileNotFoundError("there is no program xmlpyx: name it by $XMLPYX, or put it on the PATH")


def into_words(keep: bool) -> List[str]:
    """The command that makes PYX of XML, and says what it leaves out."""
    return [*find_xmlpyx(), "-v", *(["--keep"] if keep else []), "in"]


def check_xmlpyx(status: int, said: bytes) -> None:
    """Raises what xmlpyx said where it didn't end well."""
    if status:
        why = said.decode("utf-8", "replace").strip()
        why = why[8:] if why.startswith("xmlpyx: ") else why
        raise NotXml(why) if status == 2 else Error(f"xmlpyx ended with {status}: {why}")


def left_out_of(said: bytes) -> Tuple[str, ...]:
    """What xmlpyx left out of a document. The XML declaration and what stands in other files isn't of the document."""
    comments, others = [], []
    for line in said.splitlines():
        what = line[len(LEFT_OUT):].decode("utf-8", "replace") if line.startswith(LEFT_OUT) else ""
        if re.fullmatch(r"[0-9]+ comments?", what):
            comments.append(what)
        elif what.startswith("document type "):
            others.append("the document type")
    return (*comments, *others)


def convert(words: List[str], source: Union[bytes, IO[bytes]]) -> Tuple[bytes, bytes]:
    """What xmlpyx makes of a source, and what it says."""
    given: Dict[str, Any] = {"input": source} if isinstance(source, bytes) else {"stdin": source}
    done = subprocess.run(words, stdout=subprocess.PIPE, stderr=subprocess.PIPE, **given)
    check_xmlpyx(done.returncode, done.stderr)
    return done.stdout, done.stderr


def xml_of(lines: bytes) -> bytes:
    """The XML of a document's lines."""
    return convert([*find_xmlpyx(), "out"], lines)[0]


def pyx(source: Source, keep: bool = False) -> Pyx:
    """A document in PYX, of a string or bytes of XML, a path or an open file of XML, a tree of elements, or PYX. With `keep`
    comments and the document type become instructions, of which `out` of xmlpyx and `Store.export` make what they were.

    >>> pyx("<a>x</a>")
    b'(a\\n-x\\n)a\\n'
    >>> pyx("<!--tea--><a/>").left_out, pyx("<!--tea--><a/>", keep=True)
    (('1 comment',), b'?natix:comment tea\\n(a\\n)a\\n')
    >>> pyx("<a>")
    Traceback (most recent call last):
    natix.NotXml: line 1, column 4: no element found
    """
    if isinstance(source, Pyx):
        return source
    if isinstance(source, os.PathLike):
        with open(source, "rb") as file, naming(os.fspath(source)):
            return pyx(file, keep)
    if isinstance(source, str):
        source = re.sub(r"^(\ufeff?<\?xml[^>]*?)\s+encoding\s*=\s*(\"[^\"]*\"|'[^']*')", r"\1", source).encode()
    elif isinstance(source, tree.Element) or hasattr(source, "getroot"):
        source = xml_of_tree(source)
    elif hasattr(source, "nsmap"):
        source = xml_of_lxml(source)
    lines, said = convert(into_words(keep), cast(Union[bytes, IO[bytes]], source))
    made = Pyx(lines)
    made.left_out = left_out_of(said)
    return made


@contextlib.contextmanager
def naming(what: str) -> Iterator[None]:
    """Says of what is refused within which file or document it is of."""
    try:
        yield
    except NotXml as error:
        raise NotXml(f"{what}: {error}") from None


# Trees


def xml_of_tree(source: Any) -> bytes:
    """The XML of an element or a tree."""
    root = source.getroot() if hasattr(source, "getroot") else source
    if hasattr(root, "nsmap"):
        return xml_of_lxml(source)
    check_prefixes(root)
    tail, root.tail = root.tail, None
    try:
        return cast(bytes, tree.tostring(root, "utf-8"))
    finally:
        root.tail = tail


def xml_of_lxml(source: Any) -> bytes:
    """That of lxml, which keeps the prefixes of namespaces and what stands beside the root."""
    import lxml.etree  # type: ignore[import]
    return cast(bytes, lxml.etree.tostring(source, encoding="utf-8", with_tail=False))


def check_prefixes(root: tree.Element) -> None:
    """Refuses a tree whose XML would have prefixes that nobody said: an element of Python's knows namespaces and no prefixes.

    >>> check_prefixes(tree.fromstring('<a xmlns="urn:a"/>'))  # doctest: +ELLIPSIS
    Traceback (most recent call last):
    ValueError: the name {urn:a}a has a namespace, and its prefix isn't known: ...
    """
    prefixes: Dict[str, str] = getattr(tree, "_namespace_map")
    for element in root.iter():
        names = [element.tag] if isinstance(element.tag, str) else []
        for name in (*names, *element.attrib):
            namespace = name[1:].partition("}")[0] if name.startswith("{") else XML
            prefix = prefixes.get(namespace)
            if namespace != XML and (not prefix or GUESSED.get(namespace) == prefix):
                raise ValueError(f"the name {name} has a namespace, and its prefix isn't known: an element of ElementTree doesn't keep it. Give the file or "
                                 f"the text itself, an element of lxml, or say a prefix by ElementTree.register_namespace")


# Files


@contextlib.contextmanager
def new_file(path: Union[str, "os.PathLike[str]"]) -> Iterator[IO[bytes]]:
    """An open file that is put there once the block ends well, whole, with the rights of the one before it; else nothing is
    changed. What is no ordinary file, as a terminal, is written at once."""
    path = os.path.realpath(path)
    if os.path.exists(path) and not os.path.isfile(path):
        with open(path, "wb") as file:
            yield cast(IO[bytes], file)
        return
    try:
        handle, name = tempfile.mkstemp(dir=os.path.dirname(path), prefix=os.path.basename(path)[:100])
    except OSError as error:
        raise type(error)(error.errno, error.strerror, path) from None  # nobody knows the name that the file has meanwhile
    try:
        with os.fdopen(handle, "wb") as file:
            yield cast(IO[bytes], file)
            file.flush()
            os.fchmod(file.fileno(), os.stat(path).st_mode & 0o777 if os.path.exists(path) else 0o666 & ~_mask())
            os.fsync(file.fileno())
        os.replace(name, path)
        sync_folders([os.path.dirname(path)])
    except BaseException:
        with contextlib.suppress(FileNotFoundError):
            os.unlink(name)
        raise


def sync_folders(folders: Iterable[str]) -> None:
    """Makes sure that the names in these folders survive a crash."""
    for folder in folders:
        handle = os.open(folder or ".", os.O_RDONLY | os.O_DIRECTORY)
        try:
            os.fsync(handle)
        finally:
            os.close(handle)


def _mask() -> int:
    """The rights that new files don't have."""
    mask = os.umask(0o077)
    os.umask(mask)
    return mask
