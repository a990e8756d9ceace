"""What a request asks for: its document, its query, its conditions, and what may come back."""

from __future__ import annotations

import functools
import re
from typing import Callable, Dict, FrozenSet, List, Mapping, Optional, Tuple

from multidict import CIMultiDictProxy

from .answers import Refusal
from .documents import Documents
from .names import FOLDER, NoName, place_of, split_target, unquoted

FORMS = ("xml", "json", "pyx", "file", "html")
TAG = re.compile(r'\s*(W/)?"([^"]*)"\s*(?:,|$)')
MOST_FOUND = 10_000


class Target:
    """The name that a request is about, and its query by names."""

    def __init__(self, raw: str) -> None:
        try:
            path, query = split_target(raw)
            self.name = place_of(path)
            self.query = read_query(query)
        except NoName as why:
            raise Refusal(414 if "bytes" in str(why) else 400, "name", str(why))

    @property
    def is_folder(self) -> bool:
        """Whether the path ends with a slash."""
        return not self.name or self.name.endswith(FOLDER)

    def only(self, *known: str) -> None:
        """Refuses a query that has another word: what isn't understood isn't passed over."""
        for word in self.query:
            if word not in known:
                raise Refusal(400, "query", f"{word[:100]} means nothing here")

    def path(self) -> Tuple[int, ...]:
        return read_path(self.query["path"])

    def number(self, word: str, usual: int, least: int, most: int) -> int:
        """A number of the query."""
        text = self.query.get(word, str(usual))
        if not re.fullmatch(r"[0-9]{1,9}", text, re.A) or not least <= int(text) <= most:
            raise Refusal(400, "query", f"{word} is a number from {least} to {most}")
        return int(text)


def read_query(query: str) -> Dict[str, str]:
    """The words of a query, each once. A plus is a plus."""
    words: Dict[str, str] = {}
    for part in filter(None, query.split("&")):
        word, _, value = part.partition("=")
        name = unquoted(word).decode("utf-8", "surrogateescape")
        if name in words or len(words) == 20:
            raise Refusal(400, "query", "a word comes twice, or there are too many")
        words[name] = unquoted(value).decode("utf-8", "surrogateescape")
    return words


def read_path(text: str) -> Tuple[int, ...]:
    """The path of a node, as a script has it."""
    if text != "/" and not re.fullmatch(r"(/(0|[1-9][0-9]{0,9}))+", text, re.A):
        raise Refusal(400, "path", "a path is `/`, or positions from 0 on with a slash before each")
    path = tuple(int(position) for position in text.split("/")[1:] if position)
    if any(position > 0xFFFFFFFF for position in path):
        raise Refusal(400, "path", "a position is at most 4,294,967,295")
    return path


# Which form comes back


def form_of(headers: Mapping[str, str], query: Mapping[str, str], usual: str) -> str:
    """The form that a client asks for by `as`, or by the header Accept where that names one of them alone or before others."""
    if "as" in query:
        if query["as"] not in FORMS:
            raise Refusal(400, "query", f"as is one of {', '.join(FORMS)}")
        return query["as"]
    for kind in accepted(headers.get("Accept", "*/*")):
        if kind in ("application/json", "text/json"):
            return "json"
        if kind in ("application/x-pyx", "text/x-pyx"):
            return "pyx"
        if kind == "text/html":
            return "html"
        if kind in ("*/*", "application/xml", "text/xml", "application/*", "text/*"):
            return usual
    return usual


@functools.lru_cache(maxsize=1024)
def accepted(header: str) -> List[str]:
    """The types of a header Accept, those that are liked most first."""
    liked: List[Tuple[float, str]] = []
    for part in header.split(",")[:50]:
        kind, *parameters = (word.strip().lower() for word in part.split(";"))
        quality = next((word[2:] for word in parameters if word.startswith("q=")), "1")
        value = float(quality) if re.fullmatch(r"[0-9]{1,3}(\.[0-9]{0,6})?", quality, re.A) else 0.0
        if value > 0:
            liked.append((value, kind))
    return [kind for _, kind in sorted(liked, key=lambda one: -one[0])]


# Conditions


def tags_of(header: str) -> Optional[FrozenSet[str]]:
    """The tags of a header, None for `*`. A weak tag is none that a change may rest on."""
    if header.strip() == "*":
        return None
    tags, at = [], 0
    while at < len(header):
        found = TAG.match(header, at)
        if not found:
            raise Refusal(400, "condition", "no list of tags")
        if not found[1]:
            tags.append(found[2].partition(".")[0])
        at = found.end()
    return frozenset(tags)


def whole(headers: "CIMultiDictProxy[str]", name: str) -> str:
    """A header that may stand more than once, as one."""
    return ", ".join(headers.getall(name, []))


def condition_of(headers: "CIMultiDictProxy[str]", name: str) -> Optional[Callable[[Documents], None]]:
    """What refuses a change where the conditions of its headers don't hold, None where it has none."""
    if "If" in headers:
        raise Refusal(412, "condition", "conditions are said by If-Match and If-None-Match: there are no locks")
    if "If-Match" not in headers and "If-None-Match" not in headers:
        return None
    wanted, others = tags_of(whole(headers, "If-Match")), tags_of(whole(headers, "If-None-Match"))

    def check(documents: Documents) -> None:
        tag = documents.tag(name)
        if "If-Match" in headers and (tag is None or wanted is not None and tag not in wanted):
            raise Refusal(412, "condition", "the document isn't as If-Match says", tag=tag)
        if "If-None-Match" in headers and tag is not None and (others is None or tag in others):
            raise Refusal(412, "condition", "the document is as If-None-Match says", tag=tag)

    return check


def is_known(headers: "CIMultiDictProxy[str]", tag: str) -> bool:
    """Whether the client has what it asks for: If-None-Match of a look."""
    if "If-None-Match" not in headers:
        return False
    found = re.findall(r'"([^"]*)"', whole(headers, "If-None-Match"))
    return headers["If-None-Match"].strip() == "*" or tag in found
