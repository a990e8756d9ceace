"""Answers to requests, refusals among them: a status, headers, and a body that is JSON where nothing else is said."""

from __future__ import annotations

import json
from typing import Any, Dict, NamedTuple, Optional

import natix

from .engine import Ended

STATUSES = {
    "no-document": 404, "no-node": 404, "exists": 409, "bad-place": 409, "twice": 409, "no-content": 409, "too-many-rules": 409,
    "too-many": 413, "too-deep": 413, "too-heavy": 422, "long-line": 422, "full": 507, "syntax": 400,
}
MEANINGS = {
    "no-document": "there is no document of that name",
    "no-node": "there is no node at that path",
    "exists": "there is a document of that name",
    "bad-place": "such a node can't stand there, or can't be taken from there",
    "twice": "the element has an attribute of that name",
    "no-content": "elements and the document's root have no content",
    "too-many": "the document would have more than 524,288 nodes",
    "too-deep": "a node would be deeper than 256",
    "too-heavy": "a node weighs more than a part of a document may",
    "long-line": "a name and a content have more than 1,048,576 bytes together",
    "full": "the store may have no pages left for that",
    "syntax": "natix carries out no such command here",
}
# What a browser may do with a document: show it, and run nothing of it
SHUT = {"Content-Security-Policy": "sandbox; default-src 'none'; style-src 'unsafe-inline'; img-src data:", "X-Content-Type-Options": "nosniff"}
JSON = "application/json"


class Reply(NamedTuple):
    """An answer."""

    status: int
    body: bytes = b""
    type: str = ""
    headers: Dict[str, str] = {}


class Refusal(Exception):
    """A request that isn't carried out: a status, the word for it, and more of it by names."""

    def __init__(self, status: int, word: str, meaning: str = "", headers: Optional[Dict[str, str]] = None, **more: Any) -> None:
        super().__init__(word)
        self.status, self.headers = status, headers or {}
        self.fields = {"error": word, **({"meaning": meaning} if meaning else {}), **more}

    def reply(self) -> Reply:
        return of_json(self.fields, self.status, self.headers)


def of_json(value: Any, status: int = 200, headers: Optional[Dict[str, str]] = None) -> Reply:
    return Reply(status, json.dumps(value).encode() + b"\n", JSON, {"X-Content-Type-Options": "nosniff", **(headers or {})})


def path_text(path: "tuple[int, ...]") -> str:
    return "".join(f"/{position}" for position in path) or "/"


def refusal_of(refused: natix.Refused, has_edits: bool = False) -> Refusal:
    """What natix's refusal is to a client: its own words, with the line of the PYX, the path and the weight, and the number of the edit
    where there are some."""
    more: Dict[str, Any] = {"said": " ".join(refused.fields)}
    if refused.line is not None:
        more["line"] = refused.line
    if refused.path is not None:
        more["path"], more["weight"] = path_text(refused.path), refused.weight
    if has_edits and refused.number is not None:
        more["at"] = refused.number
    status = STATUSES.get(refused.word, 422)
    if refused.line is not None and refused.word == "twice":
        status = 422
    return Refusal(status, refused.word, MEANINGS.get(refused.word, "the lines are no document"), **more)


def refusal_of_end(end: Ended) -> Refusal:
    """What is known of a request that natix didn't answer, since it ended: `not` carried out, or `unknown`."""
    meanings = {"not": "natix ended, and nothing was changed", "unknown": "natix ended, and whether that was carried out isn't known: look, before you ask again"}
    return Refusal(503, "ended", meanings[end.known], {"Retry-After": "1"}, known=end.known, natix=str(end))
