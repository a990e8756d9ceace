"""Name steps, as `natix STORE find` takes them, of XPath, and XPath of such steps."""

from __future__ import annotations

import re
from typing import List, Tuple

NAME = r"[^\x00-\x20#*/?@\\]+"
PLAIN = r"[A-Za-z_\u0080-\uffff][\w.\-\u0080-\uffff]*"
MOST_STEPS, LONGEST = 64, 1024
FORMS = [
    (r"(?:child::)?(PLAIN(?::PLAIN)?)", "{0}"),
    (r"(?:child::)?\*\[name\(\)='([^']+)'\]", "{0}"),
    (r"(?:child::)?\*\[name\(\)=\"([^\"]+)\"\]", "{0}"),
    (r"(?:child::)?text\(\)", "#text"),
    (r"(?:child::)?processing-instruction\('([^']+)'\)", "?{0}"),
    (r"(?:child::)?processing-instruction\(\"([^\"]+)\"\)", "?{0}"),
    (r"(?:@|attribute::)(PLAIN(?::PLAIN)?)", "@{0}"),
    (r"(?:@|attribute::)\*\[name\(\)='([^']+)'\]", "@{0}"),
    (r"(?:@|attribute::)\*\[name\(\)=\"([^\"]+)\"\]", "@{0}"),
]
TESTS = [(re.compile(form.replace("PLAIN", PLAIN)), label) for form, label in FORMS]


class CannotTurn(Exception):
    """What was given has no form on the other side."""


def steps_of(text: str) -> List[Tuple[str, str]]:
    """The steps of a text as pairs of `/` or `//` and a label."""
    steps = re.findall(r"(//?)([^/]+)", text)
    if not steps or "".join(axis + label for axis, label in steps) != text:
        raise CannotTurn("these are no steps: each begins with / or //")
    if len(steps) > MOST_STEPS:
        raise CannotTurn(f"more than {MOST_STEPS} steps")
    for _, label in steps:
        if label != "#text" and not re.fullmatch(f"[@?]?{NAME}", label):
            raise CannotTurn(f"{label}: no label")
        if len(label.encode()) > LONGEST:
            raise CannotTurn(f"a label of more than {LONGEST} bytes")
    return steps


def quoted(name: str) -> str:
    """The name as a string of XPath."""
    if "'" not in name:
        return f"'{name}'"
    if '"' not in name:
        return f'"{name}"'
    raise CannotTurn(f"{name}: XPath has no string with both quotes")


def xpath_of_steps(text: str, short: bool = False) -> str:
    """The XPath of name steps."""
    written = ""
    for axis, label in steps_of(text):
        mark, name = (label[0], label[1:]) if label[0] in "@?" else ("", label)
        if label == "#text":
            test = "text()"
        elif mark == "?":
            test = f"processing-instruction({quoted(name)})"
        elif not short:
            test = f"{mark}*[name()={quoted(name)}]"
        elif re.fullmatch(f"{PLAIN}(:{PLAIN})?", name):
            test = mark + name
        else:
            raise CannotTurn(f"{name}: no name of XPath")
        written += axis + test
    return written


def parts_of(xpath: str) -> List[Tuple[str, str]]:
    """The steps of a location path with the slashes before each."""
    parts, rest = [], xpath
    while rest:
        found = re.match(r"(//?)((?:'[^']*'|\"[^\"]*\"|[^/'\"])+)", rest)
        if not found:
            raise CannotTurn("no absolute location path of steps")
        parts.append((found[1], found[2]))
        rest = rest[found.end() :]
    return parts


def steps_of_xpath(xpath: str) -> str:
    """The name steps of an XPath."""
    written, below = "", False
    for slashes, part in parts_of(xpath.strip()):
        below = below or slashes == "//"
        part = re.sub(r"('[^']*'|\"[^\"]*\")|\s*(::|[()\[\]=@])\s*", lambda m: m[1] or m[2], part.strip())
        if part == "descendant-or-self::node()":
            below = True
            continue
        if part.startswith("descendant::"):
            part, below = "child::" + part[len("descendant::") :], True
        for form, label in TESTS:
            found = form.fullmatch(part)
            if found:
                if not all(re.fullmatch(NAME, name) for name in found.groups()):
                    raise CannotTurn(f"{part}: no name of a document")
                written += ("//" if below else "/") + label.format(*found.groups())
                below = False
                break
        else:
            raise CannotTurn(f"{part}: no step that names say")
    if below or not written:
        raise CannotTurn("it ends without a name")
    steps_of(written)
    return written
