#!/usr/bin/env python3
"""Which nodes of a document name steps reach, worked out from the definition alone, and cases for tests.

    trials/name_steps.py cases SEED COUNT       random documents and steps with what they reach, as rows of a table in Rust
    trials/name_steps.py compare SEED COUNT     the same beside `xmlstarlet sel`, with the steps as XPath; ends with 0 where all agree

No steps match the empty path alone. Steps that end in a child step match the path of a node with its label where those
before match the path without its last position; steps that end in a descendant step where those before match a
shorter beginning of it. What is reached are the paths of the document's nodes that match, in document order.
Nothing here knows how natix looks for them.
"""

import random
import re
import subprocess
import sys
import tempfile
from functools import lru_cache

NAMES = ["a", "b", "c"]


class Node:
    """A node by its label, with its content and its children."""

    def __init__(self, label, content="", children=()):
        self.label, self.content, self.children = label, content, list(children)


def paths(node, path=()):
    """Each node's path and label, in document order."""
    waiting = [(path, node)]
    while waiting:
        path, node = waiting.pop()
        yield path, node.label
        waiting += reversed([((*path, position), child) for position, child in enumerate(node.children)])


def reached(root, steps):
    """The paths that the steps match, in document order; a step is `/` or `//`, and a label."""
    labels = dict(paths(root))

    @lru_cache(maxsize=None)
    def matches(path, count):
        if count == 0:
            return path == ()
        axis, label = steps[count - 1]
        if labels[path] != label or path == ():
            return False
        if axis == "/":
            return matches(path[:-1], count - 1)
        return any(matches(path[:length], count - 1) for length in range(len(path)))

    return [path for path, _ in paths(root) if matches(path, len(steps))]


def steps_of(text):
    """The steps that a text says, or None."""
    steps = re.findall(r"(//?)([^/]+)", text)
    return steps if steps and "".join(axis + label for axis, label in steps) == text else None


def text_of(steps):
    return "".join(axis + label for axis, label in steps)


def path_text(path):
    return "/" + "/".join(map(str, path))


def random_document(rng, most=25):
    """A document with few names, so that steps reach something."""
    left = [rng.randint(1, most)]

    def element(depth):
        attributes = rng.sample(NAMES, rng.choice([0, 0, 0, 1, 2]))
        children = [Node("@" + name, str(rng.randint(0, 9))) for name in attributes]
        text_before = False
        while left[0] > 0 and rng.random() < 0.9 - 0.04 * depth:
            left[0] -= 1
            kind = rng.random()
            if kind < 0.65 and depth < 7:
                children.append(element(depth + 1))
                text_before = False
            elif kind < 0.85 and not text_before:
                children.append(Node("#text", "t" * rng.randint(1, 3)))
                text_before = True
            else:
                children.append(Node("?" + rng.choice(NAMES), "i"))
                text_before = False
        return Node(rng.choice(NAMES), children=children)

    before = [Node("?" + rng.choice(NAMES), "i") for _ in range(rng.choice([0, 0, 1]))]
    after = [Node("?" + rng.choice(NAMES), "i") for _ in range(rng.choice([0, 0, 0, 1]))]
    return Node("#doc", children=before + [element(1)] + after)


def random_steps(rng, root):
    """Steps along a way of the document, some of them left out or changed, so that many of them reach something."""
    path, _ = rng.choice(list(paths(root))[1:])
    node, labels = root, []
    for position in path:
        node = node.children[position]
        labels.append(node.label)
    steps, skipped = [], False
    for index, label in enumerate(labels):
        if index + 1 < len(labels) and rng.random() < 0.35:
            skipped = True
            continue
        if rng.random() < 0.12:
            label = rng.choice(["a", "b", "c", "@a", "?b", "#text"])
        steps.append(("//" if skipped or rng.random() < 0.4 else "/", label))
        skipped = False
    return steps


def pyx(node):
    """The document's lines."""
    lines = []
    for child in node.children:
        mark, name = child.label[0], child.label[1:]
        if child.label == "#text":
            lines.append("-" + child.content)
        elif mark == "@":
            lines.append(f"A{name} {child.content}")
        elif mark == "?":
            lines.append(f"?{name} {child.content}")
        else:
            lines += [f"({child.label}", *pyx(child), f"){child.label}"]
    return lines


def xml(node):
    out = []
    for child in node.children:
        mark, name = child.label[0], child.label[1:]
        if child.label == "#text":
            out.append(child.content)
        elif mark == "?":
            out.append(f"<?{name} {child.content}?>")
        elif mark != "@":
            attributes = "".join(f' {c.label[1:]}="{c.content}"' for c in child.children if c.label[0] == "@")
            out.append(f"<{child.label}{attributes}>{xml(child)}</{child.label}>")
    return "".join(out)


def xpath(steps):
    """The same steps in XPath."""
    said = []
    for axis, label in steps:
        test = {"#": "text()", "@": label, "?": f"processing-instruction('{label[1:]}')"}.get(label[0], label)
        said.append(axis + test)
    return "".join(said)


def by_xmlstarlet(root, steps):
    """What xmlstarlet finds. An attribute is told by its name behind its element, any other node by how many nodes
    stand before it, its parent's attributes counted."""
    with tempfile.NamedTemporaryFile("w", suffix=".xml") as file:
        file.write(xml(root))
        file.flush()
        way, place = "ancestor-or-self::node()[parent::node()]", "concat('/', count(../@*) + count(preceding-sibling::node()))"
        command = ["xmlstarlet", "sel", "-t", "-m", xpath(steps), "-m", way, "--if", "count(. | ../@*) = count(../@*)",
                   "-v", "concat('/@', name())", "--else", "-v", place, "-b", "-b", "-n", file.name]
        found = subprocess.run(command, capture_output=True, text=True)
        if found.returncode not in (0, 1):
            raise SystemExit(found.stderr)
    places = []
    for line in found.stdout.splitlines():
        node, path = root, []
        for part in line.split("/")[1:]:
            at = next(i for i, c in enumerate(node.children) if c.label == part) if part[0] == "@" else int(part)
            path.append(at)
            node = node.children[at]
        places.append(tuple(path))
    return places


def cases(seed, count):
    rng = random.Random(seed)
    for _ in range(count):
        root = random_document(rng)
        yield root, random_steps(rng, root)


def literal(lines):
    return 'b"' + "".join(line.replace("\\", "\\\\").replace('"', '\\"') + "\\n" for line in lines) + '"'


def main(words):
    what, seed, count = words[0], int(words[1]), int(words[2])
    wrong = some = 0
    for root, steps in cases(seed, count):
        found = reached(root, steps)
        if what == "cases":
            print(f'    (\n        {literal(pyx(root))},\n        b"{text_of(steps)}",\n        {literal(map(path_text, found))},\n    ),')
            continue
        some += bool(found)
        if found != by_xmlstarlet(root, steps):
            wrong += 1
            print(xml(root), text_of(steps), found, by_xmlstarlet(root, steps))
    if what == "compare":
        print(f"{count} cases, {some} of them reach something, {wrong} differ")
    return wrong != 0


if __name__ == "__main__":
    if len(sys.argv) != 4 or sys.argv[1] not in ("cases", "compare"):
        sys.exit(__doc__)
    sys.exit(main(sys.argv[1:]))
