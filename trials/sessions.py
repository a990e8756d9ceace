"""Sessions of `natix STORE run`, drawn documents, and what a store has to hold by the replies: for trials/test-store."""

import contextlib
import io
import re
import subprocess
import threading

from harness import NATIX, tool

LETTERS = "abcdefghijklmnopqrstuvwxyz"
DEEPEST = 250
# A content of more bytes stands in a list of its own, on pages that hold so many.
LONGEST_NEAR, LIST_PAGE = 1024, 8184
# How many seconds a run may take.
PATIENCE = 120


class Wrong(Exception):
    pass


# Documents.


class Document:
    """The canonical lines of a document, how many nodes it has, and, once they are known, its intervals."""

    def __init__(self, lines, nodes):
        self.lines, self.nodes, self.layout = lines, nodes, None


class Element:
    def __init__(self, name, depth):
        self.name, self.depth, self.attributes, self.children = name, depth, [], []

    def lines(self):
        found = [b"(" + self.name, *self.attributes]
        for child in self.children:
            found += child.lines() if isinstance(child, Element) else [child]
        return found + [b")" + self.name]


def drawn_name(draw):
    return "".join(draw.choices(LETTERS, k=draw.randint(1, 8))).encode()


def drawn_content(draw, room):
    """Any bytes, or letters, escaped: at most so many, or where there is room for 8 now and then more than a record keeps."""
    length = draw.randint(0, min(room, draw.choice((8, 8, 40, 2048))))
    if room >= 8 and draw.random() < 0.04:
        length = draw.choice((LONGEST_NEAR + 1, draw.randint(LONGEST_NEAR + 1, 3000), LIST_PAGE, LIST_PAGE + 1, draw.randint(LIST_PAGE, 40_000)))
    content = draw.randbytes(length) if draw.random() < 0.2 else "".join(draw.choices(LETTERS + " ", k=length)).encode()
    for byte, pair in ((b"\\", b"\\\\"), (b"\n", b"\\n"), (b"\t", b"\\t"), (b"\r", b"\\r")):
        content = content.replace(byte, pair)
    return content


def drawn_instruction(draw, k):
    content = drawn_content(draw, 8 * (k - 1) - 8)
    return b"?" + drawn_name(draw) + (b" " + content if content else b"")


def drawn_size(draw):
    """How many nodes a document has: mostly few, and at most 2,000."""
    return max(2, round(draw.choice((20, 20, 20, 20, 60, 60, 200, 200, 2000)) ** draw.random()))


def drawn_document(draw, nodes, k):
    """A document of so many nodes, 2 at least, of which none weighs more than k slots, 2 at least."""
    top = Element(drawn_name(draw), 1)
    elements, around = [top], ([], [])
    # How far back the parent of a node may be, and how many nodes are elements.
    reach, share = draw.choice((1, 3, 30, nodes)), draw.choice((0.03, 0.4, 0.9))
    for _ in range(nodes - 2):
        parent = elements[-draw.randint(1, min(reach, len(elements)))]
        kind = draw.random()
        if kind < share and parent.depth < DEEPEST:
            elements.append(Element(drawn_name(draw), parent.depth + 1))
            parent.children.append(elements[-1])
            continue
        kind = draw.random()
        if kind < 0.2:
            name = b"a%d" % len(parent.attributes)
            parent.attributes.append(b"A" + name + b" " + drawn_content(draw, 8 * (k - 1) - len(name)))
        elif kind < 0.85:
            parent.children.append(b"-" + drawn_content(draw, 8 * (k - 1)))
        else:
            (parent.children if kind < 0.98 else draw.choice(around)).append(drawn_instruction(draw, k))
    return Document([*around[0], *top.lines(), *around[1]], nodes)


def places(lines):
    """By path, from which line to which each node of a document stands."""
    found, path, begun = {}, [-1], []
    for at, line in enumerate(lines):
        if line[:1] == b")":
            path.pop()
            found[tuple(path)] = (begun.pop(), at + 1)
            continue
        path[-1] += 1
        if line[:1] == b"(":
            begun.append(at)
            path.append(-1)
        else:
            found[tuple(path)] = (at, at + 1)
    return found


def children(found, path):
    """Where the children of a node stand, by the places of all nodes."""
    below = []
    while (*path, len(below)) in found:
        below.append(found[(*path, len(below))])
    return below


def name_and_content(line):
    """The name of a node and its content, escaped, by its line."""
    name, _, content = (b"", b"", line[1:]) if line[:1] == b"-" else line[1:].partition(b" ")
    return name, content


def weight(line):
    name, content = name_and_content(line)
    length = len(re.sub(rb"\\[ntr\\]", b".", content))
    return 1 + -(-(len(name) + (length if length <= LONGEST_NEAR else 8)) // 8)


# Edits: what the document is then, whose intervals aren't known, or by which words it is refused.


def deleted(document, path):
    found = places(document.lines)
    if path not in found:
        return b"no-node" if path else b"bad-place"
    begin, end = found[path]
    if len(path) == 1 and document.lines[begin][:1] == b"(":
        return b"bad-place"
    gone = sum(line[:1] != b")" for line in document.lines[begin:end])
    return Document(document.lines[:begin] + document.lines[end:], document.nodes - gone)


def inserted(document, path, line, k):
    found, lines, above = places(document.lines), document.lines, path[:-1]
    if not path:
        return b"bad-place"
    if above and above not in found:
        return b"no-node"
    if line[:1] != b"?" if not above else lines[found[above][0]][:1] != b"(":
        return b"bad-place"
    siblings, position, is_attribute = children(found, above), path[-1], line[:1] == b"A"
    attributes = [lines[begin] for begin, _ in siblings if lines[begin][:1] == b"A"]
    if position > len(siblings) or (position > len(attributes) if is_attribute else position < len(attributes)):
        return b"bad-place"
    if is_attribute and name_and_content(line)[0] in [name_and_content(other)[0] for other in attributes]:
        return b"twice"
    if len(path) > 256:
        return b"too-deep"
    if weight(line) > k:
        return b"too-heavy %s %d" % (path_text(path), weight(line))
    end = found[above][1] - 1 if above else len(lines)
    at = siblings[position][0] if position < len(siblings) else end
    new = [line, b")" + line[1:]] if line[:1] == b"(" else [line]
    return Document(lines[:at] + new + lines[at:], document.nodes + 1)


def retexted(document, path, content, k):
    found, lines = places(document.lines), document.lines
    if path and path not in found:
        return b"no-node"
    if not path or lines[found[path][0]][:1] == b"(":
        return b"no-content"
    at = found[path][0]
    code, (name, _) = lines[at][:1], name_and_content(lines[at])
    line = {b"-": b"-", b"A": code + name + b" ", b"?": code + name + (b" " if content else b"")}[code] + content
    if weight(line) > k:
        return b"too-heavy %s %d" % (path_text(path), weight(line))
    return Document(lines[:at] + [line] + lines[at + 1 :], document.nodes)


def edited(document, words, k):
    """What an edit makes of the document that it names."""
    word, _, path, rest = [*words.split(b" ", 3), b""][:4]
    path = tuple(int(position) for position in path.split(b"/")[1:] if position)
    if word == b"delete":
        return deleted(document, path)
    return (inserted if word == b"insert" else retexted)(document, path, rest, k)


def drawn_edit(draw, word, name, document, k):
    """An edit of a document, mostly one that isn't refused."""
    found, lines = places(document.lines), document.lines
    elements = [path for path, (begin, _) in found.items() if lines[begin][:1] == b"("]
    others = [path for path in found if path not in elements]
    if word == b"delete":
        return ask(word, name, path_text(draw.choice([path for path in found if len(path) > 1 or path in others] or [(0,)])))
    if word == b"retext":
        path = draw.choice(others if others and draw.random() < 0.9 else [(), *elements])
        return ask(word, name, path_text(path), drawn_content(draw, 8 * k - 16))
    above, kind = draw.choice(elements if draw.random() < 0.9 else [(), *found]), draw.random()
    siblings = children(found, above)
    attributes = sum(lines[begin][:1] == b"A" for begin, _ in siblings)
    first, last = (0, attributes) if kind < 0.15 else (attributes, len(siblings))
    if draw.random() < 0.05:
        last += 1
    line = b"-" + drawn_content(draw, 8 * k - 8 + draw.choice((0, 0, 0, 8)))
    if kind < 0.15:
        line = b"Ab%d " % draw.randint(0, 99) + drawn_content(draw, 8 * k - 16)
    elif kind < 0.4:
        line = b"(" + drawn_name(draw)
    elif kind < 0.5:
        line = drawn_instruction(draw, k)
    return ask(word, name, path_text((*above, draw.randint(first, last))), line)


def path_text(path):
    return b"/" + b"/".join(b"%d" % position for position in path)


# Commands and replies. A command is its words behind each other; `load` has a document besides, and `begin` the commands of a transaction, each with
# what else is known of it.


def script(commands):
    return b"".join(line + b"\n" for command in commands for line in lines_of(command))


def lines_of(command):
    words, body = command
    if words == b"begin" and body is not None:
        return [words, *(line for inner, _ in body for line in lines_of(inner)), b"commit"]
    return [words, *([] if body is None else [*body, b"."])]


def load(name, document):
    return b"load " + name, document.lines


def ask(*words):
    return b" ".join(words), None


def transaction(commands):
    """These, each a pair of a command and the document that it is to keep, as one."""
    return b"begin", list(commands)


def replies_of(commands, output):
    """The replies that are whole, as lists of lines without the dot, and what is left of the output."""
    found, at = [], 0
    for words, _ in commands:
        lines, end = [], at
        while True:
            stop = output.find(b"\n", end)
            if stop < 0:
                return found, output[at:]
            line, end = output[end:stop], stop + 1
            has_more = words.split()[0] in (b"names", b"rules", b"export", b"layout", b"begin") and (lines or not line.startswith(b"error "))
            if has_more and line == b".":
                break
            lines.append(line)
            if not has_more:
                break
        found.append(lines)
        at = end
    return found, output[at:]


def start(store, *words, **how):
    """Starts a command, `run` where none is said, whose input and output are pipes."""
    how = {"stdin": subprocess.PIPE, "stdout": subprocess.PIPE, "stderr": subprocess.PIPE} | how
    return subprocess.Popen([NATIX, store, *(words or ("run",))], bufsize=0, **how)


def feed(child, content):
    """Writes to a process that may be killed meanwhile."""

    def write():
        try:
            child.stdin.write(content)
            child.stdin.close()
        except OSError:
            pass

    thread = threading.Thread(target=write)
    thread.start()
    return thread


def run(store, commands, **how):
    """Runs a session to its end: its status, its whole replies, and its line on standard error."""
    child = start(store, **how)
    try:
        output, said = child.communicate(script(commands), timeout=PATIENCE)
    except subprocess.TimeoutExpired:
        child.kill()
        child.communicate()
        return None, [], "still at work"
    return child.returncode, replies_of(commands, output or b"")[0], (said or b"").decode("utf-8", "replace")


def init(store, *numbers):
    done = subprocess.run([NATIX, store, "init", *map(str, numbers)], stdout=subprocess.PIPE, stderr=subprocess.PIPE, timeout=PATIENCE)
    return done.returncode, done.stdout, done.stderr.decode()


# What is there.


class Found:
    """What a store holds: by name a document with its intervals. `status` is that of tools/read-store."""

    def __init__(self, status, documents, reasons):
        self.status, self.documents, self.reasons = status, documents, reasons

    def sights(self):
        return {name: (document.nodes, document.lines, document.layout) for name, document in self.documents.items()}


READ_STORE = tool("read-store")


def read_documents(store):
    """What tools/read-store says. It is called here, since most of the time of a process of its own is its start."""
    output, said = io.TextIOWrapper(io.BytesIO()), io.StringIO()
    with contextlib.redirect_stdout(output), contextlib.redirect_stderr(said):
        status = READ_STORE.main(["--documents", store])
    said = said.getvalue()
    if status not in (0, 1, 3) or (status == 1 and not said.startswith("unsound: ")):
        raise Wrong(f"tools/read-store ended with {status}: {said}")
    lines, documents = iter(output.buffer.getvalue().split(b"\n")[:-1]), {}
    for line in lines:
        _, name, nodes = line.split()
        documents[name] = Document(list(iter(lines.__next__, b".")), int(nodes))
        documents[name].layout = list(iter(lines.__next__, b"."))
    return Found(status, documents, said.splitlines())


def questions(names):
    return [ask(b"names")] + [ask(word, name) for name in names for word in (b"export", b"layout")]


def look(store, names=None):
    """What a store that is at a state holds: by the reader and by the program, which have to agree. The program is
    asked for these documents, or for all."""
    found = read_documents(store)
    if found.status:
        raise Wrong(f"tools/read-store ends with {found.status}: {found.reasons}")
    names = [name for name in found.documents if names is None or name in names]
    status, replies, said = run(store, questions(names))
    wanted = [[b"doc %s %d" % (name, document.nodes) for name, document in found.documents.items()]]
    for name in names:
        wanted += [found.documents[name].lines, found.documents[name].layout]
    if (status, said) != (0, "") or replies != wanted:
        raise Wrong(f"a session ended with {status} {said}, or told something else than tools/read-store")
    return found
