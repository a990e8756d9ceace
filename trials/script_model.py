"""What `natix STORE run` may answer, command by command, by docs/FORMATS.md: for trials/test-scripts.

A `Model` has the documents as trees with their intervals, and the rules. It takes each command with its reply, says by `Wrong` what
can't be so, and goes on to the state behind it. Where FORMATS.md allows several answers it asks whether the reply is one of them. A
transaction is one command here, as there: its own are judged one after the other. Where one of them divides a part, and further edits
of that document follow within it, several layouts are right then, and of that of the document no more is asked than that no part is too heavy.
It shares no code with the program.
"""

import re
from collections import Counter

import splits
from least import bounds_of
from splits import Part, Wrong

LONGEST = 1_048_576
LONGEST_LINE = 4_194_304
LONGEST_LABEL = 1_024
# A content of more bytes stands in a list of its own, on pages that hold so many.
LONGEST_NEAR = 1_024
LIST_PAGE = 8_184
MOST_NODES = 524_288
DEEPEST = 256
MOST_RULES = 4_096
MOST_NUMBER = 2**32 - 1
PAIRS = {b"\\n": b"\n", b"\\t": b"\t", b"\\r": b"\r", b"\\\\": b"\\"}
SHAPES = {b"drop": 2, b"rename": 3, b"names": 1, b"export": 2, b"get": 3, b"layout": 2, b"rules": 1, b"checkpoint": 1, b"delete": 3, b"rule": 4}
# How many steps the plain search for the fewest intervals may take.
SEARCH = 150_000


class Refused(Exception):
    """Its text is what follows `error `."""


# PYX.


def line_of(raw):
    """A line without the CR that is dropped from its end."""
    return raw[:-1] if raw.endswith(b"\r") else raw


def unescaped(content):
    return re.sub(rb"\\[ntr\\]", lambda pair: PAIRS[pair[0]], content)


def escaped(content):
    return re.sub(rb"[\\\n\t\r]", lambda byte: next(pair for pair, one in PAIRS.items() if one == byte[0]), content)


def is_name(name):
    return re.fullmatch(rb"[^\x00- #*/?@\\]+", name) is not None


def said_by(line):
    """Code, name and content of a PYX line, or its first fault that the line alone shows."""
    code, rest = line[:1], line[1:]
    if not code or code not in b"()A-?":
        raise Refused("bad-code")
    name, content = (rest, b"") if code in b"()" else (b"", rest) if code == b"-" else rest.partition(b" ")[::2]
    content = unescaped(content)
    if len(name) + len(content) > LONGEST:
        raise Refused("long-line")
    if code in b"(A?" and not is_name(name):
        raise Refused("bad-name")
    return code, name, content


class Node:
    """Its kind is the code of its line, `#` of a document's root. `runs` are the intervals of its children, [first, last] each."""

    __slots__ = ("kind", "name", "content", "children", "runs", "weight")

    def __init__(self, kind, name, content):
        self.kind, self.name, self.children, self.runs = kind, name, [], []
        self.put(content)

    def put(self, content):
        self.content = content
        self.weight = weight(len(self.name), len(content))

    def label(self):
        return {b"#": b"#doc", b"(": b"", b"A": b"@", b"-": b"#text", b"?": b"?"}[self.kind] + self.name

    def copied(self):
        """The same tree once more."""
        found = Node(self.kind, self.name, self.content)
        found.children, found.runs = [child.copied() for child in self.children], [list(run) for run in self.runs]
        return found

    def line(self):
        if self.kind == b"A":
            return b"A" + self.name + b" " + escaped(self.content)
        if self.kind == b"?":
            return b"?" + self.name + (b" " + escaped(self.content) if self.content else b"")
        return {b"#": b"#doc", b"(": b"(" + self.name, b"-": b"-" + escaped(self.content)}[self.kind]


def weight(name, content):
    """What a node weighs whose name and content have so many bytes."""
    return 1 + -(-(name + (content if content <= LONGEST_NEAR else 8)) // 8)


def content_pages(length):
    """On how many pages a content stands that isn't in its record."""
    return -(-length // LIST_PAGE) if length > LONGEST_NEAR else 0


def read_document(lines):
    """The root of the document that these lines say, and how many nodes it has; refuses their first fault."""
    root = Node(b"#", b"", b"")
    opened, nodes, at = [root], 1, 0
    for at, line in enumerate(lines, 1):
        try:
            node = node_in(opened, *said_by(line), nodes)
        except Refused as why:
            raise Refused(f"pyx {at} {why}") from None
        if node is None:
            opened.pop()
            continue
        nodes += 1
        opened[-1].children.append(node)
        if node.kind == b"(":
            opened.append(node)
    if len(opened) > 1:
        raise Refused(f"pyx {at} unclosed")
    if not any(child.kind == b"(" for child in root.children):
        raise Refused(f"pyx {at} empty")
    return root, nodes


def node_in(opened, code, name, content, nodes):
    """The node of a line where these elements are open and so many nodes have come, None at the end of an element."""
    parent = opened[-1]
    outside = len(opened) == 1
    if code == b")":
        if outside or parent.name != name:
            raise Refused("bad-nesting")
        return None
    if outside and (code == b"-" or (code == b"(" and any(child.kind == b"(" for child in parent.children))):
        raise Refused("bad-nesting")
    if code == b"A":
        if outside or any(child.kind != b"A" for child in parent.children):
            raise Refused("bad-attribute")
        if any(child.name == name for child in parent.children):
            raise Refused("twice")
    if len(opened) > DEEPEST:
        raise Refused("too-deep")
    if nodes == MOST_NODES:
        raise Refused("too-many")
    return Node(code, name, content)


def lines_below(node, found):
    for child in node.children:
        found.append(child.line())
        if child.kind == b"(":
            lines_below(child, found)
            found.append(b")" + child.name)
    return found


def counts_from(node):
    """How many nodes a tree has, and on how many pages their long contents stand."""
    nodes, pages = 1, content_pages(len(node.content))
    for child in node.children:
        more = counts_from(child)
        nodes, pages = nodes + more[0], pages + more[1]
    return nodes, pages


# Commands.


class Command:
    """Its raw lines, each without the LF: one, or those of a load up to the dot. `end` is what stands behind the last one, an LF but
    where the input ends there; the lines of a load may end without their dot then."""

    def __init__(self, *lines, end=b"\n"):
        self.lines, self.end = list(lines), end

    def text(self):
        return b"\n".join(self.lines) + self.end

    def first(self):
        return line_of(self.lines[0])

    def is_load(self):
        return re.match(rb"load( |$)", self.first()) is not None

    def has_dot(self):
        return len(self.lines) > 1 and line_of(self.lines[-1]) == b"."

    def ends_input(self):
        """Whether it is answered at the end of the input."""
        return self.end != b"\n" or (self.is_load() and not self.has_dot())

    def is_listing(self):
        """Whether its reply has several lines where it isn't refused."""
        return self.first().split(b" ")[0] in (b"names", b"export", b"layout", b"rules")

    def shorter(self, *lines):
        """The same with other lines."""
        return Command(*lines, end=self.end)


class Transaction(Command):
    """A command whose first line begins a transaction, with all lines up to its `commit`, or to the input's end."""

    def __init__(self, *lines, end=b"\n"):
        super().__init__(*lines, end=end)
        self.inner = commands_of(self.lines[1:])
        self.is_ended = bool(self.inner) and is_commit(self.inner[-1])

    def is_load(self):
        return False

    def has_commit(self):
        """Whether its last line ends it."""
        return self.is_ended

    def ends_input(self):
        return self.end != b"\n" or not self.has_commit()

    def is_listing(self):
        return True

    def shorter(self, *lines):
        return Transaction(*lines, end=self.end)

    def commands(self):
        """Those between its first line and its last."""
        return self.inner[:-1] if self.is_ended else self.inner


def commands_of(lines):
    """The commands on some lines, where none is a transaction."""
    found, at = [], 0
    while at < len(lines):
        end = at + 1
        if Command(lines[at]).is_load():
            while end < len(lines) and line_of(lines[end]) != b".":
                end += 1
            end += 1
        found.append(Command(*lines[at:end]))
        at = end
    return found


def is_commit(command):
    return len(command.lines) == 1 and command.first() == b"commit"


def begins_transaction(line):
    return re.match(rb"begin( |\Z)", line) is not None


def requests_of(lines, end=b"\n"):
    """What has a reply, on some lines of which the last has this end: commands that stand alone, and transactions."""
    found, open_ = [], None
    for command in commands_of(lines):
        if open_ is not None:
            open_ += command.lines
            if is_commit(command):
                found.append(Transaction(*open_))
                open_ = None
        elif begins_transaction(command.first()):
            open_ = list(command.lines)
        else:
            found.append(command)
    if open_ is not None:
        found.append(Transaction(*open_))
    if found:
        found[-1].end = end
    return found


def document_name(field):
    if not re.fullmatch(rb"[!-,.-~][!-~]{0,254}", field):
        raise Refused("syntax")
    return field


def path_in(field):
    if field == b"/":
        return ()
    if not re.fullmatch(rb"(/(0|[1-9][0-9]{0,9}))+", field):
        raise Refused("syntax")
    path = tuple(int(position) for position in field.split(b"/")[1:])
    if max(path) > MOST_NUMBER:
        raise Refused("syntax")
    return path


def path_text(path):
    return "/" + "/".join(map(str, path))


def is_label(label, is_parent):
    mark = b"#doc" if is_parent else b"#text"
    name = label[1:] if not is_parent and label[:1] in (b"@", b"?") else label
    return len(label) <= LONGEST_LABEL and (label == mark or is_name(name))


def node_at(root, path):
    for position in path:
        if position >= len(root.children):
            raise Refused("no-node")
        root = root.children[position]
    return root


class Document:
    """`pages` are those of its long contents. `waits` says what the next `layout` has to answer for: a load, an edit that may have made a part too
    heavy, several of these, or nothing."""

    def __init__(self, root, nodes, pages, intervals):
        self.root, self.nodes, self.pages, self.intervals, self.waits = root, nodes, pages, intervals, "load"

    def copied(self):
        found = Document(self.root.copied(), self.nodes, self.pages, self.intervals)
        found.waits = self.waits
        return found


class Model:
    def __init__(self, k, target, tolerance, limit, law=None):
        self.k, self.target, self.tolerance, self.limit = k, target, tolerance, limit
        self.law = law or splits.Law()
        self.documents, self.rules, self.seen = {}, {}, Counter()

    def answer(self, command, reply):
        """Takes a command with its reply, as lines without the dot; `Wrong` where it can't be answered so."""
        if isinstance(command, Transaction):
            self.seen["command transaction"] += 1
            return self.answer_transaction(command, reply)
        self.seen[f"command {kind_of(command)}"] += 1
        try:
            wanted = self.carry_out(command, reply)
        except Refused as why:
            wanted = [b"error " + str(why).encode()]
            self.seen["refusal " + word_of(why)] += 1
        compare(reply, wanted)

    def carry_out(self, command, reply):
        """What a command has to be answered, None where that has been judged. Where the reply is None it is one that isn't known and no
        refusal."""
        first = command.first()
        asked = self.parse(command, first, first.split(b" ")[0])
        return getattr(self, "ask_" + kind_of(command))(reply, *asked)

    # Transactions.

    def answer_transaction(self, transaction, reply):
        if transaction.first() != b"begin" or not transaction.has_commit():
            self.seen["refusal of a transaction, syntax"] += 1
            return compare(reply, [b"error syntax"])
        commands = transaction.commands()
        self.seen["commands within transactions"] += len(commands)
        found = re.fullmatch(rb"error at ([0-9]+) (.+)", reply[0]) if len(reply) == 1 else None
        if found:
            return self.refuse(commands, int(found[1]), found[2])
        for at, command in enumerate(commands):
            why = self.refusal_within(command, reply[at : at + 1] or None)
            if why:
                raise Wrong(f"the reply is {some(reply)}, and not error at {self.law.number(at)} {why}")
        if len(reply) != len(commands):
            raise Wrong(f"the reply has {len(reply)} lines, and the transaction {len(commands)} commands")
        self.seen["transactions " + ("carried out" if commands else "without commands")] += 1
        return None

    def refuse(self, commands, number, cause):
        """Judges that of these commands the one of this number is refused, and nothing is kept."""
        kept, told, last = self.kept(commands), cause.decode("latin-1"), None
        for at, command in enumerate(commands):
            is_told = self.law.number(at) == number
            why = self.refusal_within(command, [b"error " + cause] if is_told else None)
            if why != (told if is_told else None):
                raise Wrong(f"the reply is error at {number} {told}, and not error at {self.law.number(at)} {why}")
            if is_told:
                last = at
                break
        if last is None:
            raise Wrong(f"the command {number} is refused of {len(commands)}")
        place = "the first" if last == 0 else "the last" if last == len(commands) - 1 else "one between"
        self.seen[f"transactions refused at {place} command"] += 1
        self.seen["refusal at N, " + word_of(told)] += 1
        self.documents, self.rules = self.law.behind_refusal(kept, (self.documents, self.rules))

    def kept(self, commands):
        """The state, with copies of what these commands may change."""
        fields = {field for command in commands for field in command.first().split(b" ")[1:3]}
        return {name: document.copied() if name in fields else document for name, document in self.documents.items()}, dict(self.rules)

    def refusal_within(self, command, reply):
        """Carries out a command of a transaction, or says why it is refused."""
        try:
            if not self.law.is_change(command.first().split(b" ")[0]):
                raise Refused("syntax")
            wanted = self.carry_out(command, reply)
        except Refused as why:
            return str(why)
        if wanted is None:
            return "full" if reply == [b"error full"] else None
        if reply is not None:
            compare(reply, wanted)
        return None

    def scratch(self):
        """A model of its own that is where this one is."""
        found = Model(self.k, self.target, self.tolerance, self.limit, self.law)
        found.documents, found.rules = {name: document.copied() for name, document in self.documents.items()}, dict(self.rules)
        return found

    # Commands.

    def parse(self, command, first, word):
        """The fields of a command; a load's lines come last."""
        # No line of a load is a command, whatever its first line says.
        if word == b"load":
            fields = first.split(b" ")
            if len(first) > LONGEST_LINE or len(fields) != 2 or not command.has_dot():
                raise Refused("syntax")
            return document_name(fields[1]), [line_of(line) for line in command.lines[1:-1]]
        if len(first) > LONGEST_LINE:
            raise Refused("syntax")
        if word in (b"insert", b"retext"):
            _, name, path, *rest = [*first.split(b" ", 3)] if first.count(b" ") >= 2 else (b"", b"", b"")
            if word == b"insert" and not rest:
                raise Refused("syntax")
            return document_name(name), path_in(path), *(rest or [b""])
        fields = first.split(b" ")
        if SHAPES.get(word) != len(fields):
            raise Refused("syntax")
        if word == b"rename":
            return document_name(fields[1]), document_name(fields[2])
        if word == b"rule":
            parent, child, entry = fields[1:]
            if not is_label(parent, True) or not is_label(child, False) or entry not in (b"standalone", b"cluster", b"free"):
                raise Refused("syntax")
            return parent, child, entry.decode()
        return [(document_name, path_in)[at](field) for at, field in enumerate(fields[1:])]

    def named(self, name):
        if name not in self.documents:
            raise Refused("no-document")
        return self.documents[name]

    def light(self, path, heavy):
        if heavy > self.k:
            raise Refused(f"too-heavy {path_text(path)} {heavy}")

    def is_full(self, reply, nodes=0, pages=0):
        """Whether a command that nothing forbids was refused for want of room, where it would add so many nodes and pages of long
        contents, or take them away."""
        if reply != [b"error full"]:
            return False
        documents = self.documents.values()
        before = sum(document.nodes for document in documents), sum(document.pages for document in documents)
        after = before[0] + nodes, before[1] + pages
        if not self.law.may_be_full(before[0] + after[0], before[1] + after[1], len(self.rules), self.limit):
            raise Wrong(f"the reply is full, with {before} nodes and pages before, {after} after and {len(self.rules)} rules in {self.limit} pages")
        self.seen["refusal full"] += 1
        self.seen["full with long contents"] += before[1] + after[1] > 0
        return True

    # Each command: what it has to be answered, None where that has been judged.

    def ask_load(self, reply, name, lines):
        if name in self.documents:
            raise Refused("exists")
        root, nodes = read_document(lines)
        self.weigh(root, ())
        pages = counts_from(root)[1]
        if self.is_full(reply, nodes, pages):
            return None
        intervals = None
        if reply is not None:
            found = re.fullmatch(rb"ok (\d+) (\d+)", reply[0]) if len(reply) == 1 else None
            if not found or int(found[1]) != nodes:
                raise Wrong(f"the reply is {some(reply)}, and not of {nodes} nodes")
            intervals = int(found[2])
        self.documents[name] = Document(root, nodes, pages, intervals)
        self.seen["loads with long contents"] += pages > 0
        return None

    def weigh(self, node, path):
        self.light(path, node.weight)
        for at, child in enumerate(node.children):
            self.weigh(child, (*path, at))

    def ask_drop(self, _, name):
        self.named(name)
        del self.documents[name]
        return [b"ok"]

    def ask_rename(self, reply, old, new):
        document = self.named(old)
        if new in self.documents:
            raise Refused("exists")
        if self.is_full(reply):
            return None
        del self.documents[old]
        self.documents[new] = document
        return [b"ok"]

    def ask_names(self, _):
        return [b"doc %s %d" % (name, self.documents[name].nodes) for name in sorted(self.documents)]

    def ask_export(self, _, name):
        return lines_below(self.named(name).root, [])

    def ask_get(self, _, name, path):
        node = node_at(self.named(name).root, path)
        return [b"node %d %s" % (len(node.children), node.line())]

    def ask_rules(self, _):
        return [b"rule %s %s %s" % (*pair, self.rules[pair].encode()) for pair in sorted(self.rules, key=self.law.rule_order)]

    def ask_checkpoint(self, _):
        return [b"ok"]

    def ask_rule(self, reply, parent, child, entry):
        if entry != "free" and (parent, child) not in self.rules and len(self.rules) == MOST_RULES:
            raise Refused("too-many-rules")
        if self.is_full(reply):
            return None
        for document in self.documents.values():
            self.rule_changes(document)
        self.rules.pop((parent, child), None)
        if entry != "free":
            self.rules[parent, child] = entry
        return [b"ok"]

    def ask_insert(self, reply, name, path, line):
        document = self.named(name)
        try:
            code, label, content = said_by(line)
            if code == b")":
                raise Refused("bad-nesting")
        except Refused as why:
            raise Refused(f"pyx 1 {why}") from None
        if not path:
            raise Refused("bad-place")
        parent, at = node_at(document.root, path[:-1]), path[-1]
        self.check_place(parent, at, code)
        if code == b"A" and any(child.kind == b"A" and child.name == label for child in parent.children):
            raise Refused("twice")
        if len(path) > DEEPEST:
            raise Refused("too-deep")
        if document.nodes == MOST_NODES:
            raise Refused("too-many")
        node = Node(code, label, content)
        self.light(path, node.weight)
        pages = content_pages(len(content))
        if self.is_full(reply, 1, pages):
            return None
        self.edit(document)
        entry = self.rules.get((parent.label(), node.label()), "free")
        parent.runs = self.law.runs_with(entry, at, parent.runs)
        parent.children.insert(at, node)
        document.nodes, document.pages = document.nodes + 1, document.pages + pages
        self.seen["inserts of long contents"] += pages > 0
        document.waits = document.waits or "edit"
        return [b"ok"]

    def edit(self, document):
        """An edit begins. Where the intervals are those of an edit before it that aren't known yet, or of a load, several are right behind this one."""
        if document.waits == "load":
            document.waits = "several"
        self.rule_changes(document)

    def rule_changes(self, document):
        """A rule may change. What an edit before it divided was divided by the rules of then."""
        if document.waits == "edit" and any(part.weight > self.k for part in splits.parts_of(document.root)):
            document.waits = "several"

    @staticmethod
    def check_place(parent, at, code):
        attributes = sum(child.kind == b"A" for child in parent.children)
        if parent.kind not in (b"(", b"#") or at > len(parent.children) or (parent.kind == b"#" and code != b"?"):
            raise Refused("bad-place")
        if at > attributes if code == b"A" else at < attributes:
            raise Refused("bad-place")

    def ask_delete(self, reply, name, path):
        document = self.named(name)
        if not path:
            raise Refused("bad-place")
        gone, parent = node_at(document.root, path), node_at(document.root, path[:-1])
        if parent.kind == b"#" and gone.kind == b"(":
            raise Refused("bad-place")
        nodes, pages = counts_from(gone)
        if self.is_full(reply, -nodes, -pages):
            return None
        self.edit(document)
        parent.runs = self.law.runs_without(path[-1], parent.runs)
        del parent.children[path[-1]]
        document.nodes, document.pages = document.nodes - nodes, document.pages - pages
        self.seen["deletes of long contents"] += pages > 0
        return [b"ok"]

    def ask_retext(self, reply, name, path, content):
        document, content = self.named(name), unescaped(content)
        try:
            node, missing = node_at(document.root, path), None
        except Refused as why:
            node, missing = None, why
        if len(node.name if node else b"") + len(content) > LONGEST:
            raise Refused("pyx 1 long-line")
        if missing:
            raise missing
        if node.kind in (b"#", b"("):
            raise Refused("no-content")
        self.light(path, weight(len(node.name), len(content)))
        was, pages = content_pages(len(node.content)), content_pages(len(content))
        if self.is_full(reply, 0, pages - was):
            return None
        self.edit(document)
        node.put(content)
        document.pages += pages - was
        if was or pages:
            self.seen[f"retexts from a {('short', 'long')[was > 0]} content to a {('short', 'long')[pages > 0]} one"] += 1
        document.waits = document.waits or "edit"
        return [b"ok"]

    def ask_layout(self, reply, name):
        document = self.named(name)
        waits, document.waits = document.waits, None
        if waits == "load":
            return self.judge_load(document, reply)
        if waits == "several":
            return self.judge_several(document, reply)
        parts = splits.parts_of(document.root)
        heavy = [part for part in parts if part.weight > self.k]
        if not heavy:
            return [part.line() for part in parts]
        if waits != "edit" or len(heavy) > 1:
            raise Wrong(f"{len(heavy)} parts are too heavy by the model, behind {waits}")
        return splits.judge(self, document, parts, heavy[0], reply)

    def judge_load(self, document, reply):
        parts = splits.take(document.root, reply)
        heavy = [part.line() for part in parts if part.weight > self.k]
        if heavy or len(parts) != document.intervals:
            raise Wrong(f"{len(parts)} parts, and {document.intervals} told; too heavy are {some(heavy)}")
        bounds = bounds_of(document.root, self.k, SEARCH)
        self.seen["loads beside the plain search"] += bounds is not None
        fewest = bounds and self.law.fewest(bounds)
        if fewest and (len(parts), parts[0].weight) != fewest:
            raise Wrong(f"{len(parts)} parts, that of the root of {parts[0].weight}, and not {fewest[0]} with {fewest[1]}")
        return [part.line() for part in parts]


    def judge_several(self, document, reply):
        parts = splits.take(document.root, reply)
        heavy = [part.line() for part in parts if part.weight > self.k]
        if heavy:
            raise Wrong(f"too heavy are {some(heavy)}")
        self.seen["layouts behind several edits"] += 1
        return [part.line() for part in parts]


def kind_of(command):
    word = command.first().split(b" ")[0]
    return word.decode() if word in (*SHAPES, b"load", b"insert", b"retext") else "no command"


def word_of(why):
    """The word of a refusal, of a fault in PYX with its own."""
    words = str(why).split()
    return "pyx " + words[2] if words[0] == "pyx" else words[0]


def compare(reply, wanted):
    if wanted is not None and reply != wanted:
        raise Wrong(f"the reply is {some(reply, wanted)}, and not {some(wanted, reply)}")


def some(lines, beside=()):
    """Some lines of a reply, to be shown, from the first on that isn't the other's."""
    at = next((at for at, line in enumerate(lines) if at >= len(beside) or beside[at] != line), 0)
    texts = [line.decode("latin-1") for line in lines[at : at + 4]]
    return f"{[text if len(text) < 200 else text[:160] + '..' for text in texts]} of {len(lines)} from {at} on"
