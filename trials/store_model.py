"""What a store has to hold by the replies that came, and sessions over it whose end is known: for trials/test-store."""

import os
import random
import re

import sessions
from harness import expect
from sessions import Document, Wrong, ask, load, look, run

EDITS = (b"insert", b"delete", b"retext")
CHANGES = (b"load", b"drop", b"rename", b"rule", *EDITS)
LINES = {0: "", 3: "disk fault\n", 4: "read fault\n", 5: "write fault\n", 6: "out of memory\n", 7: "not a store\n"}
CHECKPOINT = (ask(b"checkpoint"), None)


class Model:
    """What a store holds by the replies that came."""

    def __init__(self, k):
        self.k, self.documents, self.loads = k, {}, 0

    def copied(self):
        """The same for what may be taken back: documents are replaced by an edit, and never changed."""
        found = Model(self.k)
        found.documents, found.loads = dict(self.documents), self.loads
        return found

    def drawn_transaction(self, draw, count=None):
        """Some changes as one, mostly without one that is refused; so many, nearly all of them edits, where that is said."""
        mine, pairs = self.copied(), []
        spoiled = draw.random() < 0.2
        for _ in range(count or draw.choice((0, 1, 2, 5, 20))):
            pairs.append(mine.drawn_change(draw, 0.98 if count else 0))
            mine.apply(*pairs[-1])
        if spoiled and not count:
            pairs.insert(draw.randint(0, len(pairs)), (ask(draw.choice((b"drop nothing", b"names", b"", b"begin", b"checkpoint"))), None))
        self.loads = mine.loads
        return sessions.transaction(pairs), None

    def drawn_change(self, draw, edits=0):
        """A command that changes the store, and isn't refused."""
        while True:
            is_edit = self.documents and draw.random() < edits
            command, document = (self.drawn_edit(draw), None) if is_edit else self.drawn_single(draw)
            if command[0].split()[0] in CHANGES and not (self.answer(command, document) or [b""])[0].startswith(b"error "):
                return command, document

    def drawn_command(self, draw):
        """A command, with the document that it is to keep, if any."""
        return self.drawn_transaction(draw) if draw.random() < 0.1 else self.drawn_single(draw)

    def drawn_edit(self, draw):
        name, word = draw.choice(sorted(self.documents)), draw.choice(EDITS)
        return sessions.drawn_edit(draw, word, name, self.documents[name], self.k)

    def drawn_single(self, draw):
        kind, names = draw.random(), sorted(self.documents)
        self.loads += 1
        name = b"%s-%d" % (sessions.drawn_name(draw), self.loads)
        if kind < 0.5 or not names:
            document = sessions.drawn_document(draw, sessions.drawn_size(draw), self.k)
            return load(name, document), document
        if kind < 0.54:
            return ask(b"drop", draw.choice((*names, name))), None
        if kind < 0.56:
            return ask(b"rename", draw.choice((*names, name)), draw.choice((name, name, *names))), None
        if kind < 0.76:
            return self.drawn_edit(draw), None
        if kind < 0.78:
            element = draw.choice([line[1:] for line in self.documents[draw.choice(names)].lines if line[:1] == b"("])
            return ask(b"rule", element, b"#text", draw.choice((b"standalone", b"cluster", b"free"))), None
        if kind < 0.83:
            return ask(b"checkpoint"), None
        if kind < 0.88:
            return ask(draw.choice((b"names", b"get %s /" % draw.choice(names), b"export nothing"))), None
        if kind < 0.95:
            return ask(draw.choice((b"export", b"layout")), draw.choice(names)), None
        heavy = b"?" + b"x" * 8 * self.k
        return (b"load " + draw.choice((name, draw.choice(names))), draw.choice(([b"(a", b")b"], [b"(a", heavy, b")a"]))), None

    def answer(self, command, document):
        """The reply to a command, where the model knows it: of a new document's intervals it knows nothing yet."""
        words, lines = command
        word, name, *_ = [*words.split(), b""]
        if word == b"load":
            if name in self.documents:
                return [b"error exists"]
            if document:
                return None
            return [b"error pyx 2 bad-nesting" if lines[-1] == b")b" else b"error too-heavy /0/0 %d" % (self.k + 1)]
        if word in (b"checkpoint", b"rule"):
            return [b"ok"]
        if not word:
            return [b"error syntax"]
        if word == b"rename" and name in self.documents:
            return [b"error exists" if words.split()[2] in self.documents else b"ok"]
        if word == b"names":
            return [b"doc %s %d" % (name, self.documents[name].nodes) for name in sorted(self.documents)]
        if name not in self.documents:
            return [b"error no-document"]
        if word == b"drop":
            return [b"ok"]
        known = self.documents[name]
        if word in EDITS:
            edited = self.edited(words)
            return [b"ok" if isinstance(edited, Document) else b"error " + edited]
        children = sum(1 for line in top_lines(known.lines))
        return {b"export": known.lines, b"layout": known.layout, b"get": [b"node %d #doc" % children]}[word]

    def take(self, command, document, reply):
        """A reply that came."""
        if command[0] == b"begin":
            return self.take_transaction(command[1], reply)
        wanted = self.answer(command, document)
        if wanted is not None and reply != wanted:
            raise Wrong(f"{command[0]} was answered by {reply[:3]}, and not by {wanted[:3]}")
        if wanted is None and document:
            words = reply[0].split()
            if words[:2] != [b"ok", b"%d" % document.nodes] or len(words) != 3:
                raise Wrong(f"{command[0]} of {document.nodes} nodes was answered by {reply}")
            document.intervals = int(words[2])
        if not reply or not reply[0].startswith(b"error "):
            self.apply(command, document)

    def take_transaction(self, pairs, reply):
        """That of a transaction: all of its commands are carried out, or none, since one is refused."""
        mine, found = self.copied(), re.fullmatch(rb"error at ([0-9]+) (.*)", reply[0]) if len(reply) == 1 else None
        for at, (command, document) in enumerate(pairs, 1):
            refusal = mine.refusal(command, document)
            if refusal or found and at == int(found[1]):
                if not found or (at, refusal) != (int(found[1]), b"error " + found[2]):
                    raise Wrong(f"a transaction whose command {at} is refused by {refusal} was answered by {reply[:3]}")
                return
            mine.take(command, document, reply[at - 1 : at] if not found else [b"ok"] if mine.answer(command, document) else [b"ok %d 1" % document.nodes])
        if found or len(reply) != len(pairs):
            raise Wrong(f"a transaction of {len(pairs)} commands was answered by {reply[:3]} .., {len(reply)} lines")
        self.documents = mine.documents

    def refusal(self, command, document):
        """Why a command of a transaction is refused, None where it isn't."""
        if command[0].split(b" ")[0] not in CHANGES:
            return b"error syntax"
        told = (self.answer(command, document) or [b""])[0]
        return told if told.startswith(b"error ") else None

    def apply(self, command, document):
        """Carries out a command that isn't refused."""
        word, name, other, *_ = [*command[0].split(), b"", b"", b""]
        if word == b"load":
            self.documents[name] = document
        elif word == b"drop":
            del self.documents[name]
        elif word == b"rename":
            self.documents[other] = self.documents.pop(name)
        elif word in EDITS:
            self.documents[name] = self.edited(command[0])

    def behind(self, pairs):
        """The documents behind a transaction, None where one of its commands is refused."""
        mine = self.copied()
        for command, document in pairs:
            if mine.refusal(command, document):
                return None
            mine.apply(command, document)
        return mine.documents

    def is_found(self, found, documents):
        """Whether these documents are there."""
        return {name: (one.lines, one.nodes) for name, one in documents.items()} == {name: (one.lines, one.nodes) for name, one in found.documents.items()}

    def edited(self, words):
        """What the document is after an edit, or why that is refused."""
        known = self.documents.get(words.split()[1])
        return sessions.edited(known, words, self.k) if known else b"no-document"

    def match(self, found, at_work):
        """Compares what is there; takes over what the command at work may have done: that its document is there, or gone."""
        command, document = at_work or ((b"", None), None)
        word, name, other, *_ = [*command[0].split(), b"", b"", b""]
        behind = self.behind(command[1]) if word == b"begin" else None
        was_renamed = word == b"rename" and name in self.documents and name not in found.documents and other in found.documents
        if behind is not None and self.is_found(found, behind) or was_renamed:
            self.documents = behind or self.documents
            if was_renamed:
                self.apply(command, None)
            self.match(found, None)
            return False, True
        came = document is not None and name in found.documents and name not in self.documents
        went = word == b"drop" and name in self.documents and name not in found.documents
        if came:
            self.documents[name] = document
        elif went:
            del self.documents[name]
        elif word in EDITS and name in found.documents:
            edited = self.edited(command[0])
            went = isinstance(edited, Document) and found.documents[name].lines == edited.lines
            self.documents[name] = edited if went else self.documents[name]
        if set(found.documents) != set(self.documents):
            raise Wrong(f"there are {sorted(found.documents)}, and not {sorted(self.documents)}")
        for name, other in found.documents.items():
            mine = self.documents[name]
            if (other.lines, other.nodes) != (mine.lines, mine.nodes):
                raise Wrong(f"the document {name} isn't what was loaded")
            if other.layout != (mine.layout or other.layout) or len(other.layout) != getattr(mine, "intervals", len(other.layout)):
                raise Wrong(f"the document {name} has other intervals")
            mine.layout = other.layout
        return came, went


def top_lines(lines):
    """The lines of the nodes right below a document's root."""
    depth = 0
    for line in lines:
        if depth == 0:
            yield line
        depth += {b"(": 1, b")": -1}.get(line[:1], 0)


def made(folder, name, k=16, draw=random.Random(7), loads=2):
    """A new store with some documents, its path and its model."""
    path, model = os.path.join(folder, name), Model(k)
    expect(f"{name}: init", sessions.init(path, k), (0, b"ok\n", ""))
    answered(name, path, model, drawn_loads(draw, model, loads), 0)
    return path, model


def drawn_loads(draw, model, count, nodes=60):
    commands = []
    for _ in range(count):
        model.loads += 1
        document = sessions.drawn_document(draw, nodes, model.k)
        commands.append((load(b"d%d" % model.loads, document), document))
    return commands


def answered(what, path, model, commands, status, **how):
    """A session that has to end with a status, and the store then; answers how many replies came."""
    found, replies, said = run(path, [command for command, _ in commands], **how)
    expect(f"{what}: status", (found, said), (status, LINES.get(status, "")))
    try:
        for (command, document), reply in zip(commands, replies):
            model.take(command, document, reply)
        model.match(look(path), commands[len(replies)] if len(replies) < len(commands) else None)
    except Wrong as why:
        expect(f"{what}: what is there", str(why), "what was told")
    return len(replies)


def is_there(what, path, model):
    answered(f"{what}: afterwards", path, model, [(ask(b"names"), None)], 0)


def goes_on(what, path, model, draw):
    commands = drawn_loads(draw, model, 2) + [CHECKPOINT] + drawn_loads(draw, model, 1)
    expect(f"{what}: going on", answered(f"{what}: going on", path, model, commands, 0), 4)
