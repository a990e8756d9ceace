"""Draws stores and scripts of all commands over them, by the state in which a model is: for trials/test-scripts."""

from script_model import DEEPEST, LIST_PAGE, LONGEST, LONGEST_LINE, LONGEST_NEAR, MOST_NODES, MOST_RULES, Command, Transaction, path_text, requests_of
from sessions import Element

SMALL_K = (2, 3, 4, 5, 6, 8, 10, 12, 16, 24)
LARGE_K = (32, 64, 100, 128, 200, 255, 256)
MOST_PAGES = 16_777_216
LETTERS = b"abcdefghijklmnopqrstuvwxyz ABCDEFGHIJKLMNOPQRSTUVWXYZ0123456789.,;:-_" * 30
# What a store is like, and how many of ten thousand are so.
CHARACTERS = {"mixed": 3400, "transactions": 1200, "far": 600, "hot": 2200, "splits": 1500, "deep": 350, "wide": 200, "full": 300, "catalog": 100, "labels": 100, "long": 40, "rules": 8, "nodes": 2}
WORDS = ("insert", "delete", "retext", "load", "drop", "rename", "rule", "get", "export", "layout", "names", "rules", "checkpoint", "junk", "transaction")
# How often which command comes, by character.
SHARES = {
    "mixed": (40, 8, 12, 9, 3, 3, 7, 8, 3, 1, 2, 2, 2, 4, 8),
    "transactions": (12, 3, 6, 6, 2, 3, 3, 2, 1, 1, 1, 1, 2, 3, 40),
    "far": (30, 8, 30, 12, 4, 2, 5, 8, 2, 1, 1, 1, 2, 1, 8),
    "hot": (70, 4, 6, 4, 1, 1, 5, 2, 1, 1, 1, 1, 1, 1, 5),
    "splits": (45, 2, 25, 5, 1, 1, 14, 2, 1, 1, 1, 1, 1, 1, 4),
    "deep": (50, 6, 8, 10, 2, 1, 3, 12, 2, 1, 1, 1, 1, 2, 5),
    "wide": (60, 10, 12, 2, 1, 1, 3, 5, 1, 1, 1, 1, 2, 1, 5),
    "full": (30, 8, 14, 28, 5, 4, 4, 3, 2, 1, 1, 1, 2, 1, 8),
    "catalog": (10, 2, 2, 60, 2, 4, 12, 1, 1, 1, 1, 1, 2, 1, 3),
    "labels": (5, 1, 1, 2, 1, 1, 82, 1, 1, 1, 1, 1, 2, 1, 3),
}
# What a transaction has of each, and in how many of a hundred of them something is to be refused.
WITHIN = {"insert": 40, "delete": 8, "retext": 16, "load": 8, "drop": 5, "rename": 5, "rule": 8}
REFUSED = 35
JUNK_LINES = (
    b"", b"(", b"(a b", b"(a#", b"(a*b", b"(a/b", b"(a?b", b"(a@b", b"(a\\b", b"A", b"A 1", b"Aa", b"Aa b", b"Aa#b c", b"-text", b"-", b"?", b"?p",
    b"? x", b"?p q", b")", b")zz", b"(z", b"#doc", b"x", b" ", b"..", b" .", b"\xef\xbb\xbf(a", b"(\xff\xfe\x7f", b"(a\tb",
)
JUNK = (
    b"", b" ", b"\r", b"names ", b"Names", b"names x", b"rules x", b"checkpoint now", b"checkpoint ", b" names", b"drop", b"drop ", b"drop -x", b"drop d0 ",
    b"drop d0 d1", b"export", b"export d0 /", b"export \x7f", b"layout", b"layout d0 /0", b"get", b"get d0", b"get d0 ", b"get d0 0", b"get d0 //", b"get d0 /0/",
    b"get d0 /00", b"get d0 /01", b"get d0 /-1", b"get d0 /+1", b"get d0 /0x1", b"get d0 /4294967296", b"get d0 /4294967295", b"get d0 /99999999999", b"get d0 / ",
    b"get d0  /", b"get\td0 /", b"insert", b"insert d0", b"insert d0 /0", b"insert d0 /0/0 ", b"insert d0 / -x", b"insert d0 /0/4294967295 -x", b"insert d0 /0/4294967296 -x",
    b"insert d0 /0/0 .", b"insert d0 /0/0 -x\r", b"insert -d /0 -x", b"delete", b"delete d0", b"delete d0 /", b"delete d0 /0", b"delete d0 /0 x", b"delete d0 /0/0/", b"retext",
    b"retext d0", b"retext d0 /", b"retext d0 / x", b"retext d0 /0 x", b"retext d0 /9 x", b"retext d0 /0/0/0/0/0", b"rule", b"rule a", b"rule a b", b"rule a b c", b"rule a b free x",
    b"rule #doc #doc cluster", b"rule #text a free", b"rule a #text Cluster", b"rule a  cluster", b"rule  a cluster", b"rule @a b free", b"rule a @ free", b"rule a ? free", b"rule a ?@ free",
    b"rule a b\\ free", b"rule a #doc free", b"rule a b standalone ", b"rename", b"rename d0", b"rename d0 ", b"rename d0 d0", b"rename d0 d9 ", b"rename d0  d9",
    b"rename -d0 d9", b"rename d0 -d9", b"rename d0 d9 d8", b"rename  d0 d9", b"rename d0 d\xe99", b"rename /0 d9", b"Rename d0 d9", b"renames d0 d9", b"commit", b"commit ", b" commit", b"commit now",
    b"Commit", b"commits", b"rollback", b" begin", b"Begin", b"begins", b"begin\x00", b"begin\t", b"runs", b"help", b"quit", b"\xff\xfe", b"\x00", b"#", b".", b"ok", b"error", b"doc d0 1", b"load\x00", b"loads d0", b"loader",
)
# What stands in a transaction and is no change, also what would be one elsewhere; a line `commit` would end it.
NO_CHANGES = (
    b"", b".", b"..", b"begin", b"begin x", b"names", b"rules", b"checkpoint", b"export d0", b"get d0 /", b"layout d0", b"commit ", b"commit x", b" commit", b"COMMIT", b"commit\x00",
    b"end", b"rollback", b"find d0 //a", b"drop", b"rename d0", b"insert d0 /0/0 ", b"error", b"ok",
)
BAD_LOADS = (b"load", b"load ", b"load  d0", b"load -d", b"load d0 d1", b"load d0 ", b"load \x7f", b"load d\xe9", b"load \x00", b"load \t")


def drawn_settings(draw, character):
    """K, target, tolerance and the limit of pages, and how many of them are said."""
    k = draw.choice(SMALL_K if draw.random() < 0.7 else LARGE_K)
    if draw.random() < 0.15:
        k = draw.randint(1, 256)
    if character == "far":
        k = draw.choice((2, 3, 4, 5, 8, 16, 64, 127, 128, 129, 130, 131, 200, 256))
    if character in ("full", "long"):
        k = draw.choice((64, 128, 200, 256, 256)) if character == "full" else 256
    target = draw.choice((50, 50, 50, 0, 1, 25, 33, 66, 75, 99, 100, draw.randint(0, 100)))
    tolerance = draw.choice((k // 4, k // 4, k // 2, 0, 1, 2, k, 256, draw.randint(0, min(256, 2 * k))))
    small = character in ("full", "catalog", "labels") or (character == "far" and draw.random() < 0.5)
    limit = draw.choice((64, 64, 64, 65, 80)) if small else draw.choice((MOST_PAGES, MOST_PAGES, 1_000_000, 10_000, 200, 64))
    said = 4 if small else draw.randint(1, 4)
    if said < 2:
        target = 50
    if said < 3:
        tolerance = k // 4
    if said < 4:
        limit = MOST_PAGES
    return (k, target, tolerance, limit), said


class Drawer:
    def __init__(self, draw, character, model):
        self.draw, self.character, self.model, self.k = draw, character, model, model.k
        self.room = 8 * (model.k - 1)
        self.labels = self.drawn_names()
        self.documents = [b"d0", b"d1", b"d2", draw.choice((b".", b"~", b"!", b"x-y")), b"n" * draw.choice((255, 254, 100))]
        self.serial, self.excess, self.far = 0, 0.03, {"far": 0.4, "mixed": 0.01, "deep": 0.01}.get(character, 0)

    def drawn_names(self):
        names = [b"a", b"b", b"item", b"\xc3\xa9t\xc3\xa9"][: 2 if self.character == "splits" else 4]
        names.append(b"name" * 300)
        names[-1] = names[-1][: self.draw.choice((8, 9, 16, 17, 40, max(1, self.room), 1023, 1024, 1025))]
        return [name for name in names if len(name) <= max(1, self.room)] or [b"a"]

    # Bytes.

    def length(self, room):
        draw = self.draw
        room = max(room, 0)
        if room >= 8 - (draw.random() < self.excess) and draw.random() < self.far:
            return self.long_length()
        kind = draw.random()
        if self.character in ("full", "wide") and kind < 0.8:
            return draw.randint(room // 2, room) if self.character == "full" else draw.randint(0, min(room, 12))
        if kind < 0.5:
            return draw.randint(0, min(room, 8))
        if kind < 0.75:
            return draw.randint(0, min(room, 40))
        if kind < 0.9:
            return min(room, max(0, 8 * draw.randint(0, room // 8) + draw.choice((-1, 0, 0, 1))))
        return room if draw.random() > self.excess * 10 else room + draw.choice((1, 8, 100))

    def long_length(self):
        """Around what a record keeps of a content, or around full pages of a list."""
        draw, kind = self.draw, self.draw.random()
        if self.model.limit < 100 and kind < 0.5:
            return draw.randint(20_000, 250_000)
        if kind < 0.4:
            return LONGEST_NEAR + draw.choice((0, 1, 1, 1, 2, 8))
        if kind < 0.7:
            return LIST_PAGE * draw.choice((1, 1, 2, 3)) + draw.choice((-1, 0, 0, 1))
        return draw.randint(LONGEST_NEAR, draw.choice((3_000, 3_000, 20_000, 200_000)))

    def content(self, room):
        """As a line has it."""
        draw, length = self.draw, self.length(room)
        if draw.random() < 0.85:
            at = draw.randint(0, 60)
            return (LETTERS * (length // len(LETTERS) + 2))[at : at + length]
        content = bytes(draw.choice(b"ntr\\\t\r ab.\x00\x80\xff-") for _ in range(length))
        return content.replace(b"\\", b"\\\\") if draw.random() < 0.5 else content

    def name(self):
        if self.draw.random() < self.excess / 10:
            return b"h" * (self.room + self.draw.choice((1, 8, 9)))
        return self.draw.choice(self.labels)

    def line(self, kind=None):
        """A line of a node without children."""
        kind = kind or self.draw.choices(b"-(A?", (45, 30, 12, 13))[0]
        if kind == ord("-"):
            return b"-" + self.content(self.room)
        name = self.name()
        if kind == ord("("):
            return b"(" + name
        if kind == ord("A"):
            name += self.draw.choice((b"", b"", b"1", b"2", b"3", b"%d" % self.draw.randint(0, 999)))
        content = self.content(self.room - len(name))
        return bytes([kind]) + name + (b" " + content if content or self.draw.random() < 0.5 else b"")

    # Documents.

    def size(self):
        draw = self.draw
        if self.character == "wide":
            return draw.choice((300, 1000, 2000, 4000))
        if self.character == "full":
            return draw.randint(5, 80)
        if self.character in ("catalog", "labels"):
            return 2
        if self.character == "far" and self.model.limit < 100:
            return draw.randint(2, 8)
        return max(2, round(draw.choice((8, 20, 20, 60, 200)) ** draw.random()))

    def body(self):
        """The lines of a document."""
        draw, nodes = self.draw, self.size()
        top = Element(self.name(), 1)
        elements, around = [top], ([], [])
        reach = 1 if self.character == "deep" else draw.choice((1, 2, 4, 30, nodes))
        share = {"wide": draw.choice((0, 0.02)), "deep": draw.choice((0.9, 1))}.get(self.character, draw.choice((0.05, 0.4, 0.9)))
        if self.character == "deep":
            nodes = draw.choice((20, 100, 255, 256, 300))
        self.excess = 0.05 / nodes
        for _ in range(nodes - 2):
            parent = elements[-draw.randint(1, min(reach, len(elements)))]
            if parent.depth >= DEEPEST and draw.random() > 0.02:
                parent = draw.choice(elements[: DEEPEST - 1])
            kind = draw.random()
            if kind < share:
                elements.append(Element(self.name(), parent.depth + 1))
                parent.children.append(elements[-1])
            elif kind < 0.9 or parent.attributes:
                parent.children.append(self.line(draw.choice(b"---?")))
            elif kind < 0.98:
                parent.attributes.append(self.line(ord("A")))
            else:
                draw.choice(around).append(self.line(ord("?")))
        self.excess = 0.03
        return self.broken([*around[0], *top.lines(), *around[1]])

    def broken(self, lines):
        """Now and then with a line more, less or elsewhere."""
        draw = self.draw
        if draw.random() < 0.08:
            at, other = (draw.randrange(len(lines)) for _ in range(2))
            kind = draw.random()
            if kind < 0.5:
                lines.insert(at, draw.choice(JUNK_LINES))
            elif kind < 0.7:
                del lines[at]
            elif kind < 0.85:
                lines.insert(other, lines[at])
            else:
                lines[at], lines[other] = lines[other], lines[at]
        return [line + b"\r" for line in lines] if draw.random() < 0.05 else lines

    def load(self):
        draw = self.draw
        if draw.random() < 0.03:
            first = draw.choice((*BAD_LOADS, b"load " + b"n" * 256))
        else:
            first = b"load " + self.new_name()
        return Command(first, *self.body(), b".\r" if draw.random() < 0.03 else b".")

    def new_name(self):
        if self.character in ("catalog", "labels", "full"):
            self.serial += 1
            return b"%d" % self.serial + (b"n" * 250 if self.character == "catalog" else b"")
        free = [name for name in self.documents if name not in self.model.documents]
        return self.draw.choice(free if free and self.draw.random() < 0.9 else self.documents)

    # Places.

    def document(self):
        names = list(self.model.documents)
        return self.draw.choice(names) if names and self.draw.random() < 0.97 else self.draw.choice(self.documents)

    def node(self, name, leaf=False):
        """A node of a document, with its path; none where no such document is there."""
        known, path = self.model.documents.get(name), ()
        node = known and known.root
        stop = self.draw.choice((0, 0.03)) if self.character == "deep" else 0.25
        while node and node.children and (leaf or not path or self.draw.random() > stop):
            at = self.draw.randrange(len(node.children))
            node, path = node.children[at], (*path, at)
        return node, path

    def path(self, path):
        """A path as a field, now and then another one."""
        kind = self.draw.random()
        if kind < 0.02:
            path = (*path, self.draw.choice((0, 1, 4294967295)))
        elif kind < 0.04 and path:
            path = (*path[:-1], path[-1] + self.draw.choice((1, 7, 1000)))
        elif kind < 0.05:
            path = path[:-1]
        return path_text(path).encode()

    def place(self, name, line):
        """Where a node with this line may be inserted, mostly."""
        draw = self.draw
        node, path = self.node(name)
        if node and node.kind != b"(" and path and draw.random() < 0.95:
            path = path[:-1]
            node = self.model.documents[name].root
            for at in path:
                node = node.children[at]
        children = node.children if node else []
        attributes = sum(child.kind == b"A" for child in children)
        low, high = (0, attributes) if line[:1] == b"A" else (attributes, len(children))
        if draw.random() < 0.03:
            low, high = 0, len(children) + 1
        if not path and line[:1] == b"?":
            return (draw.randint(0, len(children)),)
        return (*path, draw.choice((low, high, draw.randint(low, high))))

    # Commands.

    def burst(self):
        """Some commands that are sent together."""
        draw, character = self.draw, self.character
        if character in ("long", "rules", "nodes"):
            return getattr(self, "burst_" + character)()
        if character == "transactions" and draw.random() < 0.15:
            return [draw.choice((self.there_and_back, self.of_one_node, self.put_again, self.one_of_each))()]
        if not self.model.documents and draw.random() < 0.9:
            rules = [self.draw_rule() for _ in range(draw.choice((0, 0, 2, 6)) if not self.model.rules else 0)]
            return [*rules, *(self.load() for _ in range(10 if character == "full" else draw.randint(1, 2)))]
        if character in ("hot", "splits", "wide") and draw.random() < 0.5:
            return self.hot()
        if character in ("catalog", "labels"):
            return [self.command() for _ in range(40)]
        return [self.command() for _ in range(draw.randint(1, 6))]

    def command(self):
        word = self.draw.choices(WORDS, SHARES[self.character])[0]
        return getattr(self, "draw_" + word)() if hasattr(self, "draw_" + word) else self.load() if word == "load" else Command(word.encode())

    def hot(self):
        """Many inserts at one place, or behind each other."""
        draw, name = self.draw, self.document()
        line = self.line()
        place, step = self.place(name, line), draw.choice((0, 0, 1))
        commands = []
        for at in range(draw.choice((4, 8, 16, 40)) if self.character != "wide" else 5):
            line = self.line(line[0])
            if line[:1] == b"A":
                line = b"Ah%d %s" % (at, self.content(self.room - 4))
            path = (*place[:-1], place[-1] + step * at) if place else ()
            commands.append(Command(b"insert %s %s %s" % (name, path_text(path).encode(), line)))
        return commands

    def draw_insert(self):
        name = self.document()
        line = self.line() if self.draw.random() < 0.97 else self.draw.choice(JUNK_LINES)
        path = self.place(name, line)
        if line[:1] == b"A" and self.draw.random() < 0.3:
            line = self.twin(name, path) or line
        return Command(b"insert %s %s %s" % (name, self.path(path), line))

    def twin(self, name, path):
        """A line of an attribute whose name one has that stands where a path leads."""
        node = self.model.documents.get(name) and self.model.documents[name].root
        for at in path:
            node = node and (node.children[at] if at < len(node.children) else None)
        return node and node.kind == b"A" and b"A" + node.name + b" x"

    def draw_delete(self):
        name = self.document()
        node, path = self.node(name, leaf=self.draw.random() < 0.5)
        return Command(b"delete %s %s" % (name, self.path(path)))

    def draw_retext(self):
        name = self.document()
        node, path = self.node(name, leaf=self.draw.random() < 0.95)
        content = self.content(self.room - len(node.name if node else b""))
        return Command(b"retext %s %s" % (name, self.path(path)) + (b" " + content if content or self.draw.random() < 0.5 else b""))

    def draw_drop(self):
        return Command(b"drop " + self.document())

    def draw_rename(self):
        other = self.new_name() if self.draw.random() < 0.8 else self.document()
        return Command(b"rename %s %s" % (self.document(), other))

    # Transactions.

    def draw_transaction(self):
        """Some changes, each drawn by the state behind those before it, so that few are refused; in some of them one that is to be."""
        draw = self.draw
        length = draw.choice((0, 1, 1, 2, 3, 5, 8, 20)) if draw.random() < 0.95 else draw.choice((50, 150))
        at = draw.choice((0, length - 1, draw.randrange(length))) if length and draw.randrange(100) < REFUSED else None
        kept, self.model, commands = self.model, self.model.scratch(), []
        for number in range(length):
            commands.append(self.refused_change() if number == at else self.change())
            if number == at and draw.random() < 0.3:  # those behind may be refused, too
                self.model = kept.scratch()
        self.model = kept
        return self.transaction(commands)

    def transaction(self, commands, first=None, last=b"commit"):
        draw = self.draw
        if first is None:
            first = draw.choice((b"begin ", b"begin x", b"begin commit", b"begin begin")) if draw.random() < 0.02 else b"begin"
        end = b"\r" if draw.random() < 0.03 else b""
        return Transaction(first + end, *(line for command in commands for line in command.lines), last + end)

    def change(self):
        """A change that the state allows, mostly, and that is carried out."""
        for _ in range(8):
            word = self.draw.choices(list(WITHIN), list(WITHIN.values()))[0]
            command = self.load() if word == "load" else getattr(self, "draw_" + word)()
            if self.model.refusal_within(command, None) is None:
                return command
        return Command(b"rule a b free")

    def refused_change(self):
        draw = self.draw
        if draw.random() < 0.4:
            return Command(draw.choice(NO_CHANGES))
        if draw.random() < 0.2:
            return Command(draw.choice(BAD_LOADS), b"(a", b"begin", b"commit", b"drop d0", b".")
        for _ in range(8):
            word = draw.choice(list(WITHIN))
            command = self.load() if word == "load" else getattr(self, "draw_" + word)()
            if self.model.scratch().refusal_within(command, None) is not None:
                return command
        return Command(b"drop none")

    def there_and_back(self):
        """One that gives a document other names, and its own in the end."""
        name = self.document()
        others = [b"t%d" % at for at in range(self.draw.randint(1, 4))]
        names = [name, *others, name]
        return self.transaction([Command(b"rename %s %s" % pair) for pair in zip(names, names[1:])])

    def of_one_node(self):
        """A thousand edits of one node, or of one place."""
        draw, name = self.draw, self.document()
        node, path = self.node(name, leaf=True)
        if not node or node.kind == b"(" or draw.random() < 0.3:
            place = path_text((0, draw.choice((0, 0, 1)))).encode()
            pairs = [(Command(b"insert %s %s -%d" % (name, place, at)), Command(b"delete %s %s" % (name, place))) for at in range(500)]
            return self.transaction([command for pair in pairs for command in pair], b"begin")
        place, most = path_text(path).encode(), max(1, min(40, self.room - len(node.name)))
        return self.transaction([Command(b"retext %s %s %s" % (name, place, (b"%d" % at * most)[: at % (most + 1)])) for at in range(1000)], b"begin")

    def put_again(self):
        """One that loads a document in place of another one, and edits it."""
        name, kept = self.document(), self.model
        self.model = kept.scratch()
        commands = [Command(b"drop " + name)] if name in self.model.documents else []
        self.model.documents.pop(name, None)
        commands.append(Command(b"load " + name, *self.body(), b"."))
        if self.model.refusal_within(commands[-1], None) is None:
            commands += [self.change() for _ in range(self.draw.randint(0, 4))]
        self.model = kept
        return self.transaction(commands)

    def one_of_each(self):
        """One of each command, in an order of which none is refused."""
        taken = {*self.model.documents, *self.documents}
        name, other = (next(b"%s%d" % (word, at) for at in range(len(taken) + 1) if b"%s%d" % (word, at) not in taken) for word in (b"e", b"f"))
        lines = [b"load " + name, b"(a", b"-x", b")a", b".", b"insert %s /0/1 (b" % name, b"rename %s %s" % (name, other), b"retext %s /0/0 y" % other, b"rule a b standalone",
                 b"delete %s /0/1" % other, b"rule a b free", b"drop " + other]
        return Transaction(b"begin", *lines, b"commit")

    def cut_off(self):
        """One that the input's end cuts off, behind any of its lines or within one; the last one may be `commit` without an LF."""
        draw = self.draw
        whole = self.draw_transaction()
        lines = whole.lines[: draw.randint(1, len(whole.lines))]
        if draw.random() < 0.3:
            lines[-1] = lines[-1][: draw.randint(0, len(lines[-1]))]
        return requests_of(lines, draw.choice((b"\n", b"")) if lines[-1] else b"\n")

    def draw_export(self):
        return Command(b"export " + self.document())

    def draw_layout(self):
        return Command(b"layout " + self.document())

    def draw_get(self):
        name = self.document()
        return Command(b"get %s %s" % (name, self.path(self.node(name)[1])))

    def draw_rule(self):
        draw = self.draw
        parent, child = draw.choice((b"#doc", *self.labels, *self.labels)), draw.choice((b"", b"", b"", b"@", b"?")) + self.name()
        if draw.random() < 0.35:
            child = b"#text"
        if self.character in ("catalog", "labels"):
            self.serial += 1
            parent, child = (b"%d" % self.serial).ljust(1024, b"p"), b"c" * draw.choice((1024, 1024, 1023, 1025))
        return Command(b"rule %s %s %s" % (parent, child, draw.choices((b"standalone", b"cluster", b"free"), (35, 45, 20))[0]))

    def draw_junk(self):
        return Command(self.draw.choice(JUNK))

    def last(self):
        """Commands behind which the input ends: the last one is without its LF, or cut off."""
        draw, kind = self.draw, self.draw.random()
        if self.character in SHARES and draw.random() < (0.6 if self.character == "transactions" else 0.1):
            return self.cut_off()
        if kind < 0.3:
            body = self.body()
            return [Command(b"load d9", *body[: draw.randint(0, len(body))], end=draw.choice((b"\n", b"")))]
        command = self.command() if self.character in SHARES else self.load()
        if kind < 0.6 and len(command.lines) == 1:
            command.lines[0] = command.lines[0][: draw.randint(1, max(1, len(command.lines[0])))]
        return requests_of(command.lines, b"" if command.lines[-1] and not command.lines[0].startswith(b"load") else b"\n")

    def bursts(self):
        """How many bursts a session has."""
        if self.character in ("long", "nodes"):
            return 1
        return self.draw.randint(5, 12) if self.character in ("full", "catalog", "labels") else self.draw.randint(1, 6)

    # Stores at the limits.

    def burst_long(self):
        """Lines and contents around their limits of bytes."""
        draw, more = self.draw, self.draw.choice((0, 0, 1))
        long = b"x" * (LONGEST + more)
        return [
            Command(b"load d0", b"(a", b"-hi", b"?p q", b")a", b"."),
            Command(b"load d1", b"(a", b"-" + long, b")a", b"."),
            Command(b"load d2", b"(a", b"?pp " + long[2:].replace(b"xx", b"\\n\\t", 1), b")a", b"."),
            Command(b"insert d0 /0/0 -" + draw.choice((long, long[:-1] + b"\\r"))),
            Command(b"insert d0 /0/0 (" + long),
            Command(b"insert d0 /0/0 )" + long),
            Command(b"insert d0 /0/0 -" + b"\\t" * (LONGEST + more)),
            Command(b"retext d0 /0/0 " + long),
            Command(b"retext d0 /0/1 " + long[1:]),
            Command(b"retext d0 /0 " + long[1:]),
            Command(b"retext d0 /7 " + long),
            Command(b"retext d0 /0/0 " + b"x" * (LONGEST_LINE - 15 + more)),
            Command(b"y" * (LONGEST_LINE + more)),
            Command(b"load " + b"z" * (LONGEST_LINE - 5 + more), b"names", b"."),
            Command(b"load d3", b"(a", b"A" + b"n" * 1024, b"-" + b"x" * 2040, b"?" + b"n" * 2032 + b" " + b"x" * (1025 - more), b")a", b"."),
            Command(b"retext d0 /0/0 " + b"x" * 1025),
            Command(b"retext d0 /0/0 " + b"x" * 1024),
            Command(b"load d4", b"(a", b"A" + b"n" * 1023 + b" " + b"x" * (1017 + more), b")a", b"."),
            Command(b"drop d4"),
            Transaction(b"begin", b"load d5", b"(a", b"-hi", b")a", b".", b"retext d5 /0/0 " + long, b"retext d0 /0/0 " + long[1:], b"commit"),
            Transaction(b"begin", b"drop d0", b"y" * (LONGEST_LINE + more), b"commit"),
            Transaction(b"begin", b"drop d0", b"retext d1 /0/0 " + b"x" * (LONGEST_LINE - 15 + more), b"drop d1", b"commit"),
            Transaction(b"begin", b"load " + b"z" * (LONGEST_LINE - 5 + more), b"commit", b".", b"commit"),
            *requests_of([b"begin " + b"y" * (LONGEST_LINE - 6 + more), b"drop d0", b"commit"]),
        ]

    def burst_rules(self):
        """As many rules as there may be, in the first burst; then some more."""
        have = len(self.model.rules)
        if have < MOST_RULES - 10:
            return [Command(b"rule p%d c%d cluster" % (at % 64, at // 64)) for at in range(have, have + 1500)][: MOST_RULES - have]
        return [Command(b"rule %s c%d %s" % (draw_at, at, entry)) for draw_at in (b"p1", b"new") for at in (0, 5) for entry in (b"free", b"standalone", b"cluster")] * 2

    def burst_nodes(self):
        """A document with as many nodes as there may be, and one with one more."""
        if b"most" in self.model.documents:
            last = self.model.documents[b"most"].nodes
            return [Command(b"insert most /0/0 -x"), Command(b"insert most /%d ?p" % self.draw.randint(0, 1)), Command(b"delete most /0/%d" % (last - 5)), Command(b"get most /0/%d" % (last - 4))]
        lines = [b"-x"] * (MOST_NODES - 2)
        return [Command(b"load more", b"(a", *lines, b"-x", b")a", b"."), Command(b"load most", b"(a", *lines, b")a", b".")]
