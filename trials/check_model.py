"""Which rule a store breaks first, and at which page, by "The rules of the pages" in docs/FORMATS.md alone.

The documents are kept as trees with gaps, and each rule is asked of the whole of what was reached, as its line says it: nothing is
worked out step by step, so that this model is slow, and plain to read beside the page.
"""
import re

PAGE = 8192
ROOM = 8184
MOST_PAGES = 16_777_216
LONGEST_INLINE = 8176
MOST_SLOTS = 256
MOST_PROXIES = MOST_NODES = 524_288
DEEPEST = 256
LONGEST_NEAR = 1024
LONGEST_NODE = 1_048_576
MOST_RULES = 4096
DOC, ELEMENT, ATTRIBUTE, TEXT, INSTRUCTION, RUN = range(1, 7)


class NotAStore(Exception):
    """Page 0 doesn't begin as that of a store."""


class Broken(Exception):
    def __init__(self, page, rule):
        super().__init__(page, rule)
        self.page, self.rule = page, rule


class NoForm(Exception):
    """The bytes have no such form."""


def number(data, at, size):
    return int.from_bytes(data[at : at + size], "big")


# Pages.


def pages_of(area, log):
    pages = {p: area[p * PAGE : (p + 1) * PAGE] for p in range(min(len(area) // PAGE, MOST_PAGES))}
    at = 0
    while at + 13 < len(log) and log[at] == 1:
        count = number(log, at + 9, 4)
        end = at + 13 + 8196 * count
        if not 1 <= count <= MOST_PAGES or end >= len(log):
            break
        entries = [(number(log, e, 4), log[e + 4 : e + 8196]) for e in range(at + 13, end, 8196)]
        numbers = [page for page, _ in entries]
        if numbers != sorted(set(numbers)) or numbers[-1] >= MOST_PAGES:
            break
        pages.update(entries)
        at = end
    return pages


def slots_of(page):
    """The records of a slotted page by their slots, none where it isn't slotted."""
    count = number(page, 2, 2)
    if page[0] != 1 or page[1] or any(page[4:8]) or 8 + 4 * count > PAGE:
        return None
    slots = [(number(page, 8 + 4 * s, 2), number(page, 10 + 4 * s, 2)) for s in range(count)]
    for at, size in slots:
        if (at, size) != (0, 0) and (size == 0 or at < 8 + 4 * count or at + size > PAGE):
            return None
    taken = sorted((at, at + size) for at, size in slots if size)
    if any(one[1] > other[0] for one, other in zip(taken, taken[1:])) or (slots and slots[-1][1] == 0):
        return None
    return {s: page[at : at + size] for s, (at, size) in enumerate(slots) if size}


def free_page(page):
    """Which page comes next, none where it is no free page."""
    return None if any(page[:4]) or any(page[8:]) else number(page, 4, 4)


def chain_page(page):
    size = number(page, 2, 2)
    if page[0] != 2 or page[1] or not 1 <= size <= ROOM or any(page[8 + size :]):
        return None
    return number(page, 4, 4), page[8 : 8 + size]


class Header:
    def __init__(self, page):
        self.k, target, tolerance = (number(page, at, 2) for at in (10, 12, 14))
        limit, self.pages, self.free, self.room = (number(page, at, 4) for at in (16, 20, 24, 28))
        self.catalog, self.catalog_length = number(page, 40, 4), number(page, 44, 8)
        fits = (
            page[:8] == b"NATIXST1"
            and number(page, 8, 2) in (1, 2)
            and 1 <= self.k <= 256
            and target <= 100
            and tolerance <= 256
            and 64 <= limit <= MOST_PAGES
            and 2 <= self.pages <= limit
            and self.catalog_length >= 8
            and not any(page[52:])
        )
        if not fits:
            raise Broken(0, "header")


# Documents.


def is_name(name):
    return len(name) > 0 and all(byte > 32 and byte not in b"#*/?@\\" for byte in name)


def catalog_of(data):
    at = 0

    def take(size):
        nonlocal at
        if at + size > len(data):
            raise NoForm
        at += size
        return data[at - size : at]

    def field(size):
        return int.from_bytes(take(size), "big")

    documents, rules = [], []
    for _ in range(field(4)):
        name = take(field(2))
        documents.append((name, field(4), field(2), field(4)))
    for _ in range(field(4)):
        pair = take(field(2)), take(field(2))
        rules.append((pair, field(1)))
    names = [d[0] for d in documents]
    pairs = [r[0] for r in rules]
    if at != len(data) or names != sorted(set(names)) or pairs != sorted(set(pairs)) or len(rules) > MOST_RULES:
        raise NoForm
    if not all(re.fullmatch(rb"[!-,.-~][!-~]{0,254}", name) for name in names):
        raise NoForm
    for (parent, child), entry in rules:
        child_name = child[1:] if child[:1] in (b"@", b"?") else child
        if not (parent == b"#doc" or is_name(parent)) or not (child == b"#text" or is_name(child_name)):
            raise NoForm
        if max(len(parent), len(child)) > 1024 or entry not in (1, 2):
            raise NoForm
    return documents


class Node:
    def __init__(self, kind, name, length, far):
        self.kind, self.name, self.length, self.far = kind, name, length, far
        self.items = []

    def children(self):
        """Those that were reached."""
        for item in self.items:
            if isinstance(item, Node):
                yield item
            else:
                yield from item.roots


class Gap:
    """A proxy, and the roots of its record once it was reached."""

    def __init__(self):
        self.page = self.slot = self.count = None
        self.roots = []


class Piece:
    """The nodes of a record, and its gaps; the lists that it names, as first page and length, that of the proxies first."""

    def __init__(self, data):
        if len(data) < 16:
            raise NoForm
        self.data, self.at = data, 16
        form, roots, self.left, proxies, chain = data[0], number(data, 2, 2), number(data, 4, 4), number(data, 8, 4), number(data, 12, 4)
        self.gaps, self.slots, self.nodes, self.fars = [], 0, 0, []
        if form not in (1, 2) or data[1] or not 1 <= roots <= 256 or proxies > MOST_PROXIES:
            raise NoForm
        self.roots = [self.node() for _ in range(roots)]
        inline = self.at + 8 * proxies
        if self.left or len(self.gaps) != proxies or self.slots > MOST_SLOTS or (form == 1) != (inline <= LONGEST_INLINE):
            raise NoForm
        if len(data) != (inline if form == 1 else self.at) or (form == 1 and chain):
            raise NoForm
        self.list = None
        if form == 1:
            self.fill(data[self.at :])
            if not all(1 <= gap.count <= 256 for gap in self.gaps):
                raise NoForm
        else:
            self.list = chain, 8 * proxies

    def fill(self, data):
        for i, gap in enumerate(self.gaps):
            gap.page, gap.slot, gap.count = number(data, 8 * i, 4), number(data, 8 * i + 4, 2), number(data, 8 * i + 6, 2)

    def take(self, size):
        if self.at + size > len(self.data):
            raise NoForm
        self.at += size
        return self.data[self.at - size : self.at]

    def item(self):
        if not self.left:
            raise NoForm
        self.left -= 1

    def node(self):
        self.item()
        begin = self.at
        kind, is_far, name, content, items = ((h := self.take(8))[0], h[1], number(h, 2, 2), number(h, 4, 2), number(h, 6, 2))
        if not DOC <= kind <= INSTRUCTION or is_far > 1:
            raise NoForm
        name, content = self.take(name), self.take(content)
        if any(self.take(-(len(name) + len(content)) % 8)):
            raise NoForm
        length, far = len(content), None
        if is_far:
            length, far = number(content, 4, 4), number(content, 0, 4)
            if len(content) != 8 or not LONGEST_NEAR < length <= LONGEST_NODE:
                raise NoForm
            self.fars.append((far, length))
        node = Node(kind, name, length, far)
        self.nodes += 1
        self.slots += (self.at - begin) // 8
        if self.slots > MOST_SLOTS:
            raise NoForm
        after_run = False
        for _ in range(items):
            if self.data[self.at : self.at + 1] == bytes([RUN]):
                if after_run:
                    raise NoForm
                after_run = True
                self.item()
                head = self.take(8)
                count = number(head, 4, 4)
                if any(head[1:4]) or not 1 <= count <= MOST_PROXIES or len(self.gaps) + count > MOST_PROXIES:
                    raise NoForm
                gaps = [Gap() for _ in range(count)]
                node.items += gaps
                self.gaps += gaps
            else:
                after_run = False
                node.items.append(self.node())
        return node


def is_forest(nodes, depth):
    """Whether nodes below the root of a document may be so, as far as they were reached."""
    for node in nodes:
        children = list(node.children())
        if depth > DEEPEST or len(node.name) + node.length > LONGEST_NODE or node.kind == DOC:
            return False
        if node.name != b"" if node.kind == TEXT else not is_name(node.name):
            return False
        if node.kind == ELEMENT and node.length:
            return False
        if node.kind != ELEMENT and children:
            return False
        attributes = [child.name for child in children if child.kind == ATTRIBUTE]
        if len(set(attributes)) != len(attributes) or any(child.kind == ATTRIBUTE for child in children[len(attributes) :]):
            return False
        if not is_forest(children, depth + 1):
            return False
    return True


def may_be_document(roots):
    if len(roots) != 1 or roots[0].kind != DOC or roots[0].name or roots[0].length:
        return False
    top = list(roots[0].children())
    if any(node.kind not in (ELEMENT, INSTRUCTION) for node in top) or sum(node.kind == ELEMENT for node in top) > 1:
        return False
    return is_forest(top, 1)


def gaps_of(nodes):
    """The gaps below these nodes in document order, each before those of what was reached in its place."""
    for node in nodes:
        for item in node.items:
            if isinstance(item, Gap):
                yield item
            else:
                yield from gaps_of([item])


class Check:
    def __init__(self, pages):
        self.pages = pages
        self.used = {0}
        self.reached = set()

    def run(self):
        if not self.pages.get(0, b"").startswith(b"NATIXST1"):
            raise NotAStore
        self.head = Header(self.pages[0])
        if self.head.room and slots_of(self.pages.get(self.head.room, bytes(PAGE))) is None:
            raise Broken(0, "header")
        self.free_list()
        content = self.chain(0, self.head.catalog, self.head.catalog_length)
        try:
            documents = catalog_of(content)
        except NoForm:
            raise Broken(self.head.catalog, "catalog") from None
        for _, page, slot, nodes in documents:
            self.document(page, slot, nodes)
        self.rest()

    def free_list(self):
        by, at = 0, self.head.free
        while at:
            if at not in self.pages:
                raise Broken(by, "free")
            following = free_page(self.pages[at])
            if following is None or at >= self.head.pages or at in self.used:
                raise Broken(at, "free")
            self.used.add(at)
            by, at = at, following

    def chain(self, by, first, size):
        content = b""
        at = first
        while True:
            if at not in self.pages:
                raise Broken(by, "chain")
            found = chain_page(self.pages[at])
            left = size - len(content)
            if found is None or at in self.used or len(found[1]) != min(left, ROOM) or (found[0] == 0) != (left <= ROOM):
                raise Broken(at, "chain")
            self.used.add(at)
            content += found[1]
            if len(content) == size:
                return content
            by, at = at, found[0]

    def record(self, by, page, slot):
        if page not in self.pages:
            raise Broken(by, "missing")
        slots = slots_of(self.pages[page])
        if slots is None:
            raise Broken(page, "slotted")
        if slot not in slots:
            raise Broken(by, "missing")
        if (page, slot) in self.reached:
            raise Broken(page, "twice")
        self.reached.add((page, slot))
        try:
            piece = Piece(slots[slot])
        except NoForm:
            raise Broken(page, "form") from None
        if piece.list:
            piece.fill(self.chain(page, *piece.list))
        for far in piece.fars:
            self.chain(page, *far)
        return piece

    def document(self, page, slot, nodes):
        root = Gap()
        piece = self.record(0, page, slot)
        root.roots = piece.roots
        count = self.accept(root.roots, piece, page)
        waiting = [(page, gap) for gap in piece.gaps]
        while waiting:
            by, gap = waiting.pop(0)
            piece = self.record(by, gap.page, gap.slot)
            if len(piece.roots) != gap.count:
                raise Broken(gap.page, "roots")
            gap.roots = piece.roots
            count += self.accept(root.roots, piece, gap.page)
            waiting = [(gap.page, other) for other in piece.gaps] + waiting
        elements = sum(node.kind == ELEMENT for node in root.roots[0].children())
        if not elements or count != nodes or count > MOST_NODES:
            raise Broken(page, "nodes")

    def accept(self, roots, piece, page):
        if not may_be_document(roots):
            raise Broken(page, "document")
        if piece.slots > self.head.k:
            raise Broken(page, "weight")
        return piece.nodes

    def rest(self):
        touched = {page for page, _ in self.reached}
        for page in range(self.head.pages):
            if page in self.used:
                continue
            if page not in touched or any((page, slot) not in self.reached for slot in slots_of(self.pages[page])):
                raise Broken(page, "unused")
        if max(self.pages) >= self.head.pages:
            raise Broken(max(self.pages), "unused")


def verdict(area, log):
    """What a check prints: `sound`, `wrong PAGE RULE`, or `not a store`."""
    try:
        Check(pages_of(area, log)).run()
    except NotAStore:
        return "not a store"
    except Broken as why:
        return f"wrong {why.page} {why.rule}"
    return "sound"
