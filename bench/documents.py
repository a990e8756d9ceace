"""The documents that the benchmarks read, each as its canonical lines in PYX.

Places and lengths are drawn with fixed seeds, so that each run has the same ones.
"""

import math
import random

NODE_LIMIT = 524_288
DEPTH_LIMIT = 256
CONTENT_LIMIT = 1_048_576

SENTENCE = "A page of plain prose without marks, long enough to be cut anywhere; "
PROSE = SENTENCE * (CONTENT_LIMIT // len(SENTENCE) + 2)

# The sentence's words, each with one of the four escapes after it.
ESCAPES = (r"\n", r"\t", r"\r", r"\\")
ESCAPED = [word + ESCAPES[at % 4] for at, word in enumerate(SENTENCE.split() * 4)]


def prose(index, length):
    begin = index % len(SENTENCE)
    return PROSE[begin : begin + length]


def text(index, length):
    return "-" + prose(index, length)


def siblings(name, nodes):
    """One element over texts and empty elements in turn."""
    yield f"({name}"
    for index in range(nodes - 2):
        if index % 2 == 0:
            yield text(index, 1 + index % 31)
        else:
            yield "(item"
            yield ")item"
    yield f"){name}"


def flat():
    """One element over as many texts and empty elements as a document may have."""
    return siblings("flat", NODE_LIMIT)


def nested():
    """Elements in each other, each with a text of 100 KB to 900 KB before the next one."""
    levels = 84
    for level in range(levels):
        yield f"(level{level}"
        # 37 has no divisor in common with 84, so each of 84 lengths comes once.
        yield text(level, 100_000 + level * 37 % levels * 800_000 // (levels - 1))
    for level in reversed(range(levels)):
        yield f")level{level}"


def deep():
    """Chains of elements from the root down to a text at the depth limit."""
    yield "(deep"
    depths = range(2, DEPTH_LIMIT)
    for chain in range((NODE_LIMIT - 2) // (len(depths) + 1)):
        yield from (f"(at{depth}" for depth in depths)
        yield text(chain, 20)
        yield from (f")at{depth}" for depth in reversed(depths))
    yield ")deep"


def line():
    """One element over one text as long as a text may be."""
    yield "(line"
    yield text(0, CONTENT_LIMIT)
    yield ")line"


def attributes():
    """Elements with eight attributes each."""
    yield "(attributes"
    for index in range(30_000):
        yield "(item"
        yield from (f"Akey{at} {prose(index + at, (index + at) % 31)}" for at in range(8))
        yield ")item"
    yield ")attributes"


def many():
    """One element with many attributes."""
    yield "(many"
    yield from (f"Akey{index} {prose(index, index % 31)}" for index in range(100_000))
    yield ")many"


def escapes():
    """Texts with an escape after each word."""
    yield "(escapes"
    pieces = ESCAPED * 5
    for index in range(8_500):
        begin = index % len(ESCAPED)
        yield "-" + "".join(pieces[begin : begin + 50 + index % 201])
    yield ")escapes"


def instructions():
    """One element over as many instructions and texts, in turn, as a document may have."""
    yield "(instructions"
    for index in range(NODE_LIMIT - 2):
        if index % 2 == 0:
            yield f"?step {prose(index, index % 31)}".rstrip(" ")
        else:
            yield text(index, index % 31)
    yield ")instructions"


# With the nodes that are inserted later, nearly as many nodes as a document may have.
RECORDS = 122_400
GROUP = 100


def records(count=RECORDS):
    """One element over groups of records, each with an attribute and two texts."""
    yield "(records"
    for index in range(count):
        if index % GROUP == 0:
            yield "(group"
        yield "(record"
        yield f"Aid {index}"
        yield text(index, index % 31)
        yield text(index, 5)
        yield ")record"
        if index % GROUP == GROUP - 1 or index == count - 1:
            yield ")group"
    yield ")records"


# Those in which nodes are looked for.

# The records of `marked` that have an empty element in place of a text, by its name.
MARKS = {"once": [61_201], "rare": range(5_000, RECORDS, 10_000), "some": range(201, RECORDS, 400)}


def marked():
    """`records`, with an empty element in place of the last text of some records."""
    names = {record: name for name, marks in MARKS.items() for record in marks}
    record, place = -1, 0
    for line in records():
        record, place = (record + 1, 0) if line == "(record" else (record, place + 1)
        if place == 3 and record in names:
            yield from (f"({names[record]}", f"){names[record]}")
        else:
            yield line


def alike():
    """Elements of one name, as many as `records` has nodes, and as deep."""
    yield "(record"
    for _ in range(RECORDS // GROUP):
        yield "(record"
        for _ in range(GROUP):
            yield from ("(record", *["(record", ")record"] * 3, ")record")
        yield ")record"
    yield ")record"


LABELS = 500


def labelled(label_of):
    """As many nodes as a document may have: groups of a hundred elements over three, of labels by the numbers of their groups."""
    draw = random.Random(8)
    left = NODE_LIMIT - 2
    group = 0
    yield "(all"
    while left > 0:
        yield "(group"
        left -= 1
        for _ in range(min(GROUP, left // 4) or left):
            names = [label_of(draw, group) for _ in range(min(4, left))]
            yield f"({names[0]}"
            for name in names[1:]:
                yield from (f"({name}", f"){name}")
            yield f"){names[0]}"
            left -= len(names)
        yield ")group"
        group += 1
    yield ")all"


def mixed():
    """`labelled`, each label drawn from all 500."""
    return labelled(lambda draw, _: f"label{draw.randrange(2, LABELS)}")


def apart():
    """`labelled`, each label drawn from five of 500 that change with the group."""
    return labelled(lambda draw, group: f"label{2 + (5 * group + draw.randrange(5)) % (LABELS - 2)}")


def load(name, lines):
    yield f"load {name}"
    yield from lines
    yield "."


# Those that are partitioned, for a number of nodes and a `k`. Their contents have fewer than 1,024 bytes.


def weight(length):
    """What a text of so many bytes weighs, where it has at most 1,024."""
    return 1 + math.ceil(length / 8)


def table(nodes, _):
    """One element over records, each with an attribute and an element over a text."""
    yield "(table"
    for index in range((nodes - 2) // 4):
        yield "(record"
        yield f"Aid {index}"
        yield "(name"
        yield text(index, index % 31)
        yield ")name"
        yield ")record"
    yield ")table"


def sections(nodes, k):
    """Sections in each other, each with texts. Those heavier than k are left out."""
    draw = random.Random(2)
    depth, left = 0, nodes - 2
    yield "(book"
    while left > 0:
        step = draw.random()
        if step < 0.1 and depth < 8:
            yield "(section"
            depth, left = depth + 1, left - 1
        elif step < 0.2 and depth > 0:
            yield ")section"
            depth -= 1
        else:
            length = int(505 * draw.random() ** 4)
            if weight(length) <= k:
                yield text(left, length)
                left -= 1
    yield from [")section"] * depth
    yield ")book"


def wide(nodes, _):
    """One element over texts and empty elements in turn."""
    return siblings("wide", nodes)


def savings(nodes, k):
    """Light texts and heavy elements in turn; an element is light without its texts."""
    texts = math.isqrt(k)
    yield "(savings"
    for index in range((nodes - 2) // (texts + 2)):
        yield text(index, 8 * (index % 3))
        yield "(part"
        slots = k - weight(len("part")) - index * 7 % (k // 4)
        for at in range(texts):
            yield text(index, 8 * ((slots + at) // texts - 1))
        yield ")part"
    yield ")savings"


# Those that are put into stores.


def parts(name, texts, length):
    """Parts of forty texts, of a length by their numbers."""
    yield f"({name}"
    for index in range(texts):
        if index % 40 == 0:
            yield "(part"
        yield text(index, length(index))
        if index % 40 == 39 or index == texts - 1:
            yield ")part"
    yield f"){name}"


def long():
    """Texts of 1,000 to 2,000 bytes, 42 megabytes. All but 700 are so long that each has a page of its own."""
    return parts("long", 28_000, lambda index: 1_000 + index * 37 % 1_001)


BOOK_TEXTS = 4_000


def books():
    """Texts of 16 KiB, 66 megabytes."""
    return parts("books", BOOK_TEXTS, lambda index: 16_384)


def book_gets():
    """20,000 commands `get` of a text of `books`."""
    draw = random.Random(6)
    for _ in range(20_000):
        index = draw.randrange(BOOK_TEXTS)
        yield f"get d /0/{index // 40}/{index % 40}"


def book_edits(words, edits):
    """So many edits of texts of `books` at random places, these words in turn. Each part keeps a text."""
    draw = random.Random(7)
    texts = [40] * (BOOK_TEXTS // 40)
    for index in range(edits):
        word = words[index % len(words)]
        part = draw.choice([at for at, count in enumerate(texts) if count > 1 or word != "delete"])
        place = f"d /0/{part}/{draw.randrange(texts[part])}"
        texts[part] += {"insert": 1, "delete": -1}.get(word, 0)
        content = prose(index, 16_384)
        yield {"insert": f"insert {place} -{content}", "delete": f"delete {place}", "retext": f"retext {place} {content}"}[word]


def novel():
    """Twenty texts as long as a text may be."""
    return parts("novel", 20, lambda index: CONTENT_LIMIT)


def thousand():
    """A thousand documents of 500 nodes, by their names."""

    def lines(number):
        yield "(document"
        for index in range(124):
            yield "(record"
            yield f"Aid {124 * number + index}"
            yield text(index, index % 31)
            yield text(index, 5)
            yield ")record"
        yield text(number, 30)
        yield text(number, 20)
        yield ")document"

    return [(f"d{number}", lambda number=number: lines(number)) for number in range(1_000)]


def record_gets():
    """100,000 commands `get` at random places of `records`."""
    draw = random.Random(3)
    for _ in range(100_000):
        record = draw.randrange(RECORDS)
        yield f"get d /0/{record // GROUP}/{record % GROUP}/{draw.randrange(3)}"


def near_gets():
    """100,000 commands `get` at places of `records` beside each other, in the order of the document."""
    for index in range(100_000):
        record = index // 3
        yield f"get d /0/{record // GROUP}/{record % GROUP}/{index % 3}"


def record_edits(words, edits, count=RECORDS):
    """So many edits at random places of `records`, these words in turn. Each record keeps its attribute and a text."""
    draw = random.Random(4)
    children = [3] * count
    for index in range(edits):
        word = words[index % len(words)]
        record = draw.randrange(count)
        while word == "delete" and children[record] < 3:
            record = draw.randrange(count)
        path = f"/0/{record // GROUP}/{record % GROUP}"
        if word == "insert":
            children[record] += 1
            yield f"insert d {path}/{draw.randrange(1, children[record])} {text(index, index % 31)}"
        elif word == "delete":
            yield f"delete d {path}/{draw.randrange(1, children[record])}"
            children[record] -= 1
        else:
            yield f"retext d {path}/{draw.randrange(children[record])} {prose(index, index % 31)}"


def hot_inserts(place, children, edits):
    """So many inserts at one place of an element with children: at its `front`, its `middle` or its `end`."""
    begin = {"front": 0, "middle": children // 2, "end": children}[place]
    for index in range(edits):
        position = begin + index if place == "end" else begin
        yield f"insert d /0/{position} {text(index, 1 + index % 31)}"


def growth(edits):
    """So many inserts at random places of a document that has one element at first. Two of five nodes are elements."""
    draw = random.Random(5)
    # The elements: their parents, and their children, with -1 for one that is no element.
    parents, children = [None], [[]]
    for index in range(edits):
        parent = draw.randrange(len(parents))
        position = draw.randrange(len(children[parent]) + 1)
        path, node = [position], parent
        while parents[node] is not None:
            above = parents[node]
            path.append(children[above].index(node))
            node = above
        is_element = draw.random() < 0.4
        children[parent].insert(position, len(parents) if is_element else -1)
        if is_element:
            parents.append(parent)
            children.append([])
        steps = "/".join(map(str, [0, *reversed(path)]))
        yield f"insert d /{steps} {'(item' if is_element else text(index, 1 + index % 31)}"


def rows(lines):
    """The nodes of a document below its root: number, number of the parent, position, kind, name and content."""
    number = 0
    # The open nodes, and how many children each has so far.
    parents, counts = [0], [0]
    for line in lines:
        code, rest = line[0], line[1:]
        if code == ")":
            parents.pop()
            counts.pop()
            continue
        number += 1
        name, _, content = ("", "", rest) if code == "-" else rest.partition(" ")
        yield number, parents[-1], counts[-1], code, name, content
        counts[-1] += 1
        if code == "(":
            parents.append(number)
            counts.append(0)


def many(count):
    """The names of so many documents, in the order of their bytes, each with the same lines."""
    return [(f"d{number:06}", lambda: ["(a", "-some text", "-more", ")a"]) for number in range(count)]


def many_edits(words, edits):
    """So many edits of the first of `many`, these words in turn, of which `insert` comes before `delete`."""
    places = {"insert": "/0/1 -new", "delete": "/0/1", "retext": "/0/0 "}
    for index in range(edits):
        word = words[index % len(words)]
        yield f"{word} d000000 {places[word]}{prose(index, index % 31) if word == 'retext' else ''}"
