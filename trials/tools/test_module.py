"""What the Python module promises of documents that are put, left out, refused."""

import doctest
import xml.etree.ElementTree as tree

import pytest
from hypothesis import given, settings, strategies

import natix
import natix_files
import natix_lines
import natix_sources
import natix_subtrees
from conftest import new_folder


@pytest.mark.parametrize("module", [natix, natix_files, natix_lines, natix_sources, natix_subtrees])
def test_what_the_modules_show(module):
    found = doctest.testmod(module)
    assert found.attempted and not found.failed


ARTICLE = "<!DOCTYPE a><!--c--><a>x<!--d-->y</a>"


@pytest.fixture
def store(folder):
    with natix.Store.create(folder / "lib") as made:
        yield made


def test_loads_say_what_is_left_out(store):
    assert store.load("left", ARTICLE) == natix.Loaded(3, 1, ("2 comments", "the document type"))
    assert store.load("kept", ARTICLE, keep=True) == natix.Loaded(7, 1)
    assert store.export("kept") == "<!DOCTYPE a>\n<!--c-->\n<a>x<!--d-->y</a>\n"


def test_what_is_refused_is_named(store, folder):
    (folder / "bad.xml").write_text("<a>")
    with pytest.raises(natix.NotXml, match=f"^{folder}/bad.xml: line 1, column 4: "):
        store.load("bad", folder / "bad.xml")
    store.load("odd", natix.Pyx(b"(a\n-\1\n)a\n"))
    with pytest.raises(natix.NotXml, match=r"^odd: line 2: "):
        store.export("odd")
    store.load("even", "<a/>")
    with pytest.raises(FileNotFoundError) as error:
        store.export("even", folder / "none" / "even.xml")
    assert error.value.filename == str(folder / "none" / "even.xml")


def test_put(store):
    assert store.put("a", "<a>1</a>") == natix.Loaded(3, 1)
    with pytest.raises(natix.NotXml):
        store.put("a", "<a>")
    with pytest.raises(natix.Refused):
        store.put("a", natix.Pyx(b"(a\n)b\n"))
    assert store.export("a") == "<a>1</a>\n"
    store.put("a", ARTICLE, keep=True)
    assert (store.export("a"), list(store.names())) == ("<!DOCTYPE a>\n<!--c-->\n<a>x<!--d-->y</a>\n", ["a"])


@pytest.mark.parametrize("stop, new", [(1, False), (2, True), (3, True), (4, True)])
def test_what_an_earlier_put_left_is_ended(store, stop, new):
    """That took four commands, and stopped behind so many of them."""
    old, other = natix.pyx("<a>old</a>"), natix.pyx("<a>new</a>")
    store.load("a", old)
    waiting = natix.REPLACEMENT + "a"
    changes = [natix.load(waiting, other), natix.drop("a"), natix.load("a", other), natix.drop(waiting)]
    store.ask_all(changes[:stop])
    assert store.recover() == ({"a": new} if stop < 4 else {})
    assert (list(store.names()), store.export("a", natix.Pyx)) == (["a"], other if new else old)


def test_the_shell_ends_what_stopped(shell, folder):
    with natix.Store.create(folder / "lib") as store:
        store.load(natix.REPLACEMENT + "a", "<a>new</a>")
    written, said, status = shell("lib", "save", "a", "-")
    assert (written, said, status) == ("<a>new</a>\n", "natix-shell: a `load -f` of a was stopped: a is the new document\n", 0)
    assert shell.well("lib", "ls") == "a/ (3 nodes)\n"


def test_transactions(store):
    store.load("a", "<a>x</a>")
    with store.transaction() as done:
        assert store.get("a", (0, 0)).content == "x"
        assert store.load("b", "<b/>") is None
        store.rename("a", "c")
        with pytest.raises(ValueError):
            store.get("c", ())
        with pytest.raises(ValueError):
            store.names()
        with pytest.raises(ValueError):
            store.checkpoint()
        store.put("c", "<c/>")
    assert done.answers == [natix.Loaded(2, 1), None, None, natix.Loaded(2, 1)]
    assert store.names() == {"b": 2, "c": 2}
    with store.transaction() as done:
        pass
    assert done.answers == []


def test_a_transaction_that_is_refused(store):
    store.load("a", "<a>x</a>")
    before = store.names(), store.export("a")
    with pytest.raises(natix.Refused) as refused:
        with store.transaction():
            store.drop("a")
            store.load("a", "<a>y</a>")
            store.retext("a", (0, 7), "z")
            store.drop("none")
    found = refused.value
    assert (found.number, found.name, found.word, found.command, found.said) == (3, "a", "no-node", "retext a /0/7 z", "no-node")
    with pytest.raises(natix.Refused) as refused:
        with store.transaction():
            store.rule("a", "b", "free")
            store.load("c", natix.Pyx(b"(a\n-\n)b\n"))
    assert (refused.value.number, refused.value.word, refused.value.line, refused.value.name) == (2, "bad-nesting", 3, "c")
    with pytest.raises(natix.Refused) as refused:
        with store.transaction():
            store.insert("a", (0, 0), natix.Node.element("n" * 3000))
    assert (refused.value.number, refused.value.path, refused.value.weight) == (1, (0, 0), 376)
    assert (store.names(), store.export("a")) == before


def test_a_transaction_that_is_left_sends_nothing(store):
    store.load("a", "<a/>")
    with pytest.raises(ZeroDivisionError):
        with store.transaction():
            store.drop("a")
            raise ZeroDivisionError
    with store.transaction():
        store.rename("a", "b")
        with pytest.raises(ZeroDivisionError):
            with store.transaction():  # is part of the other one
                store.drop("b")
                raise ZeroDivisionError
        with store.transaction():
            store.insert("b", (0, 0), natix.Node.text("x"))
    assert store.export("b") == "<a>x</a>\n"
    assert store.ask(natix.Transaction([])) == []
    assert store.ask_all([natix.Transaction([natix.drop("b")]), natix.names()]) == [[None], {}]


def test_subtrees(store):
    store.load("a", "<a><b>1</b><c/></a>")
    assert store.graft("a", (0, 1), "<d e='f'>g<h/></d>tail<?p q?>") == 6
    assert store.export("a") == '<a><b>1</b><d e="f">g<h/></d>tail<?p q?><c/></a>\n'
    assert natix_sources.xml_of(store.subtree("a", (0, 1))) == b'<d e="f">g<h/></d>\n'
    assert store.move("a", (0, 0), (0, 4)) == (0, 3)
    assert store.copy("a", (0, 0, 0), (0, 3, 0)) == (0, 3, 0)
    assert store.replace("a", (0, 0), "<x/>") == 1
    store.relabel("a", (0, 3, 0), "z")
    assert store.export("a") == '<a><x/>tail<?p q?><b z="f">1</b><c/></a>\n'
    store.load("other", "<o/>")
    assert store.move("a", (0, 3), (0, 0), "other") == (0, 0)
    assert (store.export("a"), store.export("other")) == ("<a><x/>tail<?p q?><c/></a>\n", '<o><b z="f">1</b></o>\n')
    store.replace("a", (0,), "<whole><!--left out-->one</whole>")
    assert store.export("a") == "<whole>one</whole>\n"
    store.relabel("a", (0,), "all")
    assert store.export("a") == "<all>one</all>\n"
    for call in (lambda: store.graft("a", (0, 0), " <b>"), lambda: store.graft("a", (0, 0), "</natix><natix>"), lambda: store.replace("a", (0, 0), "<?xml version='1.0'?>")):
        with pytest.raises(natix.NotXml):
            call()
    for call in (lambda: store.graft("a", (0, 0), ""), lambda: store.move("a", (0,), (0, 1)), lambda: store.copy("a", (), (0, 0)), lambda: store.relabel("a", (0, 0), "x")):
        with pytest.raises(ValueError):
            call()
    with pytest.raises(natix.Refused) as refused:
        store.graft("a", (0, 0), f"<b/><c>{'x' * 1000}<{'n' * 2041}/></c>")
    assert (refused.value.number, refused.value.path, store.export("a")) == (4, (0, 1, 1), "<all>one</all>\n")


def test_a_subtree_of_many_nodes_is_cut_out_of_all(store):
    store.load("big", "<a>" + "<b c='d'>x</b>" * 3000 + "</a>")
    assert store.subtree("big", (0,)) == store.subtree("big", ()) == store.export("big", natix.Pyx)
    assert store.subtree("big", (0, 2999)) == b"(b\nAc d\n-x\n)b\n"
    assert store.subtree("big", (0, 2999, 0)) == b"Ac d\n"
    with pytest.raises(natix.Refused):
        store.subtree("big", (0, 3000))


NODES = strategies.recursive(strategies.sampled_from((("-t", ()), ("?p q", ()), ("-", ()))),
                             lambda below: strategies.tuples(strategies.sampled_from(("(a", "(b")), strategies.lists(below, max_size=4).map(tuple)), max_leaves=8)


def lines_of(node):
    line, below = node
    return [line, *(one for child in below for one in lines_of(child)), *([")" + line[1:]] if line[0] == "(" else [])]


def places_of(node, path=()):
    yield path, node
    for at, child in enumerate(node[1]):
        yield from places_of(child, (*path, at))


def with_node(node, path, change):
    """A tree whose node at a path has other children."""
    line, below = node
    if len(path) == 1:
        return line, change(below, path[0])
    return line, (*below[:path[0]], with_node(below[path[0]], path[1:], change), *below[path[0] + 1:])


@settings(max_examples=60, deadline=None)
@given(data=strategies.data())
def test_subtrees_beside_plain_trees(data):
    tree_ = ("(r", tuple(data.draw(strategies.lists(NODES, min_size=1, max_size=4))))
    with new_folder() as folder, natix.Store.create(folder / "lib", data.draw(strategies.sampled_from((4, 16)))) as store:
        store.load("d", natix.Pyx("".join(line + "\n" for line in lines_of(tree_)).encode()))
        for _ in range(5):
            tree_ = change_drawn(data, store, tree_)
            assert store.export("d", natix.Pyx).decode().splitlines() == lines_of(tree_)


def change_drawn(data, store, tree_):
    elements = [(path, node) for path, node in places_of(tree_) if node[0][0] == "("]
    others = [(path, node) for path, node in places_of(tree_) if path]
    above, element = data.draw(strategies.sampled_from(elements))
    to = (*above, data.draw(strategies.integers(0, len(element[1]))))
    word = data.draw(strategies.sampled_from(("graft", "replace", "move", "copy") if others else ("graft",)))
    new = tuple(data.draw(strategies.lists(NODES, min_size=1, max_size=3)))
    lines = natix.Pyx("".join(line + "\n" for node in new for line in lines_of(node)).encode())
    put = lambda nodes: lambda below, at: (*below[:at], *nodes, *below[at:])
    if word == "graft":
        store.graft("d", (0, *to), lines)
        return with_node(tree_, to, put(new))
    path, node = data.draw(strategies.sampled_from(others))
    if word == "replace":
        store.replace("d", (0, *path), lines)
        return with_node(tree_, path, lambda below, at: (*below[:at], *new, *below[at + 1:]))
    if word == "copy":
        store.copy("d", (0, *path), (0, *to))
        return with_node(tree_, to, put((node,)))
    if natix_subtrees.is_below(to, path):
        with pytest.raises(ValueError):
            store.move("d", (0, *path), (0, *to))
        return tree_
    marked = ("!gone", ())
    store.move("d", (0, *path), (0, *to))
    changed = with_node(with_node(tree_, path, lambda below, at: (*below[:at], marked, *below[at + 1:])), to, put((node,)))
    return without_mark(changed, marked)


def without_mark(node, marked):
    return node[0], tuple(without_mark(child, marked) for child in node[1] if child != marked)


def test_trees_keep_their_prefixes_or_are_refused(store):
    tree.register_namespace("tea", "urn:tea")
    store.load("said", tree.fromstring('<tea:a xmlns:tea="urn:tea" xml:lang="en"><tea:b/></tea:a>'))
    assert store.export("said").startswith('<tea:a xmlns:tea="urn:tea" xml:lang="en">')
    for text in ('<p:a xmlns:p="urn:other"/>', '<a xmlns="urn:other"/>', '<html xmlns="http://www.w3.org/1999/xhtml"/>', '<a p:b="" xmlns:p="urn:other"/>'):
        with pytest.raises(ValueError, match="its prefix isn't known"):
            store.load("refused", tree.fromstring(text))


def test_trees_of_lxml_keep_theirs(store):
    etree = pytest.importorskip("lxml.etree")
    text = '<p:a xmlns:p="urn:p"><b xmlns="urn:q"/></p:a>'
    store.load("lxml", etree.fromstring(text))
    assert store.export("lxml") == text + "\n"


def test_who_has_a_store(store, folder):
    with pytest.raises(natix.Ended) as ended:
        natix.Store.open(folder / "lib", wait=0.2)
    assert ended.value.status == 3 and ended.value.why.startswith(f"{folder / 'lib'} is in use by process {store.process}")
    with pytest.raises(natix.Ended) as ended:
        natix.Store.create(folder / "none" / "lib")
    assert ended.value.why == f"there is no folder {folder / 'none'}"


TEXTS = strategies.text(strategies.characters(blacklist_categories=("Cs",), blacklist_characters="\ufffe\uffff\r").filter(lambda one: one >= " " or one in "\t\n"), max_size=20)
COMMENTS = TEXTS.filter(lambda text: "--" not in text and not text.endswith("-"))


@settings(max_examples=100, deadline=None)
@given(before=COMMENTS, within=COMMENTS, text=TEXTS)
def test_comments_come_back_as_they_were(before, within, text):
    quoted = text.replace("&", "&amp;").replace("<", "&lt;").replace(">", "&gt;")
    xml = f"<!--{before}-->\n<a>{quoted}<!--{within}--></a>\n"
    assert natix_sources.xml_of(natix.pyx(xml, keep=True)).decode() == xml
