"""Questions: what the store answers is what lxml does."""

import pytest
from hypothesis import HealthCheck, given, settings, strategies

import natix
from conftest import new_folder
from natix_shell import questions
from natix_shell.session import Session

lxml = pytest.importorskip("lxml.etree")

NAMES = ("a", "b", "c")
VALUES = ("1", "2", "x'y")


class Quiet:
    """No Ctrl-C."""

    asked = 0

    def check(self):
        pass


def element(children):
    attributes = strategies.dictionaries(strategies.sampled_from(NAMES), strategies.sampled_from(VALUES), max_size=2)
    return strategies.builds(lambda name, given, inner: f"<{name}{''.join(f' {key}=%s{value}%s' % (chr(34), chr(34)) for key, value in given.items())}>{''.join(inner)}</{name}>",
                             strategies.sampled_from(NAMES), attributes, strategies.lists(children, max_size=4))


DOCUMENTS = strategies.recursive(element(strategies.sampled_from(("t", "&lt;", "<?p q?>"))), element, max_leaves=25)
STEP = strategies.builds(str.__add__, strategies.sampled_from(("/", "//")), strategies.sampled_from(NAMES))
EQUALITY = strategies.builds('[@{}="{}"]'.format, strategies.sampled_from(NAMES), strategies.sampled_from(VALUES))
LAST = strategies.sampled_from(("", "/text()", "/@a", "/c"))
XPATHS = strategies.builds(lambda front, equality, behind, last: front + equality + behind + last, strategies.lists(STEP, min_size=1, max_size=3).map("".join),
                           EQUALITY | strategies.just(""), strategies.lists(STEP, max_size=2).map("".join), LAST)


@settings(max_examples=40, deadline=None, suppress_health_check=list(HealthCheck))
@given(document=DOCUMENTS, xpaths=strategies.lists(XPATHS, min_size=3, max_size=6))
def test_the_store_answers_as_lxml(document, xpaths):
    with new_folder() as folder:
        check_answers(folder / "lib", document, xpaths)


def check_answers(path, document, xpaths):
    with natix.Store.create(path, 16) as store:
        store.load("d", document)
    session = Session(str(path), Quiet())
    for xpath in xpaths:
        question = questions.of_xpath(xpath)
        if question is not None:
            assert questions.answer(session, "d", question) == questions.by_lxml(session, "d", xpath), xpath
    session.store.close()


def test_names_are_as_they_are_written(shell, files):
    (files / "book.xml").write_text('<book xmlns="urn:b" xmlns:x="urn:x"><x:title id="1">T</x:title><p/></book>')
    shell.well("--create", 256, "lib", "load", "book.xml")
    assert shell.well("lib", "xpath", "book", "//x:title") == '/0/2 <x:title id="1">T</x:title>\n'
    found, said, status = shell("lib", "xpath", "book", "//p | //x:title[1]")
    assert (found, status) == ('/0/2 <x:title id="1">T</x:title>\n/0/3 <p/>\n', 0)
    assert said == "natix-shell: the store answers no such question: lxml does, over an export of book\n"


def test_values_and_faults(shell, lib):
    assert shell(lib, "xpath", "shop", "count(//item)")[0] == "2.0\n"
    assert shell(lib, "xpath", "shop", "//item[")[1].splitlines()[1:] == ["natix-shell: the XPath: Invalid expression"]
    assert shell(lib, "xpath", "shop", "//item/@n | //item[1]/text()")[0] == '/0/0/0 n="1"\n/0/0/1 tea\n/0/1/0 n="2"\n'


def test_what_stands_in_what_was_found(shell, files):
    (files / "deep.xml").write_text("<a><b>1<b>2<c/></b></b></a>")
    shell.well("--create", 256, "lib", "load", "deep.xml")
    assert shell.well("lib", "xpath", "deep", "//b") == "/0/0 <b>1<b>2<c/></b></b>\n/0/0/1 <b>2<c/></b>\n"
