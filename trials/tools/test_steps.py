"""Name steps and XPath: what xpath-steps gives for known paths, that drawn steps come back through XPath, and what it refuses."""

import random
import subprocess
import sys

import pytest
from hypothesis import given, settings, strategies

import natix_steps
from conftest import TOOLS

sys.path.insert(1, str(TOOLS.parent / "trials"))
import name_steps  # noqa: E402

KNOWN = {
    "/descendant::a/child::b": "//a/b",
    "//a//b": "//a//b",
    "/descendant-or-self::node()/child::a/b": "//a/b",
    "//descendant::a": "//a",
    "/book/@isbn": "/book/@isbn",
    "/book/attribute::isbn": "/book/@isbn",
    "//text()": "//#text",
    "/descendant::text()": "//#text",
    "/processing-instruction('xml-stylesheet')": "/?xml-stylesheet",
    "//svg:rect/@xlink:href": "//svg:rect/@xlink:href",
    "/ child :: a": "/a",
    "//*[ name() = 'a' ]/@*[name()=\"b\"]": "//a/@b",
}
NO_STEPS = ("//*[name()='a/b'] ", "a", "//a[1]", "//*", "/a/..", "//", "/a/", "/descendant::@a", "/" + "/".join("a" * 65))
NO_XPATH = ("", "/", "a", "///a", "/#comment", "/a*", "/ a", "/@", "/" + "a" * 1025, "/a" * 65)
LABELS = ("a", "b-c", "x:y", "#text", "@id", "?t", "it's", '"', "é", "@x:y", "a[1]", "(", "::", "=")
STEPS = strategies.lists(strategies.builds(str.__add__, strategies.sampled_from(("/", "//")), strategies.sampled_from(LABELS)), min_size=1, max_size=64).map("".join)


@pytest.mark.parametrize("xpath", KNOWN)
def test_known_paths(xpath):
    assert natix_steps.steps_of_xpath(xpath) == KNOWN[xpath]


@pytest.mark.parametrize("xpath", NO_STEPS)
def test_what_names_alone_dont_say(xpath):
    with pytest.raises(natix_steps.CannotTurn):
        natix_steps.steps_of_xpath(xpath)


@pytest.mark.parametrize("steps", NO_XPATH)
def test_what_are_no_steps(steps):
    with pytest.raises(natix_steps.CannotTurn):
        natix_steps.xpath_of_steps(steps)


@settings(max_examples=300, deadline=None)
@given(steps=STEPS)
def test_steps_come_back(steps):
    assert natix_steps.steps_of_xpath(natix_steps.xpath_of_steps(steps)) == steps
    try:
        short = natix_steps.xpath_of_steps(steps, short=True)
    except natix_steps.CannotTurn:
        return
    assert natix_steps.steps_of_xpath(short) == steps


def test_the_short_form_is_what_xmlstarlet_is_asked_for():
    """In trials/test-find, by trials/name_steps.py."""
    drawn = random.Random(1)
    for _ in range(200):
        steps = name_steps.random_steps(drawn, name_steps.random_document(drawn))
        assert natix_steps.xpath_of_steps(name_steps.text_of(steps), short=True) == name_steps.xpath(steps)


@pytest.mark.parametrize("words, status", [(["to-xpath", "//a"], 0), (["to-steps", "//*"], 2), (["to-xpath", "a"], 2), ([], 1), (["x"], 1)])
def test_statuses(words, status):
    assert subprocess.run([sys.executable, TOOLS / "xpath-steps", *words], stdout=subprocess.PIPE, stderr=subprocess.PIPE).returncode == status
