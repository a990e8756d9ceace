"""The shell as a new user meets it: one command a call."""

import json
import os
import re
import subprocess
import sys
import time

import pytest

import natix
import natix_faults
from conftest import TOOLS
from natix_shell.commands import HELP


USAGE = """usage: natix-shell [--create K] [--wait SECONDS] STORE COMMAND [WORD]..
       natix-shell [--create K] [--wait SECONDS] [--go-on] [-c COMMAND].. STORE; --help says more
"""


def test_load_says_what_is_left_out(shell, files):
    written, said, status = shell("--create", 256, "lib", "load", "article.xml", "bad.xml", "shop.xml", "none.xml")
    assert written == "article: 10 nodes, 1 part; left out: 2 comments, the document type\nshop: 8 nodes, 1 part\n"
    assert said == "natix-shell: bad (bad.xml): line 2, column 6: mismatched tag\nnatix-shell: none.xml: No such file or directory\n"
    assert status == 2


def test_kept_comments_come_back(shell, lib):
    assert shell.well(lib, "load", "-f", "--keep", "article.xml") == "article: 13 nodes, 1 part\n"
    assert shell.well(lib, "save", "article", "-") == ('<!DOCTYPE article [<!ENTITY t "tea">]>\n<!--one-->\n<article><section id="s1"><title>Of tea</title></section>'
                                                       '<section id="s2"><title>Of cups</title><!--two--></section></article>\n')
    assert shell.well(lib, "show", "article", "/2/1") == '<section id="s2"><title>Of cups</title><!--two--></section>\n'


def test_an_instruction_that_stands_for_a_comment_is_refused(shell, lib, files):
    (files / "own.xml").write_text("<a>\n <?natix:comment x?></a>")
    for words in ([], ["--keep"]):
        _, said, status = shell(lib, "load", *words, "own.xml")
        assert (said, status) == ("natix-shell: own (own.xml): line 2, column 2: an instruction natix:comment, which is how a comment is kept\n", 2)


def test_load_over_a_document(shell, lib, files):
    before = shell.well(lib, "save", "shop", "-")
    _, said, status = shell(lib, "load", "shop.xml")
    assert (said, status) == ("natix-shell: shop (shop.xml): there is a document of that name: load -f puts this one in its place, --as NAME takes another name\n", 2)
    for refused in ("bad.xml", "none.xml"):
        assert shell(lib, "load", "-f", "--as", "shop", refused)[2] == 2
        assert shell.well(lib, "save", "shop", "-") == before
    assert shell.well(lib, "load", "-f", "--as", "shop", "article.xml").startswith("shop: 10 nodes")
    assert shell.well(lib, "ls") == "article/ (10 nodes)\nshop/ (10 nodes)\n"


def test_a_document_that_is_too_heavy_leaves_the_old_one(shell, files):
    shell.well("--create", 16, "lib", "load", "shop.xml")
    _, said, status = shell("lib", "load", "-f", "--as", "shop", "heavy.xml")
    assert (said, status) == ("natix-shell: shop (heavy.xml): refused: too-heavy: the node /0/0/0 weighs 126 slots, more than a part may\n", 2)
    assert shell.well("lib", "ls") == "shop/ (8 nodes)\n"


def test_save_to_standard_output_makes_no_file(shell, lib, files):
    assert shell.well(lib, "save", "shop", "-") == '<shop><item n="1">tea</item><item n="2">cup</item></shop>\n'
    assert not (files / "-").exists()


def test_load_from_standard_input(shell, lib):
    assert shell.well(lib, "load", "--as", "in", "-", given="<a>x</a>") == "in: 3 nodes, 1 part\n"


def test_a_script_ends_at_what_is_refused(shell, lib):
    script = "ls\ncd none\nrm shop\n"
    written, said, status = shell(lib, given=script)
    assert (written, said, status) == ("article/ (10 nodes)\nshop/ (8 nodes)\n", "line 2: there is no document none\n", 2)
    written, said, status = shell("--go-on", lib, given=script)
    assert (written.splitlines()[-1], said, status) == ("ok", "line 2: there is no document none\n", 2)
    assert shell.well(lib, "ls") == "article/ (10 nodes)\n"


def test_numbers_in_brackets_count_from_one(shell, lib):
    assert shell.well(lib, "show", "shop", "/shop/item[1]") == '<item n="1">tea</item>\n'
    assert shell.well(lib, "show", "shop", "/shop/item[2]") == shell.well(lib, "show", "shop", "/0/1")
    assert shell(lib, "show", "shop", "/shop/item[0]")[1] == "natix-shell: item[0]: numbers in brackets begin with 1\n"


def test_names(shell, lib):
    shell.well(lib, "mv", "shop", "store")
    shell.well(lib, "cp", "store", "third")
    assert shell.well(lib, "ls") == "article/ (10 nodes)\nstore/ (8 nodes)\nthird/ (8 nodes)\n"
    assert shell.well(lib, "save", "third", "-") == shell.well(lib, "save", "store", "-")
    shell.well(lib, "rm", "store", "third")
    assert shell(lib, "mv", "article", "article")[1] == "natix-shell: there is a document article\n"
    assert shell(lib, "rm", "art")[1] == "natix-shell: there is no document art: article?\n"


def test_json(shell, lib):
    def read(*words):
        return json.loads(shell.well(lib, *words))
    assert read("ls", "--json") == [{"name": "article", "nodes": 10}, {"name": "shop", "nodes": 8}]
    assert read("ls", "--json", "shop", "/0/0")[0] == {"position": 0, "kind": "attribute", "name": "n", "content": "1", "children": 0}
    assert read("find", "--json", "shop", "//none") == []
    assert [row["path"] for row in read("find", "--json", "shop", "//item/#text")] == ["/0/0/1", "/0/1/1"]
    assert read("xpath", "--json", "shop", "//item[@n='2']") == [{"path": "/0/1", "xml": '<item n="2">cup</item>'}]
    assert read("layout", "--json", "shop") == [{"parent": None, "first": 0, "last": 0, "weight": 15}]
    shell.well(lib, "rule", "shop", "item", "cluster")
    assert read("rules", "--json") == [{"parent": "shop", "child": "item", "entry": "cluster"}]
    assert read("load", "--json", "--as", "again", "article.xml") == [
        {"name": "again", "file": "article.xml", "nodes": 10, "intervals": 1, "left_out": ["2 comments", "the document type"]}]


def test_who_has_the_store(shell, lib):
    with natix.Store.open(lib) as store:
        _, said, status = shell("lib", "ls")
        assert (said, status) == (f"natix-shell: lib is in use by process {store.process} ({os.path.basename(natix.find_natix())[:15]})\n", 3)
        waiting = subprocess.Popen([sys.executable, TOOLS / "natix-shell", "--wait", "20", lib, "ls"],
                                   stdout=subprocess.PIPE)
        try:
            waiting.wait(0.5)
            raise AssertionError("it doesn't wait")
        except subprocess.TimeoutExpired:
            pass
    assert (waiting.communicate()[0], waiting.returncode) == (b"article/ (10 nodes)\nshop/ (8 nodes)\n", 0)


def test_whoever_waits_opens_the_store_that_a_link_leads_to_then(shell, lib, files):
    os.symlink("lib", files / "link")
    with natix.Store.create(files / "lib.2") as store:
        store.load("new", "<a/>")
    with natix.Store.open(lib):
        waiting = subprocess.Popen([sys.executable, TOOLS / "natix-shell", "--wait", "20", files / "link", "ls"], stdout=subprocess.PIPE)
        time.sleep(0.5)
        os.symlink("lib.2", files / "link.new")
        os.rename(files / "link.new", files / "link")
    assert waiting.communicate()[0] == b"new/ (2 nodes)\n"


def test_no_store(shell, lib, files):
    assert shell("lub", "ls")[1:] == ("natix-shell: there is no store lub; beside it is lib; --create 256 makes one\n", 7)
    assert shell("no/lub", "ls")[1:] == ("natix-shell: there is no store no/lub, nor a folder no; --create 256 makes one\n", 7)
    assert shell("lib.log", "ls")[1:] == ("natix-shell: lib.log is the log of the store lib\n" + USAGE, 1)
    assert shell("shop.xml", "ls")[1] == "natix-shell: shop.xml is no store\n"
    assert shell("--create", 16, "no/lub", "ls")[1:] == ("natix-shell: there is no folder no\n", 3)
    assert sorted(entry.name for entry in files.iterdir() if "lub" in entry.name) == []


def test_files_that_are_no_store(lib, files):
    def found(change):
        change()
        return natix_faults.explain(str(lib)).replace(str(files) + "/", "")
    os.link(lib, files / "other")
    assert natix_faults.explain(str(lib)).endswith("lib has a second name, by a hard link")
    os.unlink(files / "other")
    assert natix_faults.explain(str(lib)) is None
    log = files / "lib.log"
    lib.write_bytes(b"<a/>")
    assert found(lambda: log.write_bytes(b"notes")) == "lib is no store"
    assert found(lambda: lib.write_bytes(b"NATIXST1")) == "lib.log is no log of a store"
    assert found(lambda: log.write_bytes(b"")).startswith("lib.log is missing or empty")
    assert found(log.unlink).startswith("lib.log is missing or empty")
    assert found(lambda: os.symlink("elsewhere", log)) == "lib.log is a symbolic link, and not the log itself"


def test_a_link_is_the_store_that_it_leads_to(shell, lib, files):
    os.symlink("lib", files / "link")
    shell.well("link", "rm", "shop")
    assert shell.well("lib", "ls") == "article/ (10 nodes)\n"
    assert not (files / "link.log").exists()


def test_show_asks_for_one_export(shell, lib, files):
    """However many nodes it shows."""
    (files / "natix").write_text(f'#!/bin/sh\n[ "$2" != run ] || exec tee -a {files}/asked | {natix.find_natix()} "$@"\nexec {natix.find_natix()} "$@"\n')
    os.chmod(files / "natix", 0o755)
    (files / "many.xml").write_text("<a>" + "<b><c>x</c></b>" * 1000 + "</a>")
    shell.well(lib, "load", "many.xml")
    shown = shell.well(lib, "show", "many", "/a", env={**os.environ, "NATIX": str(files / "natix")})
    assert shown == (files / "many.xml").read_text() + "\n"
    asked = (files / "asked").read_text().split("\n")
    assert asked.count("export many") == 1 and len(asked) < 10


def as_nobody():
    """For a process that root begins: it has no right that others don't have."""
    os.setgid(65534)
    os.setuid(65534)


@pytest.mark.skipif(os.geteuid() != 0, reason="whoever isn't root has no other user's rights to try")
def test_a_right_that_is_missing(shell, lib, files):
    os.chmod(files, 0o755)
    assert shell("lib", "ls", preexec_fn=as_nobody)[1:] == ("natix-shell: there is no right to read and write lib\n", 3)
    assert shell("--create", 256, "new", "ls", preexec_fn=as_nobody)[1:] == ("natix-shell: there is no right to make files in .\n", 3)
    os.chmod(lib, 0o666)
    assert shell("lib", "ls", preexec_fn=as_nobody)[1:] == ("natix-shell: there is no right to read and write lib.log\n", 3)


WITHOUT_PROC = ["unshare", "--mount", "sh", "-c", 'mount -t tmpfs tmpfs /proc && exec "$@"', "sh"]


@pytest.mark.skipif(subprocess.run([*WITHOUT_PROC, "true"], stderr=subprocess.DEVNULL).returncode != 0, reason="a /proc of its own takes root")
def test_a_system_without_proc(lib, files):
    done = subprocess.run([*WITHOUT_PROC, sys.executable, TOOLS / "natix-shell", lib, "ls"], stdout=subprocess.PIPE, stderr=subprocess.PIPE)
    assert done.stderr == b"natix-shell: there is no /proc, without which natix can't tell the files of a store from its own input and output\n"
    assert done.returncode == 3


@pytest.fixture
def small(files):
    """A folder on a disk of its own, of 600 KB."""
    place = files / "small"
    place.mkdir()
    if os.geteuid() or subprocess.run(["mount", "-t", "tmpfs", "-o", "size=600k", "tmpfs", place], stderr=subprocess.DEVNULL).returncode:
        pytest.skip("a disk of its own takes root")
    yield place
    subprocess.run(["umount", place], check=True)


def test_a_disk_that_is_full(shell, files, small):
    (files / "large.xml").write_text("<a>" + "<b>words words</b>" * 20000 + "</a>")
    written, said, status = shell("--create", 256, "small/lib", "load", "shop.xml", "large.xml")
    assert (written, status) == ("shop: 8 nodes, 1 part\n", 3)
    first, second = said.splitlines()
    assert re.match(r"natix-shell: natix ended with 3: the disk that has small/lib has [0-9,]+ bytes left \(disk fault\)", first)
    assert second == "natix-shell: `load large` wasn't carried out: the store is as it was"
    assert shell.well("small/lib", "ls") == "shop/ (8 nodes)\n"
    with open(small / "rest", "wb", buffering=0) as rest, pytest.raises(OSError):
        while True:
            rest.write(bytes(4096))
    assert shell("--create", 256, "small/other", "ls")[1:] == ("natix-shell: the disk that has small/other has 0 bytes left\n", 3)


COMPLETED = {"natix-shell l": "lib", "natix-shell lib lo": "load", "natix-shell lib load bad": "bad.xml", "natix-shell lib load --k": "--keep",
             "natix-shell lib graft --": "--keep", "natix-shell lib tree --json s": "shop", "natix-shell lib compact --": "--k",
             "natix-shell lib save s": "shop", "natix-shell lib rm article ": "article shop", "natix-shell --create 256 lib rest": "restore restore-backup"}
COMPLETE = """
source /usr/share/bash-completion/bash_completion && source "$1"/natix-shell.bash && PATH=$1:$PATH
COMP_LINE=$2 COMP_POINT=${#2} COMP_WORDS=($2)
[ "${2: -1}" != " " ] || COMP_WORDS+=("")
COMP_CWORD=$((${#COMP_WORDS[@]} - 1))
_natix_shell natix-shell "${COMP_WORDS[COMP_CWORD]}" "${COMP_WORDS[COMP_CWORD - 1]}"
echo ${COMPREPLY[*]}
"""


@pytest.mark.skipif(not os.path.exists("/usr/share/bash-completion/bash_completion"), reason="bash-completion isn't there")
@pytest.mark.parametrize("line", COMPLETED)
def test_completion_in_bash(lib, files, line):
    done = subprocess.run(["bash", "-c", COMPLETE, "bash", TOOLS, line], cwd=files, stdout=subprocess.PIPE)
    assert done.stdout.decode() == COMPLETED[line] + "\n"


def test_completion_knows_the_commands():
    """Those that a call can be of: others have no end within it, or nothing to be the end of."""
    listed = re.search(r'compgen -W "(ls [^"]*)"', (TOOLS / "natix-shell.bash").read_text())
    assert set(listed[1].split()) == set(HELP) - {"cd", "begin", "commit", "rollback", "undo", "quit"}


@pytest.mark.parametrize("words", [("put", "shop"), ("load", "-f", "--as", "shop")])
def test_a_refusal_names_the_document_and_the_file(shell, lib, words):
    assert shell(lib, *words, "bad.xml")[1:] == ("natix-shell: shop (bad.xml): line 2, column 6: mismatched tag\n", 2)
    assert shell(lib, *words, "none.xml")[1:] == ("natix-shell: none.xml: No such file or directory\n", 2)
    assert shell.well(lib, "ls") == "article/ (10 nodes)\nshop/ (8 nodes)\n"


def test_a_refusal_of_a_part_names_its_file(shell, lib):
    for word in ("graft", "replace"):
        assert shell(lib, word, "shop", "/0/0", "bad.xml")[1:] == ("natix-shell: bad.xml: line 2, column 6: mismatched tag\n", 2)


def test_a_document_that_is_no_xml_is_named(shell, lib, files):
    (files / "odd.pyx").write_bytes(b"(a\n-\1\n)a\n")
    shell.well(lib, "load", "odd.pyx")
    for place in ("-", "odd.xml"):
        assert shell(lib, "save", "odd", place)[1:] == ("natix-shell: odd: line 2: the character U+0001, which XML can't have\n", 2)
    assert not (files / "odd.xml").exists()


def test_parts_keep_their_comments(shell, lib):
    assert shell.well(lib, "graft", "shop", "/0/0", "<a/><!--c-->") == "ok: 1 node; left out: 1 comment\n"
    assert shell.well(lib, "replace", "--keep", "shop", "/0/0", "<a><!--c--></a>") == "ok: 2 nodes\n"
    assert shell.well(lib, "graft", "--keep", "shop", "/0/1", "<!--d-->") == "ok: 1 node\n"
    assert shell.well(lib, "show", "shop") == '<shop><a><!--c--></a><!--d--><item n="1">tea</item><item n="2">cup</item></shop>\n'


def test_a_tree_as_json(shell, lib):
    rows = json.loads(shell.well(lib, "tree", "--json", "-1", "shop", "/0"))
    assert [row["path"] for row in rows] == ["/0", "/0/0", "/0/1"]
    rows = json.loads(shell.well(lib, "tree", "--json", "shop"))
    assert [row["path"] for row in rows] == ["/", "/0", "/0/0", "/0/0/0", "/0/0/1", "/0/1", "/0/1/0", "/0/1/1"]
    assert rows[3] == {"path": "/0/0/0", "kind": "attribute", "name": "n", "content": "1", "children": 0}
    for words in (("find", "shop", "//item"), ("xpath", "shop", "//item")):  # behind the other words, too
        assert shell.well(lib, *words, "--json") == shell.well(lib, words[0], "--json", *words[1:])


def test_messages(shell, lib, files):
    assert shell(lib, "mv", "shop", "a b")[1] == 'natix-shell: "a b" is no name of a document\n'
    assert shell(lib, "dump", "none/file")[1] == f"natix-shell: {os.path.realpath(files)}/none/file: No such file or directory\n"
    assert shell("--create", 257, "new", "ls")[1:] == ("natix-shell: K is from 1 to 256\n" + USAGE, 1)
    assert shell(lib, "find", "shop", "item")[1] == "natix-shell: item: these are no steps: each begins with / or //\n"
    assert shell("--create", 16, lib, "ls")[1:] == (f"natix-shell: {lib}: there is a store of that name, which opens without --create\n", 2)
    assert shell(lib, "get", "shop", "/0/7")[1] == "natix-shell: shop /0/7: refused: no-node: there is no node at that path\n"
    assert shell(lib, "load", "shop.xml", "other")[1] == "natix-shell: other: No such file; `load --as other shop.xml` gives the document that name\n"
    assert shell("lib", "--go-on")[2] == shell("lib", "-c", "ls")[2] == 0
    assert shell("lib", "--go-on", "ls")[2] == 1
