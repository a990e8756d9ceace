"""Copies of a store."""

import os
import subprocess
import sys

import pytest
from hypothesis import HealthCheck, given, settings, strategies

import natix
from conftest import TOOLS, new_folder
from natix_shell import copies


def contents(path):
    with natix.Store.open(path) as store:
        return {name: store.export(name, natix.Pyx) for name in store.names()}, store.rules()


@pytest.fixture
def ruled(shell, lib):
    shell.well(lib, "rule", "shop", "item", "standalone")
    return lib


def test_a_dump_makes_the_store_again(shell, ruled, files):
    dumped = shell.well(ruled, "dump")
    assert dumped.splitlines()[:3] == ["natix dump 1", "rule shop item standalone", "document article 10"]
    assert dumped.splitlines()[-1] == "end 1 2"
    assert shell.well("--create", 64, "new", "restore", given=dumped) == "new: 2 documents\n"
    assert contents(files / "new") == contents(ruled)
    shell.well(ruled, "dump", "lib.nx")
    assert (files / "lib.nx").read_text() == dumped
    assert shell("--create", 64, "new", "restore", "lib.nx")[1:] == ("natix-shell: new: new is there already\n", 2)


def test_a_backup_makes_the_store_again(shell, ruled, files):
    shell.well(ruled, "backup", "lib.backup")
    assert shell.well("new", "restore-backup", "lib.backup") == "new: made of the backup, and sound\n"
    assert contents(files / "new") == contents(ruled)
    with open(files / "again.backup", "wb") as again:
        subprocess.run([sys.executable, TOOLS / "natix-shell", ruled, "backup", "-"], stdout=again, check=True)
    assert (files / "again.backup").read_bytes() == (files / "lib.backup").read_bytes() and not (files / "-").exists()
    shell.well("new", "rm", "shop")
    (files / "cut").write_bytes((files / "lib.backup").read_bytes()[:-1])
    assert shell("third", "restore-backup", "cut")[1:] == ("natix-shell: third: that is no whole backup (refused stream 0)\n", 2)
    assert not [entry for entry in os.listdir(files) if "third" in entry or entry.startswith(".natix")]


def test_compact(shell, ruled, files):
    shell.well(ruled, given="load -f article.xml\n" * 20)
    said = shell.well(ruled, "compact", "new")
    size = sum(os.path.getsize(files / name) for name in ("new", "new.log"))
    assert said.startswith(f"new: 2 documents, checked; {size:,} bytes, and ") and size < os.path.getsize(files / "lib.log")
    assert contents(files / "new") == contents(ruled)
    assert shell(ruled, "compact", "new")[1:] == ("natix-shell: new is there already\n", 2)
    os.unlink(files / "new")
    assert shell(ruled, "compact", "new")[2] == 2  # its log may be another store's


def test_compact_of_a_link_leads_it_to_the_new_store(shell, ruled, files):
    os.rename(ruled, files / "lib.1")
    os.rename(f"{ruled}.log", files / "lib.1.log")
    os.symlink("lib.1", ruled)
    before = contents(ruled)
    assert "leads to lib.2 now" in shell.well("lib", "compact", "--k", 16, "lib.2")
    assert os.readlink(ruled) == "lib.2" and contents(ruled) == before == contents(files / "lib.1")
    shell.well("lib", "rm", "shop")
    assert set(contents(files / "lib.1")[0]) == {"article", "shop"}


def test_compact_with_a_k_that_is_too_small(shell, ruled, files):
    assert shell(ruled, "compact", "--k", 1, "new")[1:] == ("natix-shell: article is refused by the new store: too-heavy /0 2\n", 2)
    assert not [entry for entry in os.listdir(files) if "new" in entry]


@settings(max_examples=40, deadline=None, suppress_health_check=list(HealthCheck))
@given(data=strategies.data())
def test_a_dump_that_was_spoiled_makes_no_store(data):
    with new_folder() as folder:
        check_spoiled(folder, data)


def check_spoiled(folder, data):
    with natix.Store.create(folder / "lib") as store:
        store.rule("a", "b", "cluster")
        store.load("one", "<a>x<b/></a>")
        store.load("two", "<a>.</a>")
        with open(folder / "dump", "wb") as file:
            copies.dump(store, file)
    whole = (folder / "dump").read_bytes()
    cut = whole[:data.draw(strategies.integers(0, len(whole) - 1))]
    lines = whole.splitlines(True)
    gone = data.draw(strategies.integers(0, len(lines) - 1))
    more = data.draw(strategies.sampled_from((b"\n", b".\r\n", b".\n", b"rule a b\n", b"rule a #x free\n", b"document one 2\n", b"end 1 2\n", b"\xff\n")))
    for number, spoiled in enumerate((cut, b"".join(lines[:gone] + lines[gone + 1:]), whole + b"x", b"".join(lines[:gone] + [more] + lines[gone:]))):
        if spoiled == whole:
            continue
        (folder / "dump").write_bytes(spoiled)
        with open(folder / "dump", "rb") as file, pytest.raises(natix.Error):
            copies.restore(str(folder / f"new{number}"), 64, file)
        assert sorted(os.listdir(folder)) == ["dump", "lib", "lib.log"]
