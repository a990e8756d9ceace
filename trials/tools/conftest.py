"""What the tests of the tools share: the tools on the path, a folder in memory, and the shell."""

import contextlib
import os
import subprocess
import sys
import tempfile
from pathlib import Path

import pytest
from hypothesis import settings

sys.dont_write_bytecode = True
TOOLS = Path(__file__).resolve().parents[2] / "tools"
sys.path.insert(0, str(TOOLS))
MEMORY = "/dev/shm" if os.access("/dev/shm", os.W_OK) else None  # nothing here needs a disk
settings.register_profile("tools", database=None)
settings.load_profile("tools")


class Shell:
    """Runs natix-shell in a folder."""

    def __init__(self, folder):
        self.folder = folder

    def __call__(self, *words, given="", **more):
        """What it writes, what it says, and its status."""
        done = subprocess.run([sys.executable, TOOLS / "natix-shell", *map(str, words)], input=given.encode(), stdout=subprocess.PIPE, stderr=subprocess.PIPE,
                              cwd=self.folder, **more)
        return done.stdout.decode(), done.stderr.decode(), done.returncode

    def well(self, *words, **more):
        """What it writes, where all goes well and it says nothing else."""
        written, said, status = self(*words, **more)
        assert (said, status) == ("", 0)
        return written


@contextlib.contextmanager
def new_folder():
    with tempfile.TemporaryDirectory(dir=MEMORY) as made:
        yield Path(made)


@pytest.fixture
def folder():
    with new_folder() as made:
        yield made


@pytest.fixture
def shell(folder):
    return Shell(folder)


@pytest.fixture
def files(folder):
    """Some files of XML, one of them broken."""
    (folder / "article.xml").write_text('<!DOCTYPE article [<!ENTITY t "tea">]>\n<!--one--><article><section id="s1"><title>Of &t;</title></section>'
                                        '<section id="s2"><title>Of cups</title><!--two--></section></article>')
    (folder / "shop.xml").write_text('<shop><item n="1">tea</item><item n="2">cup</item></shop>')
    (folder / "bad.xml").write_text("<a>\n<b></a>")
    (folder / "heavy.xml").write_text(f"<shop><item>{'x' * 1000}</item></shop>")
    return folder


@pytest.fixture
def lib(shell, files):
    """A store with two documents."""
    shell.well("--create", 256, "lib", "load", "article.xml", "shop.xml")
    return files / "lib"
