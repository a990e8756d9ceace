"""What tools/package says of the proof, and the wheel. trials/test-package builds the package and installs it."""

import hashlib
import os
import shutil
import subprocess
import sys
import zipfile

import pytest

import natix
from conftest import TOOLS


@pytest.mark.parametrize("mark", [None, b"", b"0" * 64, "before"])
def test_an_unproved_program_is_refused(folder, mark):
    program = folder / "natix"
    program.write_bytes(b"#!/bin/sh\n")
    os.chmod(program, 0o755)
    if mark == "before":  # that of a program which stood here before
        mark = b"stamp" + hashlib.sha256(b"another").hexdigest().encode()
    if mark is not None:
        (folder / "natix.stamp").write_bytes(mark)
    done = subprocess.run([TOOLS / "package", folder], env={**os.environ, "NATIX": str(program)}, stdout=subprocess.PIPE, stderr=subprocess.PIPE)
    assert done.returncode == 1 and b"isn't proved" in done.stderr and done.stdout == b""
    assert not [name for name in os.listdir(folder) if name.endswith(".deb")]


@pytest.mark.parametrize("words, mark, said", [([], "stamp", "yes, "), (["--unproved"], "other", "no"), (["--unproved"], None, "no")])
def test_what_is_said_of_the_proof(folder, words, mark, said):
    """In BUILD, which is shown here in place of a build."""
    program = folder / "natix"
    shutil.copy("/bin/true", program)
    if mark:
        of = program.read_bytes() if mark == "stamp" else b"another"
        (folder / "natix.stamp").write_text("0" * 64 + hashlib.sha256(of).hexdigest())
    (folder / "bin").mkdir()
    (folder / "bin" / "dpkg-buildpackage").write_text("#!/bin/sh\ncat BUILD\nexit 1\n")
    os.chmod(folder / "bin" / "dpkg-buildpackage", 0o755)
    given = {**os.environ, "NATIX": str(program), "PATH": f"{folder}/bin:{os.environ['PATH']}"}
    done = subprocess.run([TOOLS / "package", *words, folder], env=given, stdout=subprocess.PIPE, stderr=subprocess.PIPE)
    proved, = [line for line in done.stderr.decode().splitlines() if line.startswith("proved")]
    assert proved.startswith(f"proved   {said}") and (said != "no" or proved == "proved   no")
    assert hashlib.sha256(program.read_bytes()).hexdigest() in done.stderr.decode()


def test_the_wheel(folder):
    pytest.importorskip("build")
    shutil.copytree(TOOLS, folder / "tools", ignore=shutil.ignore_patterns("__pycache__"))
    done = subprocess.run([sys.executable, "-m", "build", "--wheel", "--no-isolation", "--outdir", folder, folder / "tools"], stdout=subprocess.PIPE, stderr=subprocess.STDOUT)
    assert done.returncode == 0, done.stdout.decode()
    wheel, = folder.glob("*.whl")
    names = zipfile.ZipFile(wheel).namelist()
    modules = {str(path.relative_to(TOOLS)) for place in ("*.py", "natix_shell/*.py", "natix_server/*.py") for path in TOOLS.glob(place)}
    assert {name for name in names if name.endswith(".py")} == modules
    check_wheel(wheel, folder / "there")


def check_wheel(wheel, place):
    """Installs it in a folder, and runs what is in it with that folder alone on the PATH, beside the program natix."""
    installed = [sys.executable, "-m", "pip", "install", "--quiet", "--no-deps", "--no-index", "--target", place, wheel]
    subprocess.run(installed, check=True, stdout=subprocess.DEVNULL, stderr=subprocess.DEVNULL)
    given = {**os.environ, "NATIX": natix.find_natix(), "PYTHONPATH": str(place), "PATH": f"{place}/bin:{os.environ['PATH']}"}
    given.pop("XMLPYX", None)

    def said(*words, source=b""):
        return subprocess.run(words, input=source, cwd=place, stdout=subprocess.PIPE, stderr=subprocess.STDOUT, env=given).stdout.decode()
    assert said(sys.executable, "-c", "import natix; print(natix.__file__, natix.pyx('<a/>'))") == f"{place / 'natix.py'} b'(a\\n)a\\n'\n"
    assert said("natix-shell", "--create", "256", "lib", "load", "--as", "a", "-", source=b"<a>x</a>") == "a: 3 nodes, 1 part\n"
    assert said("natix-shell", "lib", "save", "a", "-") == "<a>x</a>\n"
    assert said("natix-view", "lib", "a").count("<title>a - natix</title>") == 1
    assert said("natix-follow", "--help").startswith("Keep")
    assert said("read-store", "--documents", "lib").startswith("doc a 3\n")
    assert said("xpath-steps", "to-steps", "//a/@b") == "//a/@b\n"
