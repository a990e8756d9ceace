"""What all trials have in common: where the programs and tools are, a folder of their own, how long a call may take, and what was wrong.

A trial, `trials/test-WHAT`, says `expect(what, found, wanted)` at each look, and ends by `return told("200 kills")`. That prints
`200 kills, N wrong` and gives the exit status: 0 where nothing was wrong, else 1. Where a program isn't there, it ends with `MISSING`.
What is drawn is drawn by a seed that can be said (`words_of`), so that a run can be had again."""

import argparse
import importlib.machinery
import importlib.util
import os
import subprocess
import sys
import tempfile

ROOT = os.path.realpath(os.path.join(os.path.dirname(os.path.abspath(__file__)), ".."))
TOOLS = os.path.join(ROOT, "tools")
NATIX = os.environ.get("NATIX") or os.path.join(ROOT, "crates", "natix", "out", "natix")
DRIVER = os.environ.get("DRIVER") or os.path.join(ROOT, "crates", "nx_wal_driver", "out", "nx_wal_driver")
READ_STORE = os.path.join(TOOLS, "read-store")
PATIENCE = 60  # how many seconds a call may take, where nothing else is said
MISSING = 2  # the exit status where a program isn't there
SHOWN = 2_000  # how many characters of a value are shown

sys.dont_write_bytecode = True
if TOOLS not in sys.path:
    sys.path.insert(1, TOOLS)

tried = 0
wrong = 0


def difference(what, found, wanted):
    """Nothing, or the line that says what is otherwise than wanted. One look more was made."""
    global tried
    tried += 1
    if found == wanted:
        return []
    one, other = str(found)[:SHOWN], str(wanted)[:SHOWN]
    return [f"{what}: {one}\n--- and not\n{other}" if "\n" in one + other else f"{what}: {one}, and not {other}"]


def expect(what, found, wanted):
    """Prints what is otherwise than wanted, and counts it."""
    global wrong
    for line in difference(what, found, wanted):
        wrong += 1
        print(line, flush=True)


def told(what):
    """Says how much was tried and how much of it was wrong. Gives the exit status."""
    print(f"{what}, {wrong} wrong" if what else f"{wrong} wrong")
    return 1 if wrong else 0


def told_lines(lines, what):
    """The same, where what is wrong was kept in lines that aren't printed yet."""
    for line in lines:
        print(line)
    print(f"{what}, {len(lines)} wrong")
    return 1 if lines else 0


def is_missing(*programs):
    """Whether one of these programs isn't there, which is said on standard error."""
    for program in programs:
        if not os.access(program, os.X_OK):
            print(f"there is no program {program}", file=sys.stderr)
            return True
    return False


def call(*words, given=b"", patience=PATIENCE, **more):
    """Runs a program: its status, and what it wrote on standard output and on standard error. It may take so many seconds."""
    done = subprocess.run(words, input=given, stdout=subprocess.PIPE, stderr=subprocess.PIPE, timeout=patience, **more)
    return done.returncode, done.stdout, done.stderr


def in_memory():
    """The folder for files that need no disk: a kill loses nothing there either. None where there is none but that of temporary files."""
    return "/dev/shm" if os.access("/dev/shm", os.W_OK) else None


def folder(where=None):
    """A new folder, below this one or that of temporary files, which goes away behind a `with`."""
    return tempfile.TemporaryDirectory(dir=where)


def words_of(page, **numbers):
    """The words of a trial's command line: --seed, --folder, and these numbers by their names."""
    reader = argparse.ArgumentParser(description=page, formatter_class=argparse.RawDescriptionHelpFormatter)
    for name, number in {**numbers, "seed": 1}.items():
        reader.add_argument("--" + name, type=int, default=number)
    reader.add_argument("--folder", default=None)
    return reader.parse_args()


def tool(name):
    """A program of tools/ as a module, or a module of trials/ by the path of its file."""
    path = name if os.path.isabs(name) else os.path.join(TOOLS, name)
    loader = importlib.machinery.SourceFileLoader(os.path.basename(path).replace("-", "_").replace(".", "_"), path)
    module = importlib.util.module_from_spec(importlib.util.spec_from_loader(loader.name, loader))
    loader.exec_module(module)
    return module
