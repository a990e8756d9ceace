"""Stores of natix and of the plain program, and what is asked of them: for bench/store and bench/edits."""

import filecmp
import os
import shutil
import subprocess
from pathlib import Path

from measuring import fail, run


def write(path, lines):
    with open(path, "w", newline="") as file:
        file.writelines(f"{line}\n" for line in lines)
    return path


class Program:
    """natix or the peer, with a store of its own."""

    def __init__(self, name, command, folder):
        self.name, self.command, self.folder = name, str(command), folder
        self.store = folder / f"{name}.store"
        self.log = folder / f"{name}.store.log"

    def words(self, store=None):
        return [self.command, str(store or self.store), "run"]

    def check(self, store=None):
        """The plain program has a second one for this beside it."""
        command = Path(self.command).with_name("store_check") if self.name == "peer" else self.command
        return [str(command), str(store or self.store), "check"]

    def find(self, store=None):
        """The plain program has a third one for this."""
        command = Path(self.command).with_name("store_find") if self.name == "peer" else self.command
        return [str(command), str(store or self.store), "find"]

    def begin(self, k):
        """Makes a new store."""
        for file in (self.store, self.log):
            file.unlink(missing_ok=True)
        run([self.command, str(self.store), "init", str(k)], os.devnull)

    def answer(self, script, store=None, words=words):
        """The file with the replies to a script, or with what another command says, which reads none."""
        output = self.folder / f"{self.name}.replies"
        run(words(self, store), script or os.devnull, output)
        return output

    def ask(self, *commands):
        """The lines of the replies to some commands."""
        given = "".join(f"{command}\n" for command in commands).encode()
        done = subprocess.run(self.words(), input=given, capture_output=True)
        if done.returncode != 0:
            fail(f"{self.words()} ended with {done.returncode}: {done.stderr.decode(errors='replace').strip()}")
        return done.stdout.decode(errors="replace").splitlines()

    def keep(self):
        """Keeps the store as it is for `restore`."""
        for file in (self.store, self.log):
            shutil.copyfile(file, f"{file}.kept")

    def restore(self):
        for file in (self.store, self.log):
            shutil.copyfile(f"{file}.kept", file)


def same(answers, what):
    if not filecmp.cmp(*answers, shallow=False):
        fail(f"{what}: {answers[0]} isn't {answers[1]}")


def in_turns(programs, step, rounds):
    """The times of each program, which take turns."""
    found = {program.name: [] for program in programs}
    for turn in range(rounds):
        for program in programs if turn % 2 else programs[::-1]:
            found[program.name].append(step(program))
    return found


def quiet(command, **how):
    """The standard output of another program."""
    done = subprocess.run(list(map(str, command)), stdout=subprocess.PIPE, stderr=subprocess.PIPE, text=True, **how)
    if done.returncode != 0:
        fail(f"{command} ended with {done.returncode}: {done.stderr.strip()[-300:]}")
    return done.stdout
