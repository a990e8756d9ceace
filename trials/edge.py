"""Folders in which the built program is tried by lines of a shell, and what of them is compared: for trials/test-edge."""

import hashlib
import os
import re
import shutil
import signal
import stat
import subprocess

import harness
import sessions

PATIENCE = 20
# Of a longer file the first bytes are compared, its length, and how many blocks it has on the disk.
LARGE = 2**26
ANY = None
SAID = {
    0: "",
    1: "usage: natix STORE COMMAND [ARG]...\n",
    2: "",
    3: "disk fault\n",
    4: "read fault\n",
    5: "write fault\n",
    6: "out of memory\n",
    7: "not a store\n",
    8: re.compile(r"damaged page \d+\n"),
}
# What the program is asked for: the words behind STORE, and the file of its input where it reads one.
STORE_COMMANDS = {
    "init": ("init 16", ""),
    "run": ("run", "asks"),
    "gen": ("gen 1 2", ""),
    "check": ("check", ""),
    "find": ("find", "questions"),
    "ask": ("ask 2", "asks"),
    "ship": ("ship all", ""),
    "apply": ("apply", "groups"),
}
INPUTS = {
    "document": b"(a\n-hi\n)a\n",
    "asks": b"names\nexport tea\nget cup /0\n",
    "changes": b"load more\n(a\n-more\n)a\n.\nnames\n",
    "questions": b"find tea //#text\nfind cup /b\n",
    "text": b"a line of a text that is nobody's store\n" * 600,
}
# The text of `trap` has lines that read as commands; `book` stands on pages of its own.
FIRST = b"".join(
    b"load %s\n(a\nAof leaves\n-%s\n)a\n.\n" % document
    for document in ((b"tea", b"tea"), (b"trap", b"x\\ndrop tea\\ndrop cup\\ncheckpoint\\nx"), (b"book", b"page " * 4000))
)
SECOND = b"load cup\n(b\n-cup\n)b\n.\n"
OLD = ["book", "tea", "trap"]
DOCUMENTS = {"s": sorted([*OLD, "cup", "gen"]), "still": OLD, "young": OLD}


def line_of(store, name, given=True):
    """The line of a shell that asks for a command."""
    words, source = STORE_COMMANDS[name]
    return f"natix {store} {words}" + (f" < $given/{source}" if source and given else "")


class Case:
    """A line of a shell, what is done before, and how it has to end: by one of these statuses, with this output, with what is said on
    standard error, and with all files as before but for those that are `made`. `held` has the documents of some stores then."""

    def __init__(self, what, line, status=0, output=b"", said=ANY, before="", made=(), held=None):
        self.what, self.line, self.before = what, line, before
        self.statuses = (status,) if isinstance(status, int) else status
        self.output, self.said, self.made, self.held = output, said, made, held or {}


def contents(path):
    """What of a file's bytes is compared."""
    with open(path, "rb") as file:
        found = os.fstat(file.fileno())
        content = file.read(LARGE if found.st_size <= LARGE else 2**20)
    return found.st_size, hashlib.sha256(content).hexdigest(), found.st_blocks if found.st_size > LARGE else 0


def sight(path):
    """What stands at a path."""
    mode = os.lstat(path).st_mode
    if stat.S_ISLNK(mode):
        return "link", os.readlink(path)
    if stat.S_ISREG(mode):
        return ("file", *contents(path))
    return ("other", stat.S_IFMT(mode))


def sights(folder):
    """What stands at each path below a folder."""
    found = {}
    for above, folders, files in os.walk(folder):
        for name in folders + files:
            path = os.path.join(above, name)
            found[os.path.relpath(path, folder)] = sight(path)
    return found


def names_in(store):
    """The names of the documents of a store that stands for a state, None where there is no store, else why it stands for none."""
    found = sessions.read_documents(store)
    if found.status == 3:
        return None
    return sorted(name.decode() for name in found.documents) if found.status == 0 else found.reasons


class Trials:
    """The program that is tried, and a folder for all that is made."""

    def __init__(self, natix, folder):
        self.natix, self.folder = natix, folder
        self.begun, self.given, self.room = (os.path.join(folder, name) for name in ("begun", "given", "room"))
        self.stores = os.path.join(os.path.dirname(os.path.abspath(__file__)), "stores")
        self.plain = {}
        os.makedirs(os.path.join(folder, "bin"))
        os.symlink(natix, os.path.join(folder, "bin", "natix"))
        self.environment = {"PATH": os.path.join(folder, "bin") + ":" + os.environ["PATH"], "given": self.given, "LC_ALL": "C"}

    # Shells.

    def start(self, line, **how):
        """Starts a line in the room, in a group of its own. Where nothing else is said its input is empty."""
        how = {"stdin": subprocess.DEVNULL, "stdout": subprocess.PIPE, "stderr": subprocess.PIPE, "cwd": self.room} | how
        return subprocess.Popen(["sh", "-c", line], env=self.environment, start_new_session=True, bufsize=0, **how)

    def shell(self, line, **how):
        """Carries out a line: its status, its output, and what it says. None of what it starts is left."""
        child = self.start(line, **how)
        try:
            output, said = child.communicate(timeout=PATIENCE)
            return child.returncode, output or b"", (said or b"").decode("utf-8", "replace")
        except subprocess.TimeoutExpired:
            return "still at work", b"", ""
        finally:
            end_group(child)

    def well(self, line, **how):
        """Carries out a line that has to end with 0; its output."""
        status, output, said = self.shell(line, **how)
        if (status, said) != (0, ""):
            raise SystemExit(f"{line}: ended with {status}, {output}, {said}")
        return output

    # The room.

    def begin(self):
        """Makes the files that each case begins with, and the inputs."""
        os.makedirs(self.given)
        os.makedirs(os.path.join(self.begun, "away"))
        for name, content in INPUTS.items():
            self.put(name, content)
        self.put("first", FIRST)
        self.put("second", SECOND)
        inside = {"cwd": self.begun}
        for store, rest in (("young", ""), ("still", "checkpoint"), ("s", "checkpoint")):
            self.well(f"natix {store} init 16 && (cat $given/first; echo {rest or 'names'}) | natix {store} run", **inside)
        self.well("natix s gen 1 2 && natix s run < $given/second", **inside)
        self.put("base", self.well("natix s ship all", **inside))
        last = int.from_bytes(self.input("base")[:8], "big")
        self.put("groups", self.well(f"natix s ship {last}", **inside))
        self.put("next", self.well(f"cp s t && cp s.log t.log && natix t run < $given/changes > /dev/null && natix t ship {last + 1}; rm t t.log", **inside))
        self.put("certificate", INPUTS["document"] + b".\n" + self.well("natix _ plan 16 < $given/document", **inside))
        with open(os.path.join(self.begun, "away", "notes"), "wb") as file:
            file.write(INPUTS["text"])

    def put(self, name, content):
        with open(os.path.join(self.given, name), "wb") as file:
            file.write(content)

    def input(self, name):
        with open(os.path.join(self.given, name), "rb") as file:
            return file.read()

    def fresh(self, before=""):
        """The room as a case finds it, behind what is done before."""
        shutil.rmtree(self.room, ignore_errors=True)
        shutil.copytree(self.begun, self.room, symlinks=True)
        if before:
            self.well(before)

    def plainly(self, line):
        """How a line ends in a fresh room: its status and its output."""
        if line not in self.plain:
            self.fresh()
            self.plain[line] = self.shell(line)[:2]
        return self.plain[line]

    # Cases.

    def expect(self, what, again, wrong):
        """Counts a case, and prints what of it is wrong, with the lines of a shell that show it again."""
        harness.tried += 1
        if wrong:
            harness.wrong += 1
            print(f"{what}: {'; '.join(wrong)}\n    {again}", flush=True)

    def carry_out(self, case):
        self.fresh(case.before)
        was = sights(self.room)
        status, output, said = self.shell(case.line)
        wrong = judge(case, status, output, said)
        changed = changes(was, sights(self.room), case.made)
        if changed:
            wrong.append(f"{', '.join(changed)} changed")
        for store, names in case.held.items():
            found = names_in(os.path.join(self.room, store))
            if found != names:
                wrong.append(f"{store} holds {found}, and not {names}")
        self.expect(case.what, f"{case.before + '; ' if case.before else ''}{case.line}", wrong)


def changes(was, now, made=()):
    """The paths below a folder at which something else stands than did."""
    changed = sorted(path for path in {*was, *now} if was.get(path) != now.get(path) and path not in made)
    return [path.encode("utf-8", "backslashreplace").decode() for path in changed]


def judge(case, status, output, said):
    """What of how a case ended isn't as it should be."""
    wrong = []
    if status not in case.statuses:
        wrong.append(f"status {status}, and not {' or '.join(map(str, case.statuses))}")
    if case.output is not ANY and output != case.output:
        wrong.append(f"output {output[:60]}, and not {case.output[:60]}")
    wanted = SAID.get(status, "") if case.said is ANY else case.said
    if not (wanted.fullmatch(said) if isinstance(wanted, re.Pattern) else said == wanted):
        wrong.append(f"said {said[:60]!r}, and not {getattr(wanted, 'pattern', wanted)!r}")
    return wrong


def end_group(child):
    """Ends what is left of a group of processes that was started here."""
    try:
        os.killpg(child.pid, signal.SIGKILL)
    except ProcessLookupError:
        pass
    child.wait()
    for pipe in (child.stdin, child.stdout, child.stderr):
        if pipe:
            pipe.close()
