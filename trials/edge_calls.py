"""What trials/test-edge tries of the calls of the system: each of them is the last one of a process, fails, or is short, and how many there
are."""

import functools
import os
import re
import resource
import shutil
import signal
import subprocess
import tempfile
import threading
import time

from edge import DOCUMENTS, PATIENCE, SAID, changes, end_group, names_in, sights
from edge_sessions import judge_inits

# The calls that have to do with files.
KINDS = (
    "openat,?open,?openat2,?creat,close,dup,?dup2,dup3,fcntl,flock,read,pread64,write,pwrite64,statx,newfstatat,fstat,?stat,?lstat,?readlink,readlinkat,"
    "getcwd,fdatasync,fsync,ftruncate,fchmod,linkat,?renameat2,?renameat,?rename,?unlink,unlinkat,lseek,?access,?faccessat2"
)
LINE = re.compile(r"^(\w+)\(")
LOADER = re.compile(r"/ld\.so\.|/lib(64)?/|\.so\b")
ERRORS = {"write": "ENOSPC", "pwrite64": "ENOSPC", "ftruncate": "ENOSPC", "openat": "EACCES"}


def with_strace(part):
    """A part that is tried where there is strace."""

    @functools.wraps(part)
    def tried(trials):
        if shutil.which("strace"):
            return part(trials)
        print(f"not tried, since there is no strace: {part.__name__}")
        return ()

    return tried


def calls_of(trials, line):
    """The calls of a line that is one program, from its own first one on: each its name, and which one of this name it is."""
    trace = os.path.join(trials.folder, "trace")
    trials.shell(f"exec strace -o {trace} -e trace={KINDS} {line}")
    counted, found, text = {}, [], []
    with open(trace) as file:
        for row in file:
            name = LINE.match(row)
            if not name:
                continue
            counted[name[1]] = counted.get(name[1], 0) + 1
            text.append(row)
            found.append((name[1], counted[name[1]]))
    os.unlink(trace)
    loaded = max((at for at, row in enumerate(text) if LOADER.search(row)), default=None)
    # The loader closes what it opened last.
    own = 0 if loaded is None else next(at for at in range(loaded, len(found)) if found[at][0] == "close") + 1
    return found[own:]


def at_call(line, call, what, trace="/dev/null"):
    """A line with something that strace does at a call."""
    name, number = call
    return f"strace -o {trace} -e trace={name} -e inject={name}:{what}:when={number} {line}"


# Stopped at each call.

# What is stopped, what is done before, which statuses of `check` it may leave, and lines that have to go well then.
STOPS = [
    ("init", "natix new init 16", "", "new", (0, 7), "natix new init 16; natix new check", []),
    ("the first checkpoint", "natix young run < $given/checkpoint", "", "young", (0,), "echo checkpoint | natix young run; natix young check", DOCUMENTS["young"]),
    ("another checkpoint", "natix s run < $given/checkpoint", "", "s", (0,), "echo checkpoint | natix s run; natix s check", DOCUMENTS["s"]),
    ("apply of a base", "natix new apply < $given/base", "", "new", (0, 7), "natix new apply < $given/base; natix new check", DOCUMENTS["s"]),
    ("apply", "natix s apply < $given/next", "", "s", (0,), "natix s apply < $given/next; natix s check", sorted(["more", *DOCUMENTS["s"]])),
    ("a session", "natix s run < $given/changes", "", "s", (0,), "natix s run < $given/changes; natix s check", sorted(["more", *DOCUMENTS["s"]])),
    ("the renaming of a new base", "mv c.log s.log", "natix c apply < $given/base > /dev/null", "s", (0,), "natix s check", DOCUMENTS["s"]),
    ("the removal of a new base's pages", "rm c", "natix c apply < $given/base > /dev/null; touch c; mv c.log s.log", "s", (0,), "natix s check", DOCUMENTS["s"]),
]


@with_strace
def stops(trials):
    """A process is ended at each of its calls: what it leaves can be opened, and the same line carried out again."""
    trials.put("checkpoint", b"checkpoint\n")
    for what, line, before, store, statuses, then, held in STOPS:
        trials.fresh(before)
        for call in calls_of(trials, line):
            stop(trials, (what, line, before, store, statuses, then, held), call)


def stop(trials, row, call):
    what, line, before, store, statuses, then, held = row
    trials.fresh(before)
    was, stopped, wrong = sights(trials.room), at_call(line, call, "signal=KILL"), []
    trials.shell(stopped)
    mine = (store, f"{store}.log", "c", "c.log")
    changed = changes(was, sights(trials.room), mine)
    if changed:
        wrong.append(f"{', '.join(changed)} changed")
    status, output, said = trials.shell(f"natix {store} check")
    if status not in statuses or output != (b"sound\n" if status == 0 else b""):
        wrong.append(f"check ends with {status}, {output}, {said!r}")
    status, output, said = trials.shell(then)
    if status != 0 or not output.endswith(b"sound\n"):
        wrong.append(f"`{then}` ends with {status}, {output}, {said!r}")
    found = names_in(os.path.join(trials.room, store))
    if found != held:
        wrong.append(f"the store holds {found}, and not {held}")
    trials.expect(f"{what}, ended at call {call[0]} {call[1]}", f"{before + '; ' if before else ''}{stopped}; natix {store} check; {then}", wrong)


# Each call fails.

# A line, the store that it changes, if it does, and what that may hold then, at last where anything is told.
FAILING = [
    ("natix new init 16", "new", [None, []]),
    ("natix s run < $given/changes", "s", [DOCUMENTS["s"], sorted(["more", *DOCUMENTS["s"]])]),
    ("natix young run < $given/checkpoint", "young", [DOCUMENTS["young"]]),
    ("natix s check", "", []),
    ("natix s find < $given/questions", "", []),
    ("natix s ask 1 < $given/asks", "", []),
    ("natix s ship all", "", []),
    ("natix new apply < $given/base", "new", [None, DOCUMENTS["s"]]),
    ("natix l run < $given/asks", "", []),
    ("natix _ tidy < $given/document", "", []),
]
WAYS = (("once", ""), ("for good", "+"))


@with_strace
def failing(trials):
    """Each call fails, once or from there on: the output is a first part of what it is else, and what was told is there."""
    trials.put("checkpoint", b"checkpoint\n")
    for line, store, states in FAILING:
        trials.fresh("ln -s s l")
        whole = trials.shell(line)
        trials.fresh("ln -s s l")
        for call in calls_of(trials, line):
            for way, more in WAYS:
                fail(trials, (line, store, states, whole), call, way, more)


def fail(trials, row, call, way, more):
    line, store, states, whole = row
    trials.fresh("ln -s s l")
    was = sights(trials.room)
    name, number = call
    failed = at_call(line, (name, f"{number}{more}"), f"error={ERRORS.get(name, 'EIO')}")
    status, output, said = trials.shell(failed)
    wrong = judge_fault((status, output, said), whole)
    changed = changes(was, sights(trials.room), (store, f"{store}.log") if store else ())
    if changed:
        wrong.append(f"{', '.join(changed)} changed")
    if store:
        wrong += judge_state(trials, store, states, output)
    trials.expect(f"call {name} {number} fails {way}", f"ln -s s l; {failed}", wrong)


def judge_fault(ended, whole):
    """What is wrong of how a line ended of which a call failed: as ever, or by a fault behind a first part of its output."""
    status, output, said = ended
    is_fault = status in (3, 4, 5, 6) and said in ("", SAID[status]) and whole[1].startswith(output)
    return [] if ended == whole or is_fault else [f"ended with {status}, {output[:60]}, {said!r}"]


def judge_state(trials, store, states, output):
    """What is wrong of what the store holds then: the last of the states where anything was told, else one of them."""
    found = names_in(os.path.join(trials.room, store))
    wrong = [] if found in (states[-1:] if output else states) else [f"{store} holds {found}"]
    status, _, said = trials.shell(f"natix {store} check")
    if status != (7 if found is None else 0):
        wrong.append(f"check ends with {status} {said!r}")
    return wrong


# Reads and writes that are short.


def short_calls(trials):
    """Each read and each write is short, once or from there on: nothing else is."""
    library, counted = os.path.join(trials.folder, "short.so"), os.path.join(trials.folder, "made")
    compiler = shutil.which("cc") or shutil.which("gcc")
    source = os.path.join(os.path.dirname(os.path.abspath(__file__)), "short_calls.c")
    if not compiler or subprocess.run([compiler, "-O", "-shared", "-fPIC", source, "-o", library, "-ldl"]).returncode:
        print("not tried, since no compiler is there: reads and writes that are short")
        return
    trials.put("checkpoint", b"checkpoint\n")
    for line, store, _ in FAILING:
        trials.fresh("ln -s s l")
        whole = trials.shell(f"export LD_PRELOAD={library} MADE={counted}; exec {line}")
        state = sights(trials.room)
        with open(counted) as file:
            count = int(file.read())
        for number in range(1, count + 1):
            for way in ("", "LASTS=1 "):
                trials.fresh("ln -s s l")
                found = trials.shell(f"{way}SHORT={number} LD_PRELOAD={library} exec {line}")
                wrong = [] if found == whole else [f"ended by {found}, and not by {whole}"]
                if changes(state, sights(trials.room)):
                    wrong.append(f"{', '.join(changes(state, sights(trials.room)))} are others")
                trials.expect(f"call {number} is short", f"ln -s s l; {way}SHORT={number} LD_PRELOAD={library} {line}", wrong)


# How many calls there are.

# What the program made of calls before it looked at names, descriptors and links: for opening a store, and for a commit.
BEFORE_OPENING, BEFORE_COMMIT = 34, 8
MORE_OPENING, MORE_COMMIT = 20, 6
WAITING = ("fdatasync", "fsync")


@with_strace
def counts(trials):
    """Opening a store takes at most so many calls more than it did, and a commit; and no more of these wait for the disk."""
    trials.fresh()
    trials.put("one", b"retext tea /0/1 a\n")
    trials.put("two", b"retext tea /0/1 a\nretext tea /0/1 b\n")
    opening = calls_of(trials, "natix s run")
    one, two = (calls_of(trials, f"natix s run < $given/{name}") for name in ("one", "two"))
    found = {"opening": len(opening), "a commit": len(two) - len(one)}
    waits = {"opening": waiting(opening), "a commit": waiting(two) - waiting(one)}
    most = {"opening": BEFORE_OPENING + MORE_OPENING, "a commit": BEFORE_COMMIT + MORE_COMMIT}
    print(f"calls: {found}, of which so many wait for the disk: {waits}")
    for what, count in found.items():
        trials.expect(f"calls of {what}", "strace -c natix s run", [] if count <= most[what] else [f"{count}, and not at most {most[what]}"])
    trials.expect("calls that wait for the disk", "strace -c natix s run", [] if waits["opening"] <= 4 and waits["a commit"] == 2 else [f"{waits}"])


def waiting(calls):
    return sum(name in WAITING for name, _ in calls)


# Two at once, of which one is stopped at each of its calls.


@with_strace
def stopped_inits(trials):
    """While the making of a store is stopped at one of its calls, another one makes it: one of both is answered by `ok`."""
    for call in calls_of_init(trials):
        trials.fresh()
        trace = os.path.join(trials.folder, f"trace{call[0]}{call[1]}")
        line = at_call("natix new init 16", call, "signal=STOP", trace)
        first = trials.start(f"exec {line}")
        try:
            wait_until_stopped(trace)
            second = trials.shell("natix new init 32")
            os.killpg(first.pid, signal.SIGCONT)
            output, _ = first.communicate(timeout=PATIENCE)
        finally:
            end_group(first)
        wrong = judge_inits(trials, [(output, first.returncode), second[1::-1]])
        trials.expect(f"two at once, the first stopped at call {call[0]} {call[1]}", f"{line} & sleep 1; natix new init 32; killall -CONT natix; wait", wrong)


def calls_of_init(trials):
    trials.fresh()
    return calls_of(trials, "natix new init 16")


def wait_until_stopped(trace):
    """Waits until strace says that what it has started is stopped."""
    for _ in range(100 * PATIENCE):
        if os.path.exists(trace):
            with open(trace) as file:
                if "--- stopped by SIGSTOP ---" in file.read():
                    return
        time.sleep(0.01)


# A name that comes to lead to another store while one is opened.

# What is done, and where both stores are then.
TURNS = (("ln -sfn b d", "a", "b"), ("mv a old; mv b a", "old", "a"))


@with_strace
def turned(trials):
    """While a store is opened its name comes to lead to another one: no pages of the one are laid over the other's."""
    trials.put("checkpoint", b"checkpoint\n")
    for act, mine, other in TURNS:
        for number in (1, 2):
            before = "mkdir a b; mv still still.log a; mv s s.log b; mv a/still a/s; mv a/still.log a/s.log; ln -s a d"
            trials.fresh(before)
            trace = os.path.join(trials.folder, f"turn{mine}{number}")
            line = at_call("natix d/s run", ("fdatasync", number), "signal=STOP", trace) + " < $given/checkpoint"
            session = trials.start(f"exec {line}")
            try:
                wait_until_stopped(trace)
                trials.well(act)
                os.killpg(session.pid, signal.SIGCONT)
                output, said = session.communicate(timeout=PATIENCE)
            finally:
                end_group(session)
            ended = (session.returncode, output, said.decode())
            wrong = [] if ended == (3, b"", "disk fault\n") else [f"ended by {ended}"]
            for store, held in ((mine, DOCUMENTS["still"]), (other, DOCUMENTS["s"])):
                found = names_in(os.path.join(trials.room, store, "s"))
                if found != held:
                    wrong.append(f"{store}/s holds {found}, and not {held}")
            trials.expect("a name that is turned while a store is opened", f"{before}; {line} & sleep 1; {act}; kill -CONT %1; wait", wrong)


# A long tail.


def tail(trials):
    """A file of pages that is 2 GiB long, of which most is nowhere on the disk: `ask` reads the pages below the header's number."""
    trials.fresh()
    commands = (("ask 2", "asks"), ("run", "asks"), ("find", "questions"))
    plain = {words: memory_of(trials, words, source) for words, source in commands}
    trials.well("truncate -s 2G s")
    was = sights(trials.room)
    wrong = []
    for words, source in commands:
        used, found = memory_of(trials, words, source)
        print(f"{words} over a tail of 2 GiB: {used} KiB of memory, and {plain[words][0]} without it")
        if found != plain[words][1]:
            wrong.append(f"{words} ended by {found}")
        if used > plain[words][0] + 16 * 1024:
            wrong.append(f"{words} takes {used} KiB of memory")
    used, found = memory_of(trials, "check", None)
    print(f"check over a tail of 2 GiB: {used} KiB of memory")
    if found != (8, b"wrong 262143 unused\n") or used > plain["run"][0] + 64 * 1024:
        wrong.append(f"check ended by {found} in {used} KiB")
    if changes(was, sights(trials.room)):
        wrong.append("files changed")
    trials.expect("a tail of 2 GiB", "truncate -s 2G s; natix s ask 2 < $given/asks", wrong)


def memory_of(trials, words, source):
    """How many KiB of memory a command needs, of a GiB that it may have, its status, and its output."""
    with tempfile.TemporaryFile() as output, open(os.path.join(trials.given, source) if source else os.devnull, "rb") as given:
        child = subprocess.Popen([trials.natix, "s", *words.split()], stdin=given, stdout=output, stderr=subprocess.DEVNULL, cwd=trials.room, preexec_fn=one_gib)
        timer = threading.Timer(PATIENCE, child.kill)
        timer.start()
        _, status, usage = os.wait4(child.pid, 0)
        timer.cancel()
        child.returncode = os.waitstatus_to_exitcode(status)
        output.seek(0)
        return usage.ru_maxrss, (child.returncode, output.read())


def one_gib():
    resource.setrlimit(resource.RLIMIT_AS, (2**30, 2**30))


PARTS = (counts, turned, tail)
LONG_PARTS = (stops, failing, short_calls, stopped_inits)
