"""What trials/test-edge tries of sessions: files that go while one is open, and two processes at once."""

import os
import select
import subprocess

import driven
from edge import DOCUMENTS, PATIENCE, changes, end_group, names_in, sights

COMMIT, CHECKPOINT = b"retext tea /0/1 green", b"checkpoint"
FAULT = (None, 3, "disk fault\n")
# What is done to a file of a store in mid-session, and what undoes it.
ACTS = {
    "removed": ("rm {0}", None),
    "emptied": (": > {0}", None),
    "cut by a byte": ("truncate -s -1 {0}", None),
    "cut": ("truncate -s 100 {0}", None),
    "renamed": ("mv {0} {0}.1", "mv {0}.1 {0}"),
    "renamed, and a folder made": ("mv {0} {0}.1; mkdir {0}", "rmdir {0}; mv {0}.1 {0}"),
    "moved, and made anew": ("mv {0} {0}.1; : > {0}", "mv {0}.1 {0}"),
    "copied, and emptied": ("cp {0} {0}.1; : > {0}", "cp {0}.1 {0}"),
    "moved, and copied back": ("mv {0} {0}.1; cp {0}.1 {0}", "mv {0}.1 {0}"),
    "replaced by another store's": ("mv {0} {0}.1; cp {1} {0}", "mv {0}.1 {0}"),
}
# These leave the file as it is: a command may be answered by `ok`, if it is found then.
HARMLESS = {
    "looked at": ("cat {0} > /dev/null", ""),
    "given a second name": ("ln {0} h", "rm h"),
    "moved, and back": ("mv {0} {0}.1; mv {0}.1 {0}", ""),
    "replaced by a link to it": ("mv {0} {0}.1; ln -s {0}.1 {0}", "mv {0}.1 {0}"),
}


class Session:
    """A session of `run` over a store of the room, which has both files open."""

    def __init__(self, trials, store):
        self.child = trials.start(f"exec natix {store} run", stdin=subprocess.PIPE)
        self.begun = self.ask(b"get tea /0")

    def ask(self, command):
        """The reply to a command, which is one line; None where the session ends."""
        try:
            self.child.stdin.write(command + b"\n")
        except BrokenPipeError:
            return None
        reply = b""
        while not reply.endswith(b"\n"):
            if not select.select([self.child.stdout], [], [], PATIENCE)[0]:
                return b"still at work"
            block = self.child.stdout.read(65536)
            if not block:
                return None
            reply += block
        return reply[:-1]

    def end(self):
        """Closes the input: the status, and what was said."""
        try:
            _, said = self.child.communicate(timeout=PATIENCE)
            return self.child.returncode, said.decode()
        except subprocess.TimeoutExpired:
            return "still at work", ""
        finally:
            end_group(self.child)


class Opened:
    """Both files of a store as they were when a session opened them."""

    def __init__(self, room, store):
        self.paths = [os.path.join(room, store), os.path.join(room, store + ".log")]
        self.files = [os.open(path, os.O_RDONLY) if os.path.exists(path) else None for path in self.paths]
        area, log = driven.files(self.paths[0])
        self.allowed = {at // driven.PAGE: [area[at : at + driven.PAGE]] for at in range(0, len(area), driven.PAGE)}
        for _, pages in driven.read_log(log)[0]:
            for page, content in pages.items():
                self.allowed.setdefault(page, []).append(content)

    def inodes(self):
        return [os.fstat(file).st_ino for file in self.files if file is not None]

    def spoiled(self):
        """The pages of the file that was opened which are neither as they were nor as the log has them."""
        if self.files[0] is None:
            return []
        area = os.pread(self.files[0], 2**26, 0)
        whole = range(0, len(area) - driven.PAGE + 1, driven.PAGE)
        return [at // driven.PAGE for at in whole if area[at : at + driven.PAGE] not in self.allowed.get(at // driven.PAGE, [])]

    def close(self):
        for file in self.files:
            if file is not None:
                os.close(file)


def others(room, inodes):
    """What stands at each path of the room, but at those of these files."""
    return {path: seen for path, seen in sights(room).items() if os.lstat(os.path.join(room, path)).st_ino not in inodes}


def other_file(file):
    """The same file of another store."""
    return file.replace("young", "still") if "young" in file else file.replace("still", "young") if "still" in file else "young" + file[1:]


def tea_in(store):
    """The text of `tea`, where the store holds all documents that were acknowledged; else what is there."""
    import sessions

    found = sessions.read_documents(store)
    if found.status:
        return found.reasons
    names = sorted(name.decode() for name in found.documents)
    wanted = DOCUMENTS[os.path.basename(store)]
    return found.documents[b"tea"].lines[2][1:] if names == wanted else names


def act_within(trials, store, file, how, act, command):
    """Does something to a file of a store while a session has it, and then gives a command: what is wrong, and the reply."""
    trials.fresh()
    opened, session, wrong = Opened(trials.room, store), Session(trials, store), []
    try:
        if session.begun != b"node 2 (a":
            wrong.append(f"the session began by {session.begun}")
        trials.well(act.format(file, other_file(file)))
        was = others(trials.room, opened.inodes())
        reply = session.ask(command)
        ended = (reply, *session.end())
        changed = changes(was, others(trials.room, opened.inodes()))
        if changed:
            wrong.append(f"{', '.join(changed)} changed")
        if opened.spoiled():
            wrong.append(f"pages {opened.spoiled()} are neither as they were nor as the log has them")
    finally:
        end_group(session.child)
        opened.close()
    return wrong, ended


def mend(trials, store, undo, command, ended):
    """Undoes what was done: what is wrong of what is found then."""
    trials.well(undo)
    text = tea_in(os.path.join(trials.room, store))
    texts = {COMMIT: (b"green",), CHECKPOINT: (b"tea",)}[command] if ended[0] == b"ok" else (b"green", b"tea")
    if text not in texts:
        return [f"answered by {ended[0]}, and once it is undone: {text}"]
    return []


def again(store, act, command):
    return f"(echo get tea /0; sleep 1; echo {command.decode()}) | natix {store} run & sleep 0.5; {act}; wait"


def within(trials):
    """Files that go, shrink or are replaced while a session has them."""
    for store in ("s", "still", "young"):
        for file in (store, store + ".log"):
            for command in (COMMIT, CHECKPOINT):
                for how, (act, undo) in ACTS.items():
                    try_act(trials, store, file, how, act, undo, command)
                for how, (act, undo) in HARMLESS.items():
                    try_harmless(trials, store, file, how, act, undo, command)


def has_it(trials, store, file):
    """Whether the act can be done: a young store may have no file of pages."""
    path = os.path.join(trials.begun, file)
    return os.path.exists(path) and (os.path.getsize(path) > 0)


def try_act(trials, store, file, how, act, undo, command):
    if not has_it(trials, store, file):
        return
    wrong, ended = act_within(trials, store, file, how, act, command)
    shown = act.format(file, other_file(file))
    # A checkpoint has nothing to do where the log has no group.
    idle = store == "still" and command == CHECKPOINT
    if ended != FAULT and not (idle and ended == (b"ok", 0, "")):
        wrong.append(f"ended by {ended}, and not by {FAULT}")
    if undo is not None:
        wrong += mend(trials, store, undo.format(file), command, ended)
    trials.expect(f"in mid-session {file} is {how}, before {command.split()[0].decode()}", again(store, shown, command), wrong)


def try_harmless(trials, store, file, how, act, undo, command):
    if not has_it(trials, store, file):
        return
    wrong, ended = act_within(trials, store, file, how, act, command)
    if ended not in (FAULT, (b"ok", 0, "")):
        wrong.append(f"ended by {ended}")
    wrong += mend(trials, store, undo.format(file), command, ended)
    trials.expect(f"in mid-session {file} is {how}, before {command.split()[0].decode()}", again(store, act.format(file), command), wrong)


def young_pages(trials):
    """A store whose pages all stand in the log: that its other file goes must not let a checkpoint close the log."""
    for act in ("rm young", "mv young away/", "rm young; mkdir young", "rm young; cp s young"):
        trials.fresh("touch young")
        session = Session(trials, "young")
        trials.well(act)
        reply = session.ask(CHECKPOINT)
        ended = (reply, *session.end())
        trials.well("rm -rf young; test ! -e away/young || mv away/young .")
        wrong, text = [], tea_in(os.path.join(trials.room, "young"))
        if text != b"tea":
            wrong.append(f"the checkpoint ended by {ended}, and the store has {text}")
        trials.expect("pages that go before the first checkpoint", again("young", act, CHECKPOINT), wrong)


def one_store(trials):
    """While a session has a store by one name, it is locked by the other one."""
    for mine, other in (("s", "l"), ("l", "s"), ("away/l", "l")):
        trials.fresh("ln -s s l; ln -s ../s away/l")
        session, wrong = Session(trials, mine), []
        found = trials.shell(f"natix {other} check")
        if found != (3, b"", "disk fault\n"):
            wrong.append(f"{found}, and not a disk fault")
        reply = session.ask(COMMIT)
        ended = (reply, *session.end())
        if ended != (b"ok", 0, "") or tea_in(os.path.join(trials.room, "s")) != b"green":
            wrong.append(f"ended by {ended}, and s has {tea_in(os.path.join(trials.room, 's'))}")
        trials.expect("a store by two names at once", f"ln -s s l; ln -s ../s away/l; sleep 1 | natix {mine} run & sleep 0.2; natix {other} check", wrong)


def redirected(trials):
    """A link that is removed or leads elsewhere while a session has its store: what is told is in the store that was opened."""
    for act in ("rm l", "ln -sfn young l", "rm l; ln -s nothing l", "rm l; cp young l"):
        for command, text in ((COMMIT, b"green"), (CHECKPOINT, b"tea")):
            trials.fresh("ln -s s l")
            session = Session(trials, "l")
            trials.well(act)
            was = sights(trials.room)
            reply = session.ask(command)
            ended, wrong = (reply, *session.end()), []
            found = tea_in(os.path.join(trials.room, "s"))
            if ended not in (FAULT, (b"ok", 0, "")) or found not in ((text,) if reply == b"ok" else (b"tea", b"green")):
                wrong.append(f"ended by {ended}, and s has {found}")
            changed = changes(was, sights(trials.room), ("s", "s.log"))
            if changed:
                wrong.append(f"{', '.join(changed)} changed")
            trials.expect("a link that goes in mid-session", "ln -s s l; " + again("l", act, command), wrong)


def two_inits(trials):
    """Of two that make a store at once one is answered by `ok`, and its store is there."""
    for _ in range(20):
        trials.fresh()
        first, second = (trials.start(f"exec natix new init {k}") for k in (16, 32))
        found = [(child.communicate(timeout=PATIENCE)[0], child.returncode) for child in (first, second)]
        for child in (first, second):
            end_group(child)
        trials.expect("two at once", "natix new init 16 & natix new init 32; wait", judge_inits(trials, found))


def judge_inits(trials, found):
    """What is wrong of how two makings of a store ended, by 16 and by 32 slots."""
    wrong = []
    if sorted(status for _, status in found) not in ([0, 2], [0, 3]):
        wrong.append(f"they ended by {found}")
    if names_in(os.path.join(trials.room, "new")) != []:
        wrong.append(f"the store holds {names_in(os.path.join(trials.room, 'new'))}")
    area, log = driven.files(os.path.join(trials.room, "new"))
    slots = driven.replay(area, log).get(0, bytes(12))[10:12]
    if found[int.from_bytes(slots, "big") == 32] != (b"ok\n", 0):
        wrong.append(f"they ended by {found}, and the store has {int.from_bytes(slots, 'big')} slots")
    return wrong


PARTS = (within, young_pages, one_store, redirected, two_inits)
