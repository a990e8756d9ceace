"""Sessions of which a sync fails once and loses what it was to sync, as the system does it: later reads give those bytes, and no later sync
writes them. For trials/test-edge."""

import os
import random
import shutil

import crashes
import restarts
from sessions import ask, replies_of, script

TEXT = [b"(a", b"-hi", b")a"]
INIT = ask(b"init")
CHECKPOINT = ask(b"checkpoint")
# The processes of a story by their commands, of which one sync fails, and the one that goes on.
STORY = [[INIT], [(b"load a", TEXT), (b"load b", TEXT), CHECKPOINT, (b"load c", TEXT), (b"load d", TEXT)]]
THEN = [(b"load x", TEXT), (b"load y", TEXT), CHECKPOINT, (b"load z", TEXT)]


REFUSED = b"refused exists\n"


def told_by(commands, output):
    """What the replies tell of: the names of the documents that came, and of the making. That a page is there already tells nothing of a
    store that stays."""
    replies = 0 if output == REFUSED else len(replies_of(commands, output)[0])
    told, at_work = ([command[0].split()[-1] for command in some] for some in (commands[:replies], commands[replies : replies + 1]))
    return {name for name in told if name != b"checkpoint"}, set(at_work)


class Told:
    """What a store has to hold: what was told, and what of all processes was at work when they ended. The disk has what is durable, and the
    files what a process reads."""

    def __init__(self, natix, store, draw, every=False):
        self.natix, self.store, self.draw, self.every = natix, store, draw, every
        self.disk, self.told, self.at_work = crashes.Disk(), set(), set()
        self.reader, self.images, self.wrong = restarts.Reader(), 0, []
        for path in (store, store + ".log"):
            if os.path.exists(path):
                os.unlink(path)

    def process(self, commands, failing=None):
        """Carries out a process, of which one sync may fail: its calls."""
        words, content = (("init", "3"), b"") if commands == [INIT] else (("run",), script(commands))
        inject = ["-e", f"inject={failing[0]}:error=EIO:when={failing[1]}"] if failing else []
        status, calls = crashes.trace(self.store, [*inject, self.natix, self.store, *words], content)
        wanted = 3 if failing else 2 if crashes.given(calls) == REFUSED else 0
        if status != wanted:
            self.wrong.append(f"{commands[0][0].decode()} ended with {status}, and not with {wanted}")
        return calls

    def judge(self, calls, commands):
        """At how many images that a crash may leave during these calls something that was told isn't there, or something is half."""
        found = 0
        for done, left in self.moments(calls):
            told, at_work = told_by(commands, crashes.given(calls[:done]))
            told |= self.told
            may = told | at_work | self.at_work
            for image in left.images(self.draw, 1):
                self.images += 1
                found += not self.fits(image, told, may)
        return found

    def moments(self, calls):
        """Each moment, or those behind a reply."""
        whole = crashes.moments(self.disk, calls, self.draw)
        return whole if self.every else [(done, disk) for done, disk in whole if done and calls[done - 1][0] == "give"]

    def fits(self, image, told, may):
        state = self.reader.state(image)
        if state == restarts.UNSOUND:
            return False
        return told <= (set() if state is None else {b"init", *state}) <= may

    def go_on(self, calls, commands):
        """Takes over what a process has told and done."""
        told, at_work = told_by(commands, crashes.given(calls))
        self.told |= told
        self.at_work |= at_work
        for call in calls:
            if call[0] not in ("give", "read"):
                self.disk = self.disk.after(call)


def renewal(calls):
    """The byte of the log that is written before anything else, with its place."""
    first = next((call for call in calls if call[0] == "write"), None)
    return [first[2:]] if first and first[1] == "log" and len(first[3]) == 1 else []


def without_renewal(calls):
    """The same calls without the renewal."""
    renewed = renewal(calls)
    at = next((at for at, call in enumerate(calls) if call[0] == "write" and renewed == [call[2:]]), len(calls))
    return calls[:at] + calls[at + 1 :]


def store_of(trials):
    os.makedirs(os.path.join(trials.folder, "lost"), exist_ok=True)
    return os.path.join(trials.folder, "lost", "s")


def syncs_of(trials):
    """Which syncs the processes of the story make: of which process, the call's name, and which one of this name."""
    told, found = Told(trials.natix, store_of(trials), random.Random(0)), []
    for at, commands in enumerate(STORY):
        counted = {"fdatasync": 0, "fsync": 0}
        for call in told.process(commands):
            if call[0] == "sync":
                name = "fsync" if call[1] == "folder" else "fdatasync"
                counted[name] += 1
                found.append((at, name, counted[name]))
    return found


def lose(trials, at, failing, every):
    """The story up to the process whose sync fails, and then the processes that go on: what it told, and at how many images a program
    that renews nothing would have lost something."""
    told, missed = Told(trials.natix, store_of(trials), random.Random(failing[1]), every), 0
    for commands in STORY[:at]:
        told.go_on(told.process(commands), commands)
    # A making that failed is tried again.
    after = [STORY[at], THEN] if STORY[at] == [INIT] else [THEN]
    for commands, failing_now in ((STORY[at], failing), *((commands, None) for commands in after)):
        calls = told.process(commands, failing_now)
        missed += told.judge(without_renewal(calls), commands)
        lost = told.judge(calls, commands)
        if lost:
            told.wrong.append(f"{lost} images of a crash have lost what was told, or have half of something")
        told.go_on(calls, commands)
    return told, missed


def each_sync(trials, every):
    if not shutil.which("strace"):
        print("not tried, since there is no strace: syncs that fail once")
        return
    images = missed = 0
    for at, *failing in syncs_of(trials):
        told, unnoticed = lose(trials, at, failing, every)
        images, missed = images + told.images, missed + unnoticed
        what = f"a sync fails once, and loses what it was to sync: {failing[0]} {failing[1]} of {('init', 'run')[at]}"
        trials.expect(what, "trials/test-edge --only lost_syncs", told.wrong)
    print(f"{images} images of a crash behind a sync that failed were read; of a program that renews nothing {missed} would be wrong")
    trials.expect("a program that renews nothing is noticed", "trials/test-edge --only lost_syncs", [] if missed else ["it isn't"])


def lost_syncs(trials):
    """A crash comes behind each reply."""
    each_sync(trials, False)


def all_lost_syncs(trials):
    """A crash comes at each call."""
    each_sync(trials, True)
