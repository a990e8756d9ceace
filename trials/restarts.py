"""Sessions of `natix STORE run` that go on where one was killed, and what a crash of the machine leaves of them: for
trials/test-store."""

import os
import shutil
from collections import Counter

import crashes
import sessions
from sessions import Document, Wrong, ask, load, look, replies_of, script

# Of how many images the program itself is asked for one.
SOME = 400
INIT = ask(b"init")
UNSOUND = "pages that stand for no state"


class Reader:
    """What images stand for, by tools/read-store."""

    def __init__(self):
        self.module, self.known = sessions.READ_STORE, {}

    def state(self, image):
        """The documents with their intervals by their names; None where there is no store."""
        key = tuple(map(hash, image))
        if key not in self.known:
            self.known[key] = self.read(image)
        return self.known[key]

    def read(self, image):
        reasons = []
        try:
            found = {name: (document.nodes, document.text(), tuple(document.intervals)) for name, document in self.module.documents_of(*image, reasons.append)}
        except self.module.NoStore:
            return None
        except self.module.Unsound:
            return UNSOUND
        return UNSOUND if reasons else found


class Session:
    """The calls of a session, the states after so many of its commands, and those besides that a crash may leave before
    it has read anything, since the session before may have been killed."""

    def __init__(self, calls, commands, states, before=()):
        self.calls, self.commands, self.states, self.before = calls, commands, states, before

    def allowed(self, done):
        """What a crash may leave after so many calls: each command whose reply came, and the one at work."""
        replies = len(replies_of(self.commands, crashes.given(self.calls[:done]))[0])
        unread = self.before if done <= crashes.opening(self.calls) else ()
        return [*self.states[replies : replies + 2], *unread]


def states_of(begun, commands, last, gone={}):
    """The states after so many commands, by the last of them, and by what documents were that are gone in it."""
    states, known = [begun], gone | (last or {})
    for name, other in reversed(list(renames_of(commands))):
        if other in known:
            known.setdefault(name, known[other])
    for words, document in commands:
        if words == b"begin":
            states.append(states_of(states[-1], [command for command, _ in document], None, known)[-1])
            continue
        word, name, other, *_ = [*words.split(), b"", b"", b""]
        if word == b"rename":
            states.append(renamed(states[-1], name, other))
            continue
        new = {name: known[name]} if document or word in (b"insert", b"delete", b"retext") else {}
        if document and known[name][1] != b"".join(line + b"\n" for line in document):
            raise Wrong(f"the document {name} isn't what was loaded")
        states.append({other: held for other, held in (states[-1] or {}).items() if (word, other) != (b"drop", name)} | new)
    if last is not None and states[-1] != last:
        raise Wrong(f"a session holds {sorted(last)} in the end, and not {sorted(states[-1])}")
    return states


def renames_of(commands):
    """Each document's name and its new one, in order, also within transactions."""
    for words, document in commands:
        if words == b"begin":
            yield from renames_of([command for command, _ in document])
        elif words.startswith(b"rename "):
            yield tuple(words.split()[1:])


def renamed(held, name, other):
    return {other if one == name else one: document for one, document in held.items()}


def place(store, image):
    for path, content in zip((store, store + ".log"), image):
        with open(path, "wb") as file:
            file.write(content)


def session(store, commands):
    """The calls of a session to its end, of `init` where that is the command."""
    words, content = ("init", "3"), b""
    if commands != [INIT]:
        words, content = ("run",), script(commands)
    status, calls = crashes.trace(store, [sessions.NATIX, store, *words], content)
    if status or len(replies_of(commands, crashes.given(calls))[0]) != len(commands):
        raise Wrong(f"{commands[0][0]} and others ended with {status}")
    return calls


class Trial:
    def __init__(self, folder, draw):
        self.draw, self.reader = draw, Reader()
        self.store = os.path.join(folder, "s")
        self.images, self.kills, self.opened = 0, 0, 0
        self.found, self.missed = Counter(), Counter()

    def document(self, nodes):
        return sessions.drawn_document(self.draw, nodes, 3)

    def alone(self, document):
        """What a store holds of a document that it holds alone."""
        for path in (self.store, self.store + ".log"):
            if os.path.exists(path):
                os.unlink(path)
        session(self.store, [INIT])
        session(self.store, [load(b"alone", document)])
        held = self.reader.state(self.files())[b"alone"]
        for path in (self.store, self.store + ".log"):
            os.unlink(path)
        return held

    def first(self):
        """A store's making, loads, a drop and checkpoints."""
        lost = self.document(25)
        gone = {b"lost": self.alone(lost)}
        commands = [ask(b"checkpoint") if nodes is None else load(b"first%d" % at, self.document(nodes)) for at, nodes in enumerate((9, 60, None, 30, None, 12, 5))]
        commands[3:3] = [load(b"lost", lost), ask(b"drop", b"lost")]
        making, filling = session(self.store, [INIT]), session(self.store, commands)
        last = self.reader.state(self.files())
        return Session(making + filling[crashes.opening(filling) :], [INIT, *commands], states_of(None, [INIT, *commands], last, gone))

    def files(self):
        found = []
        for path in (self.store, self.store + ".log"):
            with open(path, "rb") as file:
                found.append(file.read())
        return tuple(found)

    def seconds(self, stands):
        """What sessions over this state do."""
        if stands is None:
            return [[INIT]]
        names, there = ask(b"names"), sorted(stands)
        goes = [ask(b"drop", name) for name in there[:1]]
        # One edit each, since only what a document is in the end is known.
        for word, name in zip((b"delete", b"insert", b"retext"), there[1:]):
            nodes, text, _ = stands[name]
            goes.append(sessions.drawn_edit(self.draw, word, name, Document(text.split(b"\n")[:-1], nodes), 3))
        together = [load(b"one", self.document(30)), load(b"two", self.document(12)), ask(b"rename", b"second", b"renamed"), ask(b"rule", b"a", b"b", b"cluster")]
        goes.append(sessions.transaction((command, None) for command in together))
        return [[ask(b"checkpoint"), names], [names, load(b"second", self.document(40)), *goes, ask(b"checkpoint"), load(b"third", self.document(7))]]

    def wrong_images(self, disk, of):
        """Over all moments of a session, those images of a crash that aren't as they should be."""
        for done, left in crashes.moments(disk, of.calls, self.draw):
            for image in left.images(self.draw, 2):
                self.images += 1
                state = self.reader.state(image)
                if state not in of.allowed(done):
                    yield done, "no state" if state == UNSOUND else "no store" if state is None else f"{sorted(state)}"
                elif state is not None and self.draw.randrange(SOME) == 0:
                    place(self.store, image)
                    look(self.store)
                    self.opened += 1

    def kill(self, first, done, disk):
        """Sessions that go on where the first was killed after so many calls."""
        before, stands = first.allowed(done), self.reader.state(disk.files())
        if stands not in before:
            self.found[f"a session killed after {done} calls leaves what it may not"] += 1
            return
        self.kills += 1
        for commands in self.seconds(stands):
            place(self.store, disk.files())
            calls = session(self.store, commands)
            states = states_of(stands, commands, self.reader.state(self.files()))
            of = Session(calls, commands, states, before)
            for at, state in self.wrong_images(disk, of):
                self.found[f"a kill after {done} calls, and {commands[0][0].decode()} .. cut off after {at}: {state}"] += 1
            of.calls, images = crashes.without_syncs(calls), self.images
            missed = sum(1 for _ in self.wrong_images(disk, of))
            self.missed.update(images=self.images - images, wrong=missed, kills=missed > 0)
            self.images = images


def restarts(folder, draw, expect):
    """Sessions are killed at each moment, the next ones go on, and a crash comes at each moment of these: what wasn't
    synced of both is kept, lost or torn. A program that syncs nothing when it opens the files has to be noticed."""
    if not shutil.which("strace"):
        print("not tried, since there is no strace: crashes of sessions that go on where one was killed")
        return
    folder = os.path.join(folder, "restarts")
    os.mkdir(folder)
    trial = Trial(folder, draw)
    try:
        first = trial.first()
        for at, state in trial.wrong_images(crashes.Disk(), first):
            trial.found[f"the first session, cut off after {at}: {state}"] += 1
        for done, disk in crashes.moments(crashes.Disk(), first.calls, draw):
            trial.kill(first, done, disk)
    except Wrong as why:
        expect("sessions that go on", str(why), "nothing wrong")
    for what in list(trial.found)[:10]:
        expect(what, trial.found[what], 0)
    expect("images of sessions that go on that aren't as they should be", sum(trial.found.values()), 0)
    expect("a program that syncs nothing at opening is noticed", trial.missed["wrong"] > 0, True)
    print(f"{trial.kills} sessions were killed, {trial.images} images of a crash of the ones that went on were read, and {trial.opened} opened")
    print("without the syncs of opening, {wrong} of {images} would be wrong, of {kills} sessions".format_map(trial.missed))
