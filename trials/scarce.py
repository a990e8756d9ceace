"""Sessions of `natix` of which each allocation is refused in turn, by a small library that is loaded before the C library: for
trials/test-store."""

import os
import shutil
import subprocess
from collections import Counter

import sessions
from harness import NATIX, expect
from sessions import Wrong, ask, look, read_documents, replies_of, script, transaction
from store_model import LINES

# Refuses the allocation with this number, and writes down how many there were.
REFUSING = r"""
#define _GNU_SOURCE
#include <dlfcn.h>
#include <errno.h>
#include <stdio.h>
#include <stdlib.h>

static unsigned long made, refused = -1;

static int refuse(void) {
    if (refused == -1UL) refused = strtoul(getenv("REFUSED"), 0, 10);
    if (++made != refused) return 0;
    errno = ENOMEM;
    return 1;
}

#define BEFORE(type, name, parameters, arguments, none) \
    type name parameters { \
        static type (*next) parameters; \
        if (!next) next = dlsym(RTLD_NEXT, #name); \
        return refuse() ? none : next arguments; \
    }

BEFORE(void *, malloc, (size_t size), (size), 0)
BEFORE(void *, realloc, (void *old, size_t size), (old, size), 0)
BEFORE(void *, aligned_alloc, (size_t align, size_t size), (align, size), 0)
BEFORE(int, posix_memalign, (void **into, size_t align, size_t size), (into, align, size), ENOMEM)

void *calloc(size_t count, size_t size) {
    /* dlsym itself asks for memory. */
    static void *(*next)(size_t, size_t);
    static int asking;
    if (!next && asking) return 0;
    if (!next) { asking = 1; next = dlsym(RTLD_NEXT, "calloc"); asking = 0; }
    return refuse() ? 0 : next(count, size);
}

__attribute__((destructor)) static void tell(void) {
    unsigned long count = made;
    FILE *file = fopen(getenv("MADE"), "w");
    fprintf(file, "%lu", count);
    fclose(file);
}
"""
TEXT = b"-12345678"
STORIES = {
    "a document that comes, is edited and goes": [
        (b"load e", [b"(a", b"Ax 1", b"-hi", b")a"]),
        *(ask(words) for words in (b"insert e /0/1 Ax 2", b"get e /0", b"retext e /0 x", b"retext e /0/1 bye", b"get e /0/1", b"get e /9", b"get f /")),
        *(ask(words) for words in (b"names", b"export e", b"drop e", b"names", b"checkpoint")),
    ],
    "a transaction of each kind of change, one that is refused, and one without commands": [
        (b"load e", [b"(a", b"-hi", b")a"]),
        transaction((command, None) for command in (
            ask(b"drop e"), (b"load e", [b"(a", b"Ax 1", *[TEXT] * 8, b")a"]), ask(b"insert e /0/9 (b"), ask(b"insert e /0/9/0 -" + b"x" * 1025), ask(b"retext e /0/1 y"),
            ask(b"delete e /0/2"), ask(b"rule a b standalone"), ask(b"rename e f"), ask(b"rename f g"))),
        transaction((command, None) for command in (ask(b"retext g /0/0 2"), (b"load h", [b"(a", b")a"]), ask(b"delete g /0/99"), ask(b"drop g"))),
        transaction(()),
        *(ask(words) for words in (b"names", b"export g", b"rename g e", b"checkpoint")),
    ],
    "a split, long contents, rules and drops": [
        (b"load d", [b"(a", *[TEXT] * 6, b")a"]),
        ask(b"insert d /0/6 " + TEXT),
        (b"load f", [b"(a", b"Ax " + b"x" * 1025, b"-" + b"x" * 8185, b")a"]),
        ask(b"retext f /0/1 " + b"x" * 8184),
        ask(b"retext f /0/1 " + b"x" * 1024),
        *(ask(words) for words in (b"rule a #text cluster", b"rules", b"layout d", b"export f", b"retext f /0/1 hi", b"drop d", b"checkpoint")),
        ask(b"insert f /0/2 ?p " + b"x" * 1025),
        *(ask(words) for words in (b"delete f /0/0", b"rule a #text free", b"drop f", b"checkpoint")),
    ],
}


def refusing(folder):
    """The library, or None where no compiler is there."""
    source, library = os.path.join(folder, "refusing.c"), os.path.join(folder, "refusing.so")
    with open(source, "w") as file:
        file.write(REFUSING)
    compiler = shutil.which("cc") or shutil.which("gcc")
    if not compiler or subprocess.run([compiler, "-O", "-shared", "-fPIC", source, "-o", library, "-ldl"]).returncode:
        return None
    return library


class Trial:
    """One session, over the files of a store as they are before it, if there are some."""

    def __init__(self, folder, library, words, commands, begun):
        self.store, self.made, self.library = os.path.join(folder, "scarce"), os.path.join(folder, "made"), library
        self.words, self.commands, self.begun, self.content = words, commands, begun, script(commands)

    def run(self, refused):
        """The session without the allocation of this number: its status, its output, its line of error, and how many it made."""
        for name in ("", ".log"):
            if os.path.exists(self.store + name):
                os.unlink(self.store + name)
            if self.begun:
                shutil.copyfile(self.begun + name, self.store + name)
        environment = {"LD_PRELOAD": self.library, "REFUSED": str(refused), "MADE": self.made}
        done = subprocess.run([NATIX, self.store, *self.words], input=self.content, env=environment, stdout=subprocess.PIPE, stderr=subprocess.PIPE)
        with open(self.made) as file:
            return done.returncode, done.stdout, done.stderr.decode(), int(file.read())


def states_of(folder, begun, commands):
    """What a store holds behind so many commands, each of them in a session of its own."""
    store = os.path.join(folder, "step")
    for name in ("", ".log"):
        shutil.copyfile(begun + name, store + name)
    states = [look(store).sights()]
    for command in commands:
        if sessions.run(store, [command])[0] != 0:
            raise Wrong(f"{command[0]} isn't answered")
        states.append(look(store).sights())
    return states


def refuse_each(what, trial, states):
    """Refuses each allocation in turn. The output is a first part of what it is with all of them, and the store is as it was behind the
    commands whose replies are out."""
    status, whole, said, count = trial.run(0)
    expect(f"{what}: with all memory", (status, said), (0, ""))
    seen = Counter()
    for refused in range(1, count + 1):
        status, output, said, _ = trial.run(refused)
        seen[status] += 1
        if (status, said) != (6, LINES[6]) and (status, output, said) != (0, whole, ""):
            expect(f"{what}, without allocation {refused}", (status, said), (6, LINES[6]))
        if not whole.startswith(output):
            expect(f"{what}, without allocation {refused}: the last that is out", output[-40:], "a first part of what is out with it")
        found = read_documents(trial.store)
        told = len(replies_of(trial.commands, output)[0]) if trial.commands else len(output) > 0
        held = found.sights() if found.status == 0 else None
        expect(f"{what}, without allocation {refused}, and {told} replies: the store is as it was behind them", held == states[told], True)
    print(f"{count} allocations were refused in {what}: {seen[6]} sessions ended for want of memory, and {seen[0]} went on without it")


def scarce(folder, draw):
    folder = os.path.join(folder, "scarce-memory")
    os.mkdir(folder)
    library = refusing(folder)
    if not library:
        print("not tried, since no compiler is there: sessions of which each allocation is refused")
        return
    begun = os.path.join(folder, "begun")
    try:
        refuse_each("the making of a store", Trial(folder, library, ("init", "16"), [], None), [None, {}])
        expect("scarce memory: init", sessions.init(begun, 16), (0, b"ok\n", ""))
        for what, commands in STORIES.items():
            refuse_each(what, Trial(folder, library, ("run",), commands, begun), states_of(folder, begun, commands))
    except Wrong as why:
        expect("scarce memory", str(why), "nothing wrong")
