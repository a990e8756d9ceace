"""What trials/test-edge tries by one line of a shell each: descriptors, streams, names, links, and files that came, went or were replaced."""

from edge import ANY, DOCUMENTS, STORE_COMMANDS, Case, line_of

MORE = sorted(["more", *DOCUMENTS["s"]])
SIZES = (1, 100, 8191, 8192, 20000)
CLOSED = ("<&-", ">&-", "2>&-")
SETS = [[CLOSED[at] for at in range(3) if chosen >> at & 1] for chosen in range(8)]


def refused(what, line, before=""):
    return Case(what, line, 3, before=before)


def for_each(what, store, before="", names=STORE_COMMANDS):
    """Each command over a store is refused."""
    return [refused(f"{what}: {name}", line_of(store, name), before) for name in names]


# Descriptors that are closed.

# A line, its input, what it makes, and what a store holds where the input is read.
DESCRIPTORS = [
    *((line_of("s", name, False), source, (), {"s": DOCUMENTS["s"]}) for name, (_, source) in STORE_COMMANDS.items()),
    ("natix new init 16", "", ("new", "new.log"), {"new": []}),
    ("natix s run", "changes", ("s.log",), {"s": MORE}),
    ("natix s apply", "next", ("s.log",), {"s": MORE}),
    ("natix young gen 3 4", "", ("young.log",), {"young": sorted(["gen", *DOCUMENTS["young"]])}),
    ("natix _ tidy", "document", (), {}),
    ("natix _ plan 16", "document", (), {}),
    ("natix _ verify 16", "certificate", (), {}),
    ("natix --help", "", (), {}),
    ("natix --version", "", (), {}),
    ("natix s nonsense", "", (), {}),
]


def descriptors(trials):
    """Each command with each set of descriptors closed: the first byte that is asked of a closed one is a fault."""
    for line, source, made, held in DESCRIPTORS:
        given = f" < $given/{source}" if source else ""
        status, output = trials.plainly(line + given)
        if line in ("natix --help", "natix --version") and (status != 0 or not output):
            yield Case(line, line, 0, ANY)
        for closed in SETS:
            unread = "<&-" in closed and source
            ends = 4 if unread else 5 if ">&-" in closed and output else status
            said = "" if "2>&-" in closed else ANY
            whole = line + ("" if "<&-" in closed else given) + "".join(f" {word}" for word in closed)
            found = b"" if unread or ends == 5 or ">&-" in closed else output
            yield Case("closed descriptors", whole, ends, found, said, made=() if unread else made, held={} if unread else held)


# Standard input, output and error that are files of the store.

# What is printed on standard error, where it isn't a file of the store.
ERRORS = [
    ("natix s nonsense", 1, ""),
    ("natix s", 1, ""),
    ("natix s run twice", 1, ""),
    ("natix s init 257", 1, ""),
    ("natix s tidy twice", 1, ""),
    ("natix s check >&-", 5, ""),
    ("natix s run <&-", 4, ""),
    ("natix s ask 2 <&-", 4, ""),
    ("natix s init 16 >&-", 5, ""),
    ("natix s tidy <&-", 4, ""),
    ("natix s tidy < $given/document > /dev/full", 5, ""),
    ("natix s run < s", 3, ""),
    ("flock s natix s check", 3, ""),
    ("natix s run < $given/asks", 7, "head -c 24576 /dev/zero > s; printf '\\0' > s.log"),
    ("natix s run < $given/asks", 8, "rm s; touch s"),
]


def streams(trials):
    """A store's file as standard input or output is refused, and as standard error left as it is."""
    for file in ("s", "s.log"):
        for name in STORE_COMMANDS:
            plain = line_of("s", name, False)
            for way in ("<", "<>"):
                yield refused(f"input from {file}", f"{plain} {way} {file}")
            for way in (">>", "1<>"):
                yield refused(f"output to {file}", f"{line_of('s', name)} {way} {file}")
            yield refused(f"output to {file}, emptied before", f"{line_of('s', name)} > {file}", f": > {file}")
        for line, status, before in ERRORS:
            for way in ("2>>", "2<>"):
                yield Case(f"errors to {file}", f"{line} {way} {file}", status, b"", "", before)
        yield Case(f"errors to {file}, emptied before", f"natix s nonsense 2> {file}", 1, said="", before=f": > {file}")
        yield Case(f"all three are {file}", f"natix s run <> {file} >> {file} 2>> {file}", 3, said="")
        yield refused(f"input from a link to {file}", "natix s run < l", f"ln -s {file} l")
        yield refused(f"output to {file}, by a link to the store", f"natix l check >> {file}", "ln -s s l")
    yield Case("errors to a log whose name is misused", "natix s.log check 2>> s.log", 1, said="")
    # Of a word that is no UTF-8 nobody knows whether it names the file that is written to.
    folder = "d=$(printf 'd\\377')"
    for file in ("s", "s.log"):
        for line in ("check", "nonsense", "init 16", "tidy"):
            for way in ("2>>", "2<>"):
                whole = f"{folder}; natix $d/s {line} {way} $d/{file}"
                yield Case("errors to a store whose name is no UTF-8", whole, 1, said="", before=f"{folder}; mkdir $d; cp s s.log $d")
    yield Case("errors to a link's log", "natix l check >&- 2>> s.log", 5, said="", before="ln -s s l")
    yield Case("errors to a link's store", "natix l nonsense 2>> s", 1, said="", before="ln -s s l")
    for name in ("run", "ask", "find", "apply"):
        yield Case("commands that stand in the store, and a closed input", line_of("s", name, False) + " <&-", 4)
    yield refused("commands that stand in the store, as input", "natix s run < s")
    yield refused("a store that is named as the input", "natix /dev/stdin check < s")
    yield Case("another store as input", "natix s ask 2 < young", output=ANY, before="cp s.log young")


# Names.


def names(_):
    """A word in `.log` is misuse; a store named like another's log, and texts of others, are left as they are."""
    for store in ("s.log", "new.log", ".log", "away/new.log", "s.log.log"):
        for name in STORE_COMMANDS:
            yield Case("a word in .log", line_of(store, name), 1)
    yield Case("a word in .log without a store", "natix s.log tidy < $given/document", output=b"(a\n-hi\n)a\n")
    yield from for_each("another store's log", "a", "mv s a.log; mv s.log a.log.log")
    yield from for_each("another store's log as a store", "x", "cp s.log x")
    for size in SIZES:
        text = f"head -c {size} $given/text >"
        yield from for_each(f"a text of {size} bytes as the pages", "notes", f"{text} notes")
        yield from for_each(f"a text of {size} bytes as the log", "app", f"{text} app.log")
        yield from for_each(f"a text of {size} bytes as the log beside pages", "s", f"{text} s.log")
    for size in SIZES:
        yield from for_each(f"a text of {size} bytes as both", "x", f"head -c {size} $given/text > x; cp x x.log")
    for size in (8192, 20000):
        before = f"head -c {size} $given/text > x; printf '\\0' > x.log"
        yield Case(f"a text of {size} bytes beside a log that says nothing: run", line_of("x", "run"), 7, before=before)
        yield Case(f"a text of {size} bytes beside a log that says nothing: init", line_of("x", "init"), 2, b"refused exists\n", before=before)


# Links.

# Ways to another name L of the store s.
LINKS = [
    ("a link", "l", "ln -s s l"),
    ("a chain of links", "away/l3", "ln -s s l1; ln -s l1 l2; ln -s $PWD/l2 away/l3"),
    ("a link from another folder", "away/l", "ln -s ../s away/l"),
    ("a link to the folder", "f/s", "ln -s . f"),
    ("a link beside a foreign log", "l", "ln -s s l; cp away/notes l.log"),
    ("a link by its whole path", "$PWD/l", "ln -s $PWD/s l"),
    ("a link through links to folders", "g/l", "ln -s away g; ln -s ../f/s away/l; ln -s . f"),
]
# Names that lead to no store, or to one that has other names.
REFUSED_LINKS = [
    ("a link to nothing", "l", "ln -s nothing l"),
    ("a link to nothing in a folder that isn't there", "l", "ln -s none/nothing l"),
    ("a link to itself", "l", "ln -s l l"),
    ("links to each other", "l", "ln -s m l; ln -s l m"),
    ("more links than the system follows", "l60", "ln -s s l0; for n in $(seq 60); do ln -s l$((n - 1)) l$n; done"),
    ("a link to a log", "l", "ln -s s.log l"),
    ("a link to a store that is named as a log", "l", "mv s x.log; mv s.log x.log.log; ln -s x.log l"),
    ("a link to a folder", "l", "ln -s away l"),
    ("a link to a pipe", "l", "mkfifo p; ln -s p l"),
    ("a link to a device", "l", "ln -s /dev/null l"),
    ("a log that is a link", "s", "mv s.log t; ln -s t s.log"),
    ("a log that is a link to nothing", "new", "ln -s nothing new.log"),
    ("a log that is a link to the store", "s", "rm s.log; ln -s s s.log"),
    ("a log that is a folder", "new", "mkdir new.log"),
    ("a log that is a pipe", "new", "mkfifo new.log"),
    ("a folder", "away", ""),
    ("a pipe", "p", "mkfifo p"),
    ("a device", "/dev/null", ""),
    ("pages of two names", "s", "ln s h"),
    ("pages by their second name", "h", "ln s h"),
    ("pages by their second name, with a log", "h", "ln s h; cp s.log h.log"),
    ("a second name in another folder", "away/h", "ln s away/h"),
    ("a log of two names", "s", "ln s.log h"),
    ("a log that is another store's", "h", "cp s h; ln s.log h.log"),
    ("a log that is another store's, from its side", "s", "cp s h; ln s.log h.log"),
    ("a text of two names as the log", "app", "ln away/notes app.log"),
    ("a link to pages of two names", "l", "ln s h; ln -s h l"),
]


def links(trials):
    """Both names of a linked store are one store with one log, and what can't be told apart is refused."""
    for what, store, before in LINKS:
        for name in STORE_COMMANDS:
            status, output = trials.plainly(line_of("s", name))
            yield Case(f"{what}: {name}", line_of(store, name), status, output, before=before)
        yield Case(f"{what}: a change", f"natix {store} run < $given/changes", output=ANY, before=before, made=("s.log",), held={"s": MORE})
        yield Case(f"{what}: a checkpoint", f"echo checkpoint | natix {store} run", output=b"ok\n", before=before, made=("s", "s.log"), held={"s": DOCUMENTS["s"]})
    for what, store, before in REFUSED_LINKS:
        yield from for_each(what, store, before)
    yield Case("init by a link to an empty file", "natix l init 16", output=b"ok\n", before=": > e; ln -s e l", made=("e.log", "e"), held={"e": []})
    yield Case("a link that is locked by its other name", "flock s natix l check", 3, before="ln -s s l")
    yield Case("a word without a store that is a link to nothing", "natix l tidy < $given/document", output=b"(a\n-hi\n)a\n", before="ln -s nothing l")


# Files that went between two sessions.

LOG_WENT = {
    "removed": "rm {0}",
    "emptied": ": > {0}",
    "renamed": "mv {0} {0}.1",
    "moved, and made anew": "mv {0} {0}.1; : > {0}",
    "copied, and emptied": "cp {0} {0}.1; : > {0}",
}


def went(_):
    """A log that went is noticed beside pages, and pages that went by what the log has."""
    for how, act in LOG_WENT.items():
        for store in ("s", "still"):
            yield from for_each(f"a log that was {how}", store, act.format(f"{store}.log"))
        before = act.format("s")
        for name in STORE_COMMANDS:
            statuses, output = ((2, 8) if name == "init" else 8), (ANY if name in ("init", "check") else b"")
            yield Case(f"pages that were {how}: {name}", line_of("s", name), statuses, output, before=before)
            if name not in ("init", "apply"):
                yield Case(f"pages that were {how}, and no group: {name}", line_of("still", name), 7, before=act.format("still"))
    yield Case("pages that went, and what comes next: apply", "natix s apply < $given/next", 8, before="rm s")
    # By a number `ship` gives groups as they stand in the log, which are whole there, and looks at no other page.
    yield Case("pages that went, and groups that are there: ship", "natix s ship 7", output=ANY, before="rm s")
    yield Case("pages that were cut within page 0", line_of("s", "check"), 8, ANY, before="truncate -s 5000 s")
    yield Case("pages that were cut behind page 0", line_of("s", "check"), 8, ANY, before="truncate -s 8192 s")
    yield refused("pages that were cut within page 0, and no group", line_of("still", "check"), "truncate -s 5000 still")
    yield Case("a log of one zero byte in place of one that went", "natix s check", output=b"sound\n", before="printf '\\0' > s.log", held={"s": DOCUMENTS["still"]})
    yield Case("no pages yet, and all groups", "natix young check", output=b"sound\n", before="rm -f young", held={"young": DOCUMENTS["young"]})


# Copies.

COPIES = [
    ("both files copied", "c", "cp s c; cp s.log c.log", {"s": DOCUMENTS["s"]}),
    ("both files copied to another folder", "away/c", "cp s away/c; cp s.log away/c.log", {"s": DOCUMENTS["s"]}),
    ("both files moved", "c", "mv s c; mv s.log c.log", {}),
    ("both files copied, and moved back", "s", "cp s c; cp s.log c.log; mv c s; mv c.log s.log", {}),
    ("a folder moved", "b/s", "mkdir b; mv s s.log b", {}),
]


def copies(trials):
    """Copies of both files are stores of their own, of any format."""
    for what, store, before, held in COPIES:
        yield Case(f"{what}: check", f"natix {store} check", output=b"sound\n", before=before, held=held)
        yield Case(f"{what}: a change", f"natix {store} run < $given/changes", output=ANY, before=before, made=(f"{store}.log",), held=held | {store: MORE})
    yield refused("pages copied without their log", "natix c check", "cp s c")
    yield Case("a log copied without its pages", "natix c check", 8, ANY, before="cp s.log c.log")
    for name in ("k2", "k130", "k256"):
        before = f"cp {trials.stores}/{name} old; cp {trials.stores}/{name}.log old.log"
        yield Case(f"format 1, {name}: check", "natix old check", output=b"sound\n", before=before)
        yield Case(f"format 1, {name}: ask", "echo names | natix old ask 2", output=ANY, before=before)
        yield Case(f"format 1, {name}: a change", "natix old run < $given/changes && natix old check", output=ANY, before=before, made=("old.log", "old"))
        yield refused(f"format 1, {name}, its log gone: check", "natix old check", before + "; rm old.log")


# No litter.

# A line over files that are missing, its status, and its output.
LITTER = [
    *((line_of("typo", name), 7, b"") for name in ("run", "gen", "check", "find", "ask", "ship")),
    *((line_of("away/typo", name), 7, b"") for name in ("run", "gen", "check", "find", "ask", "ship")),
    *((line_of("none/typo", name), 3, b"") for name in STORE_COMMANDS),
    ("natix typo run < /dev/null", 7, b""),
    ("natix typo apply < $given/text", 2, ANY),
    ("natix typo apply < $given/groups", 2, ANY),
    ("head -c 5000 $given/base | natix typo apply", 2, b"refused stream 0\n"),
    ("natix typo apply < /dev/null", (0, 2, 7), ANY),
    ("natix typo apply <&-", 4, b""),
    ("natix typo init 257", 1, b""),
    ("natix typo init", 1, b""),
    ("natix typo/ init 16", 3, b""),
    ("natix s/ check", 3, b""),
    ("natix $(printf %0253d 0) init 16", 3, b""),
    ("natix $(printf %0253d 0) check", 3, b""),
    ("natix $(printf %0300d 0) init 16", 3, b""),
    ("natix typo nonsense", 1, b""),
    ("natix typo", 1, b""),
    ("natix s init 16", 2, b"refused exists\n"),
    ("natix young init 16", 2, b"refused exists\n"),
    ("natix --help extra", 1, b""),
    ("natix s --help", 1, b""),
    ("natix -h", 1, b""),
    ("natix", 1, b""),
]


def litter(_):
    """Only init, and apply of a base, make files."""
    for line, status, output in LITTER:
        yield Case("no litter", line, status, output)
    new = ("new", "new.log")
    yield Case("init makes files", "natix new init 16", output=b"ok\n", made=new, held={"new": []})
    yield Case("init over one empty file", "natix new init 16", output=b"ok\n", before=": > new", made=new, held={"new": []})
    yield Case("init over another empty file", "natix new init 16", output=b"ok\n", before=": > new.log", made=new, held={"new": []})
    yield Case("init over what a stopped one left", "natix new init 16", output=b"ok\n", before="printf '\\0' > new.log", made=new, held={"new": []})
    yield Case("apply of a base makes files", "natix new apply < $given/base", output=ANY, made=new, held={"new": DOCUMENTS["s"]})
    yield Case("apply of a base, and of what follows", "cat $given/base $given/next | natix new apply", output=ANY, made=new, held={"new": MORE})
    moved = "natix c apply < $given/base > /dev/null; touch c; mv c.log s.log; rm c"
    yield Case("a new base laid over a follower", "natix s check", output=b"sound\n", before=moved, held={"s": DOCUMENTS["s"]})


PARTS = (descriptors, streams, names, links, went, copies, litter)
