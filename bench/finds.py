"""Questions for nodes by name over stores, beside the plain program, BaseX and xmlstarlet: for bench/store.

A question's time is that of a session which asks it many times, without that of one which asks once for a label that no
node has. Such a one has gathered the labels of the document; its own time, without that of a session that asks nothing,
is that of gathering.
"""

import os
import re
import shutil
import statistics
import subprocess
import sys
from typing import Callable, NamedTuple

from documents import NODE_LIMIT, alike, apart, load, marked, mixed, wide
from measuring import TOP, fail, peak_bytes, run, seconds
from stores import Program, in_turns, quiet, same, write

LIMITS = (16, 64, 256)
ROUNDS = 7
PEAK_RUNS = 3
OTHER_ROUNDS = 3
# How often BaseX is asked in a run, at least and at most: its first answers are its slowest.
BASEX_RUNS = (20, 200)
# What natix may take: for a question for few nodes of the plain program's time, for one that every node answers and for
# gathering of an export's, and of memory for each pair of a record and a label at or below it.
ALLOWED_RARE = 1.2
ALLOWED_EVERY = 2
ALLOWED_GATHERING = 1
ALLOWED_BYTES = 32


class Question(NamedTuple):
    name: str
    steps: tuple
    # How often a session asks it.
    times: int


class Document(NamedTuple):
    name: str
    lines: Callable
    questions: tuple


RARE = ("once", "rare")
EVERY = "every node"
LABELS = ("//records", "//group", "//record", "//@id", "//#text", "//rare", "//some")
DOCUMENTS = [
    Document(
        "marked",
        marked,
        (
            Question("once", ("//once",), 1_000),
            Question("rare", ("//rare",), 1_000),
            Question("some", ("//some",), 100),
            Question("texts", ("//#text",), 2),
            Question("each label", LABELS, 1),
        ),
    ),
    Document("alike", alike, (Question(EVERY, ("//record",), 2),)),
    Document("wide", lambda: wide(NODE_LIMIT, 0), ()),
    Document("mixed", mixed, (Question("one of 500", ("//label7",), 5),)),
    Document("apart", apart, (Question("one of 500", ("//label7",), 5),)),
]
# Those whose labels are looked at in memory: as many nodes as a document may have, with 500 labels.
MANY_LABELS = ("mixed", "apart")
GATHERING = "find d //nothing"


class BaseX:
    """A database of the document as XML, without indexes of texts and attributes; it has those of paths and names."""

    def __init__(self, folder, xml):
        self.folder = folder / "basex"
        self.folder.mkdir(exist_ok=True)
        # It keeps its data and its settings where such a file is.
        (self.folder / ".basexhome").touch()
        settings = ["SET CHOP false", "SET TEXTINDEX false", "SET ATTRINDEX false"]
        script = write(self.folder / "load.bxs", [*settings, f"CREATE DB d {xml}"])
        quiet(["basex", script.name], cwd=self.folder)

    def ask(self, steps, times):
        """What it says that it took to go over the nodes, in seconds, without reading and compiling the query."""
        query = f'db:open("d")/{xpath(steps).replace("//", "descendant::", 1)}'
        query = query.replace("descendant::@", "descendant::*/@")
        least, most = BASEX_RUNS
        told = quiet(["basex", "-z", "-V", f"-r{min(most, max(least, times))}", query], cwd=self.folder)
        parts = re.findall(r"^(?:Evaluating|Printing): ([0-9.]+) ms", told, re.MULTILINE)
        if len(parts) != 2:
            fail(f"BaseX doesn't say what {query} took: {told[-300:]}")
        return sum(map(float, parts)) / 1e3


class Xmlstarlet:
    """Each question a run of its own over the file."""

    def __init__(self, _, xml):
        self.xml = xml

    def ask(self, steps, _):
        command = [shutil.which("xmlstarlet"), "sel", "-t", "-m", xpath(steps), "-o", "x", "-n", str(self.xml)]
        return seconds(command, os.devnull, 1)


OTHERS = {"basex": BaseX, "xmlstarlet": Xmlstarlet}


def xpath(steps):
    return steps.replace("#text", "text()")


def check_command(programs, folder):
    """Each program has to have the command `STORE find`."""
    for program in programs:
        with open(write(folder / "find.script", [GATHERING]), "rb") as given:
            program.begin(64)
            done = subprocess.run(program.find(), stdin=given, capture_output=True)
        if (done.returncode, done.stdout) != (0, b"error no-document\n"):
            fail(f"{program.command} has no command `STORE find`: it ended with {done.returncode}")


def scripts_of(document, folder):
    """What the sessions are given, by their names: those of `run`, and those of `find`."""
    asked = {
        question.name: [GATHERING, *[f"find d {steps}" for steps in question.steps] * question.times]
        for question in document.questions
    }
    asked |= {"open": [], "gather": [GATHERING], "run": [], "export": ["export d"]}
    return {name: write(folder / f"{name.replace(' ', '-')}.script", lines) for name, lines in asked.items()}


def words_of(name):
    return Program.words if name in ("run", "export") else Program.find


def fill(programs, k, document, folder):
    script = write(folder / "load.script", [*load("d", document.lines()), "checkpoint"])
    for program in programs:
        program.begin(k)
        if b"error" in program.answer(script).read_bytes():
            fail(f"{program.command} refuses {script}")


def best_times(programs, scripts):
    """The best time of each session, by its name and the program's."""
    best = {}
    for name, script in scripts.items():
        words = words_of(name)
        times = in_turns(programs, lambda program: seconds(words(program), script, 1), ROUNDS)
        best |= {(name, program): min(taken) for program, taken in times.items()}
    return best


def peak_of(command, script):
    return statistics.median(peak_bytes(command, script) for _ in range(PEAK_RUNS))


def pairs_of(program, plain):
    """How many records the document of a program's store has, and how many pairs of a record and a label."""
    told = quiet([*plain.find(program.store)[:2], "pairs"]).split()
    return int(told[1]), int(told[2])


def taken_of(program, scripts):
    """What a session takes that gathers labels, beside one that opens the store, and beside one that exports the document and so
    keeps as many pages that it read."""
    gathered = peak_of(program.find(), scripts["gather"])
    others = peak_of(program.find(), os.devnull), peak_of(program.words(), scripts["export"])
    return [max(0, gathered - other) for other in others]


def ask_others(document, folder):
    """What the other programs that are installed take for each question, by their names and the question's."""
    present = {name: other for name, other in OTHERS.items() if shutil.which(name)}
    if not present or document.name in MANY_LABELS or not document.questions:
        return {}
    pyx, xml = write(folder / "document.pyx", document.lines()), folder / "document.xml"
    run([sys.executable, str(TOP / "tools" / "xmlpyx"), "out"], pyx, xml)
    asked = {name: other(folder, xml) for name, other in present.items()}
    return {
        (name, question.name): sum(min(other.ask(steps, question.times) for _ in range(OTHER_ROUNDS)) for steps in question.steps)
        for name, other in asked.items()
        for question in document.questions
    }


def shown(seconds):
    return "" if seconds is None else f"{seconds * 1e3:.3f}" if seconds < 0.01 else f"{seconds * 1e3:.1f}"


def print_row(what, k, natix, plain, export, others):
    cells = [shown(natix), shown(plain), f"{natix / plain:.2f}", f"{natix / export:.3f}"]
    print("|", " | ".join([what, str(k), *cells, *(shown(others.get(name)) for name in OTHERS)]), "|", flush=True)


def measure_document(programs, k, document, folder, others):
    """Prints a row for an export, one for gathering, and one for each question; answers what is above what is allowed."""
    natix, plain = programs
    fill(programs, k, document, folder)
    scripts = scripts_of(document, folder)
    for name, script in scripts.items():
        same([program.answer(script, words=words_of(name)) for program in programs], f"{name} of {document.name}, {k}")
    best = best_times(programs, scripts)
    less = lambda name, base, program: best[name, program.name] - best[base, program.name]
    export = [less("export", "run", program) for program in programs]
    gather = [less("gather", "open", program) for program in programs]
    print_row(f"{document.name}: export", k, *export, export[0], {})
    print_row(f"{document.name}: gathering", k, *gather, export[0], {})
    above = [] if gather[0] <= ALLOWED_GATHERING * export[0] else [f"gathering of {document.name} {k}"]
    for question in document.questions:
        mine, its = (less(question.name, "gather", program) / question.times for program in programs)
        beside = {name: others.get((name, question.name)) for name in OTHERS}
        print_row(f"{document.name}: {question.name}", k, mine, its, export[0], beside)
        basex = beside["basex"]
        slow = question.name in RARE and (mine > ALLOWED_RARE * its or (basex is not None and mine >= basex))
        if slow or (question.name == EVERY and mine > ALLOWED_EVERY * export[0]):
            above.append(f"{question.name} of {document.name} {k}")
    return above


def measure_memory(programs, folder):
    """Prints what gathered labels take in memory; answers what is above what is allowed."""
    above = []
    print("\n| Labels of | K | Program | Records | Pairs | Beside opening, MiB | Bytes a pair | Beside an export, MiB | Bytes a pair |")
    print("|---|---:|---|---:|---:|---:|---:|---:|---:|")
    for document in (one for one in DOCUMENTS if one.name in MANY_LABELS):
        scripts = scripts_of(document, folder)
        for k in LIMITS:
            fill(programs, k, document, folder)
            for program in programs:
                records, pairs = pairs_of(program, programs[1])
                taken = taken_of(program, scripts)
                cells = " | ".join(f"{some / 2**20:.2f} | {some / pairs:.1f}" for some in taken)
                print(f"| {document.name} | {k} | {program.name} | {records} | {pairs} | {cells} |", flush=True)
                if program is programs[0] and taken[1] > ALLOWED_BYTES * pairs:
                    above.append(f"memory of {document.name} {k}")
    return above


def measure_finds(programs, folder):
    """Prints tables of questions for nodes by name; answers what is above what is allowed."""
    check_command(programs, folder)
    lacking = [name for name in OTHERS if not shutil.which(name)]
    print(f"\nNot installed: {', '.join(lacking)}." if lacking else "")
    print("| Nodes by name | K | natix, ms | Plain, ms | natix / plain | natix / export | BaseX, ms | xmlstarlet, ms |")
    print("|---|---:|---:|---:|---:|---:|---:|---:|")
    above = []
    for document in DOCUMENTS:
        others = ask_others(document, folder)
        for k in LIMITS:
            above += measure_document(programs, k, document, folder, others)
    above += measure_memory(programs, folder)
    print(f"\nNodes by name, above what is allowed: {', '.join(above) or 'none'}.")
    return above
