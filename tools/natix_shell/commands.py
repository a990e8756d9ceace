"""The commands of the shell: what their words are, what they do, and how a line is carried out."""

from __future__ import annotations

import shlex
from typing import List, NamedTuple

from .edits import Edits
from .looks import Looks
from .moves import Moves
from .session import Wrong


class Row(NamedTuple):
    """A command: what its words are, and what it does. A plain one takes what stands behind its name as it is."""

    words: str
    does: str
    more: str = ""
    plain: bool = False


HELP = {
    "ls": Row("[--json] [WHERE]", "lists the documents, or the children of a node, each with its position"),
    "cd": Row("[WHERE]", "moves the cursor to a node; without a word, away from all documents", "`cd ..` goes up."),
    "tree": Row("[--json] [-N] [WHERE]", "shows a node and all below it, with their positions, or N levels of them"),
    "show": Row("[WHERE]", "shows a node as XML, or the content of a text, an attribute or an instruction"),
    "get": Row("[WHERE]", "shows one node whole, on one line"),
    "xpath": Row("[--json] NAME XPATH", "finds nodes, and shows the path and the XML of each",
                 "Names and one equality with an attribute, as //item[@id='7']/name, are asked of the store, where a name is one as it is written. "
                 "All else is asked of lxml, over an export of the document, and the shell says so.", True),
    "find": Row("[--json] NAME STEPS", "finds nodes by name, as //item/#text, and shows the path of each",
                "Steps are those of `natix STORE find`.", True),
    "load": Row("[-f] [--keep] [--as NAME] [--json] FILE..", "keeps XML files as documents, of the files' names",
                "-f replaces documents that are there, each by one transaction; one whose file is refused stays. --keep keeps comments and the document type. A file whose name "
                "ends with .pyx has PYX; - is standard input. Quote names with spaces. Ctrl-C stops it, and nothing is kept of the file at work."),
    "put": Row("[--keep] NAME FILE", "keeps an XML file as the document NAME, in place of the one of that name where there is one",
               "It is one transaction: whatever comes between, the one or the other is there."),
    "save": Row("NAME FILE", "writes a document to an XML file, whole or not at all; - is standard output",
                "A file that is there is replaced. One whose name ends with .pyx gets PYX. Ctrl-C stops it."),
    "rm": Row("NAME..", "forgets documents"),
    "mv": Row("NAME NEW", "gives a document another name"),
    "cp": Row("NAME NEW", "copies a document"),
    "insert": Row("WHERE LINE", "puts a node there; those that stood there and behind it move on",
                  "LINE is `(NAME` for an empty element, `-CONTENT` for a text, `@NAME CONTENT` or `?NAME CONTENT`. In a content \\n, \\t, "
                  "\\r and \\\\ stand for what they do in C. WHERE ends with a position; the number of children is behind the last one.", True),
    "delete": Row("WHERE", "takes a node away, and all below it"),
    "retext": Row("WHERE CONTENT", "gives a text, an attribute or an instruction another content", "", True),
    "graft": Row("[--keep] WHERE XML", "puts nodes there with all below them; those that stood there and behind it move on",
                 "XML is any that an element can have, as <a>b</a>text<c/>, or without a < the name of a file that has some; - is standard input. "
                 "--keep keeps comments.", True),
    "replace": Row("[--keep] WHERE XML", "puts nodes in the place of one, and of all below it", "XML is that of `graft`.", True),
    "move": Row("WHERE WHERE", "takes a node with all below it before the node that is at the other place now, or behind the last one",
                "The second WHERE ends with a position; a path without a document is one of the first WHERE's."),
    "copy": Row("WHERE WHERE", "puts what stands at the first place, with all below it, to the other one once more"),
    "relabel": Row("WHERE NAME", "gives an element, an attribute or an instruction another name"),
    "begin": Row("", "begins a transaction: the changes up to `commit` are carried out as one, or not at all",
                 "Until then looks show the documents as the transaction makes them, and the store has nothing of it. A command that is refused is "
                 "none of it; in a script it ends the shell, or with --go-on lets the `commit` be refused."),
    "commit": Row("", "carries a transaction out, as one"),
    "rollback": Row("", "leaves a transaction without carrying it out"),
    "undo": Row("", "takes the last edit back, or the last transaction as a whole",
                "Each edit of this session can be taken back, one after the other, but where what was there before has more than 4 MiB; of those before "
                "such a one none is known."),
    "layout": Row("[--json] [NAME]", "lists the parts in which a document is stored, each with its weight"),
    "rule": Row("PARENT CHILD ENTRY", "says how children of a label stand below parents of a label: standalone, cluster or free",
                "A label is the name of an element, #text, @ and the name of an attribute, or ? and that of an instruction; a parent may be #doc."),
    "rules": Row("[--json]", "lists the rules"),
    "checkpoint": Row("", "empties the store's log"),
    "dump": Row("[FILE]", "writes all documents and rules as one text, to standard output where no file is named"),
    "restore": Row("[FILE]", "makes a store of such a text", "So: natix-shell --create 256 NEW restore < FILE."),
    "compact": Row("[--k K] NEW", "makes a new store of all documents and rules, checked, and says both sizes",
                   "Where the store's name is a symbolic link it leads to NEW then."),
    "backup": Row("FILE", "writes all pages of the store as they are now to one file; - is standard output"),
    "restore-backup": Row("[FILE]", "makes a store of such a file", "So: natix-shell NEW restore-backup FILE."),
    "help": Row("[COMMAND]", "lists the commands, or says more of one"),
    "quit": Row("", "ends the shell, as Ctrl-D does"),
}
OTHER_WORDS = {"drop": "rm", "exit": "quit"}
OUTSIDE = ("undo", "checkpoint", "dump", "compact", "backup")  # what a transaction doesn't have
WHERES = """WHERE is the name of a document and a path, or once `cd` went into a document a path alone, from the cursor on. A path goes by
positions from 0 on, `/0/2`, which begin at the document's root, or without the first / at the cursor; by labels, `item` or
`@lang`; of several children of one label `item[2]` is the second one, counted from 1 as in XPath; and `..` is upwards. In a
document NAME and a path still lead elsewhere."""


def method(name: str) -> str:
    return "do_" + name.replace("-", "_")


def split_words(words: str) -> List[str]:
    try:
        return shlex.split(words)
    except ValueError as error:
        raise Wrong(f"the quotes: {error}")


class Shell(Looks, Edits, Moves):
    """Carries out commands."""

    def run(self, line: str) -> bool:
        """Carries out a line; whether to go on."""
        word, _, rest = line.lstrip().partition(" ")  # spaces at the end may be of a content
        if not word or word.startswith("#"):
            return True
        name = self.command(word)
        if name == "quit":
            return False
        self.carry_out(name, rest.lstrip() if HELP[name].plain else split_words(rest))
        return True

    def run_words(self, words: List[str]) -> None:
        """Carries out a command whose words are apart."""
        name, rest = self.command(words[0]), words[1:]
        if HELP[name].plain and HELP[name].words.startswith("[--json]") and rest[-1:] == ["--json"]:
            rest = ["--json", *rest[:-1]]
        if name != "quit":
            self.carry_out(name, " ".join(rest) if HELP[name].plain else rest)

    def command(self, word: str) -> str:
        name = OTHER_WORDS.get(word, word)
        if name not in HELP:
            near = [other for other in HELP if other.startswith(word)]
            raise Wrong(f"there is no command `{word}`" + (f": {', '.join(near)}?" if near else "; `help` lists them"))
        return name

    def carry_out(self, name: str, words: "str | List[str]") -> None:
        if self.session.pending is not None and name in OUTSIDE:
            raise Wrong(f"`{name}` stands outside of a transaction: `commit` or `rollback` ends this one")
        self.screen.start(name == "help" or hasattr(Looks, method(name)))
        try:
            getattr(self, method(name))(words)
        finally:
            self.screen.end()

    def do_restore(self, words: List[str]) -> None:
        raise Wrong("that makes a new store: natix-shell --create 256 NEW restore < FILE")

    def do_restore_backup(self, words: List[str]) -> None:
        raise Wrong("that makes a new store: natix-shell NEW restore-backup FILE")

    def do_help(self, words: List[str]) -> None:
        if words and words[0] in HELP:
            row = HELP[words[0]]
            self.screen.line(f"{words[0]} {row.words}".rstrip() + f": {row.does}." + (f" {row.more}" if row.more else ""))
            if "WHERE" in row.words:
                self.screen.line(WHERES)
            return
        for name, row in HELP.items():
            self.screen.line(f"  {f'{name} {row.words}':<26} {row.does}")
        self.screen.line(WHERES)
