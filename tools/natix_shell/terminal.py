"""A terminal: a pager, Ctrl-C, a bar of progress, a prompt, and texts without controls."""

from __future__ import annotations

import contextlib
import io
import os
import re
import shutil
import signal
import subprocess
import sys
import time
from typing import IO, Callable, Iterator, List, Optional, cast

UNSHOWN = re.compile("[\0-\x08\x0b-\x1f\x7f-\x9f\u202a-\u202e\u2066-\u2069\ud800-\udfff]")


class Enough(Exception):
    """Whoever reads wants no more of this."""


def clean(text: str) -> str:
    """A text without what a terminal would take for a control."""
    return UNSHOWN.sub(lambda found: f"\\u{ord(found.group()):04x}", text)


class Break:
    """Ctrl-C: it ends a prompt, and asks what is at work to stop. The third one breaks that off."""

    def __init__(self) -> None:
        self.asked = 0
        self.prompting = False
        signal.signal(signal.SIGINT, self.take)

    def take(self, *_: object) -> None:
        self.asked += 1
        if self.prompting or self.asked > 2:
            raise KeyboardInterrupt

    def check(self) -> None:
        """Ends what gives lines."""
        if self.asked:
            raise Enough("stopped")


class Screen:
    """Standard output: in a terminal without controls that a document may have, and by a pager what is longer than it."""

    def __init__(self, interrupt: Break) -> None:
        self.interrupt = interrupt
        self.is_terminal = sys.stdout.isatty()
        self.has_pages = self.is_terminal and sys.stdin.isatty()
        self.process: Optional[subprocess.Popen[bytes]] = None
        if self.is_terminal:
            cast(io.TextIOWrapper, sys.stdout).reconfigure(errors="backslashreplace")
        else:
            cast(io.TextIOWrapper, sys.stdout).reconfigure(encoding="utf-8", errors="surrogateescape")
        self.start()

    def start(self, is_look: bool = False) -> None:
        """What comes is of another command. What looks are answered is shown by a pager, where it is longer than the screen."""
        self.pager = pager() if is_look and self.has_pages else None
        self.columns, self.height = shutil.get_terminal_size()
        self.waiting: List[str] = []  # what fits on the screen so far
        self.rows = 0

    def line(self, text: str) -> None:
        self.put(text + "\n")

    def put(self, text: str) -> None:
        self.interrupt.check()
        text = clean(text) if self.is_terminal else text
        if self.pager is None:
            sys.stdout.write(text)
        elif self.process is not None:
            self.hand_on(text)
        else:
            self.waiting.append(text)
            self.rows += text.count("\n") + len(text) // self.columns
            if self.rows >= self.height - 1:
                self.process = subprocess.Popen(self.pager, shell=True, stdin=subprocess.PIPE, env={"LESS": "FX", **os.environ})
                self.hand_on(self.taken())

    def hand_on(self, text: str) -> None:
        """Gives a text to the pager."""
        pipe = cast(IO[bytes], cast("subprocess.Popen[bytes]", self.process).stdin)
        try:
            pipe.write(text.encode("utf-8", "backslashreplace"))
            pipe.flush()
        except BrokenPipeError:
            raise Enough

    def taken(self) -> str:
        text, self.waiting = "".join(self.waiting), []
        return text

    def end(self) -> None:
        """Writes what waits, and waits until the pager is left."""
        sys.stdout.write(self.taken())
        sys.stdout.flush()
        process, self.process = self.process, None
        if process is None:
            return
        kept = signal.signal(signal.SIGINT, signal.SIG_IGN)  # Ctrl-C is the pager's
        try:
            with contextlib.suppress(BrokenPipeError):
                cast(IO[bytes], process.stdin).close()
            process.wait()
        finally:
            signal.signal(signal.SIGINT, kept)


def pager() -> Optional[str]:
    """The command that shows what is longer than the screen: $PAGER, or one that is there."""
    named = os.environ.get("PAGER")
    if named is not None:
        return named if named not in ("", "cat") else None
    return shutil.which("less") or shutil.which("more")


class Progress:
    """A bar while a document goes in or out, in a terminal alone, once that takes longer than a moment."""

    def __init__(self, screen: Screen, what: str, bytes_: int, nodes: int) -> None:
        self.screen, self.what, self.bytes, self.nodes = screen, what, bytes_, nodes
        self.begun = time.monotonic()
        self.drawn = False

    def __call__(self, done: int, nodes: int) -> bool:
        """Draws; whether to stop."""
        seconds = time.monotonic() - self.begun
        if self.screen.is_terminal and seconds > 0.3:
            share = min(1.0, done / self.bytes if self.bytes else nodes / self.nodes if self.nodes else 0.0)
            bar = "#" * int(20 * share)
            size = f"{done / 1e6:.1f} MB" + (f" of {self.bytes / 1e6:.1f}" if self.bytes else "")
            text = f"{self.what[:30]} [{bar:<20}] {share:4.0%}  {size}  {done / 1e6 / seconds:.1f} MB/s"
            sys.stdout.write("\r" + clean(text)[:self.screen.columns - 1] + "\x1b[K")
            sys.stdout.flush()
            self.drawn = True
        return self.screen.interrupt.asked > 0

    def clear(self) -> None:
        if self.drawn:
            sys.stdout.write("\r\x1b[K")
            sys.stdout.flush()


class Prompt:
    """Lines from a terminal, with completion and a history in a file."""

    def __init__(self, interrupt: Break, complete: Callable[[str, int], Optional[str]], history: str) -> None:
        import readline
        self.readline, self.interrupt, self.history = readline, interrupt, history
        readline.set_completer(complete)
        readline.set_completer_delims(" ")
        readline.parse_and_bind("tab: complete")
        readline.set_history_length(1000)
        try:
            readline.read_history_file(history)
            readline.write_history_file(history)  # the last 1,000 lines
        except OSError:
            pass

    def lines(self, text: Callable[[], str]) -> Iterator[str]:
        """The lines up to Ctrl-D, each behind this text."""
        while True:
            line = self.ask(text())
            if line is None:
                return
            if line.strip():
                self.keep()
            yield line

    def ask(self, text: str) -> Optional[str]:
        self.interrupt.asked, self.interrupt.prompting = 0, True
        try:
            return input(clean(text))
        except KeyboardInterrupt:
            print()
            return ""
        except EOFError:
            print()
            return None
        finally:
            self.interrupt.asked, self.interrupt.prompting = 0, False

    def keep(self) -> None:
        """Adds the last line to the history, which a shell that is killed then has."""
        try:
            os.close(os.open(self.history, os.O_WRONLY | os.O_CREAT | os.O_APPEND, 0o600))
            self.readline.append_history_file(1, self.history)
        except OSError:
            pass
