#!/usr/bin/env python3
"""What `ship` and `apply` make of the two files of a store, by docs/FORMATS.md alone, for trials/test-ship; and a program that does it.

    trials/ship_model.py STORE ship FROM > STREAM
    trials/ship_model.py STORE apply < STREAM

As a program it stands in for these two commands of natix: it locks both files, syncs and commits as that page says, so it may be
killed at any moment, and it ends with the same lines and statuses. Nothing of it is proved, and a store is held in memory. It
takes a store whose page 0 is a header for one, and looks at no other page; `apply` alone, where STORE has no page, at which ones the log has.
"""

import fcntl
import io
import os
import re
import signal
import struct
import sys
from typing import NamedTuple

import driven
from driven import MOST_PAGES, PAGE

ENTRY = 4 + PAGE
NUMBERS = 2**64
MOST_INPUT = 4_294_967_296
LONGEST_LOG = 67_108_864
SAID = {1: "usage: natix STORE COMMAND [ARG]...", 3: "disk fault", 4: "read fault", 5: "write fault", 6: "out of memory", 7: "not a store", 9: "too much input"}


class NotGood(Exception):
    """There is no good group where bytes of a stream are left."""


class Outcome(NamedTuple):
    """How a command ends: its status, what it writes, and its line on standard error."""

    status: int
    output: bytes
    said: str


class Ended(Exception):
    """A command ends with this status, and with its line on standard error or on standard output."""

    def __init__(self, status, said=None, line=""):
        super().__init__(said)
        self.status, self.said, self.line = status, SAID.get(status, "") if said is None else said, line


class Header(NamedTuple):
    number: int
    pages: int


def header_of(page):
    """The header that a page is, None where it is none."""
    form, k, target, tolerance, limit, pages, _, _, number, _, length = struct.unpack(">HHHHLLLLQLQ", page[8:52])
    in_range = form in (1, 2) and 1 <= k <= 256 and target <= 100 and tolerance <= 256 and 64 <= limit <= MOST_PAGES and 2 <= pages <= limit
    return Header(number, pages) if page.startswith(b"NATIXST1") and in_range and length >= 8 and not any(page[52:]) else None


def last_of(stands):
    """The header's number of a store's pages, None where there is no page. Else they have to be of a store."""
    if not stands:
        return None
    if not stands.get(0, b"").startswith(b"NATIXST1"):
        raise Ended(7)
    header = header_of(stands[0])
    if header is None:
        raise Ended(8, "damaged page 0")
    return header.number


def refuse_lost(area, stands):
    """Where the file of pages has none, the log has to have each page that the header says."""
    if stands and len(area) < PAGE:
        for page in range(header_of(stands[0]).pages):
            if page not in stands:
                raise Ended(8, f"damaged page {page}")


# The stream.


def stream_bytes(number, pages):
    """A group of a stream: that of a log without its gates."""
    return driven.group_bytes(number, pages)[:-1]


def next_group(take):
    """The next group of a stream, as its number and its pages, by what gives so many bytes, or fewer at the end; None where no
    byte is left."""
    head = take(12)
    if not head:
        return None
    number, count = struct.unpack(">QL", head) if len(head) == 12 else (0, 0)
    if not 1 <= count <= MOST_PAGES:
        raise NotGood
    pages, last = {}, -1
    while len(pages) < count:
        entry = take(ENTRY)
        page = int.from_bytes(entry[:4], "big")
        if len(entry) < ENTRY or not last < page < MOST_PAGES or (last < 0 and not begins_group(page, entry[4:], number)):
            raise NotGood
        pages[page] = entry[4:]
        last = page
    return number, pages


def begins_group(page, content, number):
    header = header_of(content)
    return page == 0 and header is not None and header.number == number


def refusal_of(last, number, pages):
    """The line by which a good group is refused, None where it is the next one of a store that is at `last`, or None where none is."""
    if last is None:
        return None if list(pages) == list(range(header_of(pages[0]).pages)) else f"refused base {number}"
    if number == (last + 1) % NUMBERS:
        return None
    return f"refused {'repeat' if number <= last else 'gap'} {number} {last}"


# The commands, over the bytes of both files.


def stream_from(files, start):
    """The groups that `ship` gives of a store: all pages, where `start` is None, or those of the log from a number on."""
    stands = driven.replay(*files)
    if 0 not in stands:
        raise Ended(7)
    last = last_of(stands)
    if start is None:
        pages = range(header_of(stands[0]).pages)
        for page in pages:
            if page not in stands:
                raise Ended(8, f"damaged page {page}")
        return [(last, {page: stands[page] for page in pages})]
    groups = driven.read_log(files[1])[0]
    for at, (number, _) in enumerate(groups):
        if number == start:
            return groups[at:]
    if start != (last + 1) % NUMBERS:
        raise Ended(2, "", f"refused no-group {start} {last}\n")
    return []


def shipped(files, start):
    """What `ship` does."""
    try:
        return Outcome(0, b"".join(stream_bytes(*group) for group in stream_from(files, start)), "")
    except Ended as end:
        return Outcome(end.status, end.line.encode(), end.said)


def applied(files, stream):
    """What `apply` does, and what the pages of the store are before the first group and after each that it takes."""
    stands, output, take = driven.replay(*files), b"", io.BytesIO(stream).read
    states, at = [stands], 0
    try:
        last = last_of(stands)
        refuse_lost(files[0], stands)
        while True:
            group = next_group(take)
            if group is None:
                return Outcome(0, output, ""), states
            line = refusal_of(last, *group)
            if line:
                return Outcome(2, output + line.encode() + b"\n", ""), states
            last, pages = group
            stands = stands | pages
            states.append(stands)
            output += b"ok %d\n" % last
            at += 12 + ENTRY * len(pages)
    except NotGood:
        return Outcome(2, output + b"refused stream %d\n" % at, ""), states
    except Ended as end:
        return Outcome(end.status, output, end.said), states


# The program.


class Files:
    """Both files of a store, locked, and made durable as they are found."""

    def __init__(self, store):
        try:
            self.area, self.log = self.locked(store), self.locked(store + ".log")
            for file in (self.area, self.log):
                os.fsync(file)
            folder = os.open(os.path.dirname(store) or ".", os.O_RDONLY | os.O_DIRECTORY)
            os.fsync(folder)
            os.close(folder)
            self.content = tuple(os.pread(file, os.fstat(file).st_size, 0) for file in (self.area, self.log))
        except OSError:
            raise Ended(3) from None
        self.stands, self.end = driven.replay(*self.content), driven.read_log(self.content[1])[1]
        self.logged = {page for _, pages in driven.read_log(self.content[1])[0] for page in pages}

    @staticmethod
    def locked(path):
        file = os.open(path, os.O_RDWR | os.O_CREAT, 0o666)
        fcntl.flock(file, fcntl.LOCK_EX | fcntl.LOCK_NB)
        return file

    def write(self, file, offset, content):
        """Writes and makes it durable."""
        try:
            while content:
                done = os.pwrite(file, content, offset)
                offset, content = offset + done, content[done:]
            os.fdatasync(file)
        except OSError:
            raise Ended(3) from None

    def commit(self, number, pages):
        if self.end > LONGEST_LOG:
            self.checkpoint()
        if os.pread(self.log, 1, self.end) in (b"", b"\1"):
            self.write(self.log, self.end, b"\0")
        group = driven.group_bytes(number, pages)
        self.write(self.log, self.end + 1, group)
        self.write(self.log, self.end, b"\1")
        self.end += len(group)
        self.stands.update(pages)
        self.logged.update(pages)

    def checkpoint(self):
        for page in sorted(self.logged):
            self.write(self.area, page * PAGE, self.stands[page])
        self.write(self.log, 0, b"\0")
        self.end, self.logged = 0, set()


class Input:
    """Standard input. What a `take` gives less than was asked for ends it."""

    def __init__(self):
        self.taken = 0

    def take(self, count):
        parts = []
        while count:
            if self.taken == MOST_INPUT:
                raise Ended(9)
            try:
                part = os.read(0, min(count, 65536, MOST_INPUT - self.taken))
            except OSError:
                raise Ended(4) from None
            if not part:
                break
            parts.append(part)
            count, self.taken = count - len(part), self.taken + len(part)
        return b"".join(parts)


def emit(content):
    try:
        while content:
            content = content[os.write(1, content[:65536]):]
    except OSError:
        raise Ended(5) from None


def ship(store, word):
    start = None if word == "all" else int(word)
    for group in stream_from(Files(store).content, start):
        emit(stream_bytes(*group))


def apply(store):
    files, source = Files(store), Input()
    last, at = last_of(files.stands), 0
    refuse_lost(files.content[0], files.stands)
    while True:
        try:
            group = next_group(source.take)
        except NotGood:
            raise Ended(2, "", f"refused stream {at}\n") from None
        if group is None:
            return
        line = refusal_of(last, *group)
        if line:
            raise Ended(2, "", line + "\n")
        last, pages = group
        files.commit(last, pages)
        emit(b"ok %d\n" % last)
        at += 12 + ENTRY * len(pages)


def is_start(word):
    return word == "all" or (re.fullmatch(r"0|[1-9][0-9]{0,19}", word) is not None and int(word) < NUMBERS)


def main(words):
    try:
        if len(words) < 2 or words[0] == "_" or any(not word or word.startswith("-") for word in words):
            raise Ended(1)
        if words[1] == "ship" and len(words) == 3 and is_start(words[2]):
            ship(words[0], words[2])
        elif words[1:] == ["apply"]:
            apply(words[0])
        else:
            raise Ended(1)
    except Ended as end:
        try:
            emit(end.line.encode())
        except Ended as failed:
            end = failed
        if end.said:
            print(end.said, file=sys.stderr)
        return end.status
    except MemoryError:
        print(SAID[6], file=sys.stderr)
        return 6
    return 0


if __name__ == "__main__":
    signal.signal(signal.SIGINT, signal.SIG_DFL)
    sys.exit(main(sys.argv[1:]))
