"""The calls that a program makes to the files of a store, by `strace`, and the images that a crash of the machine may
leave of these: for trials/test-disk and trials/test-store."""

import copy
import os
import re
import subprocess

SECTOR = 512
# The chances of a sector of a torn write to be there.
CHANCES = (0.99, 0.97, 0.9, 0.5, 0.1, 0.02)
AREAS = ("pages", "log")
CALL = re.compile(r'(\w+)\((\d+)<([^>]*)>(?:, "([^"]*)")?(?:, (\d+))?(?:, (\d+))?')
SYNCS = ("fdatasync", "fsync")
KINDS = "trace=openat,pread64,pwrite64,write,fdatasync,fsync,ftruncate"


# Traces.


def unescape(text):
    return bytes(int(digits, 16) for digits in re.findall(r"\\x(..)", text))


def trace(store, command, content=b"", **how):
    """Runs a command over a store; its status, and its calls: each the name, the file, and what the call has of bytes
    and place. `give` is bytes of standard output."""
    folder = os.path.dirname(store)
    out = store + ".trace"
    done = subprocess.run(["strace", "-y", "-xx", "-s", "1000000", "-e", KINDS, "-o", out, *command], input=content, stdout=subprocess.PIPE, stderr=subprocess.PIPE, **how)
    with open(out) as file:
        lines = list(file)
    os.unlink(out)
    names = {store: "pages", store + ".log": "log", folder: "folder"}
    return done.returncode, [call for call in (call_of(line, names) for line in lines) if call]


def call_of(line, names):
    """The call of a line of a trace, where it is one of a store's files or gives output."""
    if "O_CREAT" in line and " = -1" not in line:
        return "make", names[unescape(re.search(r'"([^"]*)"', line).group(1)).decode()]
    found = CALL.match(line)
    if not found or found.group(1) == "openat" or (" = -1" in line and found.group(1) not in SYNCS):
        return None
    name, number, path, content, length, at = found.groups()
    if name == "write" and number == "1":
        return "give", unescape(content)
    area = names.get(unescape(path).decode())
    if area is None:
        return None
    if name in SYNCS:
        return "lose" if " = -1" in line else "sync", area
    if name == "ftruncate":
        return "lengthen", area, int(length)
    kind = {"pwrite64": "write", "pread64": "read"}[name]
    return kind, area, int(at), unescape(content)


# What stands in both files.


def applied(content, at, written):
    """A file after a write; what lies between its end and the place is zero."""
    content = content + bytes(max(0, at - len(content)))
    return content[:at] + written + content[at + len(written) :]


class Disk:
    """Both files of a store: what of them is durable, with the writes since. A file whose name isn't durable may be
    gone after a crash, whatever was synced of it."""

    def __init__(self, made=()):
        self.durable = {area: b"" for area in AREAS}
        self.unsynced = {area: [] for area in AREAS}
        self.named = {area: area in made for area in AREAS}

    def after(self, call):
        """The disk after a call."""
        disk = copy.copy(self)
        disk.durable, disk.unsynced, disk.named = dict(self.durable), dict(self.unsynced), dict(self.named)
        kind, area, *rest = call
        if kind == "write":
            disk.unsynced[area] = self.unsynced[area] + ([] if self.has(area, *rest) else [tuple(rest)])
        elif kind == "make":
            disk.named[area] = False
        elif kind == "lengthen":
            disk.unsynced[area] = self.unsynced[area] + [(rest[0], b"")]
        elif kind == "sync" and area == "folder":
            disk.named = {area: True for area in AREAS}
        elif kind == "sync":
            disk.durable[area] = self.held(area)
            disk.unsynced[area] = []
        elif kind == "lose" and area != "folder":
            # The system keeps in memory what a sync that failed has lost, and no later sync writes it.
            disk.unsynced[area] = []
        return disk

    def has(self, area, at, written):
        """Whether a byte is written that stands there: a session renews one when it begins, and none of it can become another one."""
        return len(written) == 1 and self.held(area)[at : at + 1] == written

    def held(self, area):
        """A file as a process reads it."""
        content = self.durable[area]
        for at, written in self.unsynced[area]:
            content = applied(content, at, written)
        return content

    def files(self):
        return tuple(self.held(area) for area in AREAS)

    def is_settled(self):
        """Whether a crash leaves one image."""
        return not any(self.unsynced.values()) and all(self.named.values())

    def image(self, keeps, draw):
        """What a crash leaves where of each area the unsynced writes are kept, lost or, for None, torn."""
        return tuple(self.left(area, keeps[area], draw) for area in AREAS)

    def left(self, area, keeps, draw):
        if keeps:
            return self.held(area)
        if not self.named[area] and (keeps is False or draw.random() < 0.2):
            return b""
        return self.durable[area] if keeps is False else torn(self.durable[area], self.unsynced[area], draw)

    def images(self, draw, mixtures):
        """Images that a crash may leave: all that wasn't synced kept or lost, also of one file alone, and so many
        mixtures."""
        if self.is_settled():
            return [self.files()]
        whole = [{"pages": pages, "log": log} for pages in (True, False) for log in (True, False)]
        mixed = [{area: draw.choice((True, False, None, None, None)) for area in AREAS} for _ in range(mixtures)]
        return [self.image(keeps, draw) for keeps in whole + mixed]


def torn(durable, unsynced, draw):
    """A file of which each write since the last sync is kept, lost or torn: then each of its sectors is there by a
    chance, and else lost or perhaps other bytes."""
    content = durable
    for at, written in unsynced:
        there, others = draw.choice((1, 0, *CHANCES)), draw.random() < 0.5
        for begin in range(0, max(1, len(written)), SECTOR):
            sector = written[begin : begin + SECTOR]
            if draw.random() < there:
                content = applied(content, at + begin, sector)
            elif others:
                content = applied(content, at + begin, draw.choice((b"", b"", draw.randbytes(len(sector)), b"\1" * len(sector))))
    if draw.random() < 0.2:
        content = content[: max(len(durable), draw.randint(0, len(content)))]
    return content


# Moments.


def moments(disk, calls, draw):
    """The moments at which these calls may be cut off, reads aside: how many of them were done, and the disk then. Of a
    write that is cut off a first part may be there."""
    yield 0, disk
    for begun, call in enumerate(calls, 1):
        if call[0] == "read":
            continue
        if call[0] == "write" and len(call[3]) > 1:
            yield begun - 1, disk.after((*call[:3], call[3][: draw.randrange(1, len(call[3]))]))
        if call[0] != "give":
            disk = disk.after(call)
        yield begun, disk


def opening(calls):
    """How many calls stand before the first one that reads more than the log's first byte, writes or gives anything."""
    return next((at for at, call in enumerate(calls) if call[0] not in ("make", "sync") and not is_first_look(call)), len(calls))


def is_first_look(call):
    """Whether it reads the log's first byte, which says whether both files may be a store's."""
    return call[:3] == ("read", "log", 0) and len(call[3]) == 1


def without_syncs(calls):
    """The same calls by a program that syncs nothing when it opens a store."""
    begin = opening(calls)
    return [call for call in calls[:begin] if call[0] != "sync"] + calls[begin:]


def given(calls):
    """What these calls gave of output."""
    return b"".join(call[1] for call in calls if call[0] == "give")
