"""Why a store can't be opened, in words for whoever wanted that."""

from __future__ import annotations

import fcntl
import os
from typing import List, Optional

MAGIC = b"NATIXST1"  # the first bytes of a store
SHOWN = 10  # stores that are named
LITTLE_ROOM = 1 << 20  # bytes; the write that failed may have been of more than what was left


def explain(path: str) -> Optional[str]:
    """Why natix can't use the files of a store, as far as that shows from outside."""
    folder = os.path.dirname(path) or "."
    if not os.path.isdir(folder):
        return f"there is no folder {folder}"
    if not os.path.exists("/proc/self/fd"):
        return "there is no /proc, without which natix can't tell the files of a store from its own input and output"
    for file in (path, path + ".log"):
        if os.path.isdir(file):
            return f"{file} is a folder"
        if os.path.exists(file):
            if not os.access(file, os.R_OK | os.W_OK):
                return f"there is no right to read and write {file}"
            if in_use(file):
                return f"{path} is in use by {holder(file)}"
        elif not os.access(folder, os.W_OK):
            return f"there is no right to make files in {folder}"
    return foreign(path) or little_room(path)


def little_room(path: str) -> Optional[str]:
    """How little room the disk of a store has, where that may be why a write failed."""
    try:
        found = os.statvfs(os.path.dirname(path) or ".")
    except OSError:
        return None
    left = found.f_bavail * found.f_frsize
    return f"the disk that has {path} has {left:,} bytes left" if left < LITTLE_ROOM else None


def foreign(path: str) -> Optional[str]:
    """What is wrong with the files of a store that nobody has, as far as their names and first bytes show."""
    log = path + ".log"
    if os.path.islink(log):
        return f"{log} is a symbolic link, and not the log itself"
    for file in (path, log):
        if os.path.exists(file) and os.stat(file).st_nlink > 1:
            return f"{file} has a second name, by a hard link"
    begin, gate = first_bytes(path), first_bytes(log)[:1]
    if begin and begin != MAGIC and gate != b"\1":
        return f"{path} is no store"
    if begin and not gate:
        return f"{log} is missing or empty, and may have held what was acknowledged: docs/FORMATS.md says how to go on"
    if gate not in (b"", b"\0", b"\1"):
        return f"{log} is no log of a store"
    return None


def first_bytes(path: str) -> bytes:
    try:
        with open(path, "rb") as file:
            return file.read(len(MAGIC))
    except OSError:
        return b""


def missing(path: str) -> str:
    """What to say where no store is, with those that are beside it."""
    folder = os.path.dirname(path)
    if os.path.exists(path):
        return f"{path} is no store"
    if folder and not os.path.isdir(folder):
        return f"there is no store {path}, nor a folder {folder}"
    found = stores_in(folder)
    beside = ""
    if found:
        more = f" and {len(found) - SHOWN:,} more" if len(found) > SHOWN else ""
        beside = f"; beside it {'are' if len(found) > 1 else 'is'} {', '.join(found[:SHOWN])}{more}"
    return f"there is no store {path}{beside}"


def stores_in(folder: str) -> List[str]:
    """The stores in a folder: files with a log beside them."""
    try:
        names = set(os.listdir(folder or "."))
    except OSError:
        return []
    logs = {name for name in names if os.path.exists(os.path.realpath(os.path.join(folder, name)) + ".log")}
    return sorted(os.path.join(folder, name) for name in logs if not name.endswith(".log") and os.path.isfile(os.path.join(folder, name)))


def lock_holder(path: str) -> Optional[int]:
    """The process that has a file locked, as the system lists it."""
    found = os.stat(path)
    place = f"{os.major(found.st_dev):02x}:{os.minor(found.st_dev):02x}:{found.st_ino}"
    try:
        with open("/proc/locks", encoding="ascii") as locks:
            for words in (line.split() for line in locks):
                if len(words) > 5 and words[1] == "FLOCK" and words[5] == place:
                    return int(words[4])
    except (OSError, ValueError):
        pass
    return None


def in_use(path: str) -> bool:
    """Whether another process has a file locked. The lock is tried only where the system's list has none."""
    if lock_holder(path) is not None:
        return True
    try:
        with open(path, "rb") as file:
            fcntl.flock(file, fcntl.LOCK_SH | fcntl.LOCK_NB)
    except BlockingIOError:
        return True
    except OSError:
        pass
    return False


def holder(path: str) -> str:
    """The process that has a file locked, as a person would look for it."""
    number = lock_holder(path)
    if not number or number < 0:
        return "another process"
    name = first_line(f"/proc/{number}/comm")
    above = first_line(f"/proc/{number}/stat").rpartition(")")[2].split()[1:2]
    script = next((os.path.basename(word) for word in first_line(f"/proc/{above[0]}/cmdline").split("\0")[:3]
                   if os.path.basename(word).startswith("natix-")), None) if above else None
    by = f", for {script}, process {above[0]}" if script else ""
    return f"process {number}" + (f" ({name}{by})" if name else "")


def first_line(path: str) -> str:
    try:
        with open(path, encoding="utf-8", errors="replace") as file:
            return file.readline().rstrip("\n")
    except OSError:
        return ""
