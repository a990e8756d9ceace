"""The files of a store that nx_wal_driver fills, read and made without it: for trials/test-kills and trials/test-disk."""

import functools
import struct
import subprocess

from harness import DRIVER

PAGE = 8192
MOST_PAGES = 16_777_216


@functools.lru_cache(maxsize=10_000)
def page_bytes(page, group, seed):
    """The page that a group of a run with this seed writes."""
    return b"".join(b"NATIXST1" + struct.pack(">QQLL", seed, group, page, unit) for unit in range(PAGE // 32))


def stamp_of(content):
    """The number, group and seed that a page says, None where a byte of it is wrong."""
    seed, group, page = struct.unpack(">QQL", content[8:28])
    return (page, group, seed) if content == page_bytes(page, group, seed) else None


def pages_of(group, seed, pages, count):
    """The numbers of the pages that a group writes: page 0 and others behind each other, as on a ring."""
    if pages == 1:
        return [0]
    first = (group * 7919 + seed) % 2**64 % (count - 1)
    return [0] + [1 + (first + at) % (count - 1) for at in range(1, pages)]


def group_bytes(number, pages):
    """A group of the log behind its gate, with the closed gate of the next one."""
    entries = b"".join(struct.pack(">L", page) + pages[page] for page in sorted(pages))
    return struct.pack(">QL", number, len(pages)) + entries + b"\0"


def read_log(log):
    """The groups of a log, each as its number and its pages, and where the log ends."""
    groups, at = [], 0
    while True:
        if log[at : at + 1] != b"\1" or len(log) < at + 13:
            return groups, at
        number, count = struct.unpack(">QL", log[at + 1 : at + 13])
        end = at + 13 + (4 + PAGE) * count
        if not 1 <= count <= MOST_PAGES or len(log) <= end:
            return groups, at
        places = range(at + 13, end, 4 + PAGE)
        numbers = [struct.unpack(">L", log[place : place + 4])[0] for place in places]
        if numbers != sorted(set(numbers)) or numbers[-1] >= MOST_PAGES:
            return groups, at
        groups.append((number, {page: log[place + 4 : place + 4 + PAGE] for page, place in zip(numbers, places)}))
        at = end


def replay(pages, log):
    """The pages that both files stand for."""
    stands = {at // PAGE: pages[at : at + PAGE] for at in range(0, len(pages) - PAGE + 1, PAGE)}
    for _, changed in read_log(log)[0]:
        stands.update(changed)
    return stands


def read(path):
    """The bytes of a file, none where it isn't there."""
    try:
        with open(path, "rb") as file:
            return file.read()
    except FileNotFoundError:
        return b""


def files(store):
    return read(store), read(store + ".log")


def may_be_own(area, log):
    """Whether these may be the bytes of both files of one store; all others are refused before a byte is written."""
    return log[:1] in (b"", b"\0", b"\1") and (not area or log[:1] == b"\1" or (log[:1] == b"\0" and len(area) >= PAGE))


def drive(store, *words, **how):
    """Runs the driver to its end; its status, and the lines that it gave."""
    done = subprocess.run([DRIVER, store, *map(str, words)], stdout=subprocess.PIPE, stderr=subprocess.PIPE, **how)
    return done.returncode, done.stdout.decode().splitlines(), done.stderr.decode().strip()


def dumped(store):
    """The stamp of each page by `dump`; None where a page is broken or missing, or there is no store."""
    status, lines, _ = drive(store, "dump")
    if status != 0:
        return None
    stamps = {}
    for line in lines[1:]:
        words = line.split()
        if words[2] != "holds":
            return None
        stamps[int(words[1])] = (int(words[3]), int(words[5]), int(words[7]))
    return stamps


def sample():
    """The bytes of both files in crates/nx_wal_driver/data, on which the gate runs `dump`: an area of four
    pages, the last of them broken, and a rest that is no page; a log of two groups, the second with a page
    behind the area's end, and behind its closed gate an older group, which doesn't count."""
    area = [page_bytes(page, 3, 5) for page in range(4)]
    area[3] = area[3][:-32] + page_bytes(3, 2, 5)[-32:]
    groups = [group_bytes(number, {page: page_bytes(page, number, 5) for page in (0, other)}) for number, other in ((4, 2), (5, 4), (1, 1))]
    return b"".join(area) + bytes(100), b"\1" + groups[0][:-1] + b"\1" + groups[1] + groups[2]
