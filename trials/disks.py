"""Disks that fill up, turn read-only or go down under sessions of `natix STORE run`, and logs that are cut short between them: for
trials/test-store."""

import copy
import fcntl
import os
import shutil
import struct
import subprocess
import time
from collections import Counter

import driven
import sessions
from harness import expect
from sessions import Wrong, ask, feed, load, look, read_documents, replies_of, run, script
from store_model import CHECKPOINT, LINES, Model, answered, drawn_loads, goes_on

# How often a disk turns read-only, how often one goes down, and how many logs are cut.
TURNS, FALLS, CUTS = (int(os.environ.get(name, "200")) for name in ("TURNS", "FALLS", "CUTS"))
# From linux/ext4.h: the file system goes down at once, and what waits for its journal is lost.
SHUTDOWN, WITHOUT_LOG = 0x8004587D, 2


def paths(store):
    return store, store + ".log"


def copied(base, store):
    """The files of a store in the place of another."""
    for name, other in zip(paths(base), paths(store)):
        shutil.copyfile(name, other)


def filled(folder, draw):
    """A store with some documents and rules, whose log has groups, and its model."""
    path, model = os.path.join(folder, "filled"), Model(16)
    expect("filled: init", sessions.init(path, 16), (0, b"ok\n", ""))
    answered("filled", path, model, drawn_loads(draw, model, 3) + [CHECKPOINT] + drawn_loads(draw, model, 6), 0)
    return path, model


# A full disk.


def used(disk):
    """How many KiB the files of a disk take, by pages of 4 KiB."""
    return sum(-(-os.path.getsize(os.path.join(disk, name)) // 4096) * 4 for name in os.listdir(disk))


def remount(disk, how):
    subprocess.run(["mount", "-o", f"remount,{how}", disk], check=True)


def at_work(draw, model):
    """One command of each kind that writes."""
    name = sorted(model.documents)[0]
    yield "a load", drawn_loads(draw, model, 1, 200)[0]
    yield "a drop", (ask(b"drop", name), None)
    yield "a rule", (ask(b"rule", b"a", b"#text", b"cluster"), None)
    yield "a rename", (ask(b"rename", name, b"renamed"), None)
    yield "a transaction", model.drawn_transaction(draw, 30)
    yield "an insert", (sessions.drawn_edit(draw, b"insert", name, model.documents[name], 16), None)
    yield "a long content", (ask(b"insert", name, b"/0", b"?p", b"x" * 40_000), None)
    yield "a checkpoint", CHECKPOINT


def full_at(disk, base, model, command, room, draw):
    """A command with so many KiB left: how it ends. Then there is room again, and the store goes on."""
    store, mine = os.path.join(disk, "s"), copy.deepcopy(model)
    copied(base, store)
    remount(disk, f"size={used(disk) + room}k")
    status, replies, said = run(store, [command[0]])
    expect(f"{room} KiB left: what is told", said, LINES[status] if status in (0, 3) else LINES[0])
    for (words, document), reply in zip([command], replies):
        mine.take(words, document, reply)
    mine.match(look(store), None if replies else command)
    remount(disk, "size=16m")
    goes_on(f"{room} KiB left", store, mine, draw)
    return status


def full(folder, draw):
    disk = os.path.join(folder, "full")
    os.mkdir(disk)
    if os.geteuid() != 0 or subprocess.run(["mount", "-t", "tmpfs", "-o", "size=16m", "tmpfs", disk]).returncode != 0:
        print("not tried, since nothing can be mounted: a full disk")
        return
    seen = Counter()
    try:
        base, model = filled(folder, draw)
        for what, command in list(at_work(draw, model)):
            for room in range(0, 4096, 4):
                status = full_at(disk, base, model, command, room, draw)
                seen[what] += status == 3
                if status == 0:
                    break
            expect(f"a full disk at {what}: how it ends with {room} KiB left", status, 0)
        os.unlink(os.path.join(disk, "s"))
        remount(disk, "ro")
        expect("a disk that can only be read", run(os.path.join(disk, "s"), [ask(b"names")]), (3, [], LINES[3]))
    finally:
        subprocess.run(["umount", disk], check=True)
    print(f"a disk filled up {seen.total()} times, and was freed again: " + ", ".join(f"{often} at {what}" for what, often in seen.items()))


# A disk that fails while a session is at work.


class Ext4:
    """A file system in a file."""

    def __init__(self, folder):
        self.file, self.mounted = os.path.join(folder, "ext4"), os.path.join(folder, "mounted")
        os.mkdir(self.mounted)
        with open(self.file, "wb") as file:
            file.truncate(64 << 20)
        subprocess.run(["mkfs.ext4", "-q", self.file], check=True)

    def mount(self):
        subprocess.run(["mount", "-o", "loop,errors=remount-ro", self.file, self.mounted], check=True)
        device = subprocess.run(["findmnt", "-no", "SOURCE", self.mounted], stdout=subprocess.PIPE, check=True).stdout.decode().strip()
        self.trigger = f"/sys/fs/ext4/{os.path.basename(device)}/trigger_fs_error"

    def unmount(self):
        subprocess.run(["umount", self.mounted], check=True)

    def turn_read_only(self):
        with open(self.trigger, "w") as trigger:
            trigger.write("1")

    def go_down(self):
        place = os.open(self.mounted, os.O_RDONLY)
        fcntl.ioctl(place, SHUTDOWN, struct.pack("I", WITHOUT_LOG))
        os.close(place)

    def mend(self):
        self.unmount()
        subprocess.run(["e2fsck", "-fy", self.file], stdout=subprocess.DEVNULL, stderr=subprocess.DEVNULL)
        self.mount()


def disturbed(store, commands, draw, disturb):
    """A session whose disk fails at a moment: after so many of its lines, or soon after; its status and its output."""
    child = sessions.start(store)
    thread, given = feed(child, script([command for command, _ in commands])), b""
    for _ in range(draw.randrange(len(commands) // 2)):
        given += child.stdout.readline()
    time.sleep(draw.random() * draw.choice((0, 0, 0.001, 0.005)))
    disturb()
    given += child.stdout.read()
    said = child.stderr.read().decode()
    status = child.wait(sessions.PATIENCE)
    thread.join()
    child.stdin.close()
    if (status, said) not in ((0, ""), (3, LINES[3])):
        raise Wrong(f"a session whose disk failed ended with {status} {said}")
    return status, given


def failed_once(disk, store, model, draw, disturb):
    """A session whose disk fails, and what is there when that was mended. A session goes on at once."""
    commands = [model.drawn_command(draw) for _ in range(draw.randint(4, 30))]
    status, given = disturbed(store, commands, draw, disturb)
    replies, _ = replies_of([command for command, _ in commands], given)
    for (command, document), reply in zip(commands, replies):
        model.take(command, document, reply)
    disk.mend()
    model.match(look(store, ()), commands[len(replies)] if len(replies) < len(commands) else None)
    behind = [model.drawn_command(draw) for _ in range(2)] + [CHECKPOINT]
    expect("a session behind a disk that failed", answered("behind a disk that failed", store, model, behind, 0), 3)
    return status, len(replies)


def failing(folder, draw):
    if os.geteuid() != 0 or not shutil.which("mkfs.ext4"):
        print("not tried, since no file system can be made and mounted: a disk that turns read-only, and one that goes down")
        return
    disk = Ext4(folder)
    for what, count, disturb in (("turned read-only", TURNS, disk.turn_read_only), ("went down", FALLS, disk.go_down)):
        disk.mount()
        seen, told = Counter(), 0
        try:
            for at in range(count):
                if at % 20 == 0:
                    store, model = os.path.join(disk.mounted, f"{disturb.__name__}{at}"), Model(draw.choice((3, 16, 256)))
                    expect(f"{what}: init", sessions.init(store, model.k), (0, b"ok\n", ""))
                status, replies = failed_once(disk, store, model, draw, disturb)
                seen[status] += 1
                told += replies
                if at % 20 == 19:
                    for name in paths(store):
                        os.unlink(name)
        except Wrong as why:
            expect(f"a disk that {what}, at {at + 1}", str(why), "nothing wrong")
        finally:
            disk.unmount()
        print(f"a disk {what} {count} times under a session: {told} replies before, {seen[3]} sessions ended by a disk fault, {seen[0]} had ended well")


# Logs that are cut short.


def cut_short(folder, draw):
    """Each session is of one command. Of a log that is cut short those groups are left that are whole, so the store holds what it held
    behind so many commands."""
    store, model = os.path.join(folder, "cut"), Model(5)
    expect("cut: init", sessions.init(store, 5), (0, b"ok\n", ""))
    states = [copy.deepcopy(model)]
    while len(states) < 30:
        command = model.drawn_command(draw)
        groups = len(driven.read_log(driven.files(store)[1])[0])
        if command[0][0] != b"checkpoint" and answered("cut", store, model, [command], 0) and len(driven.read_log(driven.files(store)[1])[0]) > groups:
            states.append(copy.deepcopy(model))
    pages, log = driven.files(store)
    # Behind a checkpoint the log holds nothing, however long it is.
    answered("cut", store, model, [CHECKPOINT], 0)
    moved = driven.files(store)
    seen = Counter()
    for at in range(CUTS):
        length = draw.randrange(len(log) + 1)
        is_moved = draw.random() < 0.3
        for name, content in zip(paths(store), moved if is_moved else (pages, log)):
            with open(name, "wb") as file:
                file.write(content if name == store else content[:length])
        groups = len(driven.read_log(log[:length])[0])
        if groups == 0 and not is_moved:
            expect("a log cut short before its first group", (run(store, [ask(b"names")])[0], read_documents(store).status), (7, 3))
            seen["no store"] += 1
            continue
        mine = copy.deepcopy(model if is_moved else states[groups - 1])
        try:
            mine.match(look(store, ()), None)
            goes_on("a log cut short", store, mine, draw)
        except Wrong as why:
            expect(f"a log cut short at {length}", str(why), "nothing wrong")
        seen["all, since the log was empty" if is_moved else "what it held behind some first commands"] += 1
    print(f"{CUTS} logs were cut short: " + ", ".join(f"{often} times there was {what}" for what, often in seen.items()))


def disks(folder, draw):
    for part in (full, failing, cut_short):
        inner = os.path.join(folder, part.__name__ + "-disk")
        os.mkdir(inner)
        try:
            part(inner, draw)
        except Wrong as why:
            expect(part.__name__, str(why), "nothing wrong")
