"""Runs of programs, timed, and what they take of memory: for bench/run and bench/store."""

import ctypes
import os
import platform
import subprocess
import sys
import time
from pathlib import Path

TOP = Path(__file__).resolve().parent.parent
NATIX = TOP / "crates" / "natix" / "out" / "natix"
WORK = TOP / "bench" / "work"


def fail(message):
    print(f"bench/{Path(sys.argv[0]).name}: {message}", file=sys.stderr)
    sys.exit(2)


def write(name, parts):
    path = WORK / name
    with open(path, "w", newline="") as file:
        file.writelines(parts)
    return path


def check(command, document, status):
    status = os.waitstatus_to_exitcode(status)
    if status != 0:
        fail(f"{' '.join(map(str, command))} < {document} ended with {status}")


def run(command, document, output=os.devnull):
    """Runs a program, and answers the processor time that it took, in seconds."""
    actions = [
        (os.POSIX_SPAWN_OPEN, 0, document, os.O_RDONLY, 0),
        (os.POSIX_SPAWN_OPEN, 1, output, os.O_WRONLY | os.O_CREAT | os.O_TRUNC, 0o644),
    ]
    child = os.posix_spawn(command[0], command, os.environ, file_actions=actions)
    _, status, usage = os.wait4(child, 0)
    check(command, document, status)
    return usage.ru_utime + usage.ru_stime


def seconds(command, document, runs):
    begin = time.perf_counter()
    for _ in range(runs):
        run(command, document)
    return (time.perf_counter() - begin) / runs


def adopt_orphans():
    PR_SET_CHILD_SUBREAPER = 36
    if ctypes.CDLL(None).prctl(PR_SET_CHILD_SUBREAPER, 1, 0, 0, 0) != 0:
        fail("prctl failed")


def peak_bytes(command, document):
    # The kernel counts into a process's peak what its memory was before `exec`, which
    # for a child of this script is the whole of Python. So a small shell starts the
    # program and leaves it to this script as an orphan.
    script = '"$@" < "$0" > /dev/null & echo $!'
    while True:
        child = int(subprocess.check_output(["/bin/sh", "-c", script, document, *command]))
        try:
            _, status, usage = os.wait4(child, 0)
        except ChildProcessError:
            continue  # under load the shell now and then reaps a short run itself
        check(command, document, status)
        return usage.ru_maxrss * 1024


def build_peer(name):
    """Builds the peer in that folder of bench, and answers where its program is."""
    target = WORK / "cargo"
    build = ["cargo", "build", "--release", "--offline", "--quiet", "--manifest-path"]
    manifest = TOP / "bench" / name / "Cargo.toml"
    environment = {**os.environ, "CARGO_TARGET_DIR": str(target)}
    try:
        subprocess.run([*build, manifest], env=environment, check=True)
    except (OSError, subprocess.CalledProcessError) as error:
        fail(f"the peer can't be built: {error}")
    return target / "release" / name


def machine():
    told = Path("/proc/cpuinfo").read_text().splitlines()
    models = [one.split(":")[1].strip() for one in told if one.startswith("model name")]
    model = models[0] if models else platform.machine()
    rustc = subprocess.check_output(["rustc", "--version"], text=True).split()[1]
    return f"{model}, {os.cpu_count()} processors, Linux {platform.release()}, rustc {rustc}"
