"""The proved program target/bin/pod1: proved and built by rt where it is missing or older than its
sources.

    python3 command/build.py pod1      builds it, and prints where it stands
"""

import fcntl
import os
import re
import shutil
import signal
import subprocess
import sys
from contextlib import contextmanager
from functools import cache
from pathlib import Path

from speak import Failure, fail, say

ROOT = Path(__file__).resolve().parent.parent
TARGET = ROOT / "target"
PROGRAM = "pod1"  # the report without words, another call by its first word
SOURCES = ("src", "specs", "proofs")  # of a crate; beside them rt keeps its work, in out/
PATIENCE = 10  # seconds until what rt has started must have ended
# rt names a crate when it has checked it, and then says whether it is proved
CHECKED = re.compile(r"crate (\w+): ")
PROVED = "logic=proved"
RUNNING = "rt: running out/"  # only what is proved and built is run
COUNTS = ("logic /", "statements ", "library ")  # lines on what rt has loaded

FIRST = (
    "pod1: target/bin/{name} is proved and built first, {count} crates, once: some five minutes on"
    " four processors where nothing is proved yet, and longer beside other work."
    " Ctrl-C stops it, and the next run goes on from there."
)
AGAIN = (
    "pod1: sources have changed since the program was built; what stands on them is proved again."
)
NO_RT = (
    "rt is missing, the Rattle toolchain that proves and compiles the program, and it is needed: "
    "no unproved program is run. Put rt on the PATH and start again."
)


# ---- is it there, and as new as its sources


def crates_of(name):
    """The crates of this repository that a program is made of, its own among them."""
    listed = {}
    for line in (ROOT / "crates.txt").read_text().splitlines():
        crate, _, needs = line.partition("#")[0].partition(":")
        listed[crate.strip()] = needs.split()
    found, left = set(), [name]
    while left:
        crate = left.pop()
        if crate in listed and crate not in found:
            found.add(crate)
            left += listed[crate]
    return found


def times_in(folder):
    """When everything in the folder last changed; a file that was taken out changes its folder."""
    if folder.exists():
        yield folder.stat().st_mtime_ns
    for place, folders, files in os.walk(folder):
        yield from (os.lstat(os.path.join(place, entry)).st_mtime_ns for entry in folders + files)


def last_change(name):
    """Of what the program is made of."""
    times = [
        time
        for crate in crates_of(name)
        for part in SOURCES
        for time in times_in(ROOT / "crates" / crate / part)
    ]
    return max([(ROOT / "crates.txt").stat().st_mtime_ns, *times])


def is_built(name):
    """It comes there whole, once it is proved and has run."""
    program = TARGET / "bin" / name
    return os.access(program, os.X_OK) and last_change(name) <= program.stat().st_mtime_ns


# ---- building


@contextmanager
def alone():
    """One build at a time: two would write the same files."""
    try:
        TARGET.mkdir(exist_ok=True)
        lock = open(TARGET / "command.lock", "w")
    except OSError as error:
        raise Failure(
            f"{TARGET}: cannot be written, and the program is built there: {error.strerror}"
        ) from None
    with lock:
        try:
            fcntl.flock(lock, fcntl.LOCK_EX | fcntl.LOCK_NB)
        except BlockingIOError:
            say("pod1: another build is under way; waiting for it")
            fcntl.flock(lock, fcntl.LOCK_EX)
        yield


def end_all(process):
    """The process and all that it has started; it leads a group of its own."""
    for sign in (signal.SIGTERM, signal.SIGKILL):
        try:
            os.killpg(process.pid, sign)
            process.wait(PATIENCE)
            return
        except ProcessLookupError:
            return
        except subprocess.TimeoutExpired:
            pass


def follow(process):
    """Each crate as it is proved, and what rt waits for, as they come; what rt says is handed
    back."""
    kept, crate = [], None
    for line in process.stdout:
        if not line.startswith(COUNTS):
            kept.append(line)
        if found := CHECKED.match(line):
            crate = found[1]
        elif line.startswith(PROVED) and crate:
            say(f"pod1: {crate} is proved")
        elif line.startswith("rt:") and "waiting" in line:
            say(line.rstrip("\n"))
    return kept


def prove_and_run(name):
    """`rt run` in the program's crate, on empty input: its status, and what was printed."""
    folder, pipe = ROOT / "crates" / name, subprocess.PIPE
    process = subprocess.Popen(
        ["rt", "run"],
        cwd=folder,
        stdin=subprocess.DEVNULL,
        stdout=pipe,
        stderr=subprocess.STDOUT,
        start_new_session=True,
        text=True,
        errors="replace",
    )
    try:
        kept = follow(process)
        return process.wait(), kept
    except (KeyboardInterrupt, SystemExit):
        say("pod1: stopped; what is proved stays proved, and the next run goes on from there")
        raise
    finally:
        if process.poll() is None:
            end_all(process)
        process.stdout.close()


def build(name):
    if shutil.which("rt") is None:
        raise Failure(NO_RT)
    is_there = (TARGET / "bin" / name).exists()
    say((AGAIN if is_there else FIRST).format(name=name, count=len(crates_of(name))))
    changed = last_change(name)
    status, kept = prove_and_run(name)
    if not any(line.startswith(RUNNING) for line in kept):
        for line in kept[-40:]:
            say(line.rstrip("\n"))
        raise Failure(
            f"the program could not be built: rt run in crates/{name} ended with status {status}"
        )
    put_there(name, changed)


def put_there(name, changed):
    """What rt built, as target/bin/NAME: as new as the sources that were there, so that one that
    has changed since is newer."""
    program = TARGET / "bin" / name
    program.parent.mkdir(exist_ok=True)
    part = program.with_name(f"{name}.part")
    shutil.copy2(ROOT / "crates" / name / "out" / name, part)
    os.utime(part, ns=(changed, changed))
    os.replace(part, program)


@cache
def program(name):
    """The program's path, proved and built."""
    if not is_built(name):
        with alone():
            if not is_built(name):
                build(name)
    return TARGET / "bin" / name


def answer(words=(), text=None):
    """What the program prints for these words, or for a text on standard input; None where it could
    read none, or ended with an error."""
    command = [str(program(PROGRAM)), *words]
    try:
        # the files that a shell has opened for it, as <(..), stay open
        done = subprocess.run(
            command, input=text, stdout=subprocess.PIPE, close_fds=False, check=False
        )
    except OSError as error:
        raise Failure(f"{command[0]}: cannot be run: {error.strerror}") from None
    if done.returncode < 0:
        call = " ".join([PROGRAM, *words[:1]])
        raise Failure(f"{call} was ended by signal {-done.returncode}, and its answer is not used")
    if done.returncode > 0:
        return None  # what it had printed by then may not be all of its answer
    return done.stdout.decode("ascii") or None


def main():
    try:
        for name in sys.argv[1:]:
            print(program(name))
    except Failure as failure:
        sys.exit(fail(failure))


if __name__ == "__main__":
    main()
