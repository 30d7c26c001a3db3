"""What a person reads: answers on standard output, all else on standard error; failures as one
message."""

import os
import sys

PROGRAM = "pod1"
ACCEPTED, REFUSED, FAILED = 0, 1, 2  # the exit statuses; of several files the worst
GONE = 141  # the reader of standard output has gone, as a shell says it of any program


class Failure(Exception):
    """Nothing can be answered: the message, status 2."""


class Usage(Failure):
    """The words do not make a command."""


def open_streams():
    """The numbers of the standard streams that are closed. Each is opened on nothing, so that no
    file takes its place."""
    closed = {number for number in range(3) if not is_open(number)}
    for number in sorted(closed):
        os.open(os.devnull, os.O_RDWR)
    sys.stdout = sys.stdout or open(os.devnull, "w")
    sys.stderr = sys.stderr or open(os.devnull, "w")
    for stream in (sys.stdout, sys.stderr):
        stream.reconfigure(encoding="utf-8", errors="surrogateescape")
    return closed


def is_open(number):
    try:
        os.fstat(number)
    except OSError:
        return False
    return True


def put(text):
    """To standard output, as it stands."""
    sys.stdout.write(text)


def say(text):
    """A line to standard error, behind what was put before it."""
    sys.stdout.flush()
    try:
        print(text, file=sys.stderr, flush=True)
    except OSError:  # nobody reads it: the status still tells
        pass


def fail(failure):
    say(f"{PROGRAM}: {failure}")
    return FAILED


def silence():
    """Nothing is written to standard output any more, at the end neither."""
    nothing = os.open(os.devnull, os.O_WRONLY)
    os.dup2(nothing, 1)
    os.close(nothing)
