"""Season texts by name: a file, or - for standard input."""

import os
import sys

from speak import Failure

STANDARD_INPUT = "-"
MOST = 1 << 20  # bytes: more than the report program reads of any text


def label(name):
    """How messages and headings call the text."""
    return "standard input" if name == STANDARD_INPUT else name


def path_of(name):
    """For a program that opens its file by name."""
    return "/dev/stdin" if name == STANDARD_INPUT else name


def reason(error):
    """Why a file cannot be read, in words."""
    if isinstance(error, FileNotFoundError):
        return "there is no such file"
    if isinstance(error, IsADirectoryError):
        return "this is a directory, not a text"
    if isinstance(error, PermissionError):
        return "it may not be read: permission denied"
    return f"cannot be read: {error.strerror or error}"


def read(name, most=MOST):
    """The text's first bytes."""
    try:
        if name == STANDARD_INPUT:
            return read_input(most)
        with open(name, "rb") as file:
            return file.read(most)
    except OSError as error:
        raise Failure(f"{label(name)}: {reason(error)}") from None
    except ValueError:  # a name with a NUL byte
        raise Failure(f"{label(name)}: there is no such file") from None


def read_input(most):
    if sys.stdin is None:
        raise OSError(0, "it is closed")
    return sys.stdin.buffer.read(most)


def hold_readable(name):
    """A message where the file cannot be read; it is not opened, as a pipe can be once."""
    if name == STANDARD_INPUT:
        if sys.stdin is None:
            raise Failure(f"{label(name)}: cannot be read: it is closed")
        return
    try:
        os.stat(name)
    except OSError as error:
        raise Failure(f"{label(name)}: {reason(error)}") from None
    if os.path.isdir(name):
        raise Failure(f"{label(name)}: {reason(IsADirectoryError())}")
    if not os.access(name, os.R_OK):
        raise Failure(f"{label(name)}: {reason(PermissionError())}")


def read_again(name):
    """The text that a program has read; nothing where it was a pipe, which is read once."""
    return read(name) if name != STANDARD_INPUT and os.path.isfile(name) else b""


def lines_of(text):
    """The text's lines; a last one may lack its line feed."""
    if not text:
        return []
    return (text[:-1] if text.endswith(b"\n") else text).split(b"\n")
