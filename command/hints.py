"""Hints on what a person can mend in a refused text: never done for them, as nothing may change a
text that is to be archived."""

import shlex

from texts import STANDARD_INPUT

HEX = b"0123456789abcdefABCDEF"
MARK = b"\xef\xbb\xbf"
WIDE = (b"\xff\xfe", b"\xfe\xff")


def mark_hint(name, line, at):
    """A mark that an editor has put before the first line."""
    if at == 1 and line.startswith(MARK):
        return (
            "the text begins with a byte order mark, which an editor has put there. Make a copy "
            f"without it:  tail -c +4 <{name} >COPY"
        )
    if at == 1 and line.startswith(WIDE):
        return "the text is in UTF-16: save it again as plain text, UTF-8 without a byte order mark"
    return None


def return_hint(name, line, at):
    if not line.endswith(b"\r"):
        return None
    return (
        "the line ends in a carriage return: this is a Windows text. Make a copy without them:  "
        f"tr -d '\\r' <{name} >COPY"
    )


def blank_hint(name, line, at):
    if line.strip(b" \t\r") != b"":
        return None
    return "a text has no blank lines, after the end frame neither: take them out"


def space_hint(name, line, at):
    if not any(code in b" \t" for code in line.rstrip(b"\r")):
        return None
    return (
        "the line has spaces or tabs: a frame is digits alone, from the line's first character to "
        "its last"
    )


def capital_hint(name, line, at):
    digits = line.rstrip(b"\r")
    if not any(code in b"abcdef" for code in digits) or any(code not in HEX for code in digits):
        return None
    return (
        "the line has small letters a to f, and frames are written in capitals. Make a copy:  tr "
        f"a-f A-F <{name} >COPY"
    )


HINTS = (mark_hint, return_hint, blank_hint, space_hint, capital_hint)


def hints_for(name, row, line, at):
    """Of a line that is no frame by rows 1 or 2."""
    if row not in (1, 2) or line is None:
        return []
    file = "FILE" if name == STANDARD_INPUT else shlex.quote(name)
    return [hint for hint in (make(file, line, at) for make in HINTS) if hint]
