"""The report of season texts, as the proved program prints it, and its refusals in words."""

import re
import sys

import build
import explanations
import frames
import hints
import texts
from speak import ACCEPTED, REFUSED, Failure, fail, put, say

REFUSAL = re.compile(r"refused (\d+) line (\d+)\n")


def report_of(name, text):
    """What the proved program prints for the text."""
    printed = build.answer(text=text)
    if printed is None:
        raise Failure(f"{texts.label(name)}: cannot be read")
    return printed


def refusal_in(printed):
    """Row and line of a report that refuses its text; None of any other."""
    found = REFUSAL.fullmatch(printed)
    return found and (int(found[1]), int(found[2]))


def line_at(lines, at):
    """The text's line of that number; None past its last."""
    return lines[at - 1] if at <= len(lines) else None


def explain(name, row, at, line, sentence):
    """To standard error: where, what and by which row; then what a person can mend."""
    say(f"{texts.label(name)} line {at}: {explanations.with_row(sentence, row)}")
    for hint in hints.hints_for(name, row, line, at):
        say(f"  hint: {hint}")


def explain_text(name, text, row, at):
    """A line that the report refuses."""
    lines = texts.lines_of(text)
    line = line_at(lines, at)
    season = frames.season_of(lines[: at - 1])
    explain(name, row, at, line, explanations.sentence_of(row, season, line))


def point_to_explain(rows):
    """Where to read on, once."""
    if rows:
        words = " ".join(f"./pod1 explain {row};" for row in sorted(rows)[:3]).rstrip(";")
        say(f"pod1: what to do:  {words}")


class Headings:
    """`==> FILE <==` over each text's answer where there are several, as head(1) has it."""

    def __init__(self, names):
        self.is_wanted, self.before = len(names) > 1, ""

    def put(self, name):
        if self.is_wanted:
            put(f"{self.before}==> {texts.label(name)} <==\n")
            self.before = "\n"


def each(names, answer):
    """The answer for every text under its heading, and the worst status. `answer` gives what to
    print, and None or a refusal's row and how to explain it."""
    headings, status, rows = Headings(names), ACCEPTED, set()
    for name in names:
        try:
            printed, refusal = answer(name)
        except Failure as failure:
            status = max(status, fail(failure))
            continue
        headings.put(name)
        put(printed)
        if refusal:
            row, tell = refusal
            tell()
            rows.add(row)
            status = max(status, REFUSED)
    point_to_explain(rows)
    return status


def report_answer(name):
    text = texts.read(name)
    printed = report_of(name, text)
    refusal = refusal_in(printed)
    return printed, refusal and (refusal[0], lambda: explain_text(name, text, *refusal))


def report(names):
    """`./pod1 FILE..`"""
    if not names:
        names = [texts.STANDARD_INPUT]
        if sys.stdin is not None and sys.stdin.isatty():
            say(
                "pod1: reading a season text from the keyboard; ./pod1 --help says how to name a "
                "file"
            )
    build.program(build.PROGRAM)
    return each(names, report_answer)
