"""A picture of each report: `./pod1 chart FILE..`. The figures are those of the proved report;
command/draw.py draws them with matplotlib."""

import json
import os
import subprocess
import sys

import build
import report
import texts
import trees
from speak import ACCEPTED, FAILED, REFUSED, Failure, Usage, fail, put

USAGE = "./pod1 chart FILE.."
NO_MATPLOTLIB = (
    "matplotlib is missing, which draws the picture: install it (Debian: apt install "
    "python3-matplotlib)"
)


def drawer():
    """A python3 that has matplotlib: the one that runs this, or the system's."""
    for python in dict.fromkeys((sys.executable, "/usr/bin/python3")):
        try:
            found = subprocess.run(
                [python, "-c", "import matplotlib"],
                stdin=subprocess.DEVNULL,
                capture_output=True,
                check=False,
            )
        except OSError:
            continue
        if found.returncode == 0:
            return python
    raise Failure(NO_MATPLOTLIB)


def picture_of(name):
    """The picture's name: .svg in place of the text's ending."""
    if name == texts.STANDARD_INPUT:
        raise Usage("chart writes its picture beside the text: name a file, not standard input")
    stem, ending = os.path.splitext(name)
    if ending == ".svg":
        raise Usage(f"{name}: the picture would take the place of the text")
    return stem + ".svg"


def hold_apart(names):
    """No two texts have the same picture."""
    taken = {}
    for name in names:
        picture = picture_of(name)
        if picture in taken:
            raise Usage(f"{taken[picture]} and {name}: both pictures would be {picture}")
        taken[picture] = name


def figures_of(name, text, printed):
    """What the picture shows: the report's lines, and of the header the tree, the period and the
    level."""
    season, *months = [line.split() for line in printed.splitlines()]
    header = texts.lines_of(text)[0]
    tree, *numbers = (
        int(header[at:end], 16) for at, end in ((2, 4), (4, 8), (8, 12), (12, 16), (16, 20))
    )
    days, first, last, level = numbers
    return {
        "picture": picture_of(name),
        "tree": trees.NAMES[tree],
        "days": days,
        "first": first,
        "last": last,
        "level": level,
        "season": [int(figure) for figure in season[:-1]],
        "verdict": season[-1],
        "months": [[int(figure) for figure in month] for month in months],
    }


def draw(python, figures):
    """The pictures; each name as it is written."""
    script = os.path.join(os.path.dirname(os.path.abspath(__file__)), "draw.py")
    done = subprocess.run(
        [python, script], input=json.dumps(figures).encode(), stdout=subprocess.PIPE, check=False
    )
    put(done.stdout.decode("utf-8", "surrogateescape"))
    return ACCEPTED if done.returncode == 0 else FAILED


def chart(words):
    """`./pod1 chart FILE..`"""
    if not words:
        raise Usage(f"usage: {USAGE}")
    hold_apart(words)
    python = drawer()
    build.program(build.PROGRAM)
    figures, status, rows = [], ACCEPTED, set()
    for name in words:
        try:
            text = texts.read(name)
            printed = report.report_of(name, text)
        except Failure as failure:
            status = max(status, fail(failure))
            continue
        refusal = report.refusal_in(printed)
        if refusal:
            report.explain_text(name, text, *refusal)
            rows.add(refusal[0])
            status = max(status, REFUSED)
        else:
            figures.append(figures_of(name, text, printed))
    report.point_to_explain(rows)
    return max(status, draw(python, figures)) if figures else status
