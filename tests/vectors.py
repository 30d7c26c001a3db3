"""Season texts with known answers: NAME.txt and NAME.expect in a folder and in the folders within
it, whose texts have further kinds of lines."""

from fractions import Fraction
from functools import cache
from pathlib import Path
from typing import NamedTuple

from paper import CEILING, DIGITS, END, MEASURED, MISSING, PARAMETERS, gap_allowed, gap_each

REPOSITORY = Path(__file__).resolve().parent.parent
LONG = 13000  # bytes; of the texts within a folder's folders few from here on are stored in a crate


class Figures(NamedTuple):
    counted: int
    missing: int  # counted hours without ozone
    low: Fraction  # the dose with each missing ozone read as 0, exact to 25 digits
    high: Fraction  # with each read as the ceiling
    least: int  # AOT40 likewise
    most: int


class Season(NamedTuple):
    tree: int
    hours: int
    level: int
    figures: Figures
    months: dict  # figures by month; empty where the answer has none


def folder_of(words):
    """The folder that the script's words name, else ../shared/vectors beside the repository."""
    return Path(words[1]) if len(words) > 1 else REPOSITORY.parent / "shared" / "vectors"


def texts(folder):
    """The paths of all texts."""
    for place in (folder, *sorted(path for path in folder.iterdir() if path.is_dir())):
        yield from sorted(place.glob("*.txt"))


@cache
def newest_in(folder):
    """The newest kind that the answers in the folder know: that of the lines of accepted texts."""
    newest = END
    for path in folder.glob("*.txt"):
        if not path.with_suffix(".expect").read_text().startswith("refused"):
            newest = max(newest, *(int(line[:2], 16) for line in path.read_text().split()))
    return newest


def figures_of(counted, missing, low, high, least, most):
    return Figures(int(counted), int(missing), Fraction(low), Fraction(high), int(least), int(most))


def line_at(path, number):
    lines = path.read_text(errors="replace").split("\n")
    return lines[number - 1] if number <= len(lines) else ""


def is_outdated(path, refusal):
    """Whether its row is that of a line whose kind, length, FFFF or tree was not known yet when the
    answer was given: row 3, 1, 10 or 5."""
    _, row, _, at = refusal.split()
    line = line_at(path, int(at))
    newest = newest_in(path.parent)
    newer = {kind: digits for kind, digits in DIGITS.items() if kind > newest}
    if row == "1":
        return len(line) in newer.values()
    if row == "3":
        return any(
            line.startswith(f"{kind:02X}") and len(line) == digits for kind, digits in newer.items()
        )
    if row == "5":
        return newest < PARAMETERS and line[2:4] == f"{MEASURED:02X}"
    return row == "10" and newest < CEILING and line[8:12] == f"{MISSING:X}"


def answer(path):
    """The line of a text's refusal, or its season; None where a newer kind changes the row."""
    season, *months = path.with_suffix(".expect").read_text().splitlines()
    words = season.split()
    if words[0] == "refused":
        return None if is_outdated(path, season) else season
    tree = int(line_at(path, 1)[2:4], 16)
    if len(words) == 6:
        hours, counted, dose, aot40, _, level = words
        return Season(
            tree, int(hours), int(level), figures_of(counted, 0, dose, dose, aot40, aot40), {}
        )
    by_month = {int(month): figures_of(*rest) for month, *rest in (line.split() for line in months)}
    return Season(tree, int(words[0]), int(words[8]), figures_of(*words[1:7]), by_month)


def encloses(tree, lower, upper, figures):
    """The pair encloses the exact doses of every filling, no further apart than its hours allow,
    each end near to the dose that it is for."""
    counted, missing, low, high, *_ = figures
    near = gap_each(tree)
    return (
        low - near * (counted - missing) <= lower <= low
        and high <= upper <= high + near * counted
        and upper - lower <= gap_allowed(tree, counted, missing)
    )


def stored_texts(folder):
    """Those that the case crates store: the folder's own; of a folder within it the short ones, and
    of its long ones each tree's first season."""
    trees = set()
    for path in texts(folder):
        tree = path.parent, path.read_bytes()[:4]
        if path.parent == folder or path.stat().st_size < LONG:
            yield path
        elif tree not in trees and isinstance(answer(path), Season):
            trees.add(tree)
            yield path
