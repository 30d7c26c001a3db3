#!/usr/bin/env python3
"""The exact dose of tests/paper.py, and the rows of the book of tests/account_cases.py, held to
season texts with known answers.

    python3 tests/exact_doses.py [VECTORS]

VECTORS is the folder of season texts, else ../shared/vectors beside the repository. A season's two
doses, and each month's, agree to the 24 digits that an answer is good for. Printed: what was held
in each folder.
"""

import sys
from fractions import Fraction

import report_cases
import vectors
from lot import Lot

DIGITS = 24


def exact_ends(text):
    """By month, the doses with each missing ozone read as 0 and as the ceiling, from below."""
    lowest, highest, _ = report_cases.fillings(text, Lot(1))
    months = {end: [low for low, _ in report_cases.exact_months(end)] for end in (lowest, highest)}
    return list(zip(months[lowest], months[highest]))


def hold_doses(name, doses, figures):
    for dose, said in zip(doses, (figures.low, figures.high)):
        assert abs(dose - said) * 10**DIGITS <= max(
            said, Fraction(1)
        ), f"{name}: {float(dose)}, not {float(said)}"


def hold_season(path, season):
    months = exact_ends(path.read_bytes())
    hold_doses(path, map(sum, zip(*months)), season.figures)
    for doses, figures in zip(months, season.months.values()):
        hold_doses(path, doses, figures)


def hold(path):
    """Holds a text to its answer, and says which sort that is."""
    says = vectors.answer(path)
    if isinstance(says, vectors.Season):
        hold_season(path, says)
        return "seasons"
    if says is None:
        return "refusals by another row later on"
    assert report_cases.report(path.read_bytes()).decode() == says + "\n", path
    return "refusals"


def main():
    held = {}
    for path in vectors.texts(vectors.folder_of(sys.argv)):
        sorts = held.setdefault(path.parent.name, {})
        sort = hold(path)
        sorts[sort] = sorts.get(sort, 0) + 1
    for folder, sorts in held.items():
        print(folder + ": " + ", ".join(f"{count} {sort}" for sort, count in sorted(sorts.items())))
    print("ok")


if __name__ == "__main__":
    main()
