#!/usr/bin/env python3
"""The section "dates" of crates/cases, reckoned in fractions by the words of docs/SPECIFICATION.md,
"Dates from a place", alone.

    python3 tests/dates_cases.py

writes it (tests/sections.py).

A row is tree, days in the year, level, latitude (tenths of a degree) and height (metres), in
hexadecimal. Each day is searched for from below or above, so that no rounding of the code is
repeated here.
"""

from fractions import Fraction
from itertools import product

import sections
from paper import NUMBERS, RAMPS, line_of, period_row

WITH_MODEL = (1, 2, 4, 5)
HEIGHTS = (0, 1, 50, 99, 100, 101, 1500, 3000)

# ---- the model


def exact(latitude, height):
    """Start and end, in days of the year: degrees north of 50 count with their sign."""
    degrees = Fraction(latitude, 10) - 50
    hundreds = Fraction(height, 100)
    return 105 + Fraction("1.5") * degrees + hundreds, 297 - 2 * degrees - hundreds


def least_not_below(x):
    day = 0
    while day < x:
        day += 1
    return day


def greatest_not_above(x):
    day = 366
    while day > x:
        day -= 1
    return day


def answer(tree, days, level, latitude, height):
    if tree not in NUMBERS:
        return "row 5"
    if days not in (365, 366):
        return "row 6"
    if not 350 <= latitude <= 720 or not 0 <= height <= 3000 or tree not in WITH_MODEL:
        return "row 14"
    start, end = exact(latitude, height)
    first, last = least_not_below(start), greatest_not_above(end)
    if period_row(RAMPS[tree], days, first, last):
        return "row 7"
    if not 1 <= level <= 10000:
        return "row 8"
    return f"{first} {last} {line_of(1, tree, days, first, last, level).decode()}"


# ---- the rows


def rows():
    """Every tenth of a degree at eight heights, tree, year and level by turns; then the borders of
    every range, each with each."""
    for n, (latitude, height) in enumerate(product(range(350, 721), HEIGHTS)):
        turn = n + n // len(HEIGHTS)  # so that each height meets each tree
        yield WITH_MODEL[turn % 4], 365 + turn // 4 % 2, (1, 520, 10000)[turn % 3], latitude, height
    yield from product(
        range(9), (364, 365, 366, 367), (0, 1, 10000, 10001), (349, 350, 720, 721), (0, 3000, 3001)
    )
    most = 65535
    yield from product((0, 4, 255), (0, 365, most), (0, 520, most), (0, 600, most), (0, most))


def hold(given):
    """What the rows must contain, and what holds of every answer."""
    edges = set()
    for tree, days, level, latitude, height in given:
        text = answer(tree, days, level, latitude, height)
        assert text != "row 7"
        if text.startswith("row"):
            continue
        for side, x in zip(("start", "end"), exact(latitude, height)):
            edges.add((side, x - x.__floor__()))
        first, last = (int(word) for word in text.split()[:2])
        assert 83 <= first <= 168 and 223 <= last <= 327 and last - first >= 55
    for side in ("start", "end"):
        assert all((side, Fraction(n, 100)) in edges for n in (0, 1, 50, 99)), side
    assert answer(4, 365, 520, 600, 0).split()[:2] == ["120", "277"]
    assert answer(1, 366, 520, 720, 3000).split()[:2] == ["168", "223"]
    assert answer(2, 365, 520, 350, 0).split()[:2] == ["83", "327"]


def section():
    given = list(rows())
    hold(given)
    text = "".join("{:02X} {:04X} {:04X} {:04X} {:04X}\n".format(*row) for row in given)
    return text.encode(), "".join(answer(*row) + "\n" for row in given).encode()


if __name__ == "__main__":
    sections.write("dates", section())
