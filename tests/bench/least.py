#!/usr/bin/env python3
"""The least sums that whole numbers can have: each counted hour's exact dose (tests/paper.py)
rounded down, and rounded up; a missing ozone is read as 0 for the first, and as the ceiling for the
second.

    python3 tests/bench/least.py <SEASON

Prints the two sums. An hour whose dose is not known to be on one side of a whole number is an
error.
"""

import sys
from functools import cache
from pathlib import Path

sys.path.insert(0, str(Path(__file__).resolve().parent.parent))
from paper import down, ends, exact_dose, season_in, up


dose_of = cache(exact_dose)  # where ozone is not missing, both ends are one hour


def rounded(season, hour):
    """A counted hour's dose rounded down and up."""
    doses = [
        dose_of(season.tree, season.first, season.last, end) for end in ends(hour, season.ceiling)
    ]
    assert all(down(low) == down(high) and up(low) == up(high) for low, high in doses), hour
    return down(doses[0][0]), up(doses[1][1])


def main():
    season = season_in(sys.stdin.buffer.read())
    pairs = [rounded(season, hour) for hour in season.hours if hour.is_counted]
    print(sum(lower for lower, _ in pairs), sum(upper for _, upper in pairs))


main()
