#!/usr/bin/env python3
"""The mean of upper - lower over the counted hours with ozone whose upper number is not 0, for each
season text and over all of them.

    python3 tests/hour_gaps.py SEASON..

The pairs are those of tests/dose_cases.py, by the definitions that the code is proved to equal.
"""

import sys
from pathlib import Path

from dose_cases import pair_of
from paper import season_in


def gaps(path):
    """The gaps of a season's counted hours with ozone and a dose, and the sums of their lower and
    of their upper numbers: no ceiling bears on them."""
    season = season_in(Path(path).read_bytes())
    aged = zip(season.hours, season.ages)
    read = [(hour, age) for hour, age in aged if hour.is_counted and hour.ozone is not None]
    pairs = [pair_of(season.tree, season.first, season.last, 0, hour, age) for hour, age in read]
    return (
        [upper - lower for lower, upper in pairs if upper > 0],
        sum(low for low, _ in pairs),
        sum(up for _, up in pairs),
    )


def main():
    every = []
    for path in sys.argv[1:]:
        found, lower, upper = gaps(path)
        every += found
        print(
            f"{Path(path).stem}: {len(found)} hours with a dose, mean gap "
            f"{sum(found) / len(found):.4f}, greatest {max(found)}, sums {lower} {upper}"
        )
    print(f"all: {len(every)} hours with a dose, mean gap {sum(every) / len(every):.4f}")


main()
