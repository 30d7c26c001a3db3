#!/usr/bin/env python3
"""A leap year of plausible weather as a season text, the same at every run.

    python3 tests/bench/year.py [TREE [KIND]]

TREE 1 to 7, else 6 (evergreen); KIND of its hours 02, 04 or 05, else 02. The weather is that of
kind 02 in every kind: kind 04 has the pressure besides, kind 05 the humidity for the VPD. Tree 7, a
laboratory's own, has oak's temperatures, whose p/q is 13/22, and parameters like those of the trees
that have names.
"""

import math
import random
import sys

DAYS, LEVEL = 366, 520
LOWLAND, MOUNTAIN = 9500, 7000  # mean pressure, tenths of hPa
# in the order of kind 07
OWN = (230, 10, 50, 0, 22, 35, 1000, 3200, 100, 1500, 43, 20, 40, 20, 30, 1)


def between(low, x, high):
    return max(low, min(high, round(x)))


def sun(day, hour):
    """The sine of the sun's height at 50 degrees north, 0 at night."""
    tilt = math.radians(-23.44) * math.cos(2 * math.pi * (day + 10) / DAYS)
    north = math.radians(50)
    turn = math.pi * (hour - 12) / 12
    return max(
        0.0, math.sin(north) * math.sin(tilt) + math.cos(north) * math.cos(tilt) * math.cos(turn)
    )


def soil(rng, tree, dry):
    """Suction in kPa, or available water in tenths of a percent for trees 1 and 2; dry is from 0 to
    1."""
    if tree < 3:
        return between(0, 350 * (1 - dry) + rng.uniform(-10, 10), 1000)
    return between(0, 30 + 2500 * dry**2 + rng.uniform(-10, 10), 10000)


def moisture(kind, degrees, dryness):
    """VPD in Pa, or humidity in tenths of a percent; dryness is the part that the air lacks to be
    saturated."""
    if kind == 5:
        return between(0, 1000 * (1 - dryness), 1000)
    return between(0, 610.8 * math.exp(17.27 * degrees / (degrees + 237.3)) * dryness, 10000)


def pressure(mean, day, hour):
    """Tenths of hPa, falling and rising over weeks, and a little over the day."""
    days = day + hour / 24
    return between(
        5000,
        mean + 90 * math.sin(days / 2.3) + 60 * math.sin(days / 7.1) + 6 * math.cos(
            4 * math.pi * days
        ),
        11000,
    )


def readings(rng, kind, tree, day, hour, sky, dry):
    """Ozone, PPFD, global radiation, temperature, VPD or humidity, wind and soil of an hour, in the
    frame's units."""
    height = sun(day, hour)
    summer = -math.cos(2 * math.pi * (day - 20) / DAYS)
    afternoon = math.cos(2 * math.pi * (hour - 15) / 24)
    radiation = between(0, 1050 * height * sky * rng.uniform(0.9, 1.1), 1500)
    degrees = 9 + 10 * summer + (2 + 4 * sky) * afternoon + rng.uniform(-2, 2)
    dryness = 0.35 + 0.2 * sky + 0.15 * afternoon - 0.25
    ozone = 380 + 90 * summer + (60 + 120 * sky) * afternoon + rng.uniform(-60, 60)
    wind = 40 + 260 * rng.random() ** 2 + 40 * afternoon
    return [
        between(0, ozone, 5000),
        between(0, 2.05 * radiation, 3000),
        radiation,
        between(-500, 10 * degrees, 600) % 65536,
        moisture(kind, degrees, dryness),
        between(0, wind, 6000),
        soil(rng, tree, dry),
    ]


def season(tree, kind, first=1, last=DAYS, mean=LOWLAND):
    """The lines of a season from a first to a last day, at a mean pressure."""
    rng = random.Random(2024)
    yield f"01{tree:02X}{DAYS:04X}{first:04X}{last:04X}{LEVEL:04X}"
    if tree == 7:
        yield "07" + "".join(f"{n:04X}" for n in OWN)
    dry = 0.3
    for day in range(first, last + 1):
        sky = rng.uniform(0.25, 1)
        dry = min(1.0, dry + 0.01) if sky > 0.5 else max(0.0, dry - 0.03)
        for hour in range(24):
            numbers = readings(rng, kind, tree, day, hour, sky, dry) + (
                [pressure(mean, day, hour)] if kind == 4 else []
            )
            yield f"{kind:02X}{day:04X}{hour:02X}" + "".join(f"{n:04X}" for n in numbers)
    yield f"03{24 * (last - first + 1):04X}"


def main():
    tree = int(sys.argv[1]) if len(sys.argv) > 1 else 6
    kind = int(sys.argv[2]) if len(sys.argv) > 2 else 2
    if not 1 <= tree <= 7 or kind not in (2, 4, 5):
        sys.exit(__doc__)
    print("\n".join(season(tree, kind)))


if __name__ == "__main__":
    main()
