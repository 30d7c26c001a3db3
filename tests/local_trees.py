"""Parameters of a laboratory's own tree and its warmth (docs/SPECIFICATION.md, "A laboratory's own
tree", "Leaf age by warmth") for the case scripts in this folder: at the corners of their ranges,
one past them, by lot.

Nothing here is taken from the code.
"""

from itertools import product

from paper import PARAMETER_LIMITS, PARAMETERS, Parameters, line_of, parameter_row

# no ramps, so that a season may have one day
LOCAL = Parameters(230, 13, 60, 1, 21, 36, 1000, 3250, 100, 1500, 43, 20, 40, 0, 0, 1)
TEMPERATURES = ("tmin", "topt", "tmax")


def local(**changes):
    """LOCAL with some parameters anew, as they stand in a line."""
    return Parameters(*(n % 65536 for n in LOCAL._replace(**changes)))


def parameters_line(**changes):
    return line_of(PARAMETERS, *local(**changes))


def with_temperatures(*three):
    return dict(zip(TEMPERATURES, three))


# at the ends of their range; p/q 1/1, 22/1, 1/22, 22/21, 21/22, 22/13, 13/22, reduced from 46/46,
# 66/3, 3/66, 44/22; on both sides of 0 °C
GOOD_TEMPERATURES = (
    (-20, -19, -18), (58, 59, 60), (-20, 20, 60), (-20, -19, 3), (37, 59, 60), (37, 38, 60),
    (-20, 2, 3), (-20, 1, 23), (17, 39, 60), (-20, 2, 23), (-20, -7, 15), (-20, 2, 15),
    (-20, 3, 26), (-20, -17, 49), (-9, 57, 60), (-6, 16, 60), (-1, 0, 1), (0, 22, 35),
)
# not rising, past the ends, p or q 23, reduced and not
BROKEN_TEMPERATURES = (
    (-21, 0, 21), (-21, -20, -19), (20, 40, 61), (59, 60, 61), (-32768, 0, 20), (0, 20, 32767),
    (10, 10, 20), (0, 20, 20), (10, 10, 10), (20, 10, 30), (0, 30, 20), (30, 20, 10), (0, 1, 24),
    (0, 23, 24), (0, 2, 48), (0, 46, 48), (0, 22, 45), (0, 23, 45), (-20, 59, 60), (-20, -19, 60),
)
PAIRS = (("vpdmax", "vpdmin"), ("soilmax", "soilmin"))
GOOD_PAIRS = ((0, 1), (9999, 10000), (0, 10000), (4096, 4097))
BROKEN_PAIRS = (
    (0, 0), (10000, 10000), (1, 0), (10000, 0), (0, 10001), (10000, 10001), (10001, 10002),
    (0, 65535), (65535, 0), (32768, 32769),
)
SINGLE = tuple(
    name for name in Parameters._fields if name not in (*TEMPERATURES, *PAIRS[0], *PAIRS[1])
)


def good_changes():
    """Each parameter at the ends of its range."""
    for name in SINGLE:
        yield from ({name: n} for n in getattr(PARAMETER_LIMITS, name))
    yield from (with_temperatures(*three) for three in GOOD_TEMPERATURES)
    yield from (dict(zip(names, pair)) for names, pair in product(PAIRS, GOOD_PAIRS))


def broken_changes():
    """Each parameter one past its range and at two bytes' most; pairs and temperatures that do not
    rise; p or q 23."""
    for name in SINGLE:
        low, high = getattr(PARAMETER_LIMITS, name)
        yield from ({name: n} for n in dict.fromkeys((low - 1, high + 1, 32768, 65535)))
    yield from (with_temperatures(*three) for three in BROKEN_TEMPERATURES)
    yield from (dict(zip(names, pair)) for names, pair in product(PAIRS, BROKEN_PAIRS))
    yield from (dict.fromkeys(Parameters._fields, n) for n in (0, 1, 65535))
    yield {"gmax": 0, "y": 11}


GOOD = tuple(local(**changes) for changes in good_changes())
BROKEN = tuple(local(**changes) for changes in broken_changes())
assert not any(map(parameter_row, GOOD)) and all(map(parameter_row, BROKEN))

# rise, fall and end: each 0 and both, one next to the other, the least and the greatest end
WARMTHS = (
    (200, 300, 1500), (0, 300, 1500), (200, 0, 1500), (0, 0, 1500), (1000, 500, 1500),
    (1500, 0, 1500), (0, 1500, 1500), (0, 0, 1), (1, 0, 1), (0, 1, 1), (0, 0, 5000),
    (2500, 2500, 5000),
)

CORNERS = {name: getattr(PARAMETER_LIMITS, name) for name in SINGLE}


def some_parameters(lot, days):
    """Mostly at corners, with ramps of so many days at most."""
    numbers = {
        name: lot.of((*ends, *ends, ends[0] + lot.to(ends[1] - ends[0])))
        for name, ends in CORNERS.items()
    }
    numbers["f1"] = lot.to(min(days, 200))
    numbers["f4"] = lot.to(min(days - numbers["f1"], 200))
    numbers |= with_temperatures(*lot.of(GOOD_TEMPERATURES))
    for names in PAIRS:
        low = lot.to(9999)
        numbers |= dict(zip(names, lot.of((*GOOD_PAIRS[:3], (low, low + 1 + lot.to(9999 - low))))))
    parameters = local(**numbers)
    assert parameter_row(parameters) is None
    return parameters
