#!/usr/bin/env python3
"""The section "dose" of crates/cases, reckoned with whole numbers and fractions.

    python3 tests/dose_cases.py [VECTORS]

writes it (tests/sections.py): calls, one a row, chosen out of VECTORS, the folder of season texts,
else ../shared/vectors beside the repository.

    python3 tests/dose_cases.py --stored

answers the calls anew that are stored.

A call is refused by the first of rows 17, 24, 25, 5, 7, 18 and 10 whose condition holds: the year
is not given, so 366 days are its most, a ceiling of 0 is none, and a soil in the other measure is
out of range. An hour that is not counted, with G of 50 or less, adds 0 and 0. Each other pair is
made by the definitions in crates/dose_spec/specs (Pair, Light, Deficit) and held to the exact dose
of tests/paper.py: lower ≤ exact dose ≤ upper, upper - lower ≤ 2, upper ≤ 800000. Where ozone is
missing lower is 0, and lower ≤ exact dose ≤ upper holds with each of a few numbers up to the
ceiling in its place. For tree 7, whose parameters follow as a line of kind 07, the gap may be
MEASURED_GAP in kind 05, and the most is 1500000. A line of kind 08 and a temperature sum after them
end the row where f_phen goes by warmth, which is not looked at for any other tree, nor are
parameters.
"""

import sys
from fractions import Fraction
from functools import cache
from itertools import product

import sections
import vectors
from local_trees import BROKEN, GOOD, WARMTHS, local, some_parameters
from lot import Lot
from paper import HOUR_KINDS, MEASURED, NO_AGE, NO_PARAMETERS, NO_WARMTH, NUMBERS, PARAMETERS
from paper import SUCTION, TREES, WARMTH, WATER, Age, Hour, Parameters, Warmth, ceiling_row
from paper import clamped_line, concentration, decay, deficit, down, exact_dose, frame_of, hour_of
from paper import line_of, line_of_hour, measured, missing_row, most_hour, parameter_row, period_row
from paper import phenology_of, range_row, read_as, resistance_root, saturation, temperature_factor
from paper import tree_of, up, warmth_row

MOST_DAYS = 366
GAP, MEASURED_GAP = 2, 8  # the second where a VPD range of a few Pa meets the humidity of kind 05
UNITS = 2 * 10**8  # of the table of saturation pressures in 1 kPa

EVERGREEN_NOON = "06 0001 0001 0000 S 0200010C01F401F4019000E603E8012C03E8"

# ---- the pair, by crates/dose_spec/specs


def floor_of(pair, scale):
    """The whole part of scale times a number known between two fractions."""
    low, high = (scale * x for x in pair)
    assert low // 1 == high // 1, "more terms are needed"
    return low // 1


@cache
def decay_low(n):
    """The product of the entries of n's digits in base 100, each and each product rounded down, in
    units of 10⁻⁹."""
    digits = (n % 100, 100 * (n // 100 % 100), 10000 * (n // 10000))
    x, y, z = (floor_of(decay(Fraction(d, 10000)), 10**9) for d in digits)
    return x * y // 10**9 * z // 10**9


def deficits(hour):
    """VPD in Pa between two fractions: in kind 05 by the saturation pressure in the table's units,
    rounded down, and by the next number."""
    if hour.kind != 5:
        return deficit(hour)
    entry = floor_of(saturation(hour.temperature), UNITS)
    return [Fraction((1000 - hour.moisture) * n, UNITS) for n in (entry, entry + 1)]


def share(tree, first, last, hour, age):
    """f_phen·f_light·max(f_min, f_temp·f_VPD·f_SW) in units of 10⁻⁷, rounded down and up."""
    vpd_factors = (clamped_line(*tree.vpd, tree.fmin, vpd) for vpd in reversed(deficits(hour)))
    soil_factor = clamped_line(*tree.soil, tree.fmin, hour.soil)
    phen = phenology_of(tree, first, last, hour, age)
    decayed = decay_low(10000 * tree.light * hour.ppfd // 1)
    lights = (max(10**9 - (decayed + 7), 0), 10**9 - decayed)
    warmths = temperature_factor(tree, hour.temperature, 10**9)
    out = []
    for rounded, light, warm, vpd_factor in zip((down, up), lights, warmths, vpd_factors):
        opening = max(tree.fmin * 10**9, rounded(rounded(warm * vpd_factor) * soil_factor))
        out.append(rounded(rounded(light * phen) * opening / 10**11))
    return out


def quotient(gmax, ozone, p, s, more):
    return ozone * (gmax * p) // (2050000000000 + more + 39 * s * (gmax * p + 164000000) // 400000)


def pair_of(tree, first, last, ceiling, hour, age):
    """A counted hour's pair, a missing ozone read as 0 for the lower number and as the ceiling for
    the upper one."""
    low, high = share(tree, first, last, hour, age)
    least, most = (18000 * concentration(read_as(n, hour)) for n in (0, ceiling))
    r = resistance_root(tree, hour.wind, 10**7)
    lower = max(quotient(tree.gmax, down(least), low, r + 1, 1) - 3600 * tree.threshold, 0)
    upper = max(quotient(tree.gmax, up(most), high, r, 0) + 1 - 3600 * tree.threshold, 0)
    return int(lower), int(upper)


# ---- rows


def fields_of(line):
    """The kind and the numbers of a line that rows 1 to 3 pass."""
    refused, kind, numbers = frame_of(line.encode())
    assert not refused, line
    return kind, numbers


def read(row):
    """A row's tree number, first and last day, ceiling, soil measure, the hour of its line, the
    parameters and leaf age by warmth."""
    number, first, last, ceiling, measure, line, *rest = row.split()
    parameters = Parameters(*fields_of(rest[0])[1]) if rest else NO_PARAMETERS
    age = Age(Warmth(*fields_of(rest[1])[1]), int(rest[2], 16)) if rest[1:] else NO_AGE
    hour = hour_of(*fields_of(line))
    ends = int(first, 16), int(last, 16), int(ceiling, 16)
    return int(number, 16), *ends, measure, hour, parameters, age


def unfit_row(hour, measure, own):
    """Row 10 with its first field, a soil that is not in the tree's own measure being field 7."""
    row = range_row(hour, measure)
    return (10, 7) if measure != own and (row is None or row > (10, 7)) else row


def refusal(number, first, last, ceiling, measure, hour, parameters, warmth):
    """The first of rows 17, 24, 25, 5, 7, 18 and 10 whose condition holds; None where none does."""
    if ceiling and (row := ceiling_row(ceiling)):
        return row
    if number == MEASURED and (row := parameter_row(parameters)):
        return row
    if number == MEASURED and warmth.is_fed and (row := warmth_row(warmth)):
        return row
    if number not in NUMBERS:
        return (5,)
    tree = tree_of(number, parameters)
    if row := period_row(tree.f1 + tree.f4, MOST_DAYS, first, last):
        return row
    return missing_row(ceiling, hour) or unfit_row(hour, measure, tree.measure)


def held_pair(tree, first, last, ceiling, hour, age):
    """The pair, held to the exact dose of each of a few fillings: the ends, the threshold of AOT40
    and between."""
    lower, upper = pair_of(tree, first, last, ceiling, hour, age)
    missing = hour.ozone is None
    for n in {0, min(400, ceiling), ceiling // 2, ceiling} if missing else {0}:
        least, most = exact_dose(tree, first, last, read_as(n, hour), age)
        assert lower <= least and most <= upper, (hour, n)
    gap = MEASURED_GAP if tree.number == MEASURED and hour.kind == 5 else GAP
    is_near = lower == 0 if missing else upper <= lower + gap
    assert upper <= most_hour(tree.number) and is_near, hour
    return lower, upper


def answer(row):
    number, first, last, ceiling, measure, hour, parameters, age = read(row)
    refused = refusal(number, first, last, ceiling, measure, hour, parameters, age.warmth)
    age = age if number == MEASURED else NO_AGE
    if refused:
        return "row " + " field ".join(str(n) for n in refused)
    if not hour.is_counted:
        return "0 0"
    lower, upper = held_pair(tree_of(number, parameters), first, last, ceiling, hour, age)
    if row.startswith(EVERGREEN_NOON):
        assert 28652 <= lower <= 28655 and 28656 <= upper <= 28659, row
    return f"{lower} {upper}"


# ---- the choice of rows

SEASONS = (
    "season-1-boreal-spruce",
    "season-2-birch",
    "year-3-continental-spruce",
    "season-4-beech",
    "season-5-oak",
    "leap-year-6-evergreen",
)
BEECH, BOREAL, EVERGREEN, SPRUCE = (
    "04 0069 0129 S", "01 0082 0101 W", "06 0001 016D S", "03 0001 016D S",
)
NOON = "00B40C01F401F4019000E603E8012C"  # without its soil reading

# Calls that are refused: no tree; days that are no period; each reading past its range on either
# side that it has; a soil in the other measure; of several rows or fields the first.
REFUSED = (
    ("00 0069 0129 S", NOON + "0032"),
    ("08 0069 0129 S", NOON + "0032"),
    ("FF 0069 0129 W", NOON + "0032"),
    ("04 0000 0129 S", NOON + "0032"),
    ("04 0129 0069 S", NOON + "0032"),
    ("04 0069 016F S", NOON + "0032"),
    ("06 0002 0001 S", NOON + "0032"),
    ("06 0000 0001 S", NOON + "0032"),
    ("06 016F 016F S", NOON + "0032"),
    ("06 FFFF FFFF S", NOON + "0032"),
    ("04 0001 0028 S", NOON + "0032"),
    ("01 0001 0032 W", NOON + "0050"),
    ("05 0001 0023 S", NOON + "0032"),
    (BEECH, "00B40C138901F4019000E603E8012C0032"),
    (BEECH, "00B40C01F40BB9019000E603E8012C0032"),
    (BEECH, "00B40C01F401F405DD00E603E8012C0032"),
    (BEECH, "00B40C01F401F40190FE0B03E8012C0032"),
    (BEECH, "00B40C01F401F40190025903E8012C0032"),
    (BEECH, "00B40C01F401F40190800003E8012C0032"),
    (BEECH, "00B40C01F401F401907FFF03E8012C0032"),
    (BEECH, "00B40C01F401F4019000E62711012C0032"),
    (BEECH, "00B40C01F401F4019000E603E817710032"),
    (BEECH, NOON + "2711"),
    (BOREAL, NOON + "03E9"),
    ("01 0082 0101 S", NOON + "2328"),
    ("01 0082 0101 S", NOON + "0096"),
    ("01 0082 0101 S", NOON + "2711"),
    ("04 0069 0129 W", NOON + "0032"),
    ("04 0069 0129 W", NOON + "03E9"),
    ("04 0069 0129 W", "00B40C01F401F4019000E603E817710032"),
    ("04 0069 0129 W", "00B40C01F401F4000000E603E8012C0032"),
    (BEECH, "00B40C13890BB905DD0259271117712711"),
    (BEECH, "00B40C138901F4000000E603E8012C0032"),
    ("08 0129 0069 W", "00B40C13890BB905DD0259271117712711"),
    ("04 0129 0069 W", "00B40C13890BB905DD0259271117712711"),
)

# Periods that just pass: the ramps just fit, the last day of a leap year, one day.
PERIODS = (
    ("04 0001 0029 S", "00150C01F401F4019000A003E8012C0032"),
    ("01 0001 0033 W", "00150C01F401F4019000C80320012C0096"),
    ("05 0001 0024 S", "00100C01F401F4019000DC03E8012C03E8"),
    ("06 016E 016E S", "016E0C01F401F4019000E603E8012C03E8"),
    ("03 0001 0001 S", "00010C01F401F40190008C01F4012C0032"),
)

# Kind 04: pressure past its range on either side; the first of several fields, pressure the last of
# them, and a soil in the other measure before it; rows 5 and 7 before it; an hour that is not
# counted.
REFUSED_04 = (
    (BEECH, NOON + "0032", 4999),
    (BEECH, NOON + "0032", 11001),
    (BEECH, NOON + "0032", 0),
    (BEECH, NOON + "0032", 65535),
    (BOREAL, NOON + "0050", 4999),
    (BOREAL, NOON + "0050", 11001),
    (BEECH, NOON + "2711", 4999),
    (BEECH, NOON + "2711", 10000),
    (BEECH, "00B40C138901F4019000E603E8012C0032", 11001),
    (BEECH, "00B40C01F401F40190FE0B03E8012C0032", 11001),
    (BEECH, "00B40C01F401F4019000E62711012C0032", 4999),
    ("04 0069 0129 W", NOON + "0032", 4999),
    ("04 0069 0129 W", NOON + "0032", 10000),
    ("01 0082 0101 S", NOON + "0096", 11001),
    (BEECH, "00B40C01F401F4003200A003E8012C0032", 11001),
    (BEECH, "00B40C01F401F4003200A003E8012C0032", 11000),
    ("08 0069 0129 S", NOON + "0032", 4999),
    ("04 0129 0069 S", NOON + "0032", 4999),
)

# Kind 05: humidity past its range; VPD's most; the first of several fields; a soil in the other
# measure after it; an hour that is not counted.
REFUSED_05 = (
    (BEECH, "00B40C01F401F4019000E603E9012C0032"),
    (BEECH, "00B40C01F401F4019000E62710012C0032"),
    (BEECH, "00B40C01F401F4019000E6FFFF012C0032"),
    (BOREAL, "00B40C01F401F4019000E603E9012C0050"),
    (BEECH, "00B40C01F401F40190025903E9012C0032"),
    (BEECH, "00B40C01F401F40190FE0B03E8012C0032"),
    (BEECH, "00B40C01F401F4019000E603E917710032"),
    (BEECH, "00B40C01F401F4019000E603E8012C2711"),
    ("04 0069 0129 W", "00B40C01F401F4019000E603E9012C0032"),
    ("04 0069 0129 W", "00B40C01F401F4019000E603E8012C0032"),
    (BEECH, "00B40C01F401F4003200A003E9012C0032"),
    (BEECH, "00B40C01F401F4003200A003E8012C0032"),
    ("08 0069 0129 S", "00B40C01F401F4019000E603E9012C0032"),
    ("04 0129 0069 S", "00B40C01F401F4019000E603E9012C0032"),
)

# With a ceiling: row 17 before rows 5, 7 and 10 and before an hour that is not counted, whether
# ozone is missing or not; row 18 before each field of row 10, a soil in the other measure and an
# hour that is not counted; row 10 with the first field past a missing ozone; ozone out of range
# whatever the ceiling, none, below it and above it.
UNCOUNTED = "00B40CFFFF01F4003200A003E8012C0032"
REFUSED_06 = (
    ("08 0069 0129 S", NOON + "0032", 5001),
    ("08 0069 0129 S", UNCOUNTED, 0),
    ("04 0129 0069 S", NOON + "0032", 5001),
    ("04 0129 0069 S", UNCOUNTED, 0),
    ("04 0069 016F S", NOON + "0032", 65535),
    (BEECH, NOON + "0032", 5001),
    (BEECH, NOON + "0032", 65535),
    (BEECH, NOON + "2711", 5001),
    (BEECH, "00B40C138901F4019000E603E8012C0032", 5001),
    (BEECH, UNCOUNTED, 5001),
    (BEECH, UNCOUNTED, 65535),
    (BEECH, UNCOUNTED, 0),
    (BEECH, UNCOUNTED, 1),
    (BEECH, UNCOUNTED, 5000),
    (BOREAL, "00B40CFFFF01F4019000C80320012C0096", 0),
    (BEECH, "00B40CFFFF0BB905DD0259271117712711", 0),
    (BEECH, "00B40CFFFF0BB8019000E603E8012C2711", 0),
    ("04 0069 0129 W", "00B40CFFFF01F4019000E603E8012C0032", 0),
    ("04 0069 0129 W", "00B40CFFFF01F4019000E603E8012C0032", 400),
    (BEECH, "00B40CFFFF0BB905DD0259271117712711", 400),
    (BEECH, "00B40CFFFF01F405DD0259271117712711", 400),
    (BEECH, "00B40CFFFF01F401900259271117712711", 400),
    (BEECH, "00B40CFFFF01F4019000E6271117712711", 400),
    (BEECH, "00B40CFFFF01F4019000E603E817712711", 400),
    (BEECH, "00B40CFFFF01F4019000E603E8012C2711", 400),
    (BEECH, "00B40C138901F4019000E603E8012C0032", 0),
    (BEECH, "00B40C138901F4019000E603E8012C0032", 5000),
    (BEECH, "00B40CFFFE01F4019000E603E8012C0032", 5000),
    (BEECH, "00B40CFFFE01F4019000E603E8012C0032", 0),
)
CEILINGS = (1, 399, 400, 401, 5000, 0, 5001)  # the last two are rows 18 and 17

# Every reading at its highest or lowest; wind 9 and wind 10; the least and the greatest
# temperature; -0.1 and 0.0 °C; each end of the tree's temperatures and a tenth on either side; G 0,
# 50 and 51; the days around the period and its ramps.
EDGES = (
    (BEECH, "00B40C138803E8019000A0000017700000"),
    (BEECH, "00B40C13880BB805DC00A0000017700000"),
    (BEECH, "00B40C13880BB805DC02582710177003E8"),
    (BOREAL, "00B40C13880BB805DC00C80000000003E8"),
    (BEECH, "00B40C01F401F4019000A003E800090032"),
    (BEECH, "00B40C01F401F4019000A003E8000A0032"),
    (BEECH, "00B40C01F401F4019000A003E8000B0032"),
    (BEECH, "00B40C01F401F4019000A003E800000032"),
    (BEECH, "00B40C01F401F40190FE0C03E8012C0032"),
    (BEECH, "00B40C01F401F40190025803E8012C0032"),
    (BOREAL, "00B40C01F401F40190FE0C0320012C0096"),
    (BOREAL, "00B40C01F401F4019002580320012C0096"),
    (BOREAL, "00B40C01F401F40190FFFF0320012C0096"),
    (BOREAL, "00B40C01F401F4019000000320012C0096"),
    (BOREAL, "00B40C01F401F4019000010320012C0096"),
    (BEECH, "00B40C01F401F40190003203E8012C0032"),
    (BEECH, "00B40C01F401F40190003303E8012C0032"),
    (BEECH, "00B40C01F401F40190014903E8012C0032"),
    (BEECH, "00B40C01F401F40190014A03E8012C0032"),
    (BEECH, "00B40C01F401F4003200A003E8012C0032"),
    (BEECH, "00B40C01F401F4003300A003E8012C0032"),
    (BEECH, "00B40C01F40000019000A003E8012C0032"),
    (BEECH, "00B40C01F40001019000A003E8012C0032"),
    (BEECH, "00B40C000001F4019000A003E8012C0032"),
    (BEECH, "00000001F401F4019000A003E8012C0032"),
    (BEECH, "00690001F401F4019000A003E8012C0032"),
    (BEECH, "00730001F401F4019000A003E8012C0032"),
    (BEECH, "007D0001F401F4019000A003E8012C0032"),
    (BEECH, "01150001F401F4019000A003E8012C0032"),
    (BEECH, "011F0001F401F4019000A003E8012C0032"),
    (BEECH, "01290001F401F4019000A003E8012C0032"),
    (BEECH, "FFFFFF01F401F4019000A003E8012C0032"),
    (EVERGREEN, "00500C01F401F4019000E603E8012C03E8"),
    (EVERGREEN, "00510C01F401F4019000E603E8012C03E8"),
    (EVERGREEN, "00910C01F401F4019000E603E8012C03E8"),
    (EVERGREEN, "00D20C01F401F4019000E603E8012C03E8"),
    (EVERGREEN, "01040C01F401F4019000E603E8012C03E8"),
    (EVERGREEN, "01220C01F401F4019000E603E8012C03E8"),
    (EVERGREEN, "01400C01F401F4019000E603E8012C03E8"),
    (SPRUCE, "00500C01F401F4019000000320012C0032"),
    (SPRUCE, "00500C01F401F4019000010320012C0032"),
    (SPRUCE, "00500C01F401F40190015D0320012C0032"),
    (SPRUCE, "00500C01F401F40190015E0320012C0032"),
    (BEECH, "00B40C01F401F4000000A003E8012C0032"),
)


LONGEST = (BOREAL, "02 0082 0101 W", SPRUCE, BEECH, "05 0069 0129 S", EVERGREEN)
PRESSURES = (5000, 11000, 10132, 7010, 5001, 10999)


def with_ceiling(row, ceiling):
    """A row, chosen without one, with a ceiling."""
    *days, measure, line = row.split(" ")
    return " ".join([*days, f"{ceiling:04X}", measure, line])


def without_ozone(row):
    *head, line = row.split(" ")
    return " ".join([*head, f"{line[:8]}FFFF{line[12:]}"])


def season(folder, name):
    """The header of a season text and its hours."""
    lines = (folder / f"{name}.txt").read_text().split()
    return lines[0], [line for line in lines[1:] if line[:2] == "02"]


def call(header, hour):
    """A row of a header's line and an hour's."""
    number = header[2:4]
    return f"{number} {header[8:12]} {header[12:16]} {TREES[int(number, 16)].measure} {hour}"


def out_of_texts(folder):
    """Each tree's hours: the first of its corners, and counted ones over its season."""
    for tree, name in enumerate(SEASONS, start=1):
        header, hours = season(folder, f"corners-{tree}")
        yield from (call(header, hour) for hour in hours[:100])
        header, hours = season(folder, name)
        counted = [hour for hour in hours if int(hour[16:20], 16) > 50]
        yield from (call(header, hour) for hour in counted[:: len(counted) // 92])


def with_pressure(row, pressure):
    """A row of kind 02 in kind 04."""
    *head, line = row.split(" ")
    return " ".join([*head, f"04{line[2:]}{pressure:04X}"])


def greatest(head, day):
    """A tree's greatest hours of kind 04, at the ends of pressure and temperature and where its
    curve begins, is highest and ends; in storm and in calm."""
    tree = TREES[int(head[:2], 16)]
    bends = [10 * t + step for t in (tree.tmin, tree.topt, tree.tmax) for step in (-1, 0, 1)]
    temperatures = sorted({t for t in (-500, 600, *bends) if t <= 600})
    for t, pressure, wind in product(temperatures, PRESSURES[:2], (6000, 0)):
        yield f"{head} " + line_of(
            4, day, 12, 5000, 3000, 1500, t, 0, wind, int(tree.soil[0]), pressure
        ).decode()


def with_humidity(row, humidity):
    """A row of kind 02 in kind 05."""
    *head, line = row.split(" ")
    return " ".join([*head, f"05{line[2:24]}{humidity:04X}{line[28:]}"])


def humid(head, temperature, humidity):
    """A tree's hour of kind 05 with much ozone and light."""
    soil = int(TREES[int(head[:2], 16)].soil[0])
    return f"{head} " + line_of(
        5, 180, 12, 3000, 3000, 1500, temperature, humidity, 300, soil
    ).decode()


def humidity_between(tree, t, share):
    """The humidity whose deficit lies by a share of the way from the tree's "max" to its "min", as
    near as tenths of a percent and the air allow."""
    low, high = tree.vpd
    dry = (low + (high - low) * share) / saturation(t)[0]
    return 1000 - int(min(max(down(dry), 0), 1000))


HUMIDITIES, TEMPERATURES = (0, 1, 500, 999, 1000, 1001), (-500, -1, 0, 1, 200, 600)


def humid_hours():
    """Every tree at the ends of humidity and temperature and on both sides of 0 °C; every tenth of
    a degree in one tree, at the ends of humidity and with the deficit on the slope of its factor
    where the air can be so dry."""
    for head, t, humidity in product(LONGEST, TEMPERATURES, HUMIDITIES):
        yield humid(head, t, humidity)
    for n, t in enumerate(range(-500, 601)):
        head = LONGEST[n % len(LONGEST)]
        yield humid(head, t, humidity_between(TREES[int(head[:2], 16)], t, Fraction(n % 17, 16)))
        for humidity in HUMIDITIES[:5]:
            yield humid(head, t, humidity)


def with_ozone(texts):
    """Calls of kind 02, then of kind 04: the hours out of texts in both, side by side with a
    mountain's pressure and with the ends of its range; then of kind 05."""
    yield from texts
    yield from (f"{head} 02{hour}" for head, hour in REFUSED + PERIODS + EDGES)
    for n, row in enumerate(texts):
        yield with_pressure(row, PRESSURES[n % len(PRESSURES)])
        yield with_pressure(row, 6000 + 37 * n % 2500)
    yield from (f"{head} 04{hour}{pressure:04X}" for head, hour, pressure in REFUSED_04)
    for head, hour in PERIODS + EDGES:
        yield from (f"{head} 04{hour}{pressure:04X}" for pressure in PRESSURES[:2])
    for head in LONGEST:
        yield from greatest(head, 180)
    yield from (f"{head} 05{hour}" for head, hour in REFUSED_05)
    for n, row in enumerate(texts[::3]):
        yield with_humidity(row, 83 * n % 1001)
    for n, (head, hour) in enumerate(PERIODS + EDGES):
        yield with_humidity(f"{head} 02{hour}", HUMIDITIES[n % 5])
    yield from humid_hours()


def missing_hours(texts):
    """Hours without ozone in every kind: out of texts with each ceiling, each tree's greatest and
    the edges with the highest and with that of AOT40's threshold."""
    for n, row in enumerate(texts[::12]):
        for kind in (
            row,
            with_pressure(row, PRESSURES[n % len(PRESSURES)]),
            with_humidity(row, 83 * n % 1001),
        ):
            yield from (with_ceiling(without_ozone(kind), ceiling) for ceiling in CEILINGS)
    for head in LONGEST:
        yield from (with_ceiling(without_ozone(row), 5000) for row in greatest(head, 180))
    for n, (head, hour) in enumerate(PERIODS + EDGES):
        row = f"{head} 02{hour}"
        for kind, ceiling in product(
            (row, with_pressure(row, PRESSURES[n % 2]), with_humidity(row, HUMIDITIES[n % 5])),
            (400, 5000),
        ):
            yield with_ceiling(without_ozone(kind), ceiling)


# ---- calls of tree 7


def own_row(parameters, first, last, ceiling, hour, measure=SUCTION, number=MEASURED):
    line, frame = line_of_hour(hour).decode(), line_of(PARAMETERS, *parameters).decode()
    return f"{number:02X} {first:04X} {last:04X} {ceiling:04X} {measure} {line:40} {frame}"


def own_hour(kind, day, temperature, **readings):
    """An hour with much ozone and light, calm, moist and wet but for the readings given."""
    own = {
        "ozone": 5000, "ppfd": 3000, "radiation": 800, "temperature": temperature,
        "moisture": 1000 if kind == 5 else 0, "wind": 300, "soil": 0, "pressure": 10132,
    }
    return Hour(kind, day, 12, **own | readings)


def bends(parameters):
    """Next to Tmin, Topt and Tmax, within the range of readings."""
    return [
        t
        for degrees in parameters.temperatures
        for t in range(10 * degrees - 1, 10 * degrees + 2)
        if t <= 600
    ]


def beside(lot, line):
    """At the two ends of a factor's line, next to them and between, within the range of
    readings."""
    best, worst = line
    return lot.of(
        (best, best, best, best + 1, (best + worst) // 2, worst - 1, worst, min(worst + 1, 10000))
    )


def air_by_lot(lot, tree, kind, t):
    if kind == 5:
        return {"moisture": humidity_between(tree, t, Fraction(lot.of((0, 0, 1, 2, 3, 4)), 4))}
    return {"moisture": beside(lot, tree.vpd), "pressure": lot.of(PRESSURES)}


def hour_by_lot(lot, parameters, kind, first, last):
    """A day on the ramps or between them, a temperature at a bend or between."""
    tree = measured(parameters)
    day = lot.of(
        (first, first + tree.f1 // 2, first + tree.f1, last - tree.f4, last - tree.f4 // 2, last)
    )
    t = lot.of((*bends(parameters), 10 * tree.tmin + lot.below(10 * (tree.tmax - tree.tmin))))
    light = {"ppfd": lot.of((3000, 3000, 1, 200)), "radiation": lot.of((51, 1500))}
    weather = {
        "ozone": lot.of((5000, 5000, 700, None)),
        "wind": lot.of((0, 10, 11, 300, 6000)),
        "soil": beside(lot, tree.soil),
    }
    return own_hour(kind, day, t, **light, **weather, **air_by_lot(lot, tree, kind, t))


def by_lot():
    """A thousand trees with most of their parameters at corners, an hour of each."""
    lot = Lot(212)
    for n in range(1000):
        days = lot.of((0, 1, 40, 365, 365))
        parameters = some_parameters(lot, days)
        first, last = lot.of(((1, 1 + days), (366 - days, 366)))
        yield own_row(
            parameters,
            first,
            last,
            lot.of((1, 401, 5000)),
            hour_by_lot(lot, parameters, HOUR_KINDS[n % 3], first, last),
        )


def around_bends():
    """Each parameter at each end of its range, next to Tmin, Topt and Tmax; every third hour
    without ozone."""
    for n, parameters in enumerate(GOOD):
        for turn, t in enumerate(bends(parameters)):
            ozone = None if turn % 3 == n % 3 else 5000
            yield own_row(
                parameters,
                1,
                1 + parameters.ramps,
                5000,
                own_hour(HOUR_KINDS[(n + turn) % 3], 1 + parameters.f1, t, ozone=ozone),
            )


def steepest():
    """VPD and suction a unit wide, with the deficit of kind 05 between the two: where the pair is
    widest."""
    for n, t in enumerate(range(-190, 600, 13)):
        humidity = (0, 333, 500, 900)[n % 4]
        deficit_down = int(down(deficit(own_hour(5, 1, t, moisture=humidity))[0]))
        degrees = t // 10
        parameters = local(
            gmax=500, fmin=1, lighta=200, tmin=degrees - 1, topt=degrees,
            tmax=degrees + 1 if degrees < 59 else 60, leaf=1, y=0,
        )
        parameters = parameters._replace(
            vpdmax=min(deficit_down, 9999),
            vpdmin=min(deficit_down, 9999) + 1,
            soilmax=n,
            soilmin=n + 1,
        )
        yield own_row(
            parameters, 1, 1, 0, own_hour(5, 1, t, moisture=humidity, wind=6000, soil=n + n % 2)
        )


PAST_THEIR_RANGES = (
    ("ozone", 5001), ("ppfd", 3001), ("radiation", 1501), ("temperature", 601),
    ("moisture", 10001), ("wind", 6001), ("soil", 10001),
)


def refused_own():
    """Row 24 before rows 7, 17, 18 and 10 and before an hour that is not counted; row 7 by the
    ramps, before the others; row 10, a soil as water, as for any tree."""
    hour = own_hour(2, 1, 200)
    for parameters in (NO_PARAMETERS, *BROKEN):
        yield own_row(parameters, 1, 1, 0, hour)
    for parameters in (NO_PARAMETERS, *BROKEN[:4]):
        yield from (
            own_row(parameters, first, last, 5001, hour._replace(ozone=None, wind=6001))
            for first, last in ((0, 1), (1, 1), (2, 1))
        )
        yield own_row(parameters, 1, 1, 0, hour._replace(radiation=50))
        yield own_row(parameters, 1, 1, 0, hour, WATER)
    for f1, f4 in ((0, 0), (1, 0), (0, 1), (20, 30), (200, 165), (200, 166), (200, 200)):
        ramps = local(f1=f1, f4=f4)
        yield from (
            own_row(ramps, 1, last, 0, hour) for last in sorted({1, max(f1 + f4, 1), f1 + f4 + 1})
        )
        yield own_row(ramps, 1, f1 + f4, 5001, hour._replace(ozone=None, wind=6001))
    for first, last in ((0, 0), (2, 1), (1, 367), (366, 366), (65535, 65535)):
        yield own_row(local(), first, last, 0, hour)
    yield own_row(local(), 1, 1, 5001, hour)
    lacking = hour._replace(ozone=None)
    for other in (lacking, lacking._replace(soil=10001), lacking._replace(radiation=50)):
        yield own_row(local(), 1, 1, 0, other)
    for reading, n in PAST_THEIR_RANGES:
        yield own_row(local(), 1, 1, 0, hour._replace(**{reading: n}))
    yield own_row(local(), 1, 1, 0, hour, WATER)
    yield own_row(local(), 1, 1, 0, hour._replace(radiation=50))
    yield own_row(local(), 1, 1, 0, hour._replace(kind=4, pressure=11001))
    yield own_row(local(), 1, 1, 0, hour._replace(kind=5, moisture=1001))


def beside_other_trees():
    """No other tree goes by parameters, sound or broken."""
    for parameters, (number, tree) in product((local(), BROKEN[0]), TREES.items()):
        hour = own_hour(HOUR_KINDS[number % 3], 180, 200, soil=int(tree.soil[0]))
        yield own_row(parameters, 130, 257, 0, hour, tree.measure, number)
    yield own_row(local(), 1, 1, 0, own_hour(2, 1, 200), number=8)


def own_trees():
    yield from by_lot()
    yield from around_bends()
    yield from steepest()
    yield from refused_own()
    yield from beside_other_trees()


# ---- calls by warmth


def warm_row(age, parameters=None, hour=None, first=1, last=1, ceiling=0, **named):
    """A call of tree 7 by warmth, its hour one with much ozone and light but for what is given."""
    call = own_row(
        parameters or local(), first, last, ceiling, hour or own_hour(2, 1, 210), **named
    )
    return f"{call} {line_of(WARMTH, *age.warmth).decode()} {age.tenths:08X}"


ENDS = ((20, 40), (0, 0), (100, 100), (1, 99), (99, 1))  # a and e


def sums_of(warmth):
    """Tenths of °C over hours: 0, where f_phen bends, a tenth on either side, between the bends,
    past the end and the most."""
    bends = [240 * n for n in (warmth.rise, warmth.end - warmth.fall, warmth.end)]
    beside = [bend + step for bend in bends for step in (-1, 0, 1)]
    between = [120 * warmth.rise, 240 * warmth.end - 120 * warmth.fall, 480 * warmth.end, 2**32 - 1]
    return sorted({n for n in (0, *beside, *between) if n >= 0})


def around_sums():
    """Each warmth at its sums, on the first day of a ramp, which f_phen does not go by; every fifth
    hour without ozone."""
    warmths = map(Warmth._make, (*WARMTHS, (1, 4999, 5000), (4999, 1, 5000)))
    ages = [Age(warmth, n) for warmth in warmths for n in sums_of(warmth)]
    for n, age in enumerate(ages):
        a, e = ENDS[n % len(ENDS)]
        hour = own_hour(
            HOUR_KINDS[n % 3], 1, 210, ozone=None if n % 5 == 0 else 5000, ppfd=(3000, 200)[n % 2]
        )
        yield warm_row(age, local(a=a, e=e, f1=20, f4=20), hour, last=41, ceiling=5000)


BROKEN_WARMTHS = (
    (1000, 501, 1500), (1001, 500, 1500), (1501, 0, 1500), (0, 1501, 1500), (0, 0, 5001),
    (0, 0, 65535), (65535, 65535, 65535), (32768, 32768, 1), (1, 0, 0), (0, 1, 0), (1, 1, 1),
    (2500, 2501, 5000), (2500, 2500, 5001), (65535, 1, 5000), (1, 65535, 5000),
    (40000, 25536, 5000),
)


def refused_by_warmth():
    """Row 25 at its edges; after rows 17 and 24, before rows 7, 18 and 10; not for a number that is
    no tree."""
    hour = own_hour(2, 1, 210)
    lacking = hour._replace(ozone=None, wind=6001)
    broken = [Age(Warmth(*three), 240) for three in BROKEN_WARMTHS]
    yield from map(warm_row, broken)
    for age in (*broken[:2], Age(Warmth(200, 300, 1500), 240), Age(NO_WARMTH, 240)):
        yield warm_row(age, NO_PARAMETERS)
        yield warm_row(age, local(y=11), lacking, first=0, ceiling=5001)
        yield warm_row(age, number=8)
        yield warm_row(age, hour=lacking, first=0, ceiling=5001)
        yield warm_row(age, local(f1=1), lacking, ceiling=5001)
        yield from (warm_row(age, hour=lacking, ceiling=ceiling) for ceiling in (5001, 0, 5000))
        yield warm_row(age, measure=WATER)
        yield warm_row(age, hour=hour._replace(radiation=50))


def without_warmth():
    """A sum without a frame: f_phen goes by the day, before, on and after the ramps."""
    for day, tenths in product((1, 6, 11, 31, 36, 41), (0, 1, 48000, 2**32 - 1)):
        yield warm_row(Age(NO_WARMTH, tenths), local(f1=10, f4=10), own_hour(2, day, 210), last=41)


def warmth_beside_other_trees():
    """A tree of the table goes by the day, whatever the call's warmth, also one that row 25 would
    refuse."""
    for number, tree in TREES.items():
        if tree.a is not None:
            hour = own_hour(2, 180, 10 * tree.topt, soil=int(tree.soil[0]))
            for tenths in (24000, 312000, 360000, 360001):
                yield warm_row(
                    Age(Warmth(200, 300, 1500), tenths),
                    hour=hour,
                    first=130,
                    last=257,
                    measure=tree.measure,
                    number=number,
                )
    for warmth, tenths in (((0, 0, 1), 241), ((1, 1, 1), 241), ((0, 0, 5001), 0)):
        hour = hour_of(*fields_of(EVERGREEN_NOON.split()[-1]))
        yield warm_row(Age(Warmth(*warmth), tenths), hour=hour, number=6)


def by_warmth():
    yield from around_sums()
    yield from refused_by_warmth()
    yield from without_warmth()
    yield from warmth_beside_other_trees()


def choose(folder):
    """Hours with ozone under one ceiling or another, which they do not go by, then hours without,
    and what a ceiling refuses; then those of tree 7, and by warmth."""
    yield EVERGREEN_NOON
    texts = list(out_of_texts(folder))
    for n, row in enumerate(with_ozone(texts)):
        yield with_ceiling(row, CEILINGS[n % 6])
    yield from missing_hours(texts)
    for head, hour, ceiling in REFUSED_06:
        yield with_ceiling(f"{head} 02{hour}", ceiling)
        yield with_ceiling(f"{head} 04{hour}2710", ceiling)
    yield from own_trees()
    yield from by_warmth()


def answered(rows):
    """The rows, and what must be printed of them."""
    return tuple("".join(row + "\n" for row in side).encode() for side in (rows, map(answer, rows)))


def section():
    return answered(list(choose(vectors.folder_of(sys.argv))))


def main():
    stored = sys.argv[1:] == ["--stored"]
    rows = sections.given()["dose"].decode().splitlines() if stored else None
    sections.write("dose", answered(rows) if stored else section())


if __name__ == "__main__":
    main()
