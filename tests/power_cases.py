#!/usr/bin/env python3
"""The section "power" of crates/cases, reckoned with whole numbers by the words of
docs/SPECIFICATION.md alone ("Factors", "A laboratory's own tree").

    python3 tests/power_cases.py

writes it (tests/sections.py).

A row is Tmin, Topt, Tmax (whole degrees above -50 °C), p, q, f_min (percent) and a reading (tenths
of a degree above -50.0 °C), in hexadecimal. p/q is reduced by the greatest common divisor and the
root is that of a quotient, so that no search of the code is repeated here.
"""

from fractions import Fraction
from itertools import product
from math import gcd

import sections

ZERO = 50  # 0 °C
MOST = 22  # of p and q
SCALE = 10**9
LOWEST, HIGHEST = ZERO - 20, ZERO + 200  # of Tmin and Tmax
FLOORS = (0, 1, 13, 50, 99, 100)

# ---- the rule


def lowest_terms(tmin, topt, tmax):
    """p and q, or None."""
    if not tmin < topt < tmax:
        return None
    ratio = Fraction(tmax - topt, topt - tmin)
    return (
        (ratio.numerator, ratio.denominator)
        if max(ratio.numerator, ratio.denominator) <= MOST
        else None
    )


def root(n, q):
    """The greatest t with t^q at most n, by Newton's steps from above."""
    t = 1 << -(-n.bit_length() // q)
    while n:
        lower = ((q - 1) * t + n // t ** (q - 1)) // q
        if lower >= t:
            return t
        t = lower
    return 0


def share(tmin, topt, tmax, x):
    """a·w^(p/q) as a and w."""
    return Fraction(x - 10 * tmin, 10 * (topt - tmin)), Fraction(10 * tmax - x, 10 * (tmax - topt))


def rounded_down(tmin, topt, tmax, p, q, x):
    a, w = share(tmin, topt, tmax, x)
    return root(SCALE**q * a**q * w**p // 1, q)


def fits(tmin, topt, tmax, p, q):
    if not LOWEST <= tmin < topt < tmax <= HIGHEST:
        return False
    return 1 <= p <= MOST and 1 <= q <= MOST and p * (topt - tmin) == q * (tmax - topt)


def answer(tmin, topt, tmax, p, q, fmin, x):
    reduced = lowest_terms(tmin, topt, tmax)
    powers = "none" if reduced is None else "%d %d" % reduced
    if not fits(tmin, topt, tmax, p, q):
        return f"{powers} unfit"
    floor = fmin * SCALE // 100
    if not 10 * tmin < x < 10 * tmax:
        return f"{powers} {floor} {floor}"
    t = rounded_down(tmin, topt, tmax, p, q, x)
    assert t <= SCALE and (t == SCALE) == (x == 10 * topt)
    return f"{powers} {max(floor, t)} {max(floor, t + 1)}"


# ---- the rows


def trees():
    """Temperatures at the edges of their ranges and powers at the edges of theirs."""
    low, high = LOWEST, ZERO + 60
    for rise, fall in (
        (1, 1), (1, 22), (22, 1), (21, 22), (22, 21), (22, 13), (11, 17), (2, 1), (1, 2), (2, 3),
        (19, 22), (5, 22),
    ):
        for most in ((high - low) // (rise + fall), 1):
            yield low, low + rise * most, low + (rise + fall) * most
            yield high - (rise + fall) * most, high - fall * most, high
    for tmin, topt, tmax in (
        (0, 20, 200), (5, 20, 200), (0, 14, 35), (5, 16, 33), (0, 22, 35), (1, 23, 39)
    ):
        yield ZERO + tmin, ZERO + topt, ZERO + tmax
    yield LOWEST, LOWEST + 110, HIGHEST
    yield LOWEST, LOWEST + 10, HIGHEST
    yield LOWEST, HIGHEST - 10, HIGHEST


def readings(tmin, topt, tmax):
    """Next to Tmin, Topt and Tmax, and between them."""
    for t in (tmin, topt, tmax):
        yield from range(10 * t - 3, 10 * t + 4)
    for i in range(1, 24):
        yield 10 * tmin + i * (tmax - tmin) * 10 // 24
    yield from (0, 1100, 65535)


def whole_or_nearly(tmin, topt, tmax, p, q):
    """Readings at which the root is a whole number, or within a thousandth of one."""
    near = []
    for x in range(10 * tmin + 1, 10 * tmax):
        finer = rounded_down(tmin, topt, tmax, p, q, x)
        a, w = share(tmin, topt, tmax, x)
        part = root((1000 * SCALE) ** q * a**q * w**p // 1, q) - 1000 * finer
        if part in (0, 999):
            near.append(x)
    return near[:: max(1, len(near) // 12)]


def rows():
    for n, (tmin, topt, tmax) in enumerate(trees()):
        p, q = lowest_terms(tmin, topt, tmax)
        for i, x in enumerate(readings(tmin, topt, tmax)):
            yield tmin, topt, tmax, p, q, FLOORS[(n + i) % len(FLOORS)], x
        for x in whole_or_nearly(tmin, topt, tmax, p, q):
            yield tmin, topt, tmax, p, q, 0, x
        # not reduced
        for k in range(2, MOST // max(p, q) + 1):
            for x in (10 * tmin + 1, 10 * topt, 10 * topt + 7, 10 * tmax - 1):
                yield tmin, topt, tmax, k * p, k * q, 1, x
    yield from unfit()
    # powers, of temperatures in every order
    for tmin, topt, tmax in product((0, 29, 30, 31, 52, 53, 110, 65535), repeat=3):
        yield tmin, topt, tmax, 1, 1, 1, 600
    for rise, fall in product((1, 2, 21, 22, 23, 24, 44, 46), repeat=2):
        yield (
            30, 30 + rise, 30 + rise + fall, fall // gcd(rise, fall), rise // gcd(rise, fall), 1,
            300 + 5 * rise,
        )


def unfit():
    """One past each edge, and ratios that are none."""
    yield from (
        (29, 40, 51, 1, 1, 1, 420),
        (30, 140, 250, 1, 1, 1, 420),
        (31, 141, 251, 1, 1, 1, 420),
        (30, 140, 251, 1, 1, 1, 420),
    )
    for p, q in product((0, 1, 2, 22, 23, 65535), repeat=2):
        yield 50, 70, 90, p, q, 1, 650
        yield 50, 72, 95, p, q, 1, 650
        yield 50, 70, 70, p, q, 1, 650
        yield 70, 70, 90, p, q, 1, 650
    yield 50, 70, 90, 1, 1, 65535, 650


def section():
    given = list(rows())
    text = "".join(" ".join(f"{n:04X}" for n in row) + "\n" for row in given)
    return text.encode(), "".join(answer(*row) + "\n" for row in given).encode()


if __name__ == "__main__":
    sections.write("power", section())
