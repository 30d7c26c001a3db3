#!/usr/bin/env python3
"""The table of saturation pressures (docs/SPECIFICATION.md, "Humidity in place of VPD"), in
whole-number arithmetic.

    python3 tools/saturation_table.py [--check]

writes crates/dose/src/values.rt, or sees that it stands there. An entry is
0.611·exp(17.502·T/(T + 240.97)) kPa in units of 5·10^-9 kPa, rounded down, for T in tenths of a
degree from -50.0 to 60.0 °C. The proof tests every entry, so nothing rests on this script.
"""
from fractions import Fraction
from math import factorial

from layout import array, put

READINGS = 1101  # tenths of a degree above -50.0 °C
UNITS = 2 * 10**8  # in a kPa
TERMS = 60  # of the series of exp, for an exponent under 4
HEAD = """\
//! The saturation pressure 0.611·exp(17.502·T/(T + 240.97)) kPa in units of 5·10⁻⁹ kPa, rounded
//! down, made by tools/saturation_table.py: entry x is that of the reading x, tenths of a degree
//! above -50.0 °C."""


def entry(x: int) -> int:
    t = Fraction(x, 10) - 50
    y = Fraction(17502, 1000) * t / (t + Fraction(24097, 100))
    series = sum(abs(y) ** i / factorial(i) for i in range(TERMS))
    return int(Fraction(611, 1000) * UNITS * (series if y >= 0 else 1 / series))


def main() -> None:
    entries = [entry(x) for x in range(READINGS)]
    head = f"pub(crate) const SATURATION: [u32; {READINGS}]"
    put({"crates/dose/src/values.rt": [HEAD, *array(head, entries)]})


if __name__ == "__main__":
    main()
