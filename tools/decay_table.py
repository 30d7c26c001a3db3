#!/usr/bin/env python3
"""The tables of exp(-n/10000) for each digit of n in base 100 (docs/SPECIFICATION.md, "Factors"),
in whole-number arithmetic.

    python3 tools/decay_table.py [--check]

writes crates/dose/src/decay.rt, or sees that it stands there. An entry is 10^9 divided by 65 terms
of the series of exp(n/10000), rounded down; a table ends at its last entry that is not 0. The
tables prove themselves in the crate: this script is trusted by nobody.
"""
from math import factorial

from layout import array, put

TERMS = 65
SCALE = 10**9
UNIT = 10000
PLACES = {"ONES": 1, "HUNDREDS": 100, "MYRIADS": 10000}
HEAD = """\
//! exp(-n/10000) in units of 10⁻⁹, made by tools/decay_table.py: entry d of a place's table is that
//! of n = d·place, with 65 terms, rounded down. Past a table's end it is 0."""


def entry(n: int) -> int:
    last = TERMS - 1
    den = UNIT**last * factorial(last)
    num = sum(n**i * UNIT ** (last - i) * (factorial(last) // factorial(i)) for i in range(TERMS))
    return SCALE * den // num


def table(place: int) -> list[int]:
    return [e for e in (entry(digit * place) for digit in range(100)) if e > 0]


def main() -> None:
    lines = [HEAD]
    for name, place in PLACES.items():
        entries = table(place)
        lines += [] if lines == [HEAD] else [""]
        lines += array(f"pub(crate) const {name}: [u32; {len(entries)}]", entries)
    put({"crates/dose/src/decay.rt": lines})


if __name__ == "__main__":
    main()
