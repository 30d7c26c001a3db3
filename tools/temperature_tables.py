#!/usr/bin/env python3
"""Each tree's f_temp table (docs/SPECIFICATION.md, "Factors"), in whole-number arithmetic, and
where it begins and ends.

    python3 tools/temperature_tables.py [--check]

writes src/values.rt, specs/Trimmed.antt and proofs/TrimmedLaws.antt of crates/power, or sees that
they stand there. An entry is the greatest whole t with t/10^9 not above a·w^(p/q). Entries under
f_min go from both ends of a table until it begins and ends with one that is not. The proofs test
every entry and every one that was cut, so nothing rests on this script.
"""
from bisect import bisect_right
from math import gcd

from layout import array, put

# f_min in percent, Tmin, Topt, Tmax in °C
TREES = {
    "BorealSpruce": (10, 0, 20, 200),
    "Birch": (10, 5, 20, 200),
    "ContinentalSpruce": (16, 0, 14, 35),
    "Beech": (13, 5, 16, 33),
    "Oak": (13, 0, 22, 35),
    "Evergreen": (2, 1, 23, 39),
}
HIGHEST = 600  # tenths of °C
ZERO = 500  # a reading of 0.0 °C: tenths of a degree above -50.0 °C
DECIMALS = 9


def table_entry(tmin: int, topt: int, tmax: int, tenths: int) -> int:
    step = gcd(tmax - topt, topt - tmin)
    p, q = (tmax - topt) // step, (topt - tmin) // step
    numerators = 10 ** (DECIMALS * q) * (tenths - 10 * tmin) ** q * (10 * tmax - tenths) ** p
    denominators = (10 * (topt - tmin)) ** q * (10 * (tmax - topt)) ** p
    to_q = numerators // denominators  # the entry is the greatest whole t with t^q not above it
    return bisect_right(range(10**DECIMALS + 1), to_q, key=lambda t: t**q) - 1


def table(tree: str) -> dict[int, int]:
    """The entries by their readings, trimmed at both ends."""
    fmin, tmin, topt, tmax = TREES[tree]
    inside = range(10 * tmin + 1, min(10 * tmax, HIGHEST + 1))
    entries = {ZERO + tenths: table_entry(tmin, topt, tmax, tenths) for tenths in inside}
    reached = [x for x, t in entries.items() if 100 * t >= fmin * 10**DECIMALS]
    return {x: entries[x] for x in range(min(reached), max(reached) + 1)}


def snake(tree: str) -> str:
    """BorealSpruce: boreal_spruce."""
    return "".join("_" + c.lower() if c.isupper() else c for c in tree).lstrip("_")


def ends(tree: str) -> str:
    """A table's first and last reading."""
    return f"{min(table(tree))} {max(table(tree))}"


# ---- src

VALUES = """\
//! f_temp's tables, made by tools/temperature_tables.py: a·w^(p/q) rounded down to nine
//! decimals, for each tenth of a degree above Tmin, below Tmax and up to 60.0 °C, from the
//! first to the last that is not under f_min. FIRST is the first entry's reading, tenths of
//! a degree above -50.0 °C.
use crate::lookups::Table;"""

OWNER = """
impl Table for {tree} {{
    ghost FIRST = {{ {first} }};

    const FIRST: u16 = {first};

    fn entries() -> &'static [u32] {{
        &{name}
    }}
}}
"""


def values() -> list[str]:
    lines = [VALUES, f"use trees::{{{', '.join(sorted(TREES))}}};"]
    for tree in TREES:
        entries, name = table(tree), snake(tree).upper()
        lines.append(OWNER.format(tree=tree, first=min(entries), name=name))
        lines += array(f"const {name}: [u32; {len(entries)}]", list(entries.values()))
    return lines


# ---- specs and proofs

SOUND = [f"{snake(tree)}-sound" for tree in TREES]
FIGURES = f"use Rattle.trees.specs.Figures.{{{', '.join(map(snake, TREES))}}}"

TRIMMED = f"""\
-- Where each tree's table begins and ends (docs/SPECIFICATION.md, "Trimmed temperature
-- tables"): its first and its last reading, in tenths of a degree above -50.0 °C.
-- Made by tools/temperature_tables.py.
{FIGURES}
use Rattle.trees.specs.TemperatureTable.{{IsTrimmed}}

pub record Trimmed : Type 0 where"""

TRIMMED_LAWS = f"""\
-- What was cut from each tree's table is under f_min, and its two ends are not: one
-- computed test a tree. Made by tools/temperature_tables.py.
{FIGURES}
use Rattle.trees.specs.Temperature.{{tried, allowed}}
use Rattle.trees.proofs.SoundLaws.{{{', '.join(SOUND[:3])}}}
use Rattle.trees.proofs.SoundLaws.{{{', '.join(SOUND[3:])}}}
use Rattle.trees.proofs.TemperatureTrim.{{trimmed-tested}}
use Rattle.power.specs.Trimmed.{{Trimmed}}"""

LAW = "  {name}_table = trimmed-tested {name} {ends} {name}-sound tt;"


def trimmed() -> list[str]:
    fields = (f"{snake(tree)}_table : IsTrimmed {snake(tree)} {ends(tree)}" for tree in TREES)
    return [TRIMMED, *(f"  pub {field}" for field in fields)]


def trimmed_laws() -> list[str]:
    head = ["", "pub trimmed : Trimmed", "unfolding tried allowed", "trimmed = record {"]
    laws = [LAW.format(name=snake(tree), ends=ends(tree)) for tree in TREES]
    return [TRIMMED_LAWS, *head, *laws, "}"]


def main() -> None:
    put(
        {
            "crates/power/src/values.rt": values(),
            "crates/power/specs/Trimmed.antt": trimmed(),
            "crates/power/proofs/TrimmedLaws.antt": trimmed_laws(),
        }
    )


if __name__ == "__main__":
    main()
