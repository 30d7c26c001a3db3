#!/usr/bin/env python3
"""The names and numbers of the part, which stand in several places, agree: rows in include/pod1.h,
in examples/pod1.rs and in the table of docs/SPECIFICATION.md; calls in the header, in the wrapper
and among the archive's symbols; sizes in the header, in the wrapper and in that table.

    nm --defined-only -g target/libpod1.a | python3 tests/part_names.py

Exit status 1, and what differs, where they do not.
"""

import re
import sys
from pathlib import Path

ROOT = Path(__file__).resolve().parent.parent


def pairs(pattern, text):
    return {name: int(number) for name, number in re.findall(pattern, text, re.M)}


def between(text, start, end):
    return text.split(start, 1)[1].split(end, 1)[0]


def camel(name):
    return "".join(word.capitalize() for word in name.split("_"))


def main():
    header = (ROOT / "include/pod1.h").read_text()
    wrapper = (ROOT / "examples/pod1.rs").read_text()
    paper = (ROOT / "docs/SPECIFICATION.md").read_text()
    rows = pairs(r"^ +POD1_(\w+) = (\d+)", between(header, "enum pod1_row {", "};"))
    table = between(paper, "## Turned-back lines", "## Bench cases")
    numbered = [int(n) for n in re.findall(r"^\| (\d+) \|", table, re.M)]
    sizes = pairs(r"^#define POD1_(\w+) (\d+)$", header)
    wrapped_sizes = pairs(r"const ([A-Z]+): u\w+ = (\d+);", wrapper)
    calls = set(re.findall(r"^\w+ (pod1_\w+)\(", header, re.M))
    wrapped = set(re.findall(r"pub fn (pod1_\w+)\(", wrapper))
    lent = re.search(
        r"(\d+) bytes for any line, (\d+) for an account's line, (\d+) for a report", paper
    )
    symbols = {words[2] for words in map(str.split, sys.stdin) if len(words) == 3}
    compared = {
        "rows of the header and of the paper": (sorted(rows.values()), numbered),
        "rows of the header and of the wrapper": (
            {camel(n): r for n, r in rows.items()},
            pairs(r"^ +(\w+) = (\d+),", between(wrapper, "pub enum Row {", "}")),
        ),
        "buffers of the header and of the paper": (
            [sizes[n] for n in ("FRAME", "LINE", "REPORT")],
            lent and [int(n) for n in lent.groups()],
        ),
        "sizes of the header and of the wrapper": (
            {n: sizes.get(n) for n in wrapped_sizes},
            wrapped_sizes,
        ),
        "calls of the header and symbols of the archive": (calls, symbols),
        "calls of the header and of the wrapper": (calls, wrapped),
    }
    differing = [name for name, (one, other) in compared.items() if one != other or not one]
    for name in differing:
        print(f"part: {name} differ:\n    {compared[name][0]}\n    {compared[name][1]}")
    sys.exit(1 if differing else 0)


if __name__ == "__main__":
    main()
