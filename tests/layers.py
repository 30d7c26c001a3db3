#!/usr/bin/env python3
"""The drawing of the crates in docs/ARCHITECTURE.md, "The layers", holds: it and the list below it
are those of crates.txt, there are at most 30 crates, and they stand at most 10 deep.

    python3 tests/layers.py

A line of the drawing is a layer: its number, then its crates, two blanks or more between them, each
with what it is behind a comma, or without. A crate stands one layer above the highest of those that
it stands on. An item of the list is a crate, then `on` and those that it stands on directly, then a
colon: of the crates that crates.txt names only those that no other of them stands on. What
crates.txt names and has no line for is the kit's and left out."""

import re
import sys
from pathlib import Path

ROOT = Path(__file__).resolve().parent.parent
PAGE = "docs/ARCHITECTURE.md"
SECTION = "The layers"
MOST, DEEPEST = 30, 10


# ---- what is read


def crates_of(text):
    """Each crate of crates.txt, with the crates that it names."""
    lines = [line.split("#")[0].partition(":") for line in text.splitlines()]
    named = {first.split()[0]: rest.split() for first, colon, rest in lines if colon}
    return {name: [below for below in rest if below in named] for name, rest in named.items()}


def section_of(page):
    """The lines of the section that has the drawing."""
    found = re.search(rf"^## {SECTION}\n(.*?)(?=^## |\Z)", page, re.MULTILINE | re.DOTALL)
    return found[1].splitlines() if found else []


def drawn(lines):
    """Each crate of the drawing, with the number of its layer, in the drawing's order."""
    for line in lines:
        if found := re.fullmatch(r" {4,}(\d+)  +(.*)", line):
            for entry in re.split(r" {2,}", found[2].strip()):
                yield entry.split(",")[0], int(found[1])


def listed(lines):
    """Each crate of the list, with the crates that it is said to stand on."""
    items = re.findall(r"^- `(\w+)`(?:\s+on\s+([^:]*))?:", "\n".join(lines), re.MULTILINE)
    return [(name, re.findall(r"`(\w+)`", below)) for name, below in items]


# ---- what crates.txt says


def depths_of(crates):
    """Each crate's layer, 1 where it stands on none; no crate of a ring has one."""
    depths = {}
    for _ in crates:
        for name, below in crates.items():
            if all(one in depths for one in below):
                depths[name] = 1 + max((depths[one] for one in below), default=0)
    return depths


def below_of(crates, name):
    """All that a crate stands on, however far down; there is no ring."""
    return set(crates[name]).union(*(below_of(crates, one) for one in crates[name]))


def direct(crates, name):
    """Of what a crate names those that no other of them stands on."""
    named = set(crates[name])
    return sorted(named.difference(*(below_of(crates, one) for one in named)))


# ---- what is wrong


def of_names(place, names, crates):
    """Each crate stands once in the place, and nothing else."""
    for name in names:
        if name not in crates:
            yield f"{place} has {name}, which is no crate: take it out"
    for name in crates:
        if names.count(name) != 1:
            yield f"{place} has {name} {names.count(name)} times: it stands there once"


def of_drawing(depths, lines):
    entries = list(drawn(lines))
    yield from of_names("the drawing", [name for name, _ in entries], depths)
    for name, layer in entries:
        if name in depths and layer != depths[name]:
            yield f"the drawing has {name} in layer {layer}: move it to layer {depths[name]}"


def of_list(crates, lines):
    items = listed(lines)
    yield from of_names("the list", [name for name, _ in items], crates)
    for name, below in items:
        if name in crates and sorted(below) != direct(crates, name):
            said, right = ", ".join(below), ", ".join(direct(crates, name))
            yield f"the list has {name} on {said or 'none'}: by crates.txt it is {right or 'none'}"


def faults(crates, page):
    depths = depths_of(crates)
    if ring := sorted(set(crates) - set(depths)):
        return [f"crates stand on each other in a ring, or on one: {', '.join(ring)}"]
    found = []
    if len(crates) > MOST:
        found.append(f"there are {len(crates)} crates: {MOST} are the most")
    if max(depths.values(), default=0) > DEEPEST:
        found.append(f"crates stand {max(depths.values())} deep: {DEEPEST} is the most")
    lines = section_of(page)
    return found + list(of_drawing(depths, lines)) + list(of_list(crates, lines))


# ---- tried on a small list, each fault put in by itself

SMALL_CRATES = "# of a kind\na:\nb: a\nc: b a itoa\nd staticlib: a c\n"
SMALL_PAGE = f"""# A

## {SECTION}

     4  d
     3  c, it stands on b
     2  b, the second
     1  a, the first  

- `a`: the first.
- `b` on `a`: the second.
- `c` on `b`: more than
  `a` and `b`.
- `d` on `c`: the last.

## More

- `e` on `a`: of no list.
"""
# what is put in another's place, in crates.txt or in the page, and words of what is then said
TRIED = (
    ("", "", None),
    ("b: a\n", "b:\n", "b in layer 2: move it to layer 1"),
    ("b: a\n", "b: c\n", "in a ring"),
    ("c: b a", "c: a", "c on b: by crates.txt it is a"),
    ("d staticlib: a c", "d staticlib: a c b", None),
    ("d staticlib: a c", "d staticlib: a c\ne: d", "e 0 times"),
    ("d staticlib: a c\n", "", "d, which is no crate"),
    ("     4  d\n", "", "the drawing has d 0 times"),
    ("     4  d\n", "     4  d  b\n", "b in layer 4"),
    ("- `d` on `c`: the last.\n", "", "the list has d 0 times"),
    ("- `d` on `c`", "- `d` on `c`, `a`", "d on c, a: by crates.txt it is c"),
    ("- `a`:", "- `a` on `b`:", "a on b: by crates.txt it is none"),
    (SECTION, "Another", "0 times"),
    ("a:\n", "a:\n" + "".join(f"x{n}:\n" for n in range(30)), "34 crates"),
    ("d staticlib: a c", "d: c\nx0: d" + "".join(f"\nx{n + 1}: x{n}" for n in range(7)), "12 deep"),
)


def hold():
    """Ends where the test misses a fault, or tells one where there is none."""
    for old, new, words in TRIED:
        crates = crates_of(SMALL_CRATES.replace(old, new, 1))
        said = faults(crates, SMALL_PAGE.replace(old, new, 1))
        if bool(said) != bool(words) or words and not any(words in what for what in said):
            sys.exit(f"layers: {new!r} for {old!r} is told as {said}; mend tests/layers.py")


def main():
    if len(sys.argv) > 1:
        sys.exit("usage: python3 tests/layers.py")
    hold()
    crates = crates_of((ROOT / "crates.txt").read_text())
    found = faults(crates, (ROOT / PAGE).read_text())
    for what in found:
        print(f"layers: {PAGE}: {what}")
    if found:
        sys.exit(1)
    depth = max(depths_of(crates).values())
    print(f"layers: {len(crates)} crates, {depth} deep: drawn and listed as they stand")


if __name__ == "__main__":
    main()
