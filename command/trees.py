"""The trees that a header names (docs/SPECIFICATION.md, "Tree table"): what messages and `encode`
need of them."""

NAMES = {
    1: "boreal spruce",
    2: "birch",
    3: "continental spruce",
    4: "beech",
    5: "oak",
    6: "evergreen",
    7: "a laboratory's own tree",
}
MEASURED = 7  # its figures come in a frame of kind 07
WATER = {1, 2}  # their soil is read as available water, that of all others as suction
# f1 and f4, days; tree 7's come later
RAMPS = {1: (20, 30), 2: (20, 30), 3: (0, 0), 4: (20, 20), 5: (15, 20), 6: (0, 0), 7: (0, 0)}
PLACED = {1, 2, 4, 5}  # those that the latitude model has dates for

LIST = ", ".join(f"{number} {name}" for number, name in NAMES.items())


def named(number):
    return f"tree {number} ({NAMES[number]})" if number in NAMES else f"tree {number}"
