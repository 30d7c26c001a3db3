"""Season texts out of lines, of plausible weather, and with other ozone, for the case scripts in
this folder.

Nothing here is taken from the code.
"""

from bench import year

# a tree, a first and a last day: both ramps whole
PERIODS = (
    (1, 130, 180), (2, 140, 190), (3, 88, 94), (4, 150, 190), (5, 120, 155), (6, 210, 216),
)


def text_of(lines, end=b"\n"):
    return b"\n".join(lines) + end


def weather(*of_season):
    """The lines of tests/bench/year.py."""
    return [line.encode() for line in year.season(*of_season)]


def replace_ozone(line, ozone):
    """An hour's line with another ozone."""
    return line[:8] + b"%04X" % ozone + line[12:]
