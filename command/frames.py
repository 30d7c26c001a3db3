"""Frames as lines of digits, and what the lines before a refused one have said
(docs/SPECIFICATION.md, "Frames" and "Account").

Nothing is judged here: the proved program has accepted those lines.
"""

from typing import NamedTuple

import trees

HEADER, END, CEILING, PARAMETERS, WARMTH = 1, 3, 6, 7, 8
HOURS = (2, 4, 5)
# bytes of the fields behind the kind
WIDTHS = {
    HEADER: (1, 2, 2, 2, 2),
    2: (2, 1) + 7 * (2,),
    END: (2,),
    4: (2, 1) + 8 * (2,),
    5: (2, 1) + 7 * (2,),
    CEILING: (2,),
    PARAMETERS: 16 * (2,),
    WARMTH: (2, 2, 2),
}
DIGITS = {kind: 2 + 2 * sum(widths) for kind, widths in WIDTHS.items()}
LENGTHS = sorted(set(DIGITS.values()))
NAMES = {
    HEADER: "a header",
    2: "an hour",
    END: "an end frame",
    4: "an hour with pressure",
    5: "an hour with humidity",
    CEILING: "an ozone ceiling",
    PARAMETERS: "a frame of parameters",
    WARMTH: "a frame of leaf age by warmth",
}
CAPITALS = b"0123456789ABCDEF"


def named(kind):
    return f"{NAMES[kind]} (kind {kind:02X})"


def kinds_of(length):
    """The kinds whose lines have so many digits."""
    return [kind for kind, digits in DIGITS.items() if digits == length]


class Frame(NamedTuple):
    kind: int
    numbers: tuple


def frame_of(line):
    """The frame that the line says; None where it says none."""
    if any(digit not in CAPITALS for digit in line) or len(line) not in LENGTHS:
        return None
    kind = int(line[:2], 16)
    if DIGITS.get(kind) != len(line):
        return None
    numbers, at = [], 2
    for width in WIDTHS[kind]:
        numbers.append(int(line[at : at + 2 * width], 16))
        at += 2 * width
    return Frame(kind, tuple(numbers))


def line_of(kind, *numbers):
    """A frame's line; a number below 0 in two's complement."""
    fields = (
        "%0*X" % (2 * width, number % 256**width) for number, width in zip(numbers, WIDTHS[kind])
    )
    return f"{kind:02X}" + "".join(fields)


class Season(NamedTuple):
    """What accepted lines have said so far."""

    header: tuple = None  # tree, days in the year, first day, last day, level
    parameters: tuple = None
    warmth: tuple = None
    ceiling: int = None
    kind: int = None  # of its hours
    hours: int = 0
    end: int = None  # the line of the end frame

    @property
    def tree(self):
        return self.header[0]

    @property
    def period(self):
        """The hours from first to last day."""
        return 24 * (self.header[3] - self.header[2] + 1)

    @property
    def due(self):
        """Day and hour that are due next; None where all are given."""
        if self.hours >= self.period:
            return None
        return self.header[2] + self.hours // 24, self.hours % 24

    @property
    def lacks_parameters(self):
        return self.tree == trees.MEASURED and self.parameters is None


def after(season, frame, at):
    """The season with an accepted line's frame."""
    kind, numbers = frame
    if kind in HOURS:
        return season._replace(kind=season.kind or kind, hours=season.hours + 1)
    changes = {
        HEADER: {"header": numbers},
        PARAMETERS: {"parameters": numbers},
        WARMTH: {"warmth": numbers},
        CEILING: {"ceiling": numbers[0]},
        END: {"end": at},
    }
    return season._replace(**changes[kind])


def season_of(lines, season=Season(), skipped=()):
    """What these lines have said, but for those of the kinds skipped; None where one of them is no
    frame, or comes before a header."""
    for at, line in enumerate(lines, start=1):
        frame = frame_of(line)
        if frame is None or (season.header is None and frame.kind != HEADER):
            return None
        if frame.kind not in skipped:
            season = after(season, frame, at)
    return season
