#!/usr/bin/env python3
"""The section "floats" of crates/cases, by the account of tests/account_cases.py and the words of
docs/SPECIFICATION.md, "Loggers that hold floats", alone.

    python3 tests/floats_cases.py

writes it (tests/sections.py).

Each field at numbers on either side of every limit, at fractions, at numbers that no two bytes
hold, at every kind of float that is no number, the others sound; two fields broken, out of range,
or one of each, in every pair; the rows before row 26, each over floats that it would refuse;
patterns by lot; whole seasons fed as lines and as floats.
"""

import struct
from fractions import Fraction

import account_cases as book
import sections
from account_cases import CLOSED, OPEN, Account
from local_trees import parameters_line
from paper import MEASURED, TREES, Hour, limits, line_of_hour, measure_of
from trial_cases import shown

FIELDS = range(7)
OZONE, TEMPERATURE = 0, 3
FFFF = 65535
SOUND = (500, 400, 300, 230, 1000, 300, 900)  # in range for every tree

# ---- floats as bits


def bits_of(number):
    """The pattern of the f32 nearest to a number."""
    return struct.unpack(">I", struct.pack(">f", number))[0]


def value_of(bits):
    """The exact value of a pattern; None where it is an infinity or not a number."""
    exponent, digits = bits >> 23 & 255, bits & (1 << 23) - 1
    if exponent == 255:
        return None
    size = Fraction(digits + (1 << 23) if exponent else digits) * Fraction(2) ** (
        max(exponent, 1) - 150
    )
    value = -size if bits >> 31 else size
    assert value == Fraction(struct.unpack(">f", struct.pack(">I", bits))[0])
    return value


def whole_of(bits):
    """The whole number that it is, or None."""
    value = value_of(bits)
    return None if value is None or value.denominator != 1 else int(value)


MINUS_ZERO = 0x80000000
HALF, NAN = bits_of(0.5), 0x7FC00000
# infinities and NaNs
NO_NUMBERS = (
    0x7F800000, 0xFF800000, 0x7F800001, 0x7FBFFFFF, NAN, 0x7FFFFFFF, 0xFF800001, 0xFFC00000,
    0xFFFFFFFF,
)
# subnormal ones, and the least normal ones
TINY = (1, 2, 0x007FFFFF, 0x00800000, 0x00800001, 0x80000001, 0x807FFFFF, 0x80800000)
FRACTIONS = tuple(
    bits_of(x)
    for x in (
        0.5, -0.5, 0.1, 1.5, 499.5, 0.99999994, 1.0000001, 4194303.5, -4194303.5, 8388607.5,
        -8388607.5,
    )
)
LARGE = tuple(
    bits_of(n) for e in (15, 16, 23, 24, 25, 31, 32, 63, 64, 127) for n in (2.0**e, -(2.0**e))
)
LARGEST = (
    0x7F7FFFFF,
    0xFF7FFFFF,
    bits_of(1e30),
    bits_of(-1e30),
    bits_of(16777214),
    bits_of(16777215),
    bits_of(16777218),
)
WHOLE = tuple(
    bits_of(n)
    for n in (
        0, 1, -1, 2, -2, 499, 65034, 65035, 65036, 65534, 65535, 65536, -65535, -65536, 70000,
        32767, 32768, -32767, -32768, -32769, 131071,
    )
)


def around(limits_of_field):
    low, high = limits_of_field
    return tuple(
        bits_of(n) for end in (low, high) for n in (end - 1, end - 0.5, end, end + 0.5, end + 1)
    )


# ---- loggers that hold floats


def row_of(account, day, hour, patterns):
    """The row that refuses the hour, or None."""
    if book.is_impossible(account):
        return (13,)
    if account.phase != OPEN or book.lacks_parameters(account):
        return (4,)
    if account.kind not in (0, 2):
        return (15,)
    n = account.hours
    if n == account.period or day != account.first + n // 24 or hour != n % 24:
        return (9,)
    numbers = [whole_of(bits) for bits in patterns]
    if None in numbers:
        return (26, numbers.index(None) + 1)
    if numbers[OZONE] == FFFF and account.ceiling == 0:
        return (18,)
    for field, (number, (low, high)) in enumerate(
        zip(numbers, limits(2, measure_of(account.tree))), start=1
    ):
        if not low <= number <= high and (field, number) != (1, FFFF):
            return (10, field)
    return None


def hour_of(day, hour, patterns):
    ozone, *rest = (whole_of(bits) for bits in patterns)
    return Hour(2, day, hour, None if ozone == FFFF else ozone, *rest)


def feed_floats(account, day, hour, patterns):
    """The row that refuses the hour, or None; and the account that is left."""
    row = row_of(account, day, hour, patterns)
    if row:
        return row, account
    said = hour_of(day, hour, patterns)
    following = book.with_hour(account, said)
    assert (None, following) == book.feed(account, line_of_hour(said))
    return None, following


# ---- commands and answers


def answer(row):
    return book.refused(row) if row else "accepted"


class Sheet(sections.Sheet):
    """The commands so far, what they must print, and the two accounts that they leave: one is fed
    lines, the other floats."""

    def __init__(self):
        super().__init__()
        self.lines = self.floats = Account()
        self.rows = set()  # that floats were refused by

    def fresh(self):
        self.command(b"N")
        self.lines = self.floats = Account()

    def count(self, n):
        self.command(b"C", b"%04X" % n)
        self.lines, self.floats = self.lines._replace(counted=n), self.floats._replace(counted=n)

    def both(self, line):
        self.command(b"F", line)
        row, self.lines = book.feed(self.lines, line)
        self.answers.append(answer(row))
        row, self.floats = book.feed(self.floats, line)
        self.answers.append(answer(row))

    def line(self, line):
        self.command(b"L", line)
        row, self.lines = book.feed(self.lines, line)
        self.answers.append(answer(row))

    def hour(self, patterns, day=None, hour=None):
        """At the hour due, unless it is given."""
        due = self.floats.first + self.floats.hours // 24, self.floats.hours % 24
        day, hour = due[0] if day is None else day, due[1] if hour is None else hour
        self.command(
            b"G", b"%04X%02X" % (day, hour) + b"".join(b"%08X" % bits for bits in patterns)
        )
        row, self.floats = feed_floats(self.floats, day, hour, patterns)
        self.rows.add(row)
        self.answers.append(answer(row))
        return row

    def accounts(self):
        self.command(b"A")
        self.answers += map(shown, (self.lines, self.floats))


def opened(sheet, *lines):
    sheet.fresh()
    for line in lines:
        sheet.both(line)


def sound(**others):
    """Sound readings, some fields' patterns replaced."""
    patterns = [bits_of(n) for n in SOUND]
    for at, bits in others.items():
        patterns[int(at[1:])] = bits
    return patterns


# ---- single fields, and pairs of them


def single_fields(sheet, *lines):
    """Each field at each number; after an hour that was accepted the season starts anew, so that no
    hour is past the period."""
    opened(sheet, *lines)
    every = limits(2, TREES[sheet.floats.tree].measure)
    for field in FIELDS:
        patterns = (
            0, MINUS_ZERO, *around(every[field]), *WHOLE, *FRACTIONS, *LARGE, *LARGEST, *TINY,
            *NO_NUMBERS,
        )
        for bits in dict.fromkeys(patterns):
            if sheet.hour(sound(**{f"_{field}": bits})) is None:
                sheet.accounts()
                opened(sheet, *lines)
    for bits in (bits_of(FFFF), bits_of(65036)):  # no temperature in two's complement
        assert sheet.hour(sound(**{f"_{TEMPERATURE}": bits})) == (10, 4)


def pairs(sheet, *lines):
    """Two fields at once: each broken, out of range, or missing."""
    opened(sheet, *lines)
    for one in FIELDS:
        for other in range(one + 1, 7):
            for a, b in (
                (HALF, NAN),
                (NAN, HALF),
                (HALF, bits_of(-70000)),
                (bits_of(1e30), NAN),
                (bits_of(-1), bits_of(1e30)),
                (bits_of(70000), 0xFF800000),
            ):
                sheet.hour(sound(**{f"_{one}": a, f"_{other}": b}))
    for field in range(1, 7):
        for bits in (HALF, NAN, bits_of(-70000), bits_of(FFFF)):
            sheet.hour(sound(**{f"_{OZONE}": bits_of(FFFF), f"_{field}": bits}))
    sheet.hour(7 * [NAN])
    sheet.hour(7 * [bits_of(FFFF)])
    sheet.accounts()


# ---- the rows before row 26


def rows_before(sheet):
    broken = sound(_2=HALF)
    lacking = sound(_0=bits_of(FFFF))
    wrong = sound(_1=bits_of(-1))
    for patterns in (sound(), broken, lacking, wrong, 7 * [NAN]):
        opened(sheet)
        sheet.hour(patterns, 1, 0)  # fresh
        for kind in book.HOUR_KINDS:
            opened(sheet, book.header_line(), book.hour_line(kind=kind))
            sheet.hour(patterns)
            sheet.hour(patterns, 1, 2)
        opened(sheet, book.header_line())
        for day, hour in ((1, 1), (0, 0), (2, 0), (65535, 0), (1, 255), (1, 24), (257, 0)):
            sheet.hour(patterns, day, hour)
        sheet.count(5)  # impossible: more counted hours than hours
        sheet.hour(patterns)
        opened(sheet, book.header_line(), *book.day_lines())
        sheet.hour(patterns)  # all given
        sheet.hour(patterns, 1, 23)
        sheet.both(book.end_line())
        assert sheet.floats.phase == CLOSED
        sheet.hour(patterns)
        sheet.accounts()


# ---- by lot, and whole seasons


def patterns_by_lot(sheet, lot):
    opened(sheet, book.header_line(last=60), book.ceiling_line())
    for _ in range(1500):
        numbers = readings_by_lot(lot, 6)
        patterns = [bits_of(n) for n in numbers]
        for _ in range(lot.below(3)):
            field = lot.below(7)
            exponent = lot.of((lot.below(256), 126 + lot.below(30)))
            patterns[field] = lot.of(
                (
                    lot.below(2**32),
                    lot.below(2) << 31 | exponent << 23 | lot.below(2**23),
                    bits_of(lot.below(2**17) - 2**16),
                )
            )
        sheet.hour(patterns)
    sheet.accounts()


def readings_by_lot(lot, tree):
    r = book.some_readings(lot, tree)
    ozone = FFFF if r["ozone"] is None else r["ozone"]
    return ozone, r["ppfd"], r["radiation"], r["temperature"], r["vpd"], r["wind"], r["soil"]


def season(sheet, lot, tree, first, *own):
    """Every hour of a season as a line and as floats; lines of other kinds between them, and
    refused ones. Tree 7's has three days and begins with its own frames."""
    last = first + (2 if tree == MEASURED else TREES[tree].f1 + TREES[tree].f4)
    opened(
        sheet,
        book.header_line(tree, 365, first, last),
        *own,
        book.ceiling_line(lot.of((1, 900, 5000))),
    )
    while sheet.floats.hours < sheet.floats.period:
        day, hour = first + sheet.floats.hours // 24, sheet.floats.hours % 24
        numbers = readings_by_lot(lot, tree)
        patterns = [MINUS_ZERO if n == 0 and lot.below(2) else bits_of(n) for n in numbers]
        sheet.line(line_of_hour(hour_of(day, hour, patterns)))
        if lot.below(20) == 0:
            sheet.hour([NAN if lot.below(3) == 0 else bits for bits in patterns[:-1]] + [HALF])
        assert sheet.hour(patterns) is None
    sheet.both(book.end_line(sheet.floats.hours))
    assert sheet.lines == sheet.floats and sheet.floats.phase == CLOSED
    sheet.accounts()


def filled():
    sheet, lot = Sheet(), book.Lot(214)
    for tree in (6, 1):
        header = book.header_line(tree, last=1 + TREES[tree].f1 + TREES[tree].f4)
        single_fields(sheet, header)
        single_fields(sheet, header, book.ceiling_line())
        pairs(sheet, header)
        pairs(sheet, header, book.ceiling_line())
    rows_before(sheet)
    patterns_by_lot(sheet, lot)
    for tree in TREES:
        season(sheet, lot, tree, 105)
    season(sheet, lot, MEASURED, 105, parameters_line())
    season(sheet, lot, MEASURED, 105, parameters_line(a=20, e=40), book.warmth_line(5, 10, 20))
    expected = {None, (13,), (4,), (15,), (9,), (18,)} | {
        (row, field) for row in (10, 26) for field in range(1, 8)
    }
    assert sheet.rows == expected
    return sheet


def section():
    return filled().section()


if __name__ == "__main__":
    sections.write("floats", section())
