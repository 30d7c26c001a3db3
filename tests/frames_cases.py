#!/usr/bin/env python3
"""The section "frames" of crates/cases, reckoned from the words of docs/SPECIFICATION.md alone
("Frames", "Tree table", "Turned-back lines", "Station pressure", "Humidity in place of VPD", "Hours
without ozone", "A laboratory's own tree", "Leaf age by warmth").

    python3 tests/frames_cases.py

writes it (tests/sections.py): the examples of "Frames", every length of line, every change of one
character, every length of buffer, records on either side of each limit, lines with another kind's
length, and round trips.
"""

from itertools import permutations

import sections
from local_trees import BROKEN, GOOD, LOCAL, parameters_line
from paper import Parameters, Warmth, parameter_row, warmth_row

DIGITS = b"0123456789ABCDEF"
# f1 + f4 of each tree, in days; those of tree 7 come later
RAMPS = {1: 20 + 30, 2: 20 + 30, 3: 0, 4: 20 + 20, 5: 15 + 20, 6: 0, 7: 0}
WATER, SUCTION = (1, 2), (3, 4, 5, 6, 7)  # trees by their soil measure
LENGTHS = {1: 20, 2: 36, 3: 6, 4: 40, 5: 36, 6: 6, 7: 66, 8: 14}  # digits of a line of each kind
HOUR_WIDTHS = (2, 1, 2, 2, 2, 2, 2, 2, 2)
# bytes of the fields after the kind
WIDTHS = {
    1: (1, 2, 2, 2, 2), 2: HOUR_WIDTHS, 3: (2,), 4: (*HOUR_WIDTHS, 2), 5: HOUR_WIDTHS, 6: (2,),
    7: 16 * (2,), 8: 3 * (2,),
}

# A record is a tuple: (1, tree, days, first, last, level), (3, hours), (2, day, hour, ozone, ppfd,
# radiation, temperature, vpd, wind, measure, soil), (4, the same fields, pressure), (5, the fields
# of 2 with humidity where vpd stands), (6, ozone ceiling), (7, the sixteen parameters as they stand
# in the line), or (8, rise, fall, end). An hour's ozone is a number or MISSING. An answer is a
# record, a number of bytes, or a refusal: ("row", N) or ("row", 10, "field", F).
HEADER_KIND, HOUR_KIND, END_KIND, PRESSURE_KIND = range(1, 5)
HUMIDITY_KIND, CEILING_KIND, PARAMETER_KIND, WARMTH_KIND = range(5, 9)
HOUR_KINDS = (HOUR_KIND, PRESSURE_KIND, HUMIDITY_KIND)
MISSING, FFFF = "missing", 65535


def row(n):
    return ("row", n)


def refusal_of(record):
    """Rows 5 to 8 for a header, row 10 for an hour, row 17 for a ceiling, row 24 for parameters,
    row 25 for warmth; None where none holds."""
    if record[0] == HEADER_KIND:
        _, tree, days, first, last, level = record
        if tree not in RAMPS:
            return row(5)
        if days not in (365, 366):
            return row(6)
        if first < 1 or last < first or last > days or last - first < RAMPS[tree]:
            return row(7)
        if not 1 <= level <= 10000:
            return row(8)
    if record[0] in HOUR_KINDS:
        vapour = 1000 if record[0] == HUMIDITY_KIND else 10000
        most = 10000 if record[9] == "suction" else 1000
        limits = (
            (0, 5000), (0, 3000), (0, 1500), (-500, 600), (0, vapour), (0, 6000), (0, most),
            (5000, 11000),
        )
        # the last limit is for kind 04, which has one reading more
        readings = record[3:9] + record[10:]
        for field, (reading, (low, high)) in enumerate(zip(readings, limits), start=1):
            if reading != MISSING and not low <= reading <= high:
                return ("row", 10, "field", field)
    if record[0] == CEILING_KIND and not 1 <= record[1] <= 5000:
        return row(17)
    if record[0] == PARAMETER_KIND and parameter_row(Parameters(*record[1:])):
        return row(24)
    if record[0] == WARMTH_KIND and warmth_row(Warmth(*record[1:])):
        return row(25)
    return None


def parse(line):
    """Rows 1 to 3, or the kind and the numbers of the line's fields."""
    if len(line) not in LENGTHS.values():
        return row(1)
    if any(c not in DIGITS for c in line):
        return row(2)
    frame = bytes.fromhex(line.decode())
    if LENGTHS.get(frame[0]) != len(line):
        return row(3)
    numbers, at = [frame[0]], 1
    for width in WIDTHS[frame[0]]:
        numbers.append(int.from_bytes(frame[at : at + width], "big"))
        at += width
    return tuple(numbers)


def record_of(tree, kind, *numbers, numeric=False):
    """The record that a frame's numbers say, its soil in the tree's measure; where `numeric`, an
    ozone of FFFF is a number."""
    if kind not in HOUR_KINDS:
        return (kind, *numbers)
    day, hour, ozone, ppfd, radiation, temperature, vapour, wind, soil, *pressure = numbers
    signed = temperature - 65536 if temperature >= 32768 else temperature
    measure = "water" if tree in WATER else "suction"
    if ozone == FFFF and not numeric:
        ozone = MISSING
    return (kind, day, hour, ozone, ppfd, radiation, signed, vapour, wind, measure, soil, *pressure)


def read(tree, line):
    """A frame read alone, its tree given: the record, or the row that refuses it."""
    frame = parse(line)
    if frame[0] == "row":
        return frame
    if frame[0] in HOUR_KINDS and tree not in RAMPS:
        return row(5)
    record = record_of(tree, *frame)
    return refusal_of(record) or record


def line_of(record):
    numbers = [FFFF if n == MISSING else n for n in record[1:] if n not in ("suction", "water")]
    text = "%02X" % record[0]
    for n, width in zip(numbers, WIDTHS[record[0]]):
        text += "%0*X" % (2 * width, n % 256**width)
    return text.encode()


def write(record, room):
    """Rows 5 to 8, 10, 17, 24 or 25, then 12; else the number of bytes of the line."""
    refused = refusal_of(record)
    if refused:
        return refused
    n = len(line_of(record))
    return n if n <= room else row(12)


def words(answer):
    return " ".join(str(part) for part in answer)


def mark(answer):
    """One character: `.` read, `1` to `8` the row, `A` row 17, `H` row 24, `I` row 25, `a` to `h`
    row 10 with field 1 to 8."""
    if answer[0] != "row":
        return "."
    return (
        "abcdefgh"[answer[3] - 1]
        if answer[1] == 10
        else {17: "A", 24: "H", 25: "I"}.get(answer[1], str(answer[1]))
    )


# ---- commands, each with its answer

ROOM = 70  # bytes of the buffer: the longest line and four more


def command(letter, tree, n, line, answer):
    text = b"%c%02X%02X%s" % (letter, tree, n, line)
    return text, text + b" " + answer.encode()


def reading(tree, line):
    return command(ord("R"), tree, 0, line, words(read(tree, line)))


def change(tree, place, line):
    marks = (mark(read(tree, line[:place] + bytes([b]) + line[place + 1 :])) for b in range(256))
    return command(ord("C"), tree, place, line, "".join(marks))


def writing(tree, line, room=ROOM, numeric=False):
    """Rows 1 to 3; else the frame's record, its own rows, what writing it into the first `room`
    bytes answers, and then the whole buffer."""
    letter = ord("T" if numeric else "W")
    frame = parse(line)
    if frame[0] == "row":
        return command(letter, tree, room, line, words(frame))
    record = record_of(tree, *frame, numeric=numeric)
    checked = refusal_of(record) or ("sound",)
    answer = write(record, room)
    written = b""
    if isinstance(answer, int):
        written = line_of(record)
        assert len(written) == answer
        answer = (written.decode(), *read(tree, written))
    buffer = written + b"." * (ROOM - len(written))
    return command(letter, tree, room, line, words((*record, *checked, *answer, buffer.decode())))


def writing_of(record, room=ROOM, tree=None):
    """The same of a record, whose measure is that of the tree."""
    if tree is None:
        tree = 1 if "water" in record else 6
    line = line_of(record)
    numeric = record[0] in HOUR_KINDS and record[3] == FFFF
    assert record_of(tree, *parse(line), numeric=numeric) == record
    return writing(tree, line, room, numeric)


# ---- the cases

EVERGREEN = b"0106016D000100010208"
BEECH = b"0104016D000100290208"
HOUR = b"0200010001F40000000000E603E8012C03E8"
NOON = b"0200010C01F401F4019000E603E8012C03E8"
END = b"030018"
MOUNTAIN = b"0400010C01F401F4019000E603E8012C03E81B58"  # 700.0 hPa
HUMID = b"0500010C01F401F4019000E60258012C03E8"  # 60.0 %
CEILING = b"060320"  # 80.0 ppb
OWN = parameters_line()
WARM = b"0800C8012C05DC"  # 200, 300 and 1500 °C days
MISSING_HOURS = (  # NOON, MOUNTAIN and HUMID without ozone
    b"0200010CFFFF01F4019000E603E8012C03E8",
    b"0400010CFFFF01F4019000E603E8012C03E81B58",
    b"0500010CFFFF01F4019000E60258012C03E8",
)
EXAMPLES = (
    b"0104",
    b"03001g",
    b"010018",
    b"0108016D000100010208",
    b"0107016D000100010208",
    b"0106016C000100010208",
    b"0104016D000100280208",
    b"0106016D000100010000",
    b"0200010013890000000000E603E8012C03E8",
    EVERGREEN,
    BEECH,
    HOUR,
    NOON,
    END,
    b"0200010001F400000000FFFF03E8012C03E8",
    b"0200010001F400000000000003E8012C03E8",
    b"0200010001F400000000FE0C03E8012C03E8",
    b"0200010001F400000000FE0B03E8012C03E8",
    b"0200010001F400000000025803E8012C03E8",
    b"0200010001F400000000025903E8012C03E8",
    b"0200010001F4000000007FFF03E8012C03E8",
    b"0200010001F400000000800003E8012C03E8",
    b"02FFFFFF01F40000000000E603E8012C03E8",
    b"03FFFF",
    MOUNTAIN,
    b"0400010C01F401F4019000E603E8012C03E81388",
    b"0400010C01F401F4019000E603E8012C03E81387",
    b"0400010C01F401F4019000E603E8012C03E82AF8",
    b"0400010C01F401F4019000E603E8012C03E82AF9",
    b"0400010C01F401F40190FE0C03E8012C03E81B58",
    b"0400010C01F401F40190FE0B03E8012C03E81B58",
    b"0400010C01F401F40190025803E8012C03E81B58",
    b"0400010C01F401F40190025903E8012C03E81B58",
    b"0400010C01F401F4019000E603E8012C03E8FFFF",
    b"04FFFFFF01F401F4019000E603E8012C03E81B58",
    HUMID,
    b"0500010C01F401F4019000E60000012C03E8",
    b"0500010C01F401F4019000E603E8012C03E8",
    b"0500010C01F401F4019000E603E9012C03E8",
    b"0200010C01F401F4019000E603E9012C03E8",
    b"0500010C01F401F4019000E62710012C03E8",
    b"0500010C01F401F4019000E6FFFF012C03E8",
    b"0500010C01F401F40190FE0C0258012C03E8",
    b"0500010C01F401F40190FE0B0258012C03E8",
    b"0500010C01F401F4019002580258012C03E8",
    b"0500010C01F401F4019002590258012C03E8",
    b"05FFFFFF01F401F4019000E60258012C03E8",
    CEILING,
    b"060000",
    b"060001",
    b"061388",
    b"061389",
    b"06FFFF",
    *MISSING_HOURS,
    b"0200010CFFFE01F4019000E603E8012C03E8",
    b"0400010CFFFE01F4019000E603E8012C03E81B58",
    b"0500010CFFFE01F4019000E60258012C03E8",
    b"0200010CFFFFFFFF019000E603E8012C03E8",
    b"0400010CFFFF01F4019000E603E8012C03E81387",
    b"0500010CFFFF01F4019000E603E9012C03E8",
    OWN,
    b"07" + b"0000" * 16,
    b"07" + b"FFFF" * 16,
    parameters_line(tmin=-20, topt=0, tmax=20),
    parameters_line(tmin=-21, topt=0, tmax=21),
    parameters_line(f1=200, f4=200),
    WARM,
    b"0803E801F405DC",
    b"0803E801F505DC",
    b"0803E901F405DC",
    b"080000000005DC",
    b"0805DC000005DC",
    b"0805DD000005DC",
    b"08000005DC05DC",
    b"08000005DD05DC",
    b"08000000000000",
    b"08000000000001",
    b"08000000001388",
    b"08000000001389",
    b"08800080000001",
    b"08FFFFFFFFFFFF",
)


def header(tree, days, first, last, level):
    return (HEADER_KIND, tree, days, first, last, level)


def hour(ozone, ppfd, radiation, temperature, vpd, wind, measure, soil, day=105, clock=12):
    return (HOUR_KIND, day, clock, ozone, ppfd, radiation, temperature, vpd, wind, measure, soil)


def mountain(pressure, *readings, **when):
    """An hour of kind 04."""
    return (PRESSURE_KIND, *hour(*readings, **when)[1:], pressure)


def humid(*readings, **when):
    """An hour of kind 05."""
    return (HUMIDITY_KIND, *hour(*readings, **when)[1:])


def end(hours):
    return (END_KIND, hours)


def ceiling(ozone):
    return (CEILING_KIND, ozone)


def own(numbers):
    return (PARAMETER_KIND, *numbers)


def warm(rise, fall, end):
    return (WARMTH_KIND, rise, fall, end)


def examples():
    yield from (reading(6, line) for line in EXAMPLES)
    # the given tree matters for an hour frame only
    yield from (reading(tree, HOUR) for tree in (*range(9), 255))
    yield reading(255, BEECH)
    yield reading(0, END)
    yield reading(2, b"0200010001F40000000000E603E8012C03E9")
    yield reading(3, b"0200010001F40000000000E603E8012C03E9")
    yield writing_of(end(24), 5)
    for line in (MOUNTAIN, HUMID, *MISSING_HOURS, CEILING, OWN, WARM):
        yield from (reading(tree, line) for tree in (*range(9), 255))
    yield from (
        writing(tree, line) for line in (*MISSING_HOURS, CEILING, OWN, WARM) for tree in RAMPS
    )
    # an hour of tree 7 is measured in suction
    yield from (
        reading(7, b"0200010001F40000000000E603E8012C%04X" % soil) for soil in (1001, 10000, 10001)
    )


CONFUSED = (
    MOUNTAIN[:36], b"02" + MOUNTAIN[2:], b"05" + MOUNTAIN[2:], b"05" + MOUNTAIN[2:36],
    HOUR + b"1B58", HUMID + b"1B58", b"04" + HOUR[2:], b"04" + HUMID[2:],
    b"04" + HOUR[2:] + b"1B58", b"04" + HUMID[2:] + b"1B58",
    *(OWN[:length] for length in (6, 14, 20, 36, 40)), b"07" + MOUNTAIN[2:], (HOUR + HOUR)[:66],
    *(b"08" + OWN[2:length] for length in (6, 14, 20, 36, 40, 66)),
    *(b"%02X" % kind + WARM[2:] for kind in (16, 128, 136, 255)), WARM[:6], WARM + b"000000",
)


def confused():
    """Lines with the length of another kind, or with another kind's number."""
    for line in (EVERGREEN, HOUR, END, MOUNTAIN, HUMID, CEILING, OWN, WARM, *MISSING_HOURS):
        for kind in range(10):
            yield reading(6, b"%02X" % kind + line[2:])
            yield writing(6, b"%02X" % kind + line[2:])
    for line in CONFUSED:
        yield from (reading(tree, line) for tree in (0, 1, 6))
        yield writing(6, line)
    # row 2 before row 3
    yield reading(6, b"02" + MOUNTAIN[2:39] + b"g")
    yield reading(6, b"04" + HOUR[2:35] + b"g")
    yield reading(6, b"05" + MOUNTAIN[2:39] + b"g")
    yield reading(6, b"06" + OWN[2:65] + b"g")
    yield reading(6, OWN.lower())
    yield reading(6, b"09" + WARM[2:13] + b"g")
    yield reading(6, b"07" + WARM[2:13] + b"g")
    yield reading(6, WARM.lower())
    # 02 or 05 by the kind alone: VPD past 1000 Pa is no humidity
    for vapour in (0, 1, 999, 1000, 1001, 1002, 10000, 10001, 65535):
        for kind in (HOUR_KIND, HUMIDITY_KIND):
            line = b"%02X%s%04X%s" % (kind, HUMID[2:24], vapour, HUMID[28:])
            yield from (reading(tree, line) for tree in (1, 6))
            yield writing(6, line)


def frames():
    """Rows 1 to 3, and numbers that no row has tested."""
    for line in (
        *EXAMPLES, b"", b"01FF000000000000FFFF", b"02" + b"F" * 34, b"04" + b"F" * 38,
        b"05" + b"F" * 34, b"07" + b"F" * 64, b"08" + b"F" * 12,
    ):
        yield writing(6, line)


def lengths():
    for line in (EVERGREEN, HOUR, END, MOUNTAIN, HUMID, CEILING, OWN, WARM):
        text = (line + b"0123456789ABCDEF" * 5)[:80]
        yield from (reading(6, text[:n]) for n in range(81))


def changes():
    some = [(tree, HOUR) for tree in (6, 1, 0, 7, 8, 255)] + [
        (tree, line) for line in (MOUNTAIN, HUMID) for tree in (6, 1, 8)
    ]
    edges = parameters_line(
        gmax=500, fmin=99, lighta=200, tmin=-20, topt=2, tmax=23, vpdmax=9999, vpdmin=10000,
        leaf=200, a=100, e=100, f1=200, f4=200, y=10,
    )
    warmths = ((7, WARM), (0, b"0803E801F405DC"), (6, b"08000013881388"))
    for tree, line in (
        (6, BEECH), *some, (6, END), (6, CEILING), (0, CEILING), (6, b"061388"), (7, OWN),
        (0, edges), *warmths,
    ):
        yield from (change(tree, place, line) for place in range(len(line)))
    # the digits of ozone
    yield from (
        change(tree, place, line)
        for line in MISSING_HOURS
        for tree in (6, 1, 8)
        for place in range(8, 12)
    )


def buffers():
    for record in (
        header(4, 365, 105, 297, 520),
        hour(500, 1200, 600, -205, 1100, 250, "suction", 300),
        hour(500, 1200, 600, -205, 1100, 250, "water", 300),
        end(4632),
        mountain(7000, 500, 1200, 600, -205, 1100, 250, "suction", 300),
        mountain(7000, 500, 1200, 600, -205, 1100, 250, "water", 300),
        humid(500, 1200, 600, -205, 600, 250, "suction", 300),
        humid(500, 1200, 600, -205, 600, 250, "water", 300),
        ceiling(800),
        hour(MISSING, 1200, 600, -205, 1100, 250, "suction", 300),
        mountain(7000, MISSING, 1200, 600, -205, 1100, 250, "suction", 300),
        humid(MISSING, 1200, 600, -205, 600, 250, "water", 300),
        own(LOCAL),
        own(BROKEN[0]),
        warm(200, 300, 1500),
        warm(200, 300, 499),
    ):
        yield from (writing_of(record, room) for room in range(ROOM + 1))


def header_edges():
    yield from (header(tree, 365, 105, 297, 520) for tree in (0, 7, 8, 255))
    periods = ((0, 1), (1, 1), (2, 1), (365, 365), (365, 366))
    yield from (header(7, 365, first, last, 520) for first, last in periods)
    yield from (header(4, days, 105, 297, 520) for days in (0, 364, 366, 367, 65535))
    yield header(4, 365, 0, 297, 520)
    yield header(6, 365, 100, 99, 520)
    yield header(6, 365, 65535, 0, 520)
    yield header(6, 365, 1, 366, 520)
    yield header(6, 366, 1, 366, 520)
    yield header(6, 366, 1, 367, 520)
    yield header(6, 365, 365, 365, 520)
    for tree in (1, 2, 3, 4, 5, 6):
        yield header(tree, 365, 100, 100 + RAMPS[tree] - 1, 520)
        yield header(tree, 365, 100, 100 + RAMPS[tree], 520)
    yield from (header(4, 365, 105, 297, level) for level in (0, 1, 10000, 10001, 65535))
    # the first row that holds
    yield header(0, 364, 0, 0, 0)
    yield header(4, 364, 0, 0, 0)
    yield header(4, 365, 0, 0, 0)
    yield header(4, 365, 1, 41, 0)


def hour_edges():
    yield hour(5001, 1200, 600, 205, 1100, 250, "suction", 300)
    yield hour(65534, 1200, 600, 205, 1100, 250, "suction", 300)
    yield hour(FFFF, 1200, 600, 205, 1100, 250, "suction", 300)
    yield hour(FFFF, 1200, 600, 205, 1100, 250, "water", 300)
    yield hour(500, 3001, 600, 205, 1100, 250, "suction", 300)
    yield hour(500, 65535, 600, 205, 1100, 250, "suction", 300)
    yield hour(500, 1200, 1501, 205, 1100, 250, "suction", 300)
    yield hour(500, 1200, 65535, 205, 1100, 250, "suction", 300)
    for t in (-501, 601, -32768, 32767):
        yield hour(500, 1200, 600, t, 1100, 250, "suction", 300)
    yield hour(500, 1200, 600, 205, 10001, 250, "suction", 300)
    yield hour(500, 1200, 600, 205, 65535, 250, "suction", 300)
    yield hour(500, 1200, 600, 205, 1100, 6001, "suction", 300)
    yield hour(500, 1200, 600, 205, 1100, 65535, "suction", 300)
    for measure, soil in (
        ("suction", 10001),
        ("suction", 65535),
        ("suction", 1001),
        ("water", 1001),
        ("water", 10000),
        ("water", 65535),
    ):
        yield hour(500, 1200, 600, 205, 1100, 250, measure, soil)
    # the first field that is out
    yield hour(5001, 3001, 1501, 601, 10001, 6001, "suction", 10001)
    yield hour(5000, 3001, 1501, 601, 10001, 6001, "suction", 10001)
    yield hour(5000, 3000, 1501, 601, 10001, 6001, "suction", 10001)
    yield hour(5000, 3000, 1500, -501, 10001, 6001, "water", 1001)
    yield hour(5000, 3000, 1500, -500, 10001, 6001, "water", 1001)
    yield hour(5000, 3000, 1500, -500, 10000, 6001, "water", 1001)
    yield hour(5000, 3000, 1500, -500, 10000, 6000, "water", 1001)
    # missing ozone, and the first field after it that is out
    yield hour(MISSING, 3001, 1501, 601, 10001, 6001, "suction", 10001)
    yield hour(MISSING, 3000, 1501, 601, 10001, 6001, "suction", 10001)
    yield hour(MISSING, 3000, 1500, -501, 10001, 6001, "water", 1001)
    yield hour(MISSING, 3000, 1500, -500, 10001, 6001, "water", 1001)
    yield hour(MISSING, 3000, 1500, -500, 10000, 6001, "water", 1001)
    yield hour(MISSING, 3000, 1500, -500, 10000, 6000, "water", 1001)


def pressure_edges():
    # every edge of kind 02 again, with a pressure in range and with one that is out
    yield from (
        mountain(pressure, *record[3:], day=record[1], clock=record[2])
        for record in hour_edges()
        for pressure in (5000, 11001)
    )
    for measure in ("suction", "water"):
        for pressure in (0, 4999, 5000, 11000, 11001, 32768, 65535):
            yield mountain(pressure, 500, 1200, 600, 205, 1100, 250, measure, 300)
    for t in (-501, -500, 600, 601):
        for pressure in (4999, 5000, 11000, 11001):
            yield mountain(pressure, 500, 1200, 600, t, 1100, 250, "suction", 300)
    # VPD or soil where the pressure stands, and the reverse
    yield mountain(1100, 500, 1200, 600, 205, 7000, 250, "suction", 300)
    yield mountain(300, 500, 1200, 600, 205, 1100, 250, "suction", 7000)
    yield mountain(7000, 500, 1200, 600, 205, 1100, 250, "suction", 10001)


def humidity_edges():
    # every edge of kind 02 again, with its VPD, with a humidity in range and with one that is out
    for record in hour_edges():
        for vapour in (record[7], 1000, 1001):
            yield humid(*record[3:7], vapour, *record[8:], day=record[1], clock=record[2])
    for measure in ("suction", "water"):
        for humidity in (0, 1, 999, 1000, 1001, 10000, 32768, 65535):
            yield humid(500, 1200, 600, 205, humidity, 250, measure, 300)


def ceiling_edges():
    return (ceiling(ozone) for ozone in (0, 1, 4999, 5000, 5001, 32768, FFFF))


def own_edges():
    return map(own, BROKEN + GOOD)


def warmth_edges():
    for rise, fall in (
        (0, 0), (0, 1), (1, 0), (200, 300), (0, 1500), (1500, 0), (2500, 2500), (0, 5000), (5000, 0)
    ):
        yield from (
            warm(rise, fall, end)
            for end in (
                0,
                1,
                *range(max(rise + fall - 1, 0), rise + fall + 2),
                4999,
                5000,
                5001,
                32768,
                65535,
            )
        )
    # rise plus fall past two bytes
    for rise, fall in (
        (32768, 32768), (65535, 1), (1, 65535), (65535, 65535), (65535, 0), (0, 65535)
    ):
        yield from (warm(rise, fall, end) for end in (0, 1, 5000, 65534, 65535))
    # each number in another's place
    yield from (warm(*three) for three in permutations((200, 300, 1500)))


def edges():
    for record in (
        *header_edges(),
        *hour_edges(),
        *pressure_edges(),
        *humidity_edges(),
        *ceiling_edges(),
        *own_edges(),
        *warmth_edges(),
    ):
        yield writing_of(record, 0)
        yield writing_of(record)
    # a record of any other line is the same where FFFF is a number
    for line in (
        EVERGREEN, HOUR, END, MOUNTAIN, HUMID, CEILING, b"06FFFF", OWN, WARM, b"0800010001FFFF"
    ):
        yield writing(6, line, numeric=True)


def hour_trips(measure, most):
    yield from (
        hour(ozone, 1200, 600, 205, 1100, 250, measure, 300) for ozone in (0, 5000, MISSING)
    )
    yield from (hour(500, ppfd, 600, 205, 1100, 250, measure, 300) for ppfd in (0, 3000))
    yield from (hour(500, 1200, radiation, 205, 1100, 250, measure, 300) for radiation in (0, 1500))
    yield from (hour(500, 1200, 600, t, 1100, 250, measure, 300) for t in (-500, -1, 0, 600))
    yield from (hour(500, 1200, 600, 205, vpd, 250, measure, 300) for vpd in (0, 10000))
    yield from (hour(500, 1200, 600, 205, 1100, wind, measure, 300) for wind in (0, 6000))
    yield from (hour(500, 1200, 600, 205, 1100, 250, measure, soil) for soil in (0, most))
    yield hour(0, 0, 0, -500, 0, 0, measure, 0, day=0, clock=0)
    yield hour(5000, 3000, 1500, 600, 10000, 6000, measure, most, day=65535, clock=255)
    yield hour(MISSING, 0, 0, -500, 0, 0, measure, 0, day=0, clock=0)
    yield hour(MISSING, 3000, 1500, 600, 10000, 6000, measure, most, day=65535, clock=255)


def pressure_trips(measure, most):
    yield from (
        mountain(7000, *record[3:], day=record[1], clock=record[2])
        for record in hour_trips(measure, most)
    )
    for t in (-500, 205, 600):
        for pressure in (5000, 5001, 8192, 10132, 10999, 11000):
            yield mountain(pressure, 500, 1200, 600, t, 1100, 250, measure, 300)
    yield mountain(11000, 5000, 3000, 1500, 600, 10000, 6000, measure, most, day=65535, clock=255)


def humidity_trips(measure, most):
    for record in hour_trips(measure, most):
        yield humid(*record[3:7], min(record[7], 1000), *record[8:], day=record[1], clock=record[2])
    for t in (-500, -1, 0, 1, 205, 600):
        for humidity in (0, 1, 255, 256, 500, 999, 1000):
            yield humid(500, 1200, 600, t, humidity, 250, measure, 300)


def trip(record, tree):
    """Written into the bytes of its line and read back the same."""
    line = line_of(record)
    assert read(tree, line) == record
    return writing_of(record, len(line), tree)


def trips():
    for record in (
        header(1, 365, 1, 51, 1),
        header(2, 366, 316, 366, 10000),
        header(3, 365, 365, 365, 520),
        header(4, 365, 1, 41, 520),
        header(5, 365, 330, 365, 520),
        header(6, 366, 1, 366, 520),
        header(7, 365, 365, 365, 520),
        end(0),
        end(24),
        end(8784),
        end(65535),
        ceiling(1),
        ceiling(800),
        ceiling(5000),
        own(LOCAL),
        warm(200, 300, 1500),
        warm(0, 0, 1),
        warm(2500, 2500, 5000),
        warm(0, 258, 4660),
        warm(258, 0, 4660),
    ):
        yield from (trip(record, tree) for tree in range(9))
    yield from (trip(own(parameters), 7) for parameters in GOOD)
    for trips_of in (hour_trips, pressure_trips, humidity_trips):
        yield from (trip(record, tree) for record in trips_of("suction", 10000) for tree in SUCTION)
        yield from (trip(record, tree) for record in trips_of("water", 1000) for tree in WATER)


def section():
    sorts = examples, confused, frames, lengths, changes, buffers, edges, trips
    cases = [case for sort in sorts for case in sort()]
    return tuple(b"".join(text + b"\n" for text in side) for side in zip(*cases))


if __name__ == "__main__":
    sections.write("frames", section())
