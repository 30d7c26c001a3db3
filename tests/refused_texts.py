"""Refused texts, each with the message that ./pod1 says of it on standard error, for
tests/command.py: every row that a text can get, and what it can have been."""

from account_cases import ceiling_line, end_line, header_line, hour_line, warmth_line
from local_trees import LOCAL, parameters_line

HEADER = header_line()
HOURS = [hour_line(hour=hour) for hour in range(24)]
DAY = [HEADER, *HOURS, end_line()]
OWN = [header_line(tree=7, last=40), parameters_line()]
LENGTHS = "a frame has 6, 14, 20, 36, 40 or 66 (row 1)"
TREES = (
    "1 boreal spruce, 2 birch, 3 continental spruce, 4 beech, 5 oak, 6 evergreen, 7 a laboratory's "
    "own tree"
)


def text_of(lines):
    return b"".join(line + b"\n" for line in lines)


def with_line(at, line, lines=DAY):
    """The lines with another one in that place, from 1."""
    return [*lines[: at - 1], line, *lines[at:]]


def hour_with(**readings):
    return [HEADER, hour_line(**readings)]


def own(*lines, **changes):
    return [header_line(tree=7, last=40), parameters_line(**changes), *lines]


# rows 1 to 3: the line by itself
LINES = (
    ([b"0104"], f"line 1: the line has 4 characters; {LENGTHS}"),
    ([HEADER, b"0"], f"line 2: the line has 1 character; {LENGTHS}"),
    ([HEADER, b"0" * 100000], f"line 2: the line has more than 1000 characters; {LENGTHS}"),
    ([HEADER, b"03001g"], "line 2: 'g' at column 6 is not a digit 0-9 or A-F (row 2)"),
    ([HEADER, b"03\x00018"], "line 2: a NUL byte at column 3 is not a digit 0-9 or A-F (row 2)"),
    ([HEADER, b"03\xc3\xa418"], "line 2: byte C3 at column 3 is not a digit 0-9 or A-F (row 2)"),
    (
        [b"010018"],
        (
            "line 1: the line begins with kind 01, and its 6 digits are the length of an end "
            "frame (kind 03) or an ozone ceiling (kind 06) (row 3)"
        ),
    ),
    (
        [b"02" + HEADER[2:]],
        (
            "line 1: the line begins with kind 02, and its 20 digits are the length of a header "
            "(kind 01) (row 3)"
        ),
    ),
)

# row 4: turn
TURNS = (
    (
        [end_line()],
        "line 1: an end frame (kind 03) comes first; the header (kind 01) was due (row 4)",
    ),
    (
        [HEADER, HEADER],
        "line 2: a header (kind 01) comes a second time; day 1 hour 0 was due (row 4)",
    ),
    (
        [*DAY, end_line()],
        (
            "line 27: an end frame (kind 03) comes after the end frame of line 26; nothing may "
            "follow it (row 4)"
        ),
    ),
    (
        [*DAY, HEADER],
        (
            "line 27: a header (kind 01) comes after the end frame of line 26; nothing may follow "
            "it (row 4)"
        ),
    ),
    (
        [HEADER, HOURS[0], ceiling_line()],
        (
            "line 3: an ozone ceiling (kind 06) comes after the first hour; day 1 hour 1 was due "
            "(row 4)"
        ),
    ),
    (
        [HEADER, ceiling_line(), ceiling_line()],
        "line 3: an ozone ceiling (kind 06) comes a second time; day 1 hour 0 was due (row 4)",
    ),
    (
        [HEADER, *HOURS, ceiling_line()],
        (
            "line 26: an ozone ceiling (kind 06) comes after the first hour; the end frame (kind "
            "03) was due (row 4)"
        ),
    ),
    (
        [HEADER, parameters_line()],
        (
            "line 2: a frame of parameters (kind 07) belongs to tree 7, and the header names tree "
            "6 (evergreen); day 1 hour 0 was due (row 4)"
        ),
    ),
    (
        [OWN[0], HOURS[0]],
        (
            "line 2: an hour (kind 02) comes before the parameters; a frame of parameters (kind "
            "07) was due (row 4)"
        ),
    ),
    (
        own(parameters_line()),
        "line 3: a frame of parameters (kind 07) comes a second time; day 1 hour 0 was due (row 4)",
    ),
    (
        [HEADER, warmth_line()],
        (
            "line 2: a frame of leaf age by warmth (kind 08) belongs to tree 7, and the header "
            "names tree 6 (evergreen); day 1 hour 0 was due (row 4)"
        ),
    ),
    (
        own(warmth_line(), warmth_line()),
        (
            "line 4: a frame of leaf age by warmth (kind 08) comes a second time; day 1 hour 0 "
            "was due (row 4)"
        ),
    ),
    (
        own(ceiling_line(), warmth_line()),
        (
            "line 4: a frame of leaf age by warmth (kind 08) comes after the ozone ceiling; day 1 "
            "hour 0 was due (row 4)"
        ),
    ),
    (
        own(HOURS[0], warmth_line()),
        (
            "line 4: a frame of leaf age by warmth (kind 08) comes after the first hour; day 1 "
            "hour 1 was due (row 4)"
        ),
    ),
)

# rows 5 to 8: the header
HEADERS = (
    ([header_line(tree=8)], f"line 1: there is no tree 8; the trees are {TREES} (row 5)"),
    ([header_line(tree=0)], f"line 1: there is no tree 0; the trees are {TREES} (row 5)"),
    ([header_line(days=364)], "line 1: the year has 364 days; 365 or 366 are possible (row 6)"),
    (
        [header_line(first=0)],
        "line 1: the period begins on day 0; the year's first day is 1 (row 7)",
    ),
    (
        [header_line(first=5, last=4)],
        "line 1: the period ends on day 4, before its first day 5 (row 7)",
    ),
    (
        [header_line(last=366)],
        "line 1: the period ends on day 366, and the year has 365 days (row 7)",
    ),
    (
        [header_line(tree=4, last=40)],
        (
            "line 1: from day 1 to day 40 are 39 days; tree 4 (beech) needs 20 for its leaves to "
            "grow and 20 for them to age (row 7)"
        ),
    ),
    (
        own(f1=20, f4=30),
        (
            "line 2: from day 1 to day 40 are 39 days; tree 7 (a laboratory's own tree) needs 20 "
            "for its leaves to grow and 30 for them to age (row 7)"
        ),
    ),
    ([header_line(level=0)], "line 1: critical level 0 mmol m⁻² is outside 0.01 to 100 (row 8)"),
    (
        [header_line(level=10001)],
        "line 1: critical level 100.01 mmol m⁻² is outside 0.01 to 100 (row 8)",
    ),
)

# rows 9, 10, 15, 18: hours
DUES = (
    ([HEADER, HOURS[1]], "line 2: day 1 hour 0 was due, the line is day 1 hour 1 (row 9)"),
    (
        with_line(5, hour_line(day=2, hour=3)),
        "line 5: day 1 hour 3 was due, the line is day 2 hour 3 (row 9)",
    ),
    (
        [HEADER, *HOURS, hour_line(day=2)],
        (
            "line 26: all 24 hours are given and the end frame was due; the line is day 2 hour 0 "
            "(row 9)"
        ),
    ),
)
RANGES = (
    (
        with_line(5, hour_line(hour=3, ozone=6553)),
        "line 5: ozone 655.3 ppb is outside 0 to 500 (row 10)",
    ),
    (hour_with(ppfd=3001), "line 2: PPFD 3001 µmol m⁻² s⁻¹ is outside 0 to 3000 (row 10)"),
    (
        hour_with(radiation=1501),
        "line 2: global radiation 1501 W m⁻² is outside 0 to 1500 (row 10)",
    ),
    (hour_with(temperature=-501), "line 2: temperature -50.1 °C is outside -50 to 60 (row 10)"),
    (hour_with(temperature=601), "line 2: temperature 60.1 °C is outside -50 to 60 (row 10)"),
    (hour_with(vpd=10001), "line 2: VPD 10.001 kPa is outside 0 to 10 (row 10)"),
    (hour_with(kind=5, humidity=1001), "line 2: humidity 100.1 % is outside 0 to 100 (row 10)"),
    (hour_with(wind=6001), "line 2: wind 60.01 m/s is outside 0 to 60 (row 10)"),
    (hour_with(soil=10001), "line 2: soil suction 10001 kPa is outside 0 to 10000 (row 10)"),
    (
        [header_line(tree=1, last=51), hour_line(soil=1001)],
        "line 2: soil water 100.1 % is outside 0 to 100 (row 10)",
    ),
    (
        hour_with(kind=4, pressure=4999),
        "line 2: air pressure 499.9 hPa is outside 500 to 1100 (row 10)",
    ),
    (
        hour_with(kind=4, pressure=11001),
        "line 2: air pressure 1100.1 hPa is outside 500 to 1100 (row 10)",
    ),
    # a missing ozone is not the field
    (
        [HEADER, ceiling_line(), hour_line(ozone=None, wind=6001)],
        "line 3: wind 60.01 m/s is outside 0 to 60 (row 10)",
    ),
)
KINDS = (
    (
        with_line(3, hour_line(hour=1, kind=4)),
        (
            "line 3: an hour with pressure (kind 04) in a season whose first is an hour (kind 02) "
            "(row 15)"
        ),
    ),
    (
        [HEADER, hour_line(kind=5), HOURS[1]],
        (
            "line 3: an hour (kind 02) in a season whose first is an hour with humidity (kind 05) "
            "(row 15)"
        ),
    ),
    (
        hour_with(ozone=None),
        (
            "line 2: day 1 hour 0 has no ozone (FFFF), and no ozone ceiling (kind 06) stands "
            "behind the header (row 18)"
        ),
    ),
)

# rows 11, 17, 24, 25: the end and other frames
ENDS = (
    ([], "line 1: the text is empty (row 11)"),
    (
        [HEADER],
        (
            "line 2: the text ends after 0 of 24 hours, without an end frame; day 1 hour 0 was "
            "due (row 11)"
        ),
    ),
    (
        DAY[:-1],
        (
            "line 26: the text ends after 24 of 24 hours, without an end frame; the end frame "
            "(kind 03) was due (row 11)"
        ),
    ),
    (
        [OWN[0]],
        (
            "line 2: the text ends after 0 of 960 hours, without an end frame; a frame of "
            "parameters (kind 07) was due (row 11)"
        ),
    ),
    (
        with_line(26, end_line(23)),
        "line 26: the end frame says 23 hours, 24 were accepted (row 11)",
    ),
    ([*DAY[:-2], end_line(23)], "line 25: day 1 hour 23 is still due (row 11)"),
    (
        [*DAY[:-5], end_line(24)],
        (
            "line 22: the end frame says 24 hours, 20 were accepted; day 1 hour 20 and the 3 "
            "after it are still due (row 11)"
        ),
    ),
)
OTHERS = (
    ([HEADER, ceiling_line(0)], "line 2: ozone ceiling 0 ppb is outside 0.1 to 500 (row 17)"),
    (
        [HEADER, ceiling_line(5001)],
        "line 2: ozone ceiling 500.1 ppb is outside 0.1 to 500 (row 17)",
    ),
    (own(gmax=0), "line 2: gmax 0 mmol m⁻² s⁻¹ is outside 1 to 500 (row 24)"),
    (own(lighta=201), "line 2: light_a 0.0201 is outside 0.0001 to 0.02 (row 24)"),
    (own(tmin=-21), "line 2: Tmin -21 °C is outside -20 to 60 (row 24)"),
    (own(vpdmin=10001), "line 2: VPD min 10.001 kPa is outside 0 to 10 (row 24)"),
    (own(leaf=201), "line 2: leaf 20.1 cm is outside 0.1 to 20 (row 24)"),
    (own(y=11), "line 2: Y 11 nmol m⁻² s⁻¹ is outside 0 to 10 (row 24)"),
    (own(topt=LOCAL.tmin), "line 2: Topt 1 °C is not above Tmin 1 °C (row 24)"),
    (own(tmax=21), "line 2: Tmax 21 °C is not above Topt 21 °C (row 24)"),
    (own(vpdmin=1000), "line 2: VPD min 1 kPa is not above VPD max 1 kPa (row 24)"),
    (own(soilmin=99), "line 2: suction min 99 kPa is not above suction max 100 kPa (row 24)"),
    (
        own(tmin=0, topt=2, tmax=48),
        (
            "line 2: (Tmax - Topt)/(Topt - Tmin) is 23/1 in lowest terms; neither number may be "
            "above 22 (row 24)"
        ),
    ),
    (
        own(warmth_line(100, 100, 150)),
        "line 3: rise 100 plus fall 100 is above end 150 °C days (row 25)",
    ),
    (own(warmth_line(0, 0, 0)), "line 3: end 0 °C days is outside 1 to 5000 (row 25)"),
    (own(warmth_line(0, 0, 5001)), "line 3: end 5001 °C days is outside 1 to 5000 (row 25)"),
)

ALL = (LINES, TURNS, HEADERS, DUES, RANGES, KINDS, ENDS, OTHERS)
REFUSED = [(text_of(lines), message) for cases in ALL for lines, message in cases]

# texts that a person can mend: message and hints
RETURN = (
    "  hint: the line ends in a carriage return: this is a Windows text. Make a copy without them: "
    " tr -d '\\r' <{name} >COPY"
)
MARK = (
    "  hint: the text begins with a byte order mark, which an editor has put there. Make a copy "
    "without it:  tail -c +4 <{name} >COPY"
)
WIDE = "  hint: the text is in UTF-16: save it again as plain text, UTF-8 without a byte order mark"
BLANK = "  hint: a text has no blank lines, after the end frame neither: take them out"
SPACE = (
    "  hint: the line has spaces or tabs: a frame is digits alone, from the line's first character "
    "to its last"
)
SMALL = (
    "  hint: the line has small letters a to f, and frames are written in capitals. Make a copy:  "
    "tr a-f A-F <{name} >COPY"
)
SEASON = text_of(DAY)
MENDABLE = (
    (SEASON.replace(b"\n", b"\r\n"), f"line 1: the line has 21 characters; {LENGTHS}", [RETURN]),
    (SEASON + b"\r\n", f"line 27: the line has 1 character; {LENGTHS}", [RETURN, BLANK]),
    (b"\xef\xbb\xbf" + SEASON, f"line 1: the line has 23 characters; {LENGTHS}", [MARK]),
    (
        b"\xff\xfe" + SEASON.decode().encode("utf-16-le"),
        f"line 1: the line has 42 characters; {LENGTHS}",
        [WIDE],
    ),
    (SEASON + b"\n", f"line 27: the line is blank; {LENGTHS}", [BLANK]),
    (b"\n" + SEASON, f"line 1: the line is blank; {LENGTHS}", [BLANK]),
    (SEASON.lower(), "line 1: 'd' at column 8 is not a digit 0-9 or A-F (row 2)", [SMALL]),
    (
        SEASON.lower().replace(b"\n", b"\r\n"),
        f"line 1: the line has 21 characters; {LENGTHS}",
        [RETURN, SMALL],
    ),
    (b" " + SEASON, f"line 1: the line has 21 characters; {LENGTHS}", [SPACE]),
    (
        SEASON.replace(b"0300", b"03\t0"),
        "line 26: a tab at column 3 is not a digit 0-9 or A-F (row 2)",
        [SPACE],
    ),
    (
        SEASON.replace(b"0300", b"03 0"),
        "line 26: a space at column 3 is not a digit 0-9 or A-F (row 2)",
        [SPACE],
    ),
)
