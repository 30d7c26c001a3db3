"""The rows by which a line or a call is refused: what each means and what to do
(docs/SPECIFICATION.md, "Turned-back lines", whose advice stands here)."""

from typing import NamedTuple


class Row(NamedTuple):
    says: str  # in a message, where no more is known
    forester: str
    maker: str


NOTHING = "-"  # not a forester's matter
ROWS = {
    1: Row(
        "the line does not have 6, 14, 20, 36, 40 or 66 characters",
        "ask for the text again: it was cut or changed on the way",
        "send whole lines; no carriage return, no blank",
    ),
    2: Row("a character is not 0-9 or A-F", "the same", "write capital digits"),
    3: Row(
        "the kind, the line's first two digits, is not one of the line's length",
        "the same",
        "look at the kind's byte",
    ),
    4: Row(
        "the frame comes out of turn",
        "one season a text: part joined texts",
        "start a fresh account for each season; for tree 7 send kind 07 directly after the header",
    ),
    5: Row(
        "the tree is not 1 to 7",
        "name one of the six trees, or 7 for a laboratory's own",
        "check the header's tree",
    ),
    6: Row("the year has not 365 or 366 days", "correct the year", "check the header's days"),
    7: Row(
        "the period is not within the year, or it is too short for the tree",
        "correct the period: for this tree it is too short or not in the year",
        "check first and last day",
    ),
    8: Row(
        "the critical level is not 0.01 to 100 mmol m⁻²",
        "correct the critical level",
        "hundredths of mmol m⁻²",
    ),
    9: Row(
        "the hour is not the one that was due",
        "an hour is missing or double: ask the operator",
        "send each hour once, in order",
    ),
    10: Row(
        "a reading is out of its range",
        "the sensor was wrong: the season cannot be used as it is",
        "look at the sensor of that field",
    ),
    11: Row(
        "the text stops early, or its end frame does not count the hours accepted",
        "the text stops early: wait for the rest",
        "send the end frame last",
    ),
    12: Row(
        "the lent buffer is shorter than what is to be written",
        NOTHING,
        "lend a longer buffer: 66 bytes for any line, 160 for an account's line, 600 for a report",
    ),
    13: Row(
        "no season gives this account",
        "do not use the record: it was damaged",
        "start the account again from the lines",
    ),
    14: Row(
        "the latitude or the height is out of its range, or the tree has no dates by latitude",
        "give the dates by hand",
        "check place and tree",
    ),
    15: Row(
        "the hour is of another kind than the season's first",
        (
            "the readings of two stations were joined, or the sensors changed: ask for each "
            "station's season by itself"
        ),
        (
            "send one kind of hour frame for a whole season; start a fresh account after a change "
            "of sensors"
        ),
    ),
    16: Row(
        "the account is not the one that was tried",
        NOTHING,
        "try the line again with the account as it is now",
    ),
    17: Row(
        "the ozone ceiling is not 0.1 to 500 ppb",
        "correct the ceiling: it is the most that ozone can have been, in tenths of ppb",
        "check the ceiling frame",
    ),
    18: Row(
        "ozone is missing (FFFF), and the season has no ozone ceiling",
        "name a ceiling for the station and send the season again",
        "send a ceiling frame directly after the header",
    ),
    19: Row(
        "the two texts differ in more than ozone, or an ozone is missing in one of them",
        "compare two analysers of one mast and one season",
        "send both analysers' ozone with the same other readings",
    ),
    20: Row("the number of days is not 1 to 366", "ask for 1 to 366 days", "check the number"),
    21: Row(
        "the lent buffer is under 3 bytes a day",
        NOTHING,
        "lend a longer buffer: 1,098 bytes for any number of days",
    ),
    22: Row(
        "there is no account, or there are more than six",
        NOTHING,
        "lend one to six accounts; part a larger stand into several lists",
    ),
    23: Row(
        (
            "the accounts differ in year, period, hours accepted, phase, ceiling, hour kind or "
            "soil measure"
        ),
        (
            "name the same year and period for every tree of the stand; trees whose soil is read "
            "as water and as suction need a mast each"
        ),
        (
            "open every account with the same days, and feed none of them alone once the list has "
            "taken a line"
        ),
    ),
    24: Row(
        (
            "a parameter of tree 7 is out of its range, or temperatures, VPD or suction do not "
            "rise, or p or q is above 22"
        ),
        "ask the laboratory for its figures again",
        "check the frame of kind 07",
    ),
    25: Row(
        "rise plus fall is above end, or end is not 1 to 5000 °C days",
        "ask the laboratory for its sums again",
        "check the frame of kind 08",
    ),
    26: Row(
        "a float is not finite or not a whole number",
        "the logger was wrong: the season cannot be used as it is",
        "round readings to kind 02's units before they are stored",
    ),
}


def advice(number, row):
    """The row's advice to a forester and to a maker; "the same" is that of the row before."""
    while row.forester == "the same":
        number -= 1
        row = row._replace(forester=ROWS[number].forester)
    return row


def text_of(number):
    """What `explain` prints."""
    row = advice(number, ROWS[number])
    lines = [f"Row {number}: {row.says}."]
    if row.forester != NOTHING:
        lines.append(f"A forester: {row.forester}.")
    lines.append(f"A station's operator or maker: {row.maker}.")
    return "\n".join(lines) + "\n"
